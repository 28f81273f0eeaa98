"""What the page says: of the verdict, of the picture's age, and of all that keeps it from being what the camera sees now.

Everything here is plain text. What is told of the picture is in a View, which page.py fills with the answers of the proved calls.
"""
from collections import namedtuple

from plot import WHY
from proved import BOUND

# The window and the amount of the verdict, as in frozen.
WINDOW, AMOUNT = 30, 3600
# A live window has so many frames with a change at least; for as many as are left a camera that has stalled may still count as live.
LAG = WINDOW - -(-AMOUNT // BOUND)
# Half a turn of the counter: what seems to lie farther back is more likely still to come.
UNKNOWN = 2**31

# refusal and verdict are those of the calls. newest and shown are the numbers of frames, 0 for none; age and since tell how many seconds ago
# these were taken and came in. clock: whether the time now was told; if not, they are counted up to the newest frame. moved: whether the
# picture that is shown is known to move. kept: the comparisons so far. still: for how many seconds the newest frames have come without any
# change. late: whether a new frame is overdue. every: seconds from frame to frame. ended: the row of the frame that was refused, if there is
# one. more: whether frames have come that have no row.
View = namedtuple("View", "refusal verdict newest shown age since clock moved kept still late every ended more", defaults=(None, False))

HEADINGS = {
    "live": "Live: the picture moves",
    "undecided": "Undecided: it cannot be told whether the picture moves",
    "frozen": "Frozen: the camera seems to have stalled",
    "resting": "Resting: it is dark, and the camera rests",
}
REASONS = {
    "undecided": "The changes counted leave it open: it may be calm, foggy or getting dark, or the camera may have stalled.",
    "frozen": f"Too little has changed over the last {WINDOW} frames.",
    "resting": "No new pictures come until it is light again.",
}
ADVICE = {
    "undecided": "You see the last picture known to move. Look at its age before you plan by it.",
    "frozen": "You see the last picture known to move, not how it looks out there now. Do not plan by it as if it were new.",
    "resting": "You see the last picture known to move, not how it looks out there now.",
}
UNMOVED = "No frame so far is known to move. You see the newest one, and it may be far older than the hour at which it came in. Do not plan by it."
LEGEND = {
    "live": "The picture moves.",
    "undecided": "It cannot be told.",
    "frozen": "The camera seems to have stalled.",
    "resting": "It is dark, and the camera rests.",
}


def many(count, thing):
    return f"{count:,} {thing}" if count == 1 else f"{count:,} {thing}s"


def span(seconds):
    """A length of time in its two largest units, rounded down."""
    if seconds >= UNKNOWN:
        return "an unknown time"
    minutes, hours, days = seconds // 60 % 60, seconds // 3600 % 24, seconds // 86400
    units = ((days, "day"), (hours, "hour")) if days else ((hours, "hour"), (minutes, "minute"))
    return " ".join(many(count, unit) for count, unit in units if count) or "less than a minute"


def kind(view):
    """What colours the page: the verdict, but `silent` where it is live and yet not of now, and `none` without a picture."""
    if view.refusal:
        return "none"
    return "silent" if view.verdict == "live" and (view.late or view.ended) else view.verdict


def fresh(view):
    """Whether the picture can be taken for what the camera sees now. An unknown hour is none of now."""
    return kind(view) == "live" and view.clock


def heading(view):
    if view.ended and (view.refusal or kind(view) == "silent"):
        return f"{'No picture' if view.refusal else 'Ended'}: frame {view.ended.frame:,} cannot be read"
    if view.refusal == 5:
        return "No picture yet: it is too early to tell" if view.newest else "No picture yet: no frame has been judged"
    if view.refusal:
        return "No picture: an image cannot be read" if view.refusal in WHY else "No picture"
    if kind(view) == "silent":
        return f"Silent: no new frame for {span(view.since)}" if view.since < UNKNOWN else "Unknown age: the clocks do not fit together"
    return HEADINGS[view.verdict]


def no_picture(view):
    if view.refusal == 5:
        yield f"It takes {WINDOW} comparisons of a frame with the one before to tell whether the picture moves."
        yield f"So far there {'is' if view.kept == 1 else 'are'} {view.kept}, and no picture is shown before there are {WINDOW}."
    elif view.refusal in WHY:
        yield f"The newest image, or the last one known to move, is refused with {view.refusal}: {WHY[view.refusal]}. So no picture is shown."
    else:
        yield f"The call that chooses the picture is refused with {view.refusal}. So no picture is shown."


def live(view):
    if kind(view) == "silent":
        yield f"Up to frame {view.newest:,} the picture was live, but you do not see how it looks out there now."
    elif view.clock:
        yield f"You see what the camera saw {span(view.age)} ago."
    else:
        yield "You see what the camera saw when the newest frame came in."
    if view.still:
        yield f"But nothing in it has changed for {span(view.still)}, so it may be that much older."


def hindrances(view):
    """What else keeps the picture from being the newest that there could be."""
    if view.ended:
        why = WHY.get(view.ended.refusal, "see docs/frozen.1")
        yield f"Frame {view.ended.frame:,} was refused with {view.ended.refusal}: {why}. No later frame is looked at."
    if view.newest and view.since >= UNKNOWN:
        yield "The time now, as this page was told it, lies before the newest frame: one of the two is wrong."
    elif view.newest and view.late and kind(view) not in ("silent", "resting"):
        yield f"No new frame has come for {span(view.since)}."
    if view.more:
        yield "More frames have come that are not judged yet; none of them is shown."


def sentences(view):
    """What the verdict means for a tour, and what else must be known of the picture."""
    if view.refusal:
        # Why no more frames come goes before what would be needed.
        first, second = (hindrances, no_picture) if view.ended else (no_picture, hindrances)
        yield from first(view)
        yield from second(view)
        return
    if view.verdict == "live":
        yield from live(view)
    else:
        yield REASONS[view.verdict]
        yield ADVICE[view.verdict] if view.moved else UNMOVED
    yield from hindrances(view)


def flag(view):
    """What the picture is, in a few words that stand right above its age."""
    if not view.moved:
        return "Not known to move"
    if view.shown != view.newest:
        return "Not the newest picture"
    if view.ended:
        return "The last picture that could be read"
    if kind(view) != "live":
        return "The last picture that came in"
    return f"The newest picture, unchanged for {span(view.still)}" if view.still else "The newest picture"


def age(view):
    """How old the picture is. Nothing is said of `ago` where the time now was not told."""
    if not view.moved:
        return "Age not known"
    if view.clock:
        return f"Taken {span(view.age)} ago"
    return f"Taken {span(view.age)} before the newest frame" if view.age else "Age not told"


def counted(view, made):
    """Up to when the age is counted. Of a picture that is not known to move, when it came in is all that can be told."""
    if not view.clock:
        return f"This page was made {made}, and was not told how long ago the newest frame came in."
    came = "" if view.moved else f"It came in {span(view.age)} ago. "
    return f"{came}Counted when this page was made: {made}."


def facts(view):
    if not view.newest:
        return {"Newest frame": "none so far", "Verdict": "none"}
    came = f"came in {span(view.since)} ago" if view.clock else "how long ago it came in was not told"
    shown = "" if view.shown == view.newest else ", not shown"
    told = {"Newest frame": f"frame {view.newest:,}, {came}{shown}"}
    if view.shown:
        told["Picture shown"] = f"frame {view.shown:,}"
    awake = view.verdict in ("live", "undecided", "frozen")
    told["Verdict"] = f"{view.verdict}, on the last {WINDOW} frames" if awake else view.verdict
    return told


def below(view):
    """What is to be known of all four words."""
    late = f"A stall shows late: for up to {LAG} frames, here {span(LAG * view.every)}, the page may still say live."
    return f"Under live you see the newest picture, and otherwise the last one known to move. {late}"


def plotted(view):
    rest = " The plot knows nothing of rest." if view.verdict == "resting" else ""
    return f"How many pixels changed from frame to frame, what they add up to, and the verdict at each frame.{rest}"
