"""What the reference's choice of a picture has to agree with; make_vectors.py holds it to that each time."""

import random

import answers
import model
from calls import call
from page_model import show

# What the counter takes from a tick to the same tick.
TURN = 2**32
NONE_SHOWN = "none", 0, 0, 0


def first_refusal(asked, newest, older):
    """The first that one of three calls is refused with by itself: the verdict, the newest image, the other; 0 where none is."""
    lines = call("verdict", *asked), call("pgm", newest), call("pgm", older)
    refusals = [int(answers.answer(line).split(" ")[0]) for line in lines]
    return next((refusal for refusal in refusals if refusal), 0)


def is_live(record, ring, w, v):
    """By the total, and not by the verdict."""
    return record.mark == 0 and model.total(record, ring, w)[1] >= v


def raster_faults(data, start, size):
    """It ends where the slice may end, and not a byte before; it has the bytes of all pixels, and what they write are the pixels."""
    _, width, height, maxval, *_ = model.pgm(data)
    end = start + size
    if model.pgm(data[:end])[0] != 0 or model.pgm(data[: end - 1])[0] != 14:
        yield "the raster ends elsewhere"
    if size != width * height * (2 if maxval > 255 else 1) or model.pixels(data[start:end], maxval) != model.pixels_of(data):
        yield "other bytes than the raster's"


def age_faults(tick, now, age):
    """So many steps from the picture's tick on the counter is at the tick now, for the first time."""
    if not 0 <= age < TURN or (tick + age) % TURN != now:
        yield "the counter is not at the tick now after so many steps"


def tick_faults(rng, asked, newest, older, now, given):
    """With the counter started elsewhere the answer is the same; with any ticks all but the age is."""
    by = rng.randrange(1, TURN)
    (new, tick), (old, other) = newest, older
    if show(*asked, new, (tick + by) % TURN, old, (other + by) % TURN, (now + by) % TURN) != given:
        yield "where the counter started matters"
    if show(*asked, new, rng.randrange(TURN), old, rng.randrange(TURN), rng.randrange(TURN))[:4] != given[:4]:
        yield "ticks change more than the age"


def shown_faults(rng, asked, newest, older, now, given):
    """Of a call that is not refused: the picture, its raster and its age. The newest one is shown with the same numbers as the other one, if the two
    are exchanged and the book is put to rest."""
    _, picture, start, size, age = given
    live = is_live(*asked)
    if picture != ("newest" if live else "older"):
        yield "the other picture is to be shown"
    data, tick = newest if live else older
    yield from raster_faults(data, start, size)
    yield from age_faults(tick, now, age)
    yield from tick_faults(rng, asked, newest, older, now, given)
    record, *rest = asked
    if live and show(record._replace(mark=1), *rest, *older, *newest, now) != (0, "older", start, size, age):
        yield "other numbers where the pictures are exchanged and the book rests"


def faults(lines):
    """For every line: refused with the first refusal of the three calls, and then nothing is shown; otherwise as above. None, it is hoped."""
    rng = random.Random(191)
    for line, (*asked, newest, newest_tick, older, older_tick, now), given in answers.among(lines, show):
        name = line if len(line) < 200 else f"{line[:100]} … {line[-100:]}"
        refusal = first_refusal(asked, newest, older)
        if refusal and given != (refusal, *NONE_SHOWN):
            yield f"{name}: not refused with {refusal}, or something is shown"
        elif not refusal and given[0] != 0:
            yield f"{name}: refused, and nothing is wrong"
        elif not refusal:
            own = shown_faults(rng, asked, (newest, newest_tick), (older, older_tick), now, given)
            yield from (f"{name}: {fault}" for fault in own)
