"""Which of two pictures the page shows, and how old it is (docs/SCOPE.md, Page), in the manner of model.py and by that rule's own sentences.

The verdict and the images are judged as model.py judges them. A tick is below 2^32.
"""

import model

TURN = 2**32


def first_refusal(record, ring, w, v, newest, older):
    """Those of the verdict, then those of the newest image, then those of the other, whichever is to be shown."""
    return model.verdict(record, ring, w, v)[0] or model.pgm(newest)[0] or model.pgm(older)[0]


def choice(record, ring, w, v):
    """The newest where the verdict is live, the other one at every other verdict."""
    _, word, _ = model.verdict(record, ring, w, v)
    return "newest" if word == "live" else "older"


def age_of(tick, now):
    """The tick now less the picture's, and a turn of the counter more where that would be below 0."""
    age = now - tick
    return age + TURN if age < 0 else age


def show(record, ring, w, v, newest, newest_tick, older, older_tick, now):
    """8, 4, 6, 5, then 11 to 15; then which picture, where its raster starts in its slice and how many bytes it has, and its age."""
    refusal = first_refusal(record, ring, w, v, newest, older)
    if refusal:
        return refusal, "none", 0, 0, 0
    picture = choice(record, ring, w, v)
    data, tick = (newest, newest_tick) if picture == "newest" else (older, older_tick)
    _, _, _, _, start, size = model.read_image(data)
    return 0, picture, start, size, age_of(tick, now)
