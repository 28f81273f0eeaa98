#!/usr/bin/env python3
"""Makes a small page, one HTML file, out of frames and the rows that `frozen` wrote for them.

    python3 sample/day.py > frames.pgm
    sample/frozen < frames.pgm > rows.csv
    python3 sample/page.py frames.pgm rows.csv > page.html

Which picture is shown, its age and the verdict are answers of the proved library: the program `vectors` is asked, which rt run < /dev/null in
crates/vectors builds. Frame k
was taken at START + SECONDS·(k − 1) of a counter of seconds that goes on with 0 after 2^32 − 1. Where frames and rows do not fit together it
ends with status 1 and no page: better an empty page than an old picture that passes for a new one.
"""
import argparse
import sys
import time
from base64 import b64encode
from pathlib import Path

import plot
from page_html import page
from page_words import AMOUNT, WINDOW, View
from png import png
from proved import ALLOWANCE, BOUND, LIMIT, ask, call, started, stop

# The book's length and tolerance, as in frozen, and the bytes of its ring.
LENGTH, TOLERANCE, RING = 1440, 3600, 30
# In one call of run.
MOST_COUNTS = 16384
# The counter's.
TURN = 2**32
# A new frame is overdue when three are missing, and not before so many seconds.
PATIENCE = 300


def tick(text):
    """A number that the counter can show."""
    if not (text.isascii() and text.isdigit()) or int(text) >= TURN:
        raise argparse.ArgumentTypeError(f"{text!r} is not a number from 0 to {TURN - 1}")
    return int(text)


def clock():
    now = time.localtime()
    return f"{now.tm_mday} {time.strftime('%B %Y, %H:%M %Z', now)}"


def options():
    told = argparse.ArgumentParser(description="Makes a page of frames and the rows of frozen.")
    told.add_argument("frames", help="PGM images, one after another")
    told.add_argument("rows", help="what frozen wrote for them")
    told.add_argument("--start", type=tick, default=0, help="the counter at the first frame (0)")
    told.add_argument("--every", type=tick, default=60, metavar="SECONDS", help="from one frame to the next (60)")
    told.add_argument("--now", type=tick, help="the counter now; without it ages are counted up to the newest frame, and the page says so")
    told.add_argument("--resting", action="store_true", help="dusk has come: the book is put to rest")
    told.add_argument("--title", default="Snowline camera")
    told.add_argument("--made", default=clock(), metavar="WORDS", help="when the page is made (by this machine's clock)")
    return told.parse_args()


def unfit(why):
    stop(f"frames and rows do not fit together: {why}")


def read_rows(name):
    """All rows, which must be those of one run from its first frame on."""
    try:
        with open(name, encoding="ascii", errors="replace", newline="\n") as lines:
            rows = plot.rows_of(lines)
    except OSError as error:
        stop(f"{name} cannot be read: {error.strerror}")
    for place, row in enumerate(rows, 1):
        if row.frame != place:
            stop(f"{name} has frame {row.frame} where frame {place} should be")
        if (row.score is None) != (place == 1) and not row.refusal:
            stop(f"{name} has {'no' if row.score is None else 'a'} score for frame {place}")
    return rows


def read_frames(name):
    try:
        return Path(name).read_bytes()
    except OSError as error:
        return stop(f"{name} cannot be read: {error.strerror}")


def split(program, data, count):
    """The first images, so many, and whether bytes are left. One with the very header of the image before is as long as that one."""
    images, header, used, at = [], None, 0, 0
    for frame in range(1, count + 1):
        if header is None or not data.startswith(header, at):
            refusal, numbers = call(program, "pgm", data[at : at + LIMIT].hex() or "-")
            if refusal and at < len(data):
                unfit(f"the rows go up to frame {count}, and frame {frame} is refused with {refusal}")
            used, offset = int(numbers[3]), int(numbers[4])
            header = data[at : at + offset]
        if at + used > len(data) or at == len(data):
            unfit(f"the rows go up to frame {count}, and there are {frame - 1} whole frames")
        images.append(data[at : at + used])
        at += used
    return images, at < len(data)


def hold(program, rows, images, frames):
    """The scores of these frames must be those of their rows: rows of another day may well fit in number."""
    for frame in frames:
        (score,) = ask(program, f"frame {frame}", "score", BOUND, ALLOWANCE, images[frame - 2].hex(), images[frame - 1].hex())
        if int(score) != rows[frame - 1].score:
            unfit(f"frame {frame} has the score {rows[frame - 1].score} in its row, and {score} by its image")


def book_of(program, scores):
    """Record and ring of the book that has taken these scores."""
    record, ring = ask(program, "the book", "open", BOUND, LENGTH, TOLERANCE, "00" * RING)
    for at in range(0, len(scores), MOST_COUNTS):
        counts = ",".join(map(str, scores[at : at + MOST_COUNTS]))
        _, record, ring = ask(program, "one of the rows' scores", "run", record, ring, counts)
    return record, ring


def last_moving(rows):
    """The last frame known to move, 0 for none: that of the last row that says live, or the last with a change if it came without one.

    A camera that stalls counts as live for some frames more; the tick of such a frame would make its picture too young.
    """
    frame = max((row.frame for row in rows if row.verdict == "live"), default=0)
    while frame and not rows[frame - 1].score:
        frame -= 1
    return frame


def still_frames(rows):
    """How many of the newest frames came without any change."""
    return len(rows) - max((row.frame for row in rows if row.score != 0), default=0)


class Day:
    """What has come: the rows of the frames that were accepted, their images, and when each was taken."""

    def __init__(self, told, rows, images):
        self.told, self.rows, self.images = told, rows, images
        self.newest = len(rows)
        self.now = self.tick(self.newest) if told.now is None else told.now

    def tick(self, frame):
        return (self.told.start + self.told.every * max(frame - 1, 0)) % TURN

    def lent(self, frame):
        """A frame as the call takes it: its image and its tick."""
        return (self.images[frame - 1].hex() if frame else "-"), self.tick(frame)

    def asked(self, program):
        """What the calls tell of the day, and where the raster of the picture that is shown lies in its image."""
        record, ring = book_of(program, [row.score for row in self.rows[1:]])
        if self.told.resting:
            (record,) = ask(program, "rest", "rest", record)
        older = last_moving(self.rows)
        about = record, ring, WINDOW, AMOUNT
        _, (verdict, _) = call(program, "verdict", *about)
        refusal, (which, *numbers) = call(program, "show", *about, *self.lent(self.newest), *self.lent(older or self.newest), self.now)
        start, length, age = map(int, numbers)
        since = (self.now - self.tick(self.newest)) % TURN
        view = View(
            refusal=refusal,
            verdict=verdict,
            newest=self.newest,
            shown={"none": 0, "newest": self.newest, "older": older or self.newest}[which],
            age=age,
            since=since,
            clock=self.told.now is not None,
            moved=which == "newest" or older > 0,
            kept=int(record.split(",")[5]),
            still=still_frames(self.rows) * self.told.every,
            late=since > max(PATIENCE, 3 * self.told.every),
            every=self.told.every,
        )
        return view, slice(start, start + length)

    def drawn(self, program, view, part):
        """Width and height of the picture that is shown, and the picture as PNG. What the verdict and the choice rest on is held to the images."""
        hold(program, self.rows, self.images, sorted({max(2, view.shown), *range(self.newest - WINDOW + 1, self.newest + 1)}))
        image = self.images[view.shown - 1]
        width, height, maxval = map(int, ask(program, f"frame {view.shown}", "pgm", image.hex())[:3])
        return (width, height), png(width, height, maxval, image[part])


def main():
    told = options()
    rows = read_rows(told.rows)
    data = read_frames(told.frames)
    ended = rows[-1] if rows and rows[-1].refusal else None
    taken = rows[:-1] if ended else rows
    with started() as program:
        images, more = split(program, data, len(taken))
        day = Day(told, taken, images)
        view, part = day.asked(program)
        size, picture = day.drawn(program, view, part) if view.shown else (None, b"")
    view = view._replace(ended=ended, more=more and not ended)
    sys.stdout.reconfigure(encoding="utf-8")
    sys.stdout.write(page(view, rows, told.title, told.made, size, b64encode(picture).decode()))


main()
