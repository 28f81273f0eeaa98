#!/usr/bin/env python3
"""Draws the rows of `frozen` as one SVG picture: the score of each frame, the book's total, and the verdict.

    python3 sample/day.py | sample/frozen | python3 sample/plot.py > afternoon.svg
    python3 sample/plot.py rows.csv > rows.svg

Rows are taken as they come, and the picture is written when they end. Ctrl-C ends them too, so that a camera that never ends can be
drawn up to now. A line that is no row ends it with status 1 and no picture.
"""
import itertools
import re
import sys
from collections import namedtuple

# The setting of frozen: a total is short of the true one by less than TOLERANCE.
TOLERANCE = 3600
HEAD = "frame,score,kept,total,verdict"
ROW = re.compile(r"([0-9]{1,20}),([0-9]{0,20}),[0-9]{1,20},([0-9]{1,20}),(early|live|undecided|frozen)")
REFUSED = re.compile(r"([0-9]{1,20}),refused ([0-9]{1,3}),,,")
WHY = {
    11: "a wrong byte in its header",
    12: "its width, height or maxval is out of range",
    13: "it takes more than 24,576 bytes",
    14: "it ends too early",
    15: "a pixel is above maxval",
    16: "another width, height or maxval than the frame before",
}

# score and total are None where the row has none; refusal is 0 where there is none.
Row = namedtuple("Row", "frame score total verdict refusal")

# Each verdict's colour, the colour of words on it, and what it says. From light to dark, in an order of hue that colour-blind people
# can tell apart, so that the strip reads in grey too. The later a verdict stands, the more it matters.
VERDICTS = {
    "early": ("#eef1f4", "#1c2733", "fewer than 30 scores so far"),
    "live": ("#4fa3dc", "#1c2733", "the last 30 scores add up to 3,600 or more"),
    "undecided": ("#f2c500", "#1c2733", "neither is claimed"),
    "frozen": ("#b34700", "#ffffff", "the last 30 scores add up to less than 3,600"),
    "refused": ("#000000", "#ffffff", "the frame is no image that frozen takes: the run ends"),
}
MATTERS = list(VERDICTS).index
INK, SOFT, GRID, SCORE, TOTAL, BAND = "#1c2733", "#5a6773", "#e6e6e6", "#1c2733", "#0b6e99", "#cfe0ec"

# The picture's places, in pixels: the plots lie between LEFT and RIGHT.
WIDTH, HEIGHT = 1000, 760
LEFT, RIGHT = 110, 960
SCORE_TOP, SCORE_BASE = 106, 246
TOTAL_TOP, TOTAL_BASE = 296, 486
STRIP_TOP, STRIP_BASE = 536, 568
LEGEND = 640


def stop(message):
    sys.exit(f"plot.py: {message}")


def parse(line, number):
    row = ROW.fullmatch(line)
    if row:
        frame, score, total, verdict = row.groups()
        return Row(int(frame), int(score) if score else None, int(total), verdict, 0)
    row = REFUSED.fullmatch(line)
    if row:
        return Row(int(row[1]), None, None, "refused", int(row[2]))
    return stop(f"line {number} is no row of frozen: {line[:60]!r}")


def rows_of(lines):
    """The rows up to the end, or up to Ctrl-C. A last line without its end was cut while it was written, and says nothing."""
    rows = []
    try:
        for number, line in enumerate(lines, 1):
            if not line.endswith("\n"):
                print("plot.py: the last line is cut and left out", file=sys.stderr)
                break
            line = line.rstrip("\r\n")
            if number == 1 and line == HEAD:
                continue
            row = parse(line, number)
            if rows and row.frame <= rows[-1].frame:
                stop(f"line {number}: frame {row.frame} after frame {rows[-1].frame}; a picture has one run")
            rows.append(row)
    except KeyboardInterrupt:
        pass
    return rows


def step_for(reach, most):
    """The least of 1, 2, 5, 10, 20, 50, ... that parts the reach into so many steps at most."""
    for power in itertools.count():
        for digit in (1, 2, 5):
            if reach <= digit * 10**power * most:
                return digit * 10**power


def thinned(points):
    """Of the points over one pixel's width the first, the lowest, the highest and the last: the line through these looks the same."""
    few = []
    for _, group in itertools.groupby(points, key=lambda point: int(point[0])):
        group = list(group)
        ends = group[0], group[-1]
        few += sorted({*ends, min(group, key=lambda point: point[1]), max(group, key=lambda point: point[1])})
    return few


def joined(points):
    return " ".join(f"{x:.1f},{y:.1f}" for x, y in points)


class Picture:
    """The lines of the SVG, and where a frame lies from left to right."""

    def __init__(self, rows):
        self.rows = rows
        self.first = rows[0].frame if rows else 1
        self.last = rows[-1].frame if rows else 1
        self.cell = (RIGHT - LEFT) / (self.last - self.first + 1)
        self.lines = []

    def edge(self, frame):
        return LEFT + (frame - self.first) * self.cell

    def column(self, frame):
        """Where the frame's part of the strip starts: at its own edge, or at a whole pixel where frames share one."""
        return self.edge(frame) if self.cell >= 1 else int(self.edge(frame))

    def middle(self, frame):
        return self.edge(frame) + self.cell / 2

    def put(self, line):
        self.lines.append("  " + line)

    def text(self, x, y, words, size=13, fill=INK, anchor="start", more=""):
        self.put(f'<text x="{x:.1f}" y="{y:.1f}" font-size="{size}" fill="{fill}" text-anchor="{anchor}"{more}>{words}</text>')

    def box(self, x, y, width, height, fill, more=""):
        self.put(f'<rect x="{x:.1f}" y="{y:.1f}" width="{width:.1f}" height="{height:.1f}" fill="{fill}"{more}/>')

    def line(self, x, y, to_x, to_y, stroke, more=""):
        self.put(f'<line x1="{x:.1f}" y1="{y:.1f}" x2="{to_x:.1f}" y2="{to_y:.1f}" stroke="{stroke}"{more}/>')

    def heading(self):
        if not self.rows:
            words, below = "Rows of frozen: none", "No row has come."
        else:
            last = self.rows[-1]
            frames = f"frames {self.first:,} to {self.last:,}" if self.first < self.last else f"frame {self.first:,}"
            words, below = f"Rows of frozen: {frames}", f"The last row says {last.verdict}: {VERDICTS[last.verdict][2]}."
            if last.refusal:
                why = WHY.get(last.refusal, "see docs/frozen.1")
                below = f"Frame {last.frame:,} was refused with {last.refusal}: {why}. No row follows."
        self.put(f"<title>{words}</title>")
        self.put(f"<desc>{below}</desc>")
        self.box(0, 0, WIDTH, HEIGHT, "#ffffff")
        self.text(24, 38, words, 20, more=' font-weight="bold"')
        self.text(24, 62, below, 14, SOFT)

    def scale(self, words, top, base, most):
        """A plot's heading, its upright axis with ticks from 0 to `most` or more, and the height of a value."""
        step = step_for(most, 5)
        ceiling = -(-most // step) * step

        def height(value):
            return base - value * (base - top) / ceiling

        self.text(24, top - 14, words, 14, more=' font-weight="bold"')
        for value in range(0, ceiling + 1, step):
            self.line(LEFT - 5, height(value), RIGHT, height(value), GRID)
            self.text(LEFT - 9, height(value) + 4, f"{value:,}", 12, SOFT, "end")
        middle = (top + base) / 2
        self.text(30, middle, "changed pixels", 12, SOFT, "middle", f' transform="rotate(-90 30 {middle:.1f})"')
        return height

    def curve(self, points, stroke):
        """A line through the points, with a dot for each where there is room: a single point would not show otherwise."""
        points = thinned(points)
        self.put(f'<polyline points="{joined(points)}" fill="none" stroke="{stroke}" stroke-width="1.6" stroke-linejoin="round"/>')
        if self.cell >= 5:
            radius = 2 if self.cell < 20 else 3.5
            for x, y in points:
                self.put(f'<circle cx="{x:.1f}" cy="{y:.1f}" r="{radius}" fill="{stroke}"/>')

    def scores(self):
        told = [row for row in self.rows if row.score is not None]
        most = max((row.score for row in told), default=600)
        height = self.scale("Score: pixels changed since the frame before (600 at most)", SCORE_TOP, SCORE_BASE, max(most, 10))
        if told:
            self.curve([(self.middle(row.frame), height(row.score)) for row in told], SCORE)

    def totals(self):
        told = [row for row in self.rows if row.total is not None]
        most = max((row.total for row in told), default=0) + TOLERANCE
        height = self.scale("Total: the scores of all frames kept, as the book tells them", TOTAL_TOP, TOTAL_BASE, most)
        if not told:
            return
        points = [(self.middle(row.frame), height(row.total)) for row in told]
        lower = thinned(points)
        if len(lower) == 1:
            # One point has a band without width: it is drawn over a part of its frame.
            lower = [(lower[0][0] - 12, lower[0][1]), (lower[0][0] + 12, lower[0][1])]
        rise = height(0) - height(TOLERANCE)
        upper = [(x, y - rise) for x, y in reversed(lower)]
        self.put(f'<polygon points="{joined(lower + upper)}" fill="{BAND}"/>')
        self.curve(points, TOTAL)

    def runs(self):
        """Stretches of one verdict, each with its first and last place. Where a pixel has several frames, what matters most is seen."""
        wide = max(1, self.cell)
        runs = []
        for start, rows in itertools.groupby(self.rows, key=lambda row: self.column(row.frame)):
            worst = max(rows, key=lambda row: MATTERS(row.verdict))
            words = f"refused {worst.refusal}" if worst.refusal else worst.verdict
            if runs and runs[-1][2] == words and start - runs[-1][1] < 0.5:
                runs[-1][1] = start + wide
            else:
                runs.append([start, start + wide, words])
        return runs

    def strip(self):
        self.text(24, STRIP_TOP - 14, "Verdict on the last 30 frames", 14, more=' font-weight="bold"')
        for start, end, words in self.runs():
            fill, ink, _ = VERDICTS[words.split()[0]]
            if words.startswith("refused"):
                # The last row of a long run would be a hair's breadth.
                start = min(start, end - 4)
            self.box(start, STRIP_TOP, end - start, STRIP_BASE - STRIP_TOP, fill)
            if end - start > 10 * len(words):
                self.text((start + end) / 2, STRIP_TOP + 21, words, 13, ink, "middle", ' font-weight="bold"')
        if self.cell < 1:
            words = f"a pixel's width has about {1 / self.cell:.0f} frames, and shows the one that matters most"
            self.text(RIGHT, STRIP_TOP - 14, words, 12, SOFT, "end")
        self.box(LEFT, STRIP_TOP, RIGHT - LEFT, STRIP_BASE - STRIP_TOP, "none", f' stroke="{SOFT}"')

    def frames(self):
        """The level axis under the strip, and its ticks as faint lines through both plots, drawn first."""
        step = step_for(self.last - self.first + 1, 10)
        ticks = range(-(-self.first // step) * step, self.last + 1, step)
        for frame in ticks if self.rows else ():
            x = self.middle(frame)
            self.line(x, SCORE_TOP, x, SCORE_BASE, GRID)
            self.line(x, TOTAL_TOP, x, TOTAL_BASE, GRID)
            self.line(x, STRIP_BASE, x, STRIP_BASE + 6, SOFT)
            self.text(x, STRIP_BASE + 21, f"{frame:,}", 12, SOFT, "middle")
        self.text((LEFT + RIGHT) / 2, STRIP_BASE + 42, "frame", 12, SOFT, "middle")

    def legend(self):
        marks = (
            (SCORE, "score of a frame (the first has none)"),
            (TOTAL, "total: never above the true total"),
            (None, "here the true total lies:"),
        )
        for place, (stroke, words) in enumerate(marks):
            y = LEGEND + 22 * place
            if stroke:
                self.line(24, y, 54, y, stroke, ' stroke-width="2.4"')
                self.put(f'<circle cx="39" cy="{y}" r="3" fill="{stroke}"/>')
            else:
                self.box(24, y - 7, 30, 14, BAND)
            self.text(64, y + 5, words)
        self.text(64, LEGEND + 22 * len(marks) + 5, f"total ≤ true total &lt; total + {TOLERANCE:,}")
        for place, (word, (fill, _, says)) in enumerate(VERDICTS.items()):
            y = LEGEND + 22 * place
            self.box(400, y - 8, 30, 16, fill, f' stroke="{SOFT}"')
            self.text(440, y + 5, f'<tspan font-weight="bold">{word}</tspan>: {says}')

    def drawn(self):
        self.heading()
        self.frames()
        self.scores()
        self.totals()
        self.strip()
        self.legend()
        size = f'viewBox="0 0 {WIDTH} {HEIGHT}"'
        begin = f'<svg xmlns="http://www.w3.org/2000/svg" {size} font-family="Helvetica, Arial, sans-serif" role="img">'
        return "\n".join([begin, *self.lines, "</svg>", ""])


def main():
    if len(sys.argv) > 2:
        stop("at most one word: the file of rows")
    if len(sys.argv) == 2:
        try:
            with open(sys.argv[1], encoding="ascii", errors="replace", newline="\n") as lines:
                rows = rows_of(lines)
        except OSError as error:
            stop(f"{sys.argv[1]} cannot be read: {error.strerror}")
    else:
        sys.stdin.reconfigure(encoding="ascii", errors="replace", newline="\n")
        rows = rows_of(sys.stdin)
    sys.stdout.reconfigure(encoding="utf-8")
    sys.stdout.write(Picture(rows).drawn())


if __name__ == "__main__":
    main()
