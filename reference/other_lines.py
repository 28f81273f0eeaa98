"""Lines that are no calls, or hardly, by sections."""

from answers import LONGEST_LINE
from calls import TOP

# Lines that no call can be read from, beside some that just can: names, spaces, hex, numbers, records, counts of fields.
UNREADABLE = [
    *("", " ", "?", "opens 5 6 10 ff", "ope 5 6 10 ff", "OPEN 5 6 10 ff", "open", "open ", "open 5", "open 5 6 10"),
    *("open 5 6 10 ff ", " open 5 6 10 ff", "open  5 6 10 ff", "open 5 6 10  ff", "open 5 6 10 ff ff", "open\t5 6 10 ff"),
    *("open 5 6 10 f", "open 5 6 10 fff", "open 5 6 10 FF", "open 5 6 10 fg", "open 5 6 10 --", "open 5 6 10 -0"),
    *("open 5 6 10 0x", "open 5 6 10 `a", "open 5 6 10 /0", "open 5 6 10 :0", "open 5 6 10 ff\r", "open 5 6 10 -"),
    *("open -5 6 10 ff", "open +5 6 10 ff", "open 5. 6 10 ff", "open 0x5 6 10 ff", "open a 6 10 ff", "open - 6 10 ff"),
    *("open / 6 10 ff", "open : 6 10 ff", "open 005 06 00000000000000000000010 ff"),
    *("total 5,6,10,13,1,6,0 40 5", "total 5,6,10,13,1,6,0,0,0 40 5", "total 5,6,10,13,1,6,,0 40 5", "total ,6,10,13,1,6,0,0 40 5"),
    *("total 5,,10,13,1,6,0,0 40 5", "total 5,6,10,13,1,6,0,,0 40 5", "total 5 40 5", "total - 40 5"),
    *("total 05,6,10,013,1,6,00,0 40 05", "total 5,6,10,13,1,6,0,0 40", "total 5,6,10,13,1,6,0,0 40 5 5"),
    *("add 5,6,10,13,1,6,0,0 40", "add 5,6,10,13,1,6,0,0 40 2 2", "verdict 5,6,10,13,1,6,0,0 40 4", "far 5,6,10,13,1,6,0,0 40 -"),
    *("run 5,6,10,13,1,6,0,0 40", "run 5,6,10,13,1,6,0,0 40 ", "run 5,6,10,13,1,6,0,0 40 2 2"),
    *("run 5,6,10,13,1,6,0 40 2", "run 5,6,10,13,1,6,0,0 4 2"),
    *(f"run 5,6,10,13,1,6,0,0 40 {row}" for row in ("2,", ",2", "2,,2", ",", "-,2", "2,-", "--", "2;2", "2.2", "2,a", "a,2", "+2,2", "2,02,002")),
    *("pgm", "pgm ", "pgm -", "pgm 5", "pgm 50", "pgm 50 50", "pgm 5x", "ring_clear 1 8", "ring_clear 1 8 a5"),
    *("ring_clear 1 8 a5 0", "ring_read 1 8 a5", "ring_write 1 8 a5 0", "ring_sum 1 8 a5 0", "ring_sum 1 8 a5 0 1 1"),
    *("score 600 255 - -", "score 600 256 - -", f"score 600 {TOP} - -", "score 600 12 -", "score 0 256 - -"),
    *("score_mask", "score_mask 600 255 - -", "score_mask 600 255 - - -", "score_mask 600 255 - - - -", "score_mask 600 256 - - -"),
    *("score_mask 0 256 - - -", "score_mask 600 - - - -", "score_mask 600 12 5 - -", "score_mask 600 12 - 5 -", "score_mask 600 12 - - 5"),
    *("score_mask 600 12 - - 5G", "score_mask 600 12 - - ", "score_masks 600 12 - - -", "score 600 12 - - -"),
]


def unreadable():
    """The lines above; numbers around 2^64 and of 5,000 digits; a field and a line too long, and a line after it that is not."""
    yield from UNREADABLE
    for number in (2**64 - 1, 2**64, 2**64 + 3, 2**64 + 5, 10 * 2**64, 10**30):
        yield f"run 5,6,10,13,1,6,0,0 40 2,{number}"
        yield f"open {number} 6 10 ff"
        yield f"open 5 6 {number} ff"
        yield f"total 5,6,10,{number},1,6,0,0 40 5"
        yield f"total 5,6,10,13,1,6,0,0 40 {number}"
    yield "open " + "0" * 5000 + "5 6 10 ff"
    yield "open " + "9" * 5000 + " 6 10 ff"
    yield "pgm " + "00" * 32769
    yield "x" * (LONGEST_LINE + 8000)
    yield "open 5 6 10 ff"


def names():
    """Lines that begin with `#`, calls after it or not, the longest that is read and one more; and lines that begin otherwise."""
    yield from ("#", "##", "# ", "#\t?", "#open 5 6 10 ff", " # no name", "open # 6 10 ff", "open 5 6 10 ff#", "open 5 6 10 ff #")
    for length in (LONGEST_LINE, LONGEST_LINE + 1):
        yield "#".ljust(length, "=")
    yield "# and a line after it"


def sections():
    yield "lines that cannot be read, and some that just can", unreadable()
    yield "names", names()
