"""Figures worked by hand, as calls and answers: the cases A to G of docs/SCOPE.md, slots of one bit, books at rest, books with a row of sums,
trends, coarser books, zones, salvaged rings, lit frames, comments in headers, pixels of two bytes, masks, what the page shows, and the lines of the
vectors' format.

The model is held to them each time the vectors are made. They stand first in the section of their name.
"""

import answers
import model

A = "5,6,10,13,1,6,0,0 40"
A_AT_REST = "5,6,10,13,1,6,0,1 40"
# Records of cases A to C as zones; one of A's that is none.
ZONE_A, ZONE_B, ZONE_C = "5,6,10,13,1,6,0,0", "3,4,2,1,0,4,0,0", "9,3,1,0,0,3,1,0"
ZONE_AT_REST, NO_ZONE = "5,6,10,13,1,6,0,1", "5,6,10,15,1,6,0,0"
# Record, ring and row: 33, 65 and 128 slots of one bit after so many items of 1, and then of 0.
ONES_33 = "1,33,1,0,0,33,0,0 ffffffff80 32,33"
ONES_33_AND_0 = "1,33,1,0,0,33,1,0 7fffffff80 32,33"
ONES_65_AND_33_0S = "1,65,1,0,0,65,33,0 000000007fffffff80 0,64,65"
ONES_95 = "1,128,1,0,0,95,95,0 fffffffffffffffffffffffe00000000 32,64,0,0"
# 33 entries of a row of slot numbers, and the numbers of 33 slots.
SEVENS, TO_32 = ",".join("7" * 33), ",".join(str(slot) for slot in range(33))
# 00101100 10011111 with length 12: the frames 3, 5, 6, 9 and 12 are lit. Then the longest row, all of it lit.
TWELVE, ALL_LIT = "2c9f 12", f"{'ff' * 8192} 65536"
# The program's first two images, with comments of different places and lengths.
DARK = b"P5 #c\n2 2 255\n" + bytes(4)
LIT = b"P5# a longer one\r 2 2 255#\n\n" + bytes([20, 12, 13, 0])
# What the page has at hand: two images, and the first of them without its last byte, the second with a pixel of 16, where maxval is 15.
NEWEST, OLDER = b"P5 2 2 255 \x01\x02\x03\x04", b"P5 3 1 15 \x0f\x00\x07"
CUT, BRIGHT = NEWEST[:-1], b"P5 3 1 15 \x10\x00\x07"
# The largest tick.
LAST = 2**32 - 1


def pgm(*images):
    """Images with the answers to them; of a refused one the number alone is given."""
    return [(f"pgm {data.hex()}", f"{answer} 0 0 0 0 0 0" if isinstance(answer, int) else answer) for data, answer in images]


def in_row(call, answered):
    """A call with each of these numbers, and the answers; of a refused one None is given."""
    return [(f"{call} {asked}", "22 0" if given is None else f"0 {given}") for asked, given in answered.items()]


def score_mask(width, height, masks, a=12, pixels=b"\xff"):
    """A black image against one of these pixels, over and over, under each mask, with the answers; of a refused one the number alone is given."""
    header, count = f"P5 {width} {height} 255\n".encode(), width * height
    first, second = header + bytes(count), header + (pixels * count)[:count]
    shown = ((data, f"{answer} 0" if isinstance(answer, int) else answer) for data, answer in masks)
    return [(f"score_mask 600 {a} {first.hex()} {second.hex()} {answers.show(data)}", answer) for data, answer in shown]


def page(asked, answer, newest=NEWEST, older=OLDER, ticks=(4294967290, 4294967000, 3), book=A):
    """What is asked of the page, with the answer; of a refused call the number alone is given."""
    newest_tick, older_tick, now = ticks
    line = f"show {book} {asked} {answers.show(newest)} {newest_tick} {answers.show(older)} {older_tick} {now}"
    return line, f"{answer} none 0 0 0" if isinstance(answer, int) else answer


FIGURES = {
    "lines of the format": [
        ("open 5 6 10 ff", "0 5,6,10,0,0,0,0,0 00"),
        ("add 5,6,10,13,1,6,0,0 40 2", "0 5,6,10,5,0,6,1,0 c0"),
        ("total 5,6,10,13,1,6,0,0 40 5", "0 14"),
        ("far 5,6,10,13,1,6,0,0 40 15", "9 0"),
        ("verdict 5,6,10,13,1,6,0,0 40 4 18", "0 undecided 9"),
        ("pgm 50350a322032203235350a00000000", "0 2 2 255 15 11 4"),
    ],
    "case A: windows": [
        *((f"total {A} {i}", f"0 {figure}") for i, figure in enumerate([0, 4, 4, 4, 9, 14, 14])),
        (f"total {A} 7", "5 0"),
        ("total 5,6,10,5,0,6,1,0 c0 6", "0 16"),
    ],
    "case A: how far back": [(f"far {A} {v}", answer) for v, answer in [(4, "0 1"), (5, "0 4"), (14, "0 5"), (15, "9 0")]],
    "case A: verdicts": [
        (f"verdict {A} 4 {v}", f"0 {word} 9") for v, word in [(9, "live"), (10, "undecided"), (18, "undecided"), (19, "frozen")]
    ],
    "case B: record, ring and windows": [
        (f"total 3,4,2,1,0,4,0,0 21 {i}", f"0 {figure}") for i, figure in [(1, 2), (2, 2), (3, 6), (4, 6)]
    ],
    "case C: record, ring and windows": [
        (f"total 9,3,1,0,0,3,1,0 2040 {i}", f"0 {figure}") for i, figure in [(1, 2), (2, 6), (3, 6)]
    ],
    "case D: slots and tolerance": [
        ("open 5 3 15 ff", "0 5,3,15,0,0,0,0,0 00"),
        ("open 5 3 16 ff", "3 0,0,0,0,0,0,0,0 ff"),
    ],
    "case E: items and a ring of no bytes": [
        (f"add {A} 5", "0 5,6,10,8,0,6,1,0 c0"),
        (f"add {A} 6", f"7 {A}"),
        ("add 5,6,10,13,1,6,0,0 - 5", "4 5,6,10,13,1,6,0,0 -"),
        ("open 5 6 10 -", "4 0,0,0,0,0,0,0,0 -"),
    ],
    "case F: kept 0": [
        ("far 5,6,10,0,0,0,0,0 00 1", "9 0"),
        ("total 5,6,10,0,0,0,0,0 00 0", "0 0"),
        ("total 5,6,10,0,0,0,0,0 00 1", "5 0"),
    ],
    # Case A in one call; a count above L; no counts; from its record on; a record that is none; rings of no bytes. Then B, C and D in one call.
    "cases A to D: runs": [
        ("run 5,6,10,0,0,0,0,0 00 3,4,5,5,0,1,5", "0 0 5,6,10,13,1,6,0,0 40"),
        ("run 5,6,10,0,0,0,0,0 00 3,4,6,5,0,1,5", "7 3 5,6,10,0,0,0,0,0 00"),
        ("run 5,6,10,0,0,0,0,0 00 3,4,6,5,0,1,6", "7 3 5,6,10,0,0,0,0,0 00"),
        ("run 5,6,10,0,0,0,0,0 00 -", "0 0 5,6,10,0,0,0,0,0 00"),
        (f"run {A} -", f"0 0 {A}"),
        (f"run {A} 2", "0 0 5,6,10,5,0,6,1,0 c0"),
        (f"run {A} 5", "0 0 5,6,10,8,0,6,1,0 c0"),
        (f"run {A} 6", f"7 1 {A}"),
        (f"run {A} 5,6", f"7 2 {A}"),
        ("run 5,6,10,15,1,6,0,0 40 6", "8 0 5,6,10,15,1,6,0,0 40"),
        ("run 5,6,10,15,1,6,0,0 - -", "8 0 5,6,10,15,1,6,0,0 -"),
        *((f"run 5,6,10,13,1,6,0,0 - {counts}", "4 0 5,6,10,13,1,6,0,0 -") for counts in ("5", "6", "-")),
        ("run 3,4,2,0,0,0,0,0 00 1,3,0,3", "0 0 3,4,2,1,0,4,0,0 21"),
        ("run 9,3,1,0,0,0,0,0 0000 9,0,4,2", "0 0 9,3,1,0,0,3,1,0 2040"),
        ("run 5,3,15,0,0,0,0,0 00 5,5,5,0", "0 0 5,3,15,0,1,3,0,0 80"),
    ],
    # Each call twice, and from a mark that neither call sets.
    "rest: setting and clearing the mark": [
        ("rest 5,6,10,13,1,6,0,0", "0 5,6,10,13,1,6,0,1"),
        ("rest 5,6,10,13,1,6,0,1", "0 5,6,10,13,1,6,0,1"),
        ("wake 5,6,10,13,1,6,0,1", "0 5,6,10,13,1,6,0,0"),
        ("wake 5,6,10,13,1,6,0,0", "0 5,6,10,13,1,6,0,0"),
        ("rest 5,6,10,13,1,6,0,256", "0 5,6,10,13,1,6,0,1"),
        ("wake 5,6,10,13,1,6,0,256", "0 5,6,10,13,1,6,0,0"),
    ],
    # R may be 9 + 1 * 5 = 14. The mark comes back as it came.
    "rest: records that are no book": [
        ("rest 5,6,10,14,1,6,0,0", "0 5,6,10,14,1,6,0,1"),
        ("rest 5,6,10,15,1,6,0,0", "8 5,6,10,15,1,6,0,0"),
        ("wake 5,6,10,15,1,6,0,1", "8 5,6,10,15,1,6,0,1"),
        ("wake 5,6,10,15,1,6,0,256", "8 5,6,10,15,1,6,0,256"),
        ("rest 0,0,0,0,0,0,0,0", "8 0,0,0,0,0,0,0,0"),
    ],
    # An item that awake is taken and one above L, runs of them and an empty one; before 17 come 8 and 4.
    "rest: items and runs": [
        *((f"add {A_AT_REST} {x}", f"17 {A_AT_REST}") for x in (2, 6)),
        *((f"run {A_AT_REST} {counts}", f"17 0 {A_AT_REST}") for counts in ("2", "2,6", "-")),
        ("add 5,6,10,15,1,6,0,1 - 6", "8 5,6,10,15,1,6,0,1 -"),
        ("add 5,6,10,13,1,6,0,1 - 6", "4 5,6,10,13,1,6,0,1 -"),
        ("run 5,6,10,15,1,6,0,1 - 6", "8 0 5,6,10,15,1,6,0,1 -"),
        ("run 5,6,10,13,1,6,0,1 - 6", "4 0 5,6,10,13,1,6,0,1 -"),
        ("add 5,6,10,13,1,6,0,256 40 2", "17 5,6,10,13,1,6,0,256 40"),
    ],
    "rest: totals and how far back": [
        *((f"total {A_AT_REST} {i}", f"0 {figure}") for i, figure in enumerate([0, 4, 4, 4, 9, 14, 14])),
        (f"total {A_AT_REST} 7", "5 0"),
        *((f"far {A_AT_REST} {v}", answer) for v, answer in [(0, "6 0"), (4, "0 1"), (5, "0 4"), (14, "0 5"), (15, "9 0")]),
    ],
    # Amounts that awake are live, undecided and frozen; another window; then what is refused awake too.
    "rest: verdicts": [
        *((f"verdict {A_AT_REST} 4 {v}", "0 resting 9") for v in (9, 10, 18, 19)),
        (f"verdict {A_AT_REST} 5 19", "0 resting 14"),
        *((f"verdict {A_AT_REST} {asked}", "6 none 0") for asked in ("4 0", "0 9", "7 0")),
        (f"verdict {A_AT_REST} 7 9", "5 none 0"),
        ("verdict 5,6,10,13,1,6,0,1 - 7 0", "4 none 0"),
        ("verdict 5,6,10,15,1,6,0,1 - 7 0", "8 none 0"),
    ],
    "rest: openings": [
        ("open 5 6 10 ff", "0 5,6,10,0,0,0,0,0 00"),
        ("open 5 6 31 ff", "3 0,0,0,0,0,0,0,0 ff"),
    ],
    "rest: case A, a rest before each item": [
        (f"add {A_AT_REST} 2", f"17 {A_AT_REST}"),
        ("wake 5,6,10,13,1,6,0,1", "0 5,6,10,13,1,6,0,0"),
        (f"add {A} 2", "0 5,6,10,5,0,6,1,0 c0"),
    ],
    # Seven numbers, nine, and marks of 2^64 - 1 and 2^64.
    "rest: lines that cannot be read, and some that just can": [
        ("rest 5,6,10,13,1,6,0", "?"),
        ("rest 5,6,10,13,1,6,0,1,0", "?"),
        ("rest 5,6,10,13,1,6,0,18446744073709551615", "0 5,6,10,13,1,6,0,1"),
        ("rest 5,6,10,13,1,6,0,18446744073709551616", "?"),
        ("rest 5,6,10,13,1,6,0,1 40", "?"),
    ],
    # One number for 3 slots, three for 65; what is behind them stays. A row that is too short comes after a ring that is.
    "row: openings": [
        ("open_row 5 6 10 ff 4294967295,5", "0 5,6,10,0,0,0,0,0 00 0,5"),
        ("open_row 1 65 1 ffffffffffffffffff 1,2,3,4", "0 1,65,1,0,0,0,0,0 000000000000000000 0,0,0,4"),
        ("open_row 1 65 1 ffffffffffffffffff 1,2", "18 0,0,0,0,0,0,0,0 ffffffffffffffffff 1,2"),
        ("open_row 1 64 1 ffffffffffffffff 1,2", "0 1,64,1,0,0,0,0,0 0000000000000000 0,0"),
    ],
    "row: bad openings": [
        ("open_row 5 6 10 ff -", "18 0,0,0,0,0,0,0,0 ff -"),
        ("open_row 5 6 10 - -", "4 0,0,0,0,0,0,0,0 - -"),
        ("open_row 5 6 31 - -", "3 0,0,0,0,0,0,0,0 - -"),
    ],
    # The third block is noted in the last slot, and the sum 1 of all three goes into the row; the fourth is noted in slot 0, and the sum stays.
    "row: case A": [
        ("add_row 5,6,10,7,1,5,2,0 40 9,5 1", "0 5,6,10,8,0,6,0,0 40 1,5"),
        ("add_row 5,6,10,8,0,6,0,0 40 1,5 5", f"0 {A} 1,5"),
        (f"add_row {A} 1,5 2", "0 5,6,10,5,0,6,1,0 c0 1,5"),
        (f"add_row {A} 1,5 6", f"7 {A} 1,5"),
        ("run_row 5,6,10,0,0,0,0,0 00 9 3,4,5,5,0,1,5", f"0 0 {A} 1"),
        *((f"total_row {A} 1 {i}", f"0 {read}") for i, read in enumerate(["0 0 0", "4 0 0", "4 2 0", "4 2 0", "9 3 0", "14 3 0", "14 1 1"])),
        (f"total_row {A} 1 7", "5 0 0 0"),
        ("total_row 5,6,10,5,0,6,1,0 c0 1 6", "0 16 4 0"),
        # all three slots by the sum alone: 13 + 10 * sum - 9
        *((f"total_row {A} {row} 6", f"0 {figure} 1 1") for row, figure in [(0, 4), (2, 24), (4294967295, 42949672954)]),
    ],
    "row: the order of refusals": [
        ("add_row 5,6,10,15,1,6,0,1 - - 6", "8 5,6,10,15,1,6,0,1 - -"),
        ("add_row 5,6,10,13,1,6,0,1 - - 6", "4 5,6,10,13,1,6,0,1 - -"),
        (f"add_row {A_AT_REST} - 6", f"18 {A_AT_REST} -"),
        (f"add_row {A_AT_REST} 1 6", f"17 {A_AT_REST} 1"),
        (f"run_row {A_AT_REST} - 6", f"18 0 {A_AT_REST} -"),
        (f"run_row {A_AT_REST} 1 -", f"17 0 {A_AT_REST} 1"),
        (f"run_row {A} 1 2,6", f"7 2 {A} 1"),
        (f"total_row {A} - 7", "18 0 0 0"),
        (f"total_row {A_AT_REST} 1 6", "0 14 1 1"),
    ],
    # The sum that stands in the row is the last lap's 1 + 1: the slots of now, 0 and 1, are read one by one.
    "row: items one by one, and a total after each": [
        ("open_row 1 2 1 ff 9", "0 1,2,1,0,0,0,0,0 00 0"),
        ("add_row 1,2,1,0,0,0,0,0 00 0 1", "0 1,2,1,0,0,1,1,0 80 0"),
        ("add_row 1,2,1,0,0,1,1,0 80 0 1", "0 1,2,1,0,0,2,0,0 c0 2"),
        ("total_row 1,2,1,0,0,2,0,0 c0 2 2", "0 2 1 1"),
        ("total_row 1,2,1,0,0,2,0,0 c0 2 1", "0 1 2 0"),
        ("add_row 1,2,1,0,0,2,0,0 c0 2 0", "0 1,2,1,0,0,2,1,0 40 2"),
        ("total_row 1,2,1,0,0,2,1,0 40 2 2", "0 1 3 0"),
        ("total_row 1,2,1,0,0,2,1,0 40 2 1", "0 0 2 0"),
    ],
    # Slot 31 ends a group and slot 32 does not, unless it is the last; what the row held before does not count.
    "row: items around the ends of groups": [
        ("add_row 1,65,1,0,0,31,31,0 fffffffe0000000000 9,9,9 1", "0 1,65,1,0,0,32,32,0 ffffffff0000000000 32,9,9"),
        ("add_row 1,65,1,0,0,32,32,0 ffffffff0000000000 9,9,9 1", "0 1,65,1,0,0,33,33,0 ffffffff8000000000 9,9,9"),
        ("add_row 1,33,1,0,0,32,32,0 ffffffff00 9,9 1", "0 1,33,1,0,0,33,0,0 ffffffff80 9,33"),
        ("add_row 1,33,1,0,0,33,0,0 ffffffff80 32,33 0", f"0 {ONES_33_AND_0}"),
    ],
    "row: runs around the ends of groups": [
        (f"run_row 1,33,1,0,0,0,0,0 0000000000 9,9 {','.join('1' * 33)}", f"0 0 {ONES_33}"),
        (f"run_row {ONES_33} 0", f"0 0 {ONES_33_AND_0}"),
        (f"run_row {ONES_33} -", f"0 0 {ONES_33}"),
        (f"run_row {ONES_33} 0,2", f"7 2 {ONES_33}"),
        (f"run_row 1,65,1,0,0,0,0,0 {'00' * 9} 9,9,9 {','.join('1' * 65 + '0' * 33)}", f"0 0 {ONES_65_AND_33_0S}"),
    ],
    # All slots by the last sum; slots 1 to 31 singly and 33 - 32 by the sums; slot 32, and slots 31 and 32. Then slot 0 is 0. Then slots 0 to 32
    # are 0: slot 32 and slots 33 to 63 singly, 0 and 65 - 64 by the sums. Then slots 32 to 94 singly, or slots 31 and 64 to 94.
    "row: totals, every window": [
        *((f"total_row {ONES_33} {i}", f"0 {read}") for i, read in [(33, "33 1 1"), (32, "32 32 2"), (1, "1 2 0"), (2, "2 2 2"), (0, "0 0 0")]),
        (f"total_row {ONES_33_AND_0} 33", "0 32 33 2"),
        (f"total_row {ONES_65_AND_33_0S} 65", "0 32 33 3"),
        *((f"total_row {ONES_95} {i}", f"0 {read}") for i, read in [(63, "63 64 0"), (64, "64 33 2")]),
    ],
    # Slots 31 and 32 of 33, of which slot 31 is 1, the sum being 1 + 2 - 5, below 0: what is left is 13 - 9, and with e = 1 also - 5.
    "row: totals by rows of other numbers": [
        ("total_row 5,66,10,13,1,66,0,0 0000000100 5,2 5", "0 4 2 2"),
        ("total_row 5,66,10,13,1,66,0,0 0000000100 5,2 4", "0 0 2 2"),
        ("total_row 5,66,10,13,1,66,0,0 0000000100 5,4 5", "0 4 2 2"),
        ("total_row 5,66,10,13,1,66,0,0 0000000100 5,5 5", "0 14 2 2"),
    ],
    # 2^32 - 1 is the largest number of a row; a count has 64 bits.
    "row: lines that cannot be read, and some that just can": [
        (f"total_row {A} 4294967295 6", "0 42949672954 1 1"),
        (f"total_row {A} 4294967296 6", "?"),
        (f"total_row {A} 1,4294967296 6", "?"),
        (f"total_row {A} 6", "?"),
        (f"run_row {A} 1 4294967296", f"7 1 {A} 1"),
    ],
    # Twice 4 less 4, twice 4 less 9, twice 4 less 14; the true ones are 4, 1 and -8. Twice 4 is above 6. At rest the same; 8 and 4 before 5.
    "trend: case A": [
        *((f"trend {A} {i}", f"0 {trend}") for i, trend in enumerate([0, 4, -1, -6])),
        (f"trend {A} 4", "5 0"),
        *((f"trend {A_AT_REST} {i}", answer) for i, answer in [(2, "0 -1"), (4, "5 0")]),
        ("trend 5,6,10,13,1,6,0,0 - 4", "4 0"),
        ("trend 5,6,10,15,1,6,0,0 - 4", "8 0"),
    ],
    # The trend may be D - 1 above the true one and twice that below.
    "trend: both ends, and zero": [
        ("trend 1,2,2,0,0,2,0,0 80 1", "0 -1"),  # items 0 1 0 1: twice 0 less 1; true 1
        ("trend 1,2,2,1,0,2,0,0 00 1", "0 0"),  # items 1 0: twice 0 less 0; true -1
        ("trend 1,2,2,2,1,2,0,0 00 1", "0 1"),  # items 0 1 1: twice 1 less 1; true 0
        ("trend 1,2,2,1,0,2,0,0 80 1", "0 0"),  # items 0 1 1 1: twice 1 less 2; true 0
        ("trend 2,2,3,0,0,2,0,0 40 1", "0 1"),  # items 2 1: twice 1 less 1; true -1
    ],
    # Twice 2^63 is 2^64; twice that and 3 more is 6 above 2^64, and 6 are kept.
    "trend: windows of any size": [(f"trend {A} {i}", "5 0") for i in (2**63, 2**63 + 3, 2**64 - 1)],
    "totals: case A": [
        *((f"totals {A} {asked}", f"0 {figures}") for asked, figures in [("1 1", "4 4"), ("2 2", "4 9"), ("3 3", "4 14"), ("4 1", "9 14")]),
        *((f"totals {A} {asked}", f"0 {figures}") for asked, figures in [("0 0", "0 0"), ("0 4", "0 9"), ("4 0", "9 9"), ("6 0", "14 14")]),
        *((f"totals {A} {asked}", "5 0 0") for asked in ("6 1", "1 6", "7 0", "0 7")),
        (f"totals {A_AT_REST} 2 3", "0 4 14"),
        ("totals 5,6,10,13,1,6,0,0 - 7 0", "4 0 0"),
        ("totals 5,6,10,15,1,6,0,0 - 7 0", "8 0 0"),
    ],
    # In 64 bits each of the sums would be at most 6.
    "totals: windows of any size": [
        (f"totals {A} {i} {more}", "5 0 0") for i, more in [(2**64 - 1, 1), (2**63, 2**63), (1, 2**64 - 1), (2**64 - 1, 7), (6, 2**64 - 1)]
    ],
    "trend: lines that cannot be read, and some that just can": [
        *((f"trend {A} {rest}", "?") for rest in ("-1", "1 1", "18446744073709551616")),
        (f"trend {A} 01", "0 4"),
        (f"totals {A} 1", "?"),
        (f"total {A} 1 1", "?"),
    ],
    # Case A's blocks 5 5 and 0 1 are wholly kept, and the carry before them is 7. With tolerance 20 the first four items are a block: 7 + 11 is
    # below 20, and with the fifth R is 23. With 30 none is full. 40 is above 30. Then windows of the first, where 5, 6, 6, 11 and 16 are true.
    "coarser: case A": [
        (f"coarsen {A} 2 ffff", "0 5,6,20,23,1,5,1,0 1 00ff"),
        (f"coarsen {A} 3 ffff", "0 5,6,30,23,5,5,0,0 1 00ff"),
        (f"coarsen {A} 4 ffff", "3 5,6,10,13,1,6,0,0 0 ffff"),
        *((f"total 5,6,20,23,1,5,1,0 00 {i}", f"0 {figure}") for i, figure in enumerate([0, 4, 4, 4, 4, 4])),
        ("total 5,6,20,23,1,5,1,0 00 6", "5 0"),
        ("add 5,6,20,23,1,5,1,0 00 2", "0 5,6,20,25,2,6,1,0 00"),
    ],
    # Items 1 0 1: the first two are a block of 1, below 2, and R is 2 with the third; then 3 with a further 1.
    "coarser: the new tolerance reached in an open block": [
        ("coarsen 1,3,1,0,0,3,0,0 a0 2 ff", "0 1,3,2,2,1,3,1,0 1 00"),
        ("add 1,3,2,2,1,3,1,0 00 1", "0 1,3,2,1,0,3,0,0 40"),
        *((f"total 1,3,2,2,1,3,1,0 00 {i}", f"0 {figure}") for i, figure in [(1, 1), (3, 1)]),
    ],
    "coarser: how many times": [(f"coarsen {A} {m} ff", "19 5,6,10,13,1,6,0,0 0 ff") for m in (0, 1, 17, 2**32 + 2, 2**64 - 1)],
    # Whichever come after it; 11 is no multiple of 5.
    "coarser: the order of refusals": [
        ("coarsen 5,6,10,15,1,6,0,0 - 17 -", "8 5,6,10,15,1,6,0,0 0 -"),
        ("coarsen 5,6,10,13,1,6,0,0 - 17 -", "4 5,6,10,13,1,6,0,0 0 -"),
        (f"coarsen {A} 17 -", "19 5,6,10,13,1,6,0,0 0 -"),
        ("coarsen 5,6,11,13,1,6,0,0 40 4 -", "19 5,6,11,13,1,6,0,0 0 -"),
        (f"coarsen {A} 4 -", "3 5,6,10,13,1,6,0,0 0 -"),
        (f"coarsen {A} 2 -", "4 5,6,10,13,1,6,0,0 0 -"),
        (f"coarsen_row {A} 2 - -", "4 5,6,10,13,1,6,0,0 0 - -"),
        (f"coarsen_row {A} 2 ff -", "18 5,6,10,13,1,6,0,0 0 ff -"),
        (f"coarsen_row {A} 2 ff 9,5", "0 5,6,20,23,1,5,1,0 1 00 0,5"),
    ],
    "coarser: books at rest": [
        (f"coarsen {A_AT_REST} 2 ff", "0 5,6,20,23,1,5,1,1 1 00"),
        ("coarsen 5,6,10,13,1,6,0,256 40 2 ff", "0 5,6,20,23,1,5,1,256 1 00"),
        (f"coarsen {A_AT_REST} 1 ff", "19 5,6,10,13,1,6,0,1 0 ff"),
    ],
    # Eight slots of 1, four of 2, two of 4.
    "coarser: twice": [
        ("coarsen 1,8,1,0,0,8,0,0 ff 2 ff", "0 1,8,2,0,0,8,0,0 1 f0"),
        ("coarsen 1,8,2,0,0,8,0,0 f0 2 ff", "0 1,8,4,0,0,8,0,0 1 c0"),
        ("coarsen 1,8,1,0,0,8,0,0 ff 4 ff", "0 1,8,4,0,0,8,0,0 1 c0"),
    ],
    # 66 slots of 1, or 64 of them so far, make 33 or 32: the sums of the finished groups, and what is behind them stays.
    "coarser: rows of every size": [
        ("coarsen_row 1,66,1,0,0,66,0,0 ffffffffffffffffc0 2 ffffffffff 9,9,9", "0 1,66,2,0,0,66,0,0 5 ffffffff80 32,33,9"),
        ("coarsen_row 1,66,1,0,0,64,64,0 ffffffffffffffff00 2 ffffffffff 9,9", "0 1,66,2,0,0,64,32,0 5 ffffffff00 32,0"),
        ("coarsen_row 1,66,1,0,0,64,64,0 ffffffffffffffff00 2 ffffffffff 9", "18 1,66,1,0,0,64,64,0 0 ffffffffff 9"),
    ],
    "coarser: lines that cannot be read, and some that just can": [
        *((f"coarsen {A} {rest}", "?") for rest in ("2", "-2 ff", "2 ff 1", "2 f", "18446744073709551616 ff")),
        (f"coarsen {A} 02 ff", "0 5,6,20,23,1,5,1,0 1 00"),
        *((f"coarsen_row {A} 2 ff{rest}", "?") for rest in ("", " 4294967296", " 1 1")),
        (f"coarsen_row {A} 2 ff 4294967295", "0 5,6,20,23,1,5,1,0 1 00 0"),
    ],
    # Cases A, B and C with an item more, 2, 2 and 7. In A the block is closed as above. In B, R is 3: quotient 1 goes into slot 0, two bits wide, of
    # 00 10 00 01. In C quotient 7 goes into slot 1, four bits wide, of 2 0 4. Then each alone, and a byte behind all of them.
    "zones: cases A, B and C": [
        (
            f"zones_add {ZONE_A};{ZONE_B};{ZONE_C} 40212040 2,2,7",
            "0 0 5,6,10,5,0,6,1,0;3,4,2,1,0,4,1,0;9,3,1,0,0,3,2,0 c0612740",
        ),
        (f"zone_add {ZONE_A};{ZONE_B};{ZONE_C} 40212040 0 2", f"0 0 5,6,10,5,0,6,1,0;{ZONE_B};{ZONE_C} c0212040"),
        (f"zone_add {ZONE_A};{ZONE_B};{ZONE_C} 40212040 1 2", f"0 0 {ZONE_A};3,4,2,1,0,4,1,0;{ZONE_C} 40612040"),
        (f"zone_add {ZONE_A};{ZONE_B};{ZONE_C} 40212040 2 7", f"0 0 {ZONE_A};{ZONE_B};9,3,1,0,0,3,2,0 40212740"),
        (f"zones_add {ZONE_C};{ZONE_A} 204040ff 7,2", "0 0 9,3,1,0,0,3,2,0;5,6,10,5,0,6,1,0 2740c0ff"),
    ],
    "zones: how many": [
        ("zones_add - - -", "20 0 - -"),
        ("zone_add - ff 0 2", "20 0 - ff"),
        (f"zones_add {';'.join(['1,1,1,0,0,0,0,0'] * 96)} {'00' * 96} {','.join('1' * 96)}", f"0 0 {';'.join(['1,1,1,0,0,1,0,0'] * 96)} {'80' * 96}"),
        (f"zones_add {';'.join(['1,1,1,0,0,0,0,0'] * 97)} - {','.join('1' * 97)}", f"20 0 {';'.join(['1,1,1,0,0,0,0,0'] * 97)} -"),
    ],
    # A zone of 2 is the third. Another number of counts, then 8, then 4, then 17 and 7 of the lower zone, and of one zone 17.
    "zones: the order of refusals": [
        (f"zone_add {NO_ZONE};{NO_ZONE} - 2 6", f"20 0 {NO_ZONE};{NO_ZONE} -"),
        (f"zones_add {NO_ZONE};{NO_ZONE} - 6", f"20 0 {NO_ZONE};{NO_ZONE} -"),
        (f"zones_add {ZONE_AT_REST};{NO_ZONE} - 6,6", f"8 1 {ZONE_AT_REST};{NO_ZONE} -"),
        (f"zones_add {NO_ZONE};{NO_ZONE} - 6,6", f"8 0 {NO_ZONE};{NO_ZONE} -"),
        (f"zones_add {ZONE_AT_REST};{ZONE_A} 40 6,6", f"4 0 {ZONE_AT_REST};{ZONE_A} 40"),
        (f"zones_add {ZONE_AT_REST};{ZONE_A} 4040 6,6", f"17 0 {ZONE_AT_REST};{ZONE_A} 4040"),
        (f"zones_add {ZONE_A};{ZONE_AT_REST} 4040 6,6", f"7 0 {ZONE_A};{ZONE_AT_REST} 4040"),
        (f"zones_add {ZONE_A};{ZONE_AT_REST} 4040 2,6", f"17 1 {ZONE_A};{ZONE_AT_REST} 4040"),
        (f"zones_add {ZONE_A};{ZONE_A} 4040 2,6", f"7 1 {ZONE_A};{ZONE_A} 4040"),
    ],
    # Another zone that rests, or whose L is below the item, is no fault; one that is no book is, and so is a ring that its stretch lacks.
    "zones: one zone, and faults of the others": [
        (f"zone_add {ZONE_A};{ZONE_AT_REST} 4040 0 2", f"0 0 5,6,10,5,0,6,1,0;{ZONE_AT_REST} c040"),
        (f"zone_add {ZONE_A};{ZONE_AT_REST} 4040 1 6", f"17 1 {ZONE_A};{ZONE_AT_REST} 4040"),
        (f"zone_add {ZONE_A};{ZONE_C} 402040 1 7", f"0 0 {ZONE_A};9,3,1,0,0,3,2,0 402740"),
        (f"zone_add {ZONE_A};{ZONE_C} 402040 0 7", f"7 0 {ZONE_A};{ZONE_C} 402040"),
        (f"zone_add {ZONE_A};{NO_ZONE} 4040 0 2", f"8 1 {ZONE_A};{NO_ZONE} 4040"),
        (f"zone_add {ZONE_A};{ZONE_C} 4020 0 2", f"4 0 {ZONE_A};{ZONE_C} 4020"),
    ],
    "zones: lines that cannot be read, and some that just can": [
        *((f"zones_add {ZONE_A}{rest}", "?") for rest in ("; 40 2", ",0 40 2", ";- 40 2", " 40", " 40 2 2", " 40 2;2", f";;{ZONE_A} 4040 2,2")),
        (f"zones_add {ZONE_A} 40 02", "0 0 5,6,10,5,0,6,1,0 c0"),
        *((f"zone_add {ZONE_A} 40 {rest}", "?") for rest in ("0", "0 2 2", "-1 2", "0 -", "18446744073709551616 2")),
        (f"zone_add {ZONE_A} 40 18446744073709551615 2", f"20 0 {ZONE_A} 40"),
        (f"zones_add {';'.join([ZONE_A] * 97)} - -", f"20 0 {';'.join([ZONE_A] * 97)} -"),
        (f"zones_add {';'.join([ZONE_A] * 98)} - -", "?"),
    ],
    # A: 010 and five bits behind it. B: 00 11 00 01, of which 2 is the most, so that slot 1 becomes 10; it is the third newest. C: slots of four bits
    # that hold 9 at the most, slot 0 being the newest and slot 1 the oldest: each of them alone, all three, and bits and a byte behind them.
    "salvage: cases A, B and C": [
        ("salvage 5,6,10,13,1,6,0,0 5f 7,8,9", "0 0 5,6,10,13,1,6,0,0 40 7,8,9"),
        ("salvage 3,4,2,1,0,4,0,0 31 9,9,9,9", "0 1 3,4,2,1,0,2,0,0 21 1,9,9,9"),
        ("salvage 3,4,2,1,0,4,0,0 ff 9,9,9,9", "0 4 3,4,2,1,0,0,0,0 aa 0,1,2,3"),
        ("salvage 9,3,1,0,0,3,1,0 2a40 9,9,9", "0 1 9,3,1,0,0,2,1,0 2940 1,9,9"),
        ("salvage 9,3,1,0,0,3,1,0 20a0 9,9,9", "0 1 9,3,1,0,0,1,1,0 2090 2,9,9"),
        ("salvage 9,3,1,0,0,3,1,0 f040 9,9,9", "0 1 9,3,1,0,0,0,1,0 9040 0,9,9"),
        ("salvage 9,3,1,0,0,3,1,0 bcd0 9,9,9", "0 3 9,3,1,0,0,0,1,0 9990 1,2,0"),
        ("salvage 9,3,1,0,0,3,1,0 204fff 9,9,9", "0 0 9,3,1,0,0,3,1,0 2040ff 9,9,9"),
        *((f"total 9,3,1,0,0,2,1,0 2940 {i}", answer) for i, answer in [(1, "0 2"), (2, "0 6"), (3, "5 0")]),
    ],
    # Items 1 0 0 0 leave 00. Of the last three, all 0, this ring tells 1 + 2 * 1 - 1 - 1.
    "salvage: what cannot be seen": [
        ("salvage 1,3,2,1,0,3,0,0 80 0,0,0,0", "0 0 1,3,2,1,0,3,0,0 80 0,0,0,0"),
        ("total 1,3,2,1,0,3,0,0 80 3", "0 1"),
    ],
    # Slot 2 is the second newest: the last item alone is not in it or behind it.
    "salvage: how many items are kept": [
        (f"salvage 9,3,1,0,0,{kept},1,0 20a0 9,9,9", f"0 1 9,3,1,0,0,{then},1,0 2090 2,9,9") for kept, then in [(0, 0), (1, 1), (2, 1), (3, 1)]
    ],
    # 110 111 001 and seven bits behind them.
    "salvage: bits after the last slot": [("salvage 6,3,1,0,0,3,0,0 dcff 0,0,0", "0 1 6,3,1,0,0,1,0,0 d880 1,0,0")],
    "salvage: rows of slot numbers of every size": [
        *((f"salvage 9,3,1,0,0,3,1,0 20a0 {row}", f"21 0 9,3,1,0,0,3,1,0 20a0 {row}") for row in ("9,9", "-")),
        ("salvage 9,3,1,0,0,3,1,0 20a0 9,9,9,9", "0 1 9,3,1,0,0,1,1,0 2090 2,9,9,9"),
    ],
    # R has to be 0. Then nothing is amiss, and 2 + 0 + 9 is the sum.
    "salvage: the order of refusals": [
        ("salvage_row 9,3,1,1,0,3,1,0 20 1,2 -", "8 0 9,3,1,1,0,3,1,0 20 1,2 -"),
        ("salvage_row 9,3,1,0,0,3,1,0 20 1,2 -", "4 0 9,3,1,0,0,3,1,0 20 1,2 -"),
        ("salvage_row 9,3,1,0,0,3,1,0 20a0 1,2 -", "21 0 9,3,1,0,0,3,1,0 20a0 1,2 -"),
        ("salvage_row 9,3,1,0,0,3,1,0 20a0 1,2,3 -", "18 0 9,3,1,0,0,3,1,0 20a0 1,2,3 -"),
        ("salvage_row 9,3,1,0,0,3,1,0 20a0 1,2,3 7,5", "0 1 9,3,1,0,0,1,1,0 2090 2,2,3 11,5"),
    ],
    "salvage: books at rest": [
        (f"salvage 9,3,1,0,0,3,1,{mark} 20a0 9,9,9", f"0 1 9,3,1,0,0,1,1,{mark} 2090 2,9,9") for mark in (1, 256, 2**64 - 1)
    ],
    "salvage: twice": [("salvage 9,3,1,0,0,1,1,0 2090 2,9,9", "0 0 9,3,1,0,0,1,1,0 2090 2,9,9")],
    # 33 slots of two bits: each of them 3, and the last alone.
    "salvage: rows of sums around the ends of groups": [
        (f"salvage_row 2,33,1,0,0,33,0,0 {'ff' * 9} {SEVENS} 9,9,9", f"0 33 2,33,1,0,0,0,0,0 {'aa' * 8}80 {TO_32} 64,66,9"),
        (f"salvage_row 2,33,1,0,0,33,0,0 {'00' * 8}c0 {SEVENS} 9,9", f"0 1 2,33,1,0,0,0,0,0 {'00' * 8}80 32{SEVENS[1:]} 0,2"),
    ],
    # The sums were of the lap before, when slot 0 was 1. By those of now slots 1 to 31 are read singly, and slot 32 is 32 - 31.
    "salvage: rows of sums where nothing is altered": [
        (f"salvage_row 1,33,1,0,0,33,1,0 7fffffffff {SEVENS} 32,33", f"0 0 1,33,1,0,0,33,1,0 7fffffff80 {SEVENS} 31,32"),
        ("total_row 1,33,1,0,0,33,1,0 7fffffff80 31,32 33", "0 32 33 2"),
    ],
    "salvage: lines that cannot be read, and some that just can": [
        *((f"salvage 9,3,1,0,0,3,1,0 20f0{rest}", "?") for rest in ("", " 1,2,3 1", " 4294967296,2,3", " 1,2,")),
        ("salvage 9,3,1,0,0,3,1,0 20f0 0,7,4294967295", "0 1 9,3,1,0,0,1,1,0 2090 2,7,4294967295"),
        *((f"salvage_row 9,3,1,0,0,3,1,0 20f0 1,2,3{rest}", "?") for rest in ("", " 4294967296", " 1 1")),
    ],
    # Rings all 1: the slots count, and nothing behind them; one byte is too short for 12. Then slots 4 to 7 and 12 are 1, of 13; and of 72 the
    # first and the last.
    "ring: slots of one bit": [
        *((f"ring_sum 1 {slots} {'ff' * 3} 0 {slots}", f"0 {slots}") for slots in (1, 7, 8, 9, 12, 16, 24)),
        ("ring_sum 1 12 ffff 5 5", "0 5"),
        ("ring_sum 1 12 ffff 5 6", "0 6"),
        ("ring_sum 1 12 ffff 5 0", "0 0"),
        ("ring_sum 1 12 ff 5 0", "4 0"),
        *((f"ring_sum 1 13 0f0f 5 {j}", f"0 {ones}") for j, ones in [(1, 1), (5, 1), (6, 2), (10, 2), (11, 3), (13, 5)]),
        *((f"ring_sum 1 72 80{'00' * 7}01 1 {j}", f"0 {ones}") for j, ones in [(0, 0), (1, 1), (2, 2), (72, 2)]),
        *((f"ring_sum 1 72 80{'00' * 7}01 71 {j}", f"0 {ones}") for j, ones in [(70, 0), (71, 1), (72, 2)]),
    ],
    # 00101100; then all eight, the first and the last.
    "lit: in a byte": [
        *in_row("in_byte 44", {0: 0, 1: 3, 2: 5, 3: 6, 4: 0, 5: 0, 6: 0, 7: 0, 8: 0, 9: 0}),
        *in_row("in_byte 255", {0: 0, 1: 1, 2: 2, 7: 7, 8: 8, 9: 0}),
        *in_row("in_byte 128", {1: 1, 2: 0}),
        *in_row("in_byte 1", {1: 8, 2: 0}),
        *in_row("in_byte 0", {0: 0, 1: 0}),
    ],
    "lit: in a byte, numbers of any size": in_row("in_byte 255", {257: 0, 2**32: 0, 2**32 + 1: 0, 2**64 - 1: 0}),
    "lit: twelve frames": [
        *in_row(f"rank {TWELVE}", {0: 0, 2: 0, 3: 1, 4: 1, 8: 3, 9: 4, 11: 4, 12: 5, 13: None}),
        *in_row(f"rank_coarse {TWELVE} 2", {0: 0, 2: 0, 3: 0, 4: 0, 8: 2, 9: 4, 11: 4, 12: 4, 13: None}),
        *in_row(f"select {TWELVE}", {0: None, 1: 3, 2: 5, 3: 6, 4: 9, 5: 12, 6: None}),
        *in_row(f"select_coarse {TWELVE} 1", {0: None, 1: 3, 2: 5, 3: 6, 4: 9, 5: 12, 6: None}),
        *in_row(f"select_coarse {TWELVE} 2", {0: None, 1: 1, 2: 5, 3: 6, 4: 9, 5: 10, 6: None}),
        *in_row(f"select_coarse {TWELVE} 3", {0: None, 1: 1, 2: 1, 3: 6, 4: 7, 5: 7, 6: None}),
        *in_row(f"select_coarse {TWELVE} 18446744073709551615", {0: None, 1: 1, 2: 1, 3: 1, 4: 1, 5: 1, 6: None}),
        *in_row("rank 2c9f 16", {16: 9, 17: None}),
        *in_row("select 2c9f 16", {6: 13, 9: 16, 10: None}),
        *((line, "22 0") for line in ("rank 2c9f 17 0", "select 2c9f 17 1", "rank_coarse 2c9f 17 1 0", "select_coarse 2c9f 17 1 1")),
    ],
    # The first frame of the ninth byte; the last of the eighth.
    "lit: one lit frame": [
        *in_row(f"rank {'00' * 8}80 65", {64: 0, 65: 1}),
        *in_row(f"select {'00' * 8}80 65", {1: 65, 2: None}),
        *in_row(f"rank {'00' * 7}01 64", {63: 0, 64: 1}),
        *in_row(f"select {'00' * 7}01 64", {1: 64, 2: None}),
    ],
    # 00000 and 111 behind it, 11111 and 000 behind it.
    "lit: bits behind the length": [
        *in_row("rank 07ff 5", {5: 0, 6: None}),
        *in_row("select 07ff 5", {1: None}),
        *in_row("rank f800 5", {5: 5, 6: None}),
        *in_row("select f800 5", {1: 1, 5: 5, 6: None}),
    ],
    # Sixteen lit frames.
    "lit: steps": [
        *in_row("rank_coarse ffff 16 8", {0: 0, 7: 0, 8: 8, 15: 8, 16: 16}),
        *in_row("select_coarse ffff 16 8", {1: 1, 7: 1, 8: 8, 9: 9, 10: 9, 15: 9, 16: 16}),
        *((f"rank_coarse ffff 16 {d} 16", f"0 {r}") for d, r in [(1, 16), (15, 15), (16, 16), (17, 0), (100, 0)]),
        *((f"select_coarse ffff 16 {d} 16", f"0 {place}") for d, place in [(1, 16), (15, 16), (16, 16), (17, 1), (100, 1)]),
        *((f"select_coarse ffff 16 {d} 15", f"0 {place}") for d, place in [(2, 15), (4, 13), (14, 15), (15, 15), (16, 1)]),
    ],
    # Of 65,536 the largest multiple of 100 is 65,500.
    "lit: the longest rows": [
        *in_row(f"rank {ALL_LIT}", {65536: 65536}),
        *in_row(f"select {ALL_LIT}", {65536: 65536, 65537: None}),
        *in_row(f"rank_coarse {ALL_LIT} 100", {65536: 65500}),
        *in_row(f"select_coarse {ALL_LIT} 100", {65536: 65501}),
    ],
    "lit: no bytes": [
        *in_row("rank - 0", {0: 0, 1: None}),
        *in_row("rank - 1", {0: None}),
        *in_row("select - 0", {0: None, 1: None}),
        *in_row("rank_coarse - 0 18446744073709551615", {0: 0}),
        *in_row("rank_coarse - 0 0", {0: None}),
    ],
    # Seven more than each of the first two is 2^64 and above it.
    "lit: lengths of any size": [(f"rank {data} {length} 0", "22 0") for length in (2**64 - 7, 2**64 - 1, 2**61) for data in ("-", "ff")],
    # A step of 0, a number that is too large or 0, and both.
    "lit: refusals alone and together": [
        *((f"rank_coarse {TWELVE} {asked}", "22 0") for asked in ("0 0", "0 12", "1 13", "0 13")),
        *((f"select_coarse {TWELVE} {asked}", "22 0") for asked in ("0 1", "1 0", "0 0", "1 6", "0 6")),
    ],
    "lit: above the longest rows": [(f"{name} {'ff' * 8193} 65537 1", "22 0") for name in ("rank", "select")],
    "lit: lines that cannot be read, and some that just can": [
        ("in_byte 255 1", "0 1"),
        ("in_byte 0044 01", "0 3"),
        *((f"in_byte {rest}", "?") for rest in ("256 1", "-1 1", " 1", "44", "44 1 1", "44 18446744073709551616")),
        ("in_byte 44 18446744073709551615", "0 0"),
        *((f"rank {rest}", "?") for rest in ("2c9 0 0", "2C9F 12 1", "2c9f 12", "2c9f 12 1 1", " 0 0", "2c9f 12 -1", "2c9f 12 18446744073709551616")),
        ("rank 2c9f 012 0012", "0 5"),
        ("rank 2c9f 12 18446744073709551615", "22 0"),
        *((f"select_coarse 2c9f 12 {rest}", "?") for rest in ("1", "1 1 1", "- 1", "18446744073709551616 1")),
    ],
    "case G: ranges of width, height and maxval": [
        ("pgm -", "14 0 0 0 0 0 0"),
        (f"pgm {b'P5 1025 '.hex()}", "12 0 0 0 0 0 0"),
        (f"pgm {b'P5 1024 '.hex()}", "14 0 0 0 0 0 0"),
        (f"pgm {b'P5 1 1 65536 '.hex()}", "12 0 0 0 0 0 0"),
        (f"pgm {b'P5 1 1 65535 '.hex()}", "14 0 0 0 0 0 0"),
    ],
    # A comment before a number; behind P5, without a white byte and with one; before and in P5. Behind the delimiter it is a pixel.
    "images: comments": pgm(
        (b"P5 #c\n1 1 255 \x07", "0 1 1 255 15 14 1"),
        (b"P5#c\n2 2 255\n\x07\x07\x07\x07", 11),
        (b"P5#c\n 2 2 255\n\x07\x07\x07\x07", "0 2 2 255 18 14 4"),
        (b"P5#", 14),
        (b"P#", 11),
        (b"#", 11),
        (b"P5 1 1 255 #", "0 1 1 255 12 11 1"),
        (b"P5 1 1 34 #", 15),
    ),
    # CR ends the comment and LF delimits; LF ends it and nothing delimits; a digit goes on, to 2557 and to 65536.
    "images: comments and their ends": pgm(
        (b"P5 1 1 255#c\r\n\x07", "0 1 1 255 15 14 1"),
        (b"P5 1 1 255#c\n\x07", 11),
        (b"P5 1 1 255#c\n7 \x07", 14),
        (b"P5 1 1 255#c\n7 \x07\x07", "0 1 1 2557 17 15 2"),
        (b"P5 1 1 6553#c\n6 \x07", 12),
        (b"P5 1 1 255#c\n", 14),
    ),
    # 12 x 1; 1 x 2; 1025, judged at the white byte behind the comment and not at the comment.
    "images: comments and numbers": pgm(
        (b"P5 1#c\n2 1 255\n" + bytes(12), "0 12 1 255 27 15 12"),
        (b"P5 1#c\n 2 255\n" + bytes(2), "0 1 2 255 16 14 2"),
        (b"P5 10#c\n25 1 255 ", 12),
        (b"P5 1025#c", 14),
        (b"P5 1025#c\n", 14),
        (b"P5 1025#c\nx", 11),
        (b"P5 1025#c\n x", 12),
    ),
    # Comments without end in slices of 24,575 and 24,576 bytes; a line end as byte 24,574, then the delimiter and one pixel; one byte more.
    "images: comments at the limit": pgm(
        (b"P5#" + b"c" * 24572, 14),
        (b"P5#" + b"c" * 24573, 13),
        (b"P5 1 1 255#" + b"c" * 24562 + b"\n \x07", "0 1 1 255 24576 24575 1"),
        (b"P5 1 1 255#" + b"c" * 24563 + b"\n \x07", 13),
        (b"P5 24 1023 255#ccccccc\n\n", 14),
        (b"P5 24 1023 255#cccccccc\n\n", 13),
    ),
    # One byte at 255, two bytes at 256 and at 65535.
    "images: two bytes a pixel, ranges of maxval": pgm(
        (b"P5 1 1 255 \1\0", "0 1 1 255 12 11 1"),
        (b"P5 1 1 256 \1\0", "0 1 1 256 13 11 2"),
        (b"P5 1 1 256 \1", 14),
        (b"P5 1 1 65535 \xff\xff", "0 1 1 65535 15 13 2"),
        (b"P5 1 1 65536 \xff\xff", 12),
    ),
    # 4095 is 0f ff: at it, above it, and below it in the higher byte alone. 256 is 01 00: below it with a larger lower byte, and above it in the
    # lower byte alone; the last pixel, and what is behind it.
    "images: two bytes a pixel, bright pixels": pgm(
        (b"P5 1 1 4095 \x0f\xff", "0 1 1 4095 14 12 2"),
        (b"P5 1 1 4095 \x10\0", 15),
        (b"P5 1 1 4095 \x0e\xff", "0 1 1 4095 14 12 2"),
        (b"P5 1 1 256 \0\xff", "0 1 1 256 13 11 2"),
        (b"P5 1 1 256 \1\1", 15),
        (b"P5 2 1 256 \1\0\1\1", 15),
        (b"P5 2 1 256 \1\0\1\0\1\1", "0 2 1 256 15 11 4"),
    ),
    # The header has 16 bytes and the raster 24,560; with a white byte more it is too large. So is 1024 x 12, 24,576 without a header.
    "images: two bytes a pixel, limits": pgm(
        (b"P5 40 307 65535\n" + b"\xff" * 24560, "0 40 307 65535 24576 16 24560"),
        (b"P5 40 307 65535\n", 14),
        (b"P5  40 307 65535\n", 13),
        (b"P5 1024 12 256\n", 13),
        (b"P5 1024 12 255\n", 14),
    ),
    # 12 parts of 255: of 100 they are 4.7, of 4095 192.7, of 65535 3084. 254 parts of 1 are below 1, and 255 are 1.
    "scores: allowances in parts of maxval": [
        (f"score 600 {a} {x.hex()} {y.hex()}", f"0 {count}")
        for a, x, y, count in [
            (12, b"P5 2 1 100 \0\0", b"P5 2 1 100 \4\5", 1),
            (12, b"P5 2 1 4095 \0\0\1\0", b"P5 2 1 4095 \0\xc0\1\xc1", 1),
            (12, b"P5 2 1 65535 \x0c\x0c\x0c\x0d", b"P5 2 1 65535 \0\0\0\0", 1),
            (254, b"P5 2 1 1 \0\1", b"P5 2 1 1 \1\0", 2),
            (255, b"P5 2 1 1 \0\1", b"P5 2 1 1 \1\0", 0),
        ]
    ],
    # 00 ff and 01 00 are 1 apart, 00 00 and 01 01 257, which is one part of 255.
    "scores: two bytes a pixel": [
        (f"score 600 {a} {b'P5 2 1 65535 '.hex()}00ff0000 {b'P5 2 1 65535 '.hex()}01000{low}0{low}", f"0 {count}")
        for a, low, count in [(0, 1, 2), (1, 1, 0), (1, 2, 1)]
    ],
    "scores: unlike maxvals": [
        (f"score 600 12 {b'P5 1 1 255 '.hex()}00 {b'P5 1 1 256 '.hex()}0000", "16 0"),
        (f"score 600 12 {b'P5 1 1 256 '.hex()}0000 {b'P5 1 1 257 '.hex()}0000", "16 0"),
    ],
    # Two pixels have changed, wherever the rasters start.
    "scores of images with comments": [
        (f"score 600 12 {DARK.hex()} {LIT.hex()}", "0 2"),
        (f"score 600 12 {DARK.hex()} {b'P5#c'.hex()}", "14 0"),
        (f"score 600 12 {b'P#'.hex()} {DARK.hex()}", "11 0"),
    ],
    # Of the program's first two images the first and the third position moved; of the row of nine all did, and the last has a byte of its own.
    "masks": [
        *score_mask(
            *(2, 2),
            [
                (b"P4 2 2\n\x3f\x3f", "0 2"),  # white, the padding black
                (b"P4 2 2\n\x80\x00", "0 1"),
                (b"P4 2 2\n\x40\x00", "0 2"),
                (b"P4 2 2\n\x00\x80", "0 1"),
                (b"P4 2 2\n\x00\x40", "0 2"),
                (b"P4 2 2\n\xc0\xc0", "0 0"),
            ],
            pixels=bytes([20, 12, 13, 0]),
        ),
        *score_mask(9, 1, [(b"P4 9 1\n\0\x7f", "0 9"), (b"P4 9 1\n\x01\x80", "0 7"), (b"P4 9 1\n\xfe\xff", "0 1")]),
    ],
    # A row of 7 takes as many bytes as one of 8.
    "masks: other sizes, and images that differ": score_mask(8, 1, [(b"P4 7 1\n\0", 16), (b"P4 8 2\n\0\0", 16), (b"P4 8 1\n\0", "0 8")]),
    "masks: wrong bytes": score_mask(1, 1, [(b"P5 1 1 255\n\0", 11), (b"P41 1\n\0", 11), (b"P4 1025x", 11)]),
    "masks: ends": score_mask(1, 1, [(b"", 14), (b"P4 1 1", 14), (b"P4 1 1\n", 14), (b"P4 1025", 14), (b"P4 1025 ", 12), (b"P4 1 0 ", 12)]),
    # 85 · 289 is 24,565, and that header has 11 bytes. 128 · 192 is 24,576 without a header.
    "masks: limits": score_mask(
        *(1, 1), [(b"P4 680 289\n", 14), (b"P4  680 289\n", 13), (b"P4 681 289\n", 13), (b"P4 1024 191\n", 14), (b"P4 1024 192\n", 13)]
    ),
    # The width goes on behind the comment; a # behind the delimiter is 00100011.
    "masks: comments": score_mask(
        10, 1, [(b"P4 1#c\n0 1 \0\0", "0 10"), (b"P4 10 1#c\n\0\0", 11), (b"P4 10 1#c\r\n\0\0", "0 10"), (b"P4 10 1 ##", "0 7"), (b"P4 #", 14)]
    ),
    # The example of docs/SCOPE.md.
    "page: the example": [
        page("4 9", "0 newest 11 4 9"),
        page("4 10", "0 older 10 3 299"),
        page("4 19", "0 older 10 3 299"),
        page("4 9", "0 older 10 3 299", book=A_AT_REST),
        page("4 9", "0 newest 11 4 0", ticks=(4294967290, 4294967000, 4294967290)),
        page("4 9", "0 newest 11 4 4294967295", ticks=(4294967290, 4294967000, 4294967289)),
        page("4 0", 6),
        page("7 9", 5),
        *(page(asked, 14, newest=CUT) for asked in ("4 9", "4 19")),
        *(page(asked, 15, older=BRIGHT) for asked in ("4 9", "4 19")),
        *(page(asked, 14, newest=CUT, older=BRIGHT) for asked in ("4 9", "4 19")),
        page("7 9", 5, newest=CUT, older=BRIGHT),
    ],
    # Window 5 of case A has 14, and window 1 of case C 2, with a tolerance of 1, so that nothing is undecided there.
    "page: where the verdict turns": [
        *(page(f"5 {v}", "0 newest 11 4 9") for v in (13, 14)),
        *(page(f"5 {v}", "0 older 10 3 299") for v in (15, 23, 24)),
        page("1 2", "0 newest 11 4 9", book="9,3,1,0,0,3,1,0 2040"),
        page("1 3", "0 older 10 3 299", book="9,3,1,0,0,3,1,0 2040"),
    ],
    "page: marks": [page("4 9", "0 older 10 3 299", book=f"5,6,10,13,1,6,0,{mark} 40") for mark in (2, 256, 2**32, 2**64 - 1)],
    # Picture, now and age; the other picture's tick is 77. Once around the counter makes 4,294,967,296 steps.
    "page: ticks at the ends": [
        figure
        for tick, now, age in [(0, 0, 0), (0, LAST, LAST), (LAST, 0, 1), (LAST, LAST, 0), (1, 0, LAST), (2**31, 0, 2**31)]
        for figure in (page("4 9", f"0 newest 11 4 {age}", ticks=(tick, 77, now)), page("4 19", f"0 older 10 3 {age}", ticks=(77, tick, now)))
    ],
    # Pixels of two bytes; comments of 9 bytes before the width, of 3 behind the height and of 2 behind maxval; zeros in front. Each image with the
    # other one behind it, and in the other one's place.
    "page: images of every kind": [
        page("4 9", "0 newest 11 4 9", newest=b"P5 2 1 256 \x01\x00\x00\xff"),
        page("4 10", "0 older 24 3 299", older=b"P5 #made by\n3 1#c\r 15#\r\n\x0f\x00\x07"),
        page("4 10", "0 older 21 4 299", older=b"P5 0001 002 00065535 \x01\x02\x03\x04"),
        page("4 9", "0 newest 11 4 9", newest=NEWEST + OLDER),
        page("4 10", "0 older 10 3 299", older=OLDER + NEWEST),
        page("4 9", "0 newest 10 3 9", newest=OLDER),
        page("4 19", "0 older 11 4 299", older=NEWEST),
    ],
    "page: empty slices": [
        *(page(asked, 14, newest=b"") for asked in ("4 9", "4 19")),
        *(page(asked, 14, older=b"") for asked in ("4 9", "4 19")),
        page("4 9", 4, newest=b"", older=b"", book="5,6,10,13,1,6,0,0 -"),
    ],
    # One fault less each time.
    "page: the order of refusals": [
        page("7 0", 8, newest=BRIGHT, older=CUT, book="5,6,10,15,1,6,0,0 -"),
        page("7 0", 4, newest=BRIGHT, older=CUT, book="5,6,10,13,1,6,0,0 -"),
        *(page(asked, 6, newest=BRIGHT, older=CUT) for asked in ("7 0", "0 9")),
        page("7 9", 5, newest=BRIGHT, older=CUT),
        *(page(asked, 15, newest=BRIGHT, older=CUT) for asked in ("6 9", "6 99")),
        *(page(asked, 14, older=CUT) for asked in ("6 9", "6 99")),
    ],
    # Each tick as large as it can be, and one larger, also where the call would be refused; nine words and eleven.
    "page: lines that cannot be read, and some that just can": [
        page("4 9", "0 newest 11 4 4294967292", ticks=(LAST, LAST, LAST - 4)),
        *(page("4 9", "?", ticks=ticks) for ticks in ((2**32, 0, 3), (0, 2**32, 3), (0, 0, 2**32), (0, 0, 2**64), (0, 0, "-"), (0, 0, ""))),
        *(page("4 9", "?", ticks=(0, 0, now)) for now in ("3 3", "-1", "3 ")),
        page("7 0", "?", ticks=(0, 0, 2**32)),
        page("4", "?"),
        page("4 9 9", "?"),
        page("4 9", "0 newest 11 4 9", ticks=("004294967290", "00", "03")),
    ],
    # The numbers of cases A to D and of the program's setting, all five of each.
    "shapes": [
        ("shape 5 6 10", "0 2 3 1 1 1"),
        ("shape 3 4 2", "0 1 4 2 2 1"),
        ("shape 9 3 1", "0 1 3 9 4 2"),
        ("shape 5 3 10", "0 2 2 1 1 1"),
        ("shape 5 3 15", "0 3 1 1 1 1"),
        ("shape 5 3 16", "3 0 0 0 0 0"),
        ("shape 600 1440 3600", "0 6 240 1 1 30"),
    ],
}

# L, n, D, the items, and the record and ring that they leave.
LIVES = [
    (5, 6, 10, [3, 4, 5, 5, 0, 1, 5], "5,6,10,13,1,6,0,0 40"),
    (5, 6, 10, [3, 4, 5, 5, 0, 1, 5, 2], "5,6,10,5,0,6,1,0 c0"),
    (3, 4, 2, [1, 3, 0, 3], "3,4,2,1,0,4,0,0 21"),
    (9, 3, 1, [9, 0, 4, 2], "9,3,1,0,0,3,1,0 2040"),
    (1, 2, 2, [0, 1, 0, 1], "1,2,2,0,0,2,0,0 80"),
    (1, 2, 2, [1, 0], "1,2,2,1,0,2,0,0 00"),
    (1, 2, 2, [0, 1, 1], "1,2,2,2,1,2,0,0 00"),
    (1, 2, 2, [0, 1, 1, 1], "1,2,2,1,0,2,0,0 80"),
    (2, 2, 3, [2, 1], "2,2,3,0,0,2,0,0 40"),
]


def lines(section):
    """The calls whose answers are worked by hand, of one section."""
    return [line for line, _ in FIGURES.get(section, [])]


def one_by_one(record, ring, items):
    """The record and the ring after an adding for each of the items."""
    for x in items:
        _, record, ring = model.add(record, ring, x)
    return record, ring


def at_once(record, ring, items):
    """The record and the ring after one run of the items."""
    return model.run(record, ring, items)[2:]


def with_rests(record, ring, items):
    """The record and the ring after an adding for each of the items, each tried before that while the book rests."""
    for x in items:
        _, record = model.rest(record)
        record, ring = one_by_one(record, ring, [x])
        _, record = model.wake(record)
        record, ring = one_by_one(record, ring, [x])
    return record, ring


def after(way, L, n, D, items):
    """The record and the ring of a book opened and given the items in this way, as they are written on a line."""
    _, record, ring = model.open_book(L, n, D, b"\xff" * model.book_bytes(L, n, D))
    return " ".join(answers.show(part) for part in way(record, ring, items))


def faults():
    """What the model gets wrong of all this, in words; nothing, it is hoped."""
    for line, expected in (figure for figures in FIGURES.values() for figure in figures):
        if answers.answer(line) != expected:
            yield f"{line}: the model answers {answers.answer(line)}, worked by hand {expected}"
    for L, n, D, items, expected in LIVES:
        for way in (one_by_one, at_once, with_rests):
            if after(way, L, n, D, items) != expected:
                yield f"items {items}, {way.__name__}: the model leaves {after(way, L, n, D, items)}, worked by hand {expected}"
