"""Books with a row of sums: openings, items and runs, by sections. Whole lives are in row_lives.py, totals in row_total_calls.py."""

import itertools
import random

import model
from answers import MOST_BYTES, MOST_NUMBERS, show
from book_calls import any_book
from calls import TOP, call
from model import Record
from paper_cases import BOOK
from row_books import FEW_SLOTS, MOST_SLOTS, TOP_SUM, full, heads, kept
from row_model import entries, slots
from run_calls import counts_above, opened, some_counts

# Case A's record, as it is and with too large a carry, awake and at rest.
JUDGED = [BOOK._replace(R=R, mark=mark) for R in (13, 15) for mark in (0, 1)]


def openings(rng):
    """Every number of slots, with rows of as many numbers as are used, of more, of one fewer, and of none. The numbers behind them stay."""
    for s in (*FEW_SLOTS, MOST_SLOTS):
        ring = rng.randbytes(model.book_bytes(1, s, 1) + 1)
        for size in (entries(s), entries(s) + 1, entries(s) + 40, entries(s) - 1, 0):
            yield call("open_row", 1, s, 1, ring, [rng.randint(0, TOP_SUM) for _ in range(size)])
    for L, n, D in ((5, 6, 10), (600, 1440, 3600), (9, 65, 4), (65535, 4096, 65535 * 4096), (65535, 34, 1), (7, 200, 40)):
        used = entries(slots(Record(L, n, D, 0, 0, 0, 0)))
        yield call("open_row", L, n, D, rng.randbytes(model.book_bytes(L, n, D)), [TOP_SUM] * (used + 2))


def bad_openings():
    """1, 2, 3, 4, 18: each with and without those that come after it."""
    for L, n, D, ring, row in itertools.product((5, 0), (6, 0), (10, 0), (b"\xff", b""), ([TOP_SUM, 7], [])):
        yield call("open_row", L, n, D, ring, row)
    for L, n, D in ((65535, 6, 10), (65536, 6, 10), (5, 4096, 20480), (5, 4097, 10), (5, 6, 30), (5, 6, 31), (TOP, TOP, TOP)):
        yield call("open_row", L, n, D, b"\xff" * 9, [TOP_SUM])
        yield call("open_row", L, n, D, b"\xff" * 9, [])


def items(rng):
    """An item at each head around the ends, with the row that was kept and one number behind it, and with any numbers; at 4,096 slots at some."""
    for s in FEW_SLOTS:
        for head in heads(s):
            record, ring, row = full(rng, 7, s, head)
            x = rng.randint(0, 7)
            yield call("add_row", record, ring, row + [TOP_SUM], x)
            yield call("add_row", record, ring, [rng.randint(0, TOP_SUM) for _ in row], x)
    for head in (30, 31, 32, 2047, 2048, 4094, 4095):
        record, ring, row = full(rng, 1, MOST_SLOTS, head)
        yield call("add_row", record, ring + b"\xa5", row + [9], 1)


def open_blocks(rng):
    """Blocks of three items: in the first two nothing is stored, whatever slot is the next; with the third it is where that slot ends a group."""
    for L, n, D in ((5, 100, 15), (4, 195, 13)):
        s = model.slot_count(L, n, D)
        for head, p in itertools.product((30, 31, 32, s - 2, s - 1), range(3)):
            record = Record(L, n, D, rng.randint(0, D - 1 + p * L), p, n, head)
            row = [rng.randint(0, TOP_SUM) for _ in range(entries(s) + 1)]
            yield call("add_row", record, rng.randbytes(model.book_bytes(L, n, D)), row, rng.randint(0, L))


def rows_any_size(rng):
    """Each call with a row of none, of one number too few, of just enough, of one and of forty more."""
    for s in (*FEW_SLOTS, MOST_SLOTS):
        record, ring, row = full(rng, 1, s, s - 1)
        for size in (0, entries(s) - 1, entries(s), entries(s) + 1, entries(s) + 40):
            lent = (row + [rng.randint(0, TOP_SUM) for _ in range(40)])[:size]
            yield call("add_row", record, ring, lent, 1)
            yield call("run_row", record, ring, lent, [1])
            yield call("total_row", record, ring, lent, s)


def order():
    """8, 4, 18, 17, 7 for items and runs, 8, 4, 18, 5 for totals: each with and without those that come after it."""
    for record, ring, row in itertools.product(JUDGED, (b"\x40", b""), ([1, 9], [])):
        for x in (2, 6):
            yield call("add_row", record, ring, row, x)
        for counts in ([], [2], [2, 6]):
            yield call("run_row", record, ring, row, counts)
        for i in (0, 6, 7):
            yield call("total_row", record, ring, row, i)


def longer_order(rng):
    """The same for 65 slots of three bits, where the ring is short by its last byte and the row by its last number; what comes last holds."""
    record, ring, row = full(rng, 7, 65, 31)
    for head, mark, lent, sums in itertools.product((31, 65), (0, TOP), (ring, ring[:-1]), (row, row[:-1])):
        judged = record._replace(head=head, mark=mark)
        yield call("add_row", judged, lent, sums, 8)
        yield call("run_row", judged, lent, sums, [0, 8])
        yield call("total_row", judged, lent, sums, 66)


def runs(rng):
    """Runs that end before, at and behind an end, and one or more laps later, with the row that was kept and with any numbers; and no counts."""
    for s, head, sizes in (
        (65, 30, (0, 1, 2, 3, 33, 34, 35, 36, 64, 65, 66, 67, 200)),
        (64, 63, (0, 1, 2, 32, 33, 34, 64, 65, 66, 129)),
        (33, 31, (1, 2, 3, 33, 34, 35, 100)),
        (32, 0, (0, 31, 32, 33, 64, 95)),
        (31, 29, (1, 2, 3, 31, 62, 64)),
        (1, 0, (0, 1, 2, 300)),
    ):
        for size in sizes:
            record, ring, row = full(rng, 3, s, head)
            counts = some_counts(rng, 3, size)
            yield call("run_row", record, ring, row + [TOP_SUM], counts)
            yield call("run_row", record, ring, [rng.randint(0, TOP_SUM) for _ in row], counts)


def runs_of_blocks(rng):
    """Blocks of three items: runs that leave the block at an end open, fill it, and go on."""
    for L, n, D, head in ((5, 100, 15, 31), (4, 195, 13, 64)):
        for p, size in itertools.product((0, 2), (1, 2, 3, 4, 90, 200)):
            record = Record(L, n, D, D - 1, p, n, head)
            ring = rng.randbytes(model.book_bytes(L, n, D) + 1)
            row = [rng.randint(0, TOP_SUM) for _ in range(entries(slots(record)))]
            yield call("run_row", record, ring, row, some_counts(rng, L, size))


def longest_runs(rng):
    """4,096 slots: up to the last one and over it, to every end of a lap, and in blocks of two."""
    for head, size in ((4095, 1), (4094, 3), (2040, 40), (5, 4096)):
        record, ring, row = full(rng, 1, MOST_SLOTS, head)
        yield call("run_row", record, ring, row, some_counts(rng, 1, size))
    record, ring, row = kept(rng, 1, MOST_SLOTS, 2, 5000)
    yield call("run_row", record, ring, row, some_counts(rng, 1, 1000))


def counts_too_large(rng):
    """A count above L in each place around an end: row and ring are as they were. Two of them, and counts above 2^32."""
    record, ring, row = full(rng, 5, 33, 29)
    for place in range(7):
        counts = some_counts(rng, 5, 7)
        counts[place] = rng.choice(counts_above(5))
        yield call("run_row", record, ring, row + [3], counts)
    for first, second in ((6, TOP), (TOP, 6), (2**32, 2**32 + 5)):
        yield call("run_row", record, ring, row, [5, 5, 5, first, second, 5])
    for size in (1, 32, 33, 34, 66):
        yield call("run_row", record, ring, row, some_counts(rng, 5, size - 1) + [6])
    for x in counts_above(5):
        yield call("add_row", record, ring, row, x)


def histories(rng, count):
    """Any book with any numbers in its row: an item, a run, and totals."""
    for _ in range(count):
        record, ring = any_book(rng)
        used = entries(slots(record))
        row = [rng.randint(0, rng.choice([9, 9999, TOP_SUM])) for _ in range(used + rng.choice([0, 0, 1]))]
        yield call("add_row", record, ring, row, rng.choice([0, record.L, rng.randint(0, record.L), record.L + 1]))
        counts = some_counts(rng, record.L, rng.randint(1, 40))
        if rng.randrange(6) == 0:
            counts[rng.randrange(len(counts))] = rng.choice(counts_above(record.L))
        yield call("run_row", record, ring, row, counts)
        for i in sorted({rng.randint(0, record.kept), rng.randint(0, record.kept), record.kept, record.kept + 1}):
            yield call("total_row", record, ring, row, i)


def longest_line(rng):
    """The longest line that a call needs: a record and counts of 20 digits, as many bytes as are taken, and as many sums of ten digits."""
    record, ring = opened(5, 4096, 5 * 4096)
    row = [rng.randint(10**9, TOP_SUM) for _ in range(MOST_NUMBERS)]
    long_record, long_counts = (",".join(str(x).zfill(20) for x in part) for part in (record, some_counts(rng, 5, MOST_NUMBERS)))
    return " ".join(["run_row", long_record, show(ring.ljust(MOST_BYTES, b"\xa5")), show(row), long_counts])


def most_numbers(rng):
    """As many as a row can have, and beside as many counts, up to the longest line. And one more of either."""
    yield longest_line(rng)
    record, ring, row = full(rng, 1, 65, 40)
    few = row + [rng.randint(0, 9) for _ in range(MOST_NUMBERS - len(row))]
    yield call("open_row", 1, 65, 1, ring, few)
    yield call("add_row", record, ring, few, 1)
    yield call("total_row", record, ring, few, 65)
    yield call("run_row", record, ring, few, some_counts(rng, 1, MOST_NUMBERS))
    yield call("total_row", record, ring, few + [0], 65)
    yield call("run_row", record, ring, few, some_counts(rng, 1, MOST_NUMBERS) + [0])
    yield call("open_row", 1, 65, 1, ring, few + [0])


# The arguments of each call, the row last but for what follows it.
GOOD = {
    "open_row": ("5 6 10 ff", ""),
    "add_row": ("5,6,10,13,1,6,0,0 40", " 2"),
    "run_row": ("5,6,10,13,1,6,0,0 40", " 2,3"),
    "total_row": ("5,6,10,13,1,6,0,0 40", " 6"),
}
# Rows that are none, beside some that just are.
TEXTS = (
    *("", ",", "1,", ",1", "1,,2", "-,1", "1,-", "--", "-1", "+1", "a", "1;2", "1.5", "0x1", "1, 2", "1\t2", "01,002", "0" * 30 + "5,1"),
    *(str(number) for number in (TOP_SUM, TOP_SUM + 1, TOP_SUM + 2, 2**33, 2**63, TOP, TOP + 1, 2**65, 10**30)),
    *(f"0,{number}" for number in (TOP_SUM, TOP_SUM + 1, 2**33 + 1, TOP + 2)),
    *(f"0,{number},1" for number in (TOP_SUM, TOP_SUM + 1)),
    *("0" * 20 + str(TOP_SUM), "0" * 20 + str(TOP_SUM + 1)),
)


def unreadable():
    """Rows that are none, or whose numbers have more than 32 bits, also where they are not used; and names, records and arguments."""
    for name, (before, behind) in GOOD.items():
        yield from (f"{name} {before} {row}{behind}" for row in (TEXTS if name == "total_row" else TEXTS[::3]))
        whole = f"{before} 1{behind}"
        yield from (name, f"{name} ", f"{name} {before}{behind}", f"{name} {whole} ", f" {name} {whole}", f"{name}  {whole}", f"{name} {whole} 1")
        yield from (f"{name}s {whole}", f"{name[:-1]} {whole}", f"{name.upper()} {whole}", f"{name} {whole}\r", f"{name[:-4]} {whole}")
        yield f"{name} {before} - {behind[1:]}".rstrip()
    for name in ("add_row", "run_row", "total_row"):
        for record in ("5,6,10,13,1,6,0", "5,6,10,13,1,6,0,0,0", f"5,6,10,13,1,6,0,{TOP + 1}"):
            yield f"{name} {record} 40 1 2"
        yield from (f"{name} 5,6,10,13,1,6,0,0 4 1 2", f"{name} 5,6,10,13,1,6,0,0 FF 1 2", f"{name} 5,6,10,13,1,6,0,0 40 1 -")
        yield from (f"{name} 5,6,10,13,1,6,0,0 40 1 {number}" for number in (2**32, TOP, TOP + 1))
    yield f"run_row 5,6,10,13,1,6,0,0 40 1 2,{TOP + 1}"


def sections():
    yield "row: openings", openings(random.Random(38))
    yield "row: bad openings", bad_openings()
    yield "row: items around the ends of groups", items(random.Random(39))
    yield "row: items of blocks", open_blocks(random.Random(40))
    yield "row: rows of every size", rows_any_size(random.Random(41))
    yield "row: the order of refusals", itertools.chain(order(), longer_order(random.Random(42)))
    yield "row: runs around the ends of groups", itertools.chain(runs(random.Random(43)), runs_of_blocks(random.Random(44)))
    yield "row: runs of 4,096 slots", longest_runs(random.Random(45))
    yield "row: runs with counts above L", counts_too_large(random.Random(46))
    yield "row: books with any history", histories(random.Random(50), 30)
    yield "row: 16,384 numbers in a row", most_numbers(random.Random(51))
    yield "row: lines that cannot be read, and some that just can", unreadable()
