"""Books made coarser with a row of sums for the new ring, by sections; and the longest lines, and those that cannot be read."""

import random

from answers import MOST_BYTES, MOST_NUMBERS
from calls import TOP, call
from coarse_books import any_book, lived_with_row, row_lives, second_ring
from coarse_model import coarser_entries
from row_books import TOP_SUM, some_items
from trend_books import good, good_exact


def rows(rng):
    """New slots of one group, at its end and over it, up to some groups, at each number of finished ones: rows of just the numbers, of one fewer, of
    none, and of more, which stay."""
    for s in (1, 32, 33, 64, 65):
        for J in sorted({0, 1, 2 * 32 - 1, 2 * 32, 4 * 32, 2 * s - 1, 2 * s}):
            if J <= 2 * s:
                record, ring, _ = good_exact(1, 2 * s, some_items(rng, 1, J if J < 2 * s - 1 else 3 * J))
                used = coarser_entries(record, 2)
                yield call("coarsen_row", record, ring, 2, second_ring(record, 2), [rng.randint(0, TOP_SUM) for _ in range(used)])
        for size in (used - 1, 0, used + 1, used + 40):
            yield call("coarsen_row", record, ring, 2, second_ring(record, 2, 1), [rng.randint(0, TOP_SUM) for _ in range(size)])


def most_slots(rng):
    """2,048 new slots, all 1 and any; and rows of a number too few."""
    for items in ([1] * 9000, some_items(rng, 1, 4096 + 1234)):
        record, ring, _ = good_exact(1, 4096, items)
        for size in (64, 63):
            yield call("coarsen_row", record, ring, 2, second_ring(record, 2), [TOP_SUM] * size)
    for L, n, D, m in ((5, 4096, 10, 2), (65535, 4096, 65535 * 3, 3), (600, 1440, 3600, 4)):
        record, ring, _ = good(L, n, D, some_items(rng, L, 2 * n + 5))
        yield call("coarsen_row", record, ring, m, second_ring(record, m), [5] * 33)


def any_rows(rng, count):
    """Rings and rows of anything."""
    for _ in range(count):
        record, ring, m = any_book(rng)
        row = [rng.randint(0, TOP_SUM) for _ in range(coarser_entries(record, m) + rng.choice([0, 0, 1, -1]))]
        yield call("coarsen_row", record, ring, m, second_ring(record, m), row)


def lives_with_row(rng):
    for life in row_lives():
        yield from lived_with_row(rng, *life)


def most_numbers(rng):
    """As many bytes in each ring and numbers in the row as are taken, and one more of each."""
    record, ring, _ = good_exact(1, 20, some_items(rng, 1, 30))
    lent = [rng.randbytes(size) for size in (MOST_BYTES - len(ring), MOST_BYTES)]
    row = [rng.randint(10**9, TOP_SUM) for _ in range(MOST_NUMBERS)]
    yield call("coarsen_row", record, ring + lent[0], 2, lent[1], row)
    yield call("coarsen", record, ring + lent[0], 2, lent[1])
    yield call("coarsen", record, ring + lent[0] + b"\x00", 2, b"\xff" * 9)
    yield call("coarsen", record, ring, 2, lent[1] + b"\x00")
    yield call("coarsen_row", record, ring, 2, b"\xff" * 9, row + [0])


def unreadable():
    """Missing and further arguments, names, signs, records of seven numbers, rings and rows that are none."""
    book = "5,6,10,13,1,6,0,0"
    for m in ("", "-2", "02", TOP, TOP + 1):
        yield f"coarsen {book} 40 {m} ff"
        yield f"coarsen_row {book} 40 {m} ff 1"
    for first, second in (("4", "ff"), ("", "ff"), ("40", "f"), ("40", "FF"), ("-", "ff"), ("40", "-")):
        yield f"coarsen {book} {first} 2 {second}"
        yield f"coarsen_row {book} {first} 2 {second} 1"
    for row in ("", ",", "1,", "-1", "4294967295", "4294967296", "0,4294967296", "-", "01,2"):
        yield f"coarsen_row {book} 40 2 ff {row}"
    whole = f"{book} 40 2 ff"
    for name in ("coarsen", "coarsen_row"):
        yield from (name, f"{name} {book}", f"{name} {book} 40", f"{name} {book} 40 2", f"{name} {whole} 1 1", f" {name} {whole} 1")
        yield from (f"{name} 5,6,10,13,1,6,0 40 2 ff", f"{name} {book},0 40 2 ff 1", f"{name}s {whole}", f"{name.upper()} {whole} 1")
    yield from (f"coarsen {whole} 1", f"coarsen_row {whole}", f"coarse {whole}", f"coarsen_ro {whole} 1", f"coarsen_row {whole} 1\r")


def sections():
    yield "coarser: rows of every size", rows(random.Random(96))
    yield "coarser: rows of the longest books", most_slots(random.Random(97))
    yield "coarser: rows with any history", any_rows(random.Random(98), 20)
    yield "coarser: books from a good start with a row, and on", lives_with_row(random.Random(99))
    yield "coarser: 32,768 bytes in each ring", most_numbers(random.Random(100))
    yield "coarser: lines that cannot be read, and some that just can", unreadable()
