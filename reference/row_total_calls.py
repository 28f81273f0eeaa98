"""Totals by a row of sums, by sections."""

import itertools
import random

import model
from calls import call
from model import Record
from row_books import FEW_SLOTS, MOST_SLOTS, exact, full, heads, kept, other_rows, some_items
from row_model import entries


def totals(book, windows):
    for i in windows:
        yield call("total_row", *book, i)


def every_window(rng):
    """Books that have gone round, at each head around the ends: every window, and one that is too long."""
    for s in FEW_SLOTS:
        for head in heads(s) if s != 64 else (0, 31, 32, 63):
            yield from totals(full(rng, 15, s, head), range(s + 2))


def first_lap(rng):
    """Books that have not gone round yet, or just have: the numbers of the row behind head are still 0."""
    for size in (0, 1, 31, 32, 33, 63, 64, 65, 66):
        book = exact(15, 65, some_items(rng, 15, size))
        yield from totals(book, sorted({0, 1, 2, size - 33, size - 32, size - 31, size - 1, size, size + 1} & set(range(67))))


def turning(s, head):
    """Windows at which what is read changes: the oldest slot lies before, at or behind one of some ends, or of head."""
    some = {0, 32, 64, s - 64, s - 32, s, head, head // 32 * 32, head // 32 * 32 + 32}
    oldest = {end + d for end in some for d in (-1, 0, 1)}
    return sorted({(head - slot - 1) % s + 1 for slot in oldest if 0 <= slot < s} | {1, s})


def most_slots(rng):
    """4,096 slots of one bit, at heads around some ends, and of sixteen bits."""
    for head in (0, 31, 32, 33, 2048, 4064, 4095):
        windows = turning(MOST_SLOTS, head)
        yield from totals(full(rng, 1, MOST_SLOTS, head, laps=1), rng.sample(windows, 12))
    for head in (0, 33, 4000):
        yield from totals(full(rng, 65535, MOST_SLOTS, head, laps=1), (63, 4096 - 33, 4096))
    lit = exact(65535, MOST_SLOTS, [65535] * (MOST_SLOTS + 100))
    yield from totals(lit, (100, 101, 4096))


def blocks(rng):
    """Blocks of two and of three items, and of one with a carry: books that have gone round, with every number of items in the open block."""
    for L, n, D in ((5, 129, 10), (4, 100, 13), (9, 65, 4)):
        c = model.block_length(L, D)
        for p in range(c):
            book = kept(rng, L, n, D, 2 * n // c * c + 33 * c + p)
            windows = range(n + 2) if p == c - 1 else sorted(rng.sample(range(n + 1), 20))
            yield from totals(book, windows)


def widths(rng):
    """Fields of 1 to 16 bits: both runs, one of them, and single fields alone."""
    for width in range(1, 17):
        yield from totals(full(rng, 2**width - 1, 70, 3), (40, 70))
        yield from totals(full(rng, 2**width - 1, 70, 66), (1, 34, 67, 70))


def other_numbers(rng):
    """Rows that no book has left, with rings of any bytes: a sum below 0 counts as 0."""
    for head in (0, 32, 33, 64):
        for row in other_rows(rng, 3):
            ring = rng.randbytes(model.book_bytes(15, 65, 1))
            yield from totals((Record(15, 65, 1, 0, 0, 65, head), ring, row), (2, 33, 34, 65))


def other_numbers_in_blocks(rng):
    """The same where a carry is left over, so that a sum below 0 shows."""
    for row in other_rows(rng, 2):
        for R, p in ((14, 1), (9, 0)):
            record = Record(5, 66, 10, R, p, 66, 0)
            yield from totals((record, rng.randbytes(5), row), (p + 1, p + 4, p + 20, 66))


def largest(rng):
    """The largest L and n with tolerances for 1 to 66 slots, the largest carry and fields, and the least and largest sums."""
    L, n = 65535, 4096
    for D in (n * L, n * L // 2, 133 * L, 125 * L, 63 * L, 64 * L - 1):
        c, s = model.block_length(L, D), model.slot_count(L, n, D)
        for p, head in itertools.product({0, c - 1}, {0, s // 2 + 1, s - 1} & set(range(s))):
            record = Record(L, n, D, D - 1 + p * L, p, n, head)
            ring = b"\xff" * model.book_bytes(L, n, D)
            for row in itertools.islice(other_rows(rng, entries(s)), 3):
                yield from totals((record, ring, row), sorted({min(n, p + 1), n}))


def at_rest(rng):
    """Awake and at rest the same."""
    record, ring, row = full(rng, 7, 33, 5)
    for mark in (0, 1, 2**63):
        yield from totals((record._replace(mark=mark), ring, row), (0, 5, 6, 20, 33, 34))


def sections():
    yield "row: totals, every window", every_window(random.Random(52))
    yield "row: totals in the first lap", first_lap(random.Random(53))
    yield "row: totals of 4,096 slots", most_slots(random.Random(54))
    yield "row: totals of blocks", blocks(random.Random(55))
    yield "row: totals, fields of 1 to 16 bits", widths(random.Random(56))
    yield "row: totals by rows of other numbers", itertools.chain(other_numbers(random.Random(57)), other_numbers_in_blocks(random.Random(58)))
    yield "row: totals, the largest numbers", largest(random.Random(59))
    yield "row: totals at rest", at_rest(random.Random(60))
