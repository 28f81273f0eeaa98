"""Rings that are salvaged with their row of running sums, by sections; and the longest lines, and those that cannot be read."""

import itertools
import random

import model
from answers import MOST_BYTES, MOST_NUMBERS
from calls import TOP, call
from model import Record
from row_books import FEW_SLOTS, TOP_SUM, full, heads
from row_model import entries, slots
from salvage_books import any_ring, longest, numbers, row_lives, scrambled


def any_sums(rng, size):
    return [rng.choice([0, TOP_SUM, rng.randint(0, TOP_SUM)]) for _ in range(size)]


def groups(rng):
    """Slots of one group, at its end and over it, up to some groups, at each head around the ends: a kept row and any, one slot altered, some and
    none."""
    for s in FEW_SLOTS:
        for head in heads(s):
            record, ring, row = full(rng, 6, s, head)
            places = rng.sample(range(1, s + 1), min(s, rng.choice([0, 1, 1, 5])))
            lent = row + any_sums(rng, 1) if rng.randrange(2) else any_sums(rng, len(row))
            yield call("salvage_row", record, scrambled(rng, record, ring, places), numbers(record), lent)


def ends_of_groups(rng):
    """The slot before, at and behind an end altered alone: each sum from its group on falls."""
    for s, slot in itertools.product((64, 65), (0, 31, 32, 63, 64)):
        if slot < s:
            record, ring, row = full(rng, 9, s, rng.randrange(s))
            yield call("salvage_row", record, scrambled(rng, record, ring, [(record.head - 1 - slot) % s + 1]), numbers(record), row)


def rows(rng):
    """Rows of just the entries, of one fewer, of none, and of more, which stay; rows of slot numbers too short with each of them."""
    for s in FEW_SLOTS:
        record, ring, row = full(rng, 2, s, s // 2)
        ring = scrambled(rng, record, ring, [1, s])
        for size in (len(row), len(row) - 1, 0, len(row) + 1, len(row) + 40):
            yield call("salvage_row", record, ring, numbers(record), any_sums(rng, size))
        for size in (len(row), len(row) - 1):
            yield call("salvage_row", record, ring, numbers(record, -1), any_sums(rng, size))


def none_altered(rng):
    """A row is rebuilt where nothing is altered: of slots that cannot hold too much, of blocks of two items, and of a ring all 1 or all 0."""
    for L, n, D in ((1, 65, 1), (3, 33, 1), (5, 130, 10), (600, 1440, 3600)):
        s = model.slot_count(L, n, D)
        for byte in (b"\xff", b"\x00", rng.randbytes(1)):
            record = Record(L, n, D, D - 1, 0, n, rng.randrange(s))
            yield call("salvage_row", record, byte * (model.book_bytes(L, n, D) + 1), [5] * s, any_sums(rng, entries(s) + 1))


def most_slots(rng):
    """4,096 slots of 2 and of 16 bits: some altered and all, the largest sum that can be, and rows of an entry too few."""
    for L, D, head, places, size in (
        *((2, 1, 4095, [1, 4096], 128), (2, 1, 31, range(1, 4097), 129), (2, 1, 0, [9], 127)),
        *((65534, 1, 2048, range(1, 4097), 128), (9999, 4, 32, rng.sample(range(1, 4097), 50), 130)),
    ):
        record, ring = longest(rng, L, D, head)
        yield call("salvage_row", record, scrambled(rng, record, ring, places), [7] * 4096, any_sums(rng, size))


def any_rows(rng, count):
    """Rings and rows of anything."""
    for _ in range(count):
        record, ring = any_ring(rng)
        row = any_sums(rng, entries(slots(record)) + rng.choice([0, 0, 1, -1]))
        yield call("salvage_row", record, ring, any_sums(rng, slots(record) + rng.choice([0, 0, 1])), row)


def lives_with_row():
    """Lives with brown-outs: before each and after each salvage totals by the row, some of them with how the plain walk answers."""
    for life, steps in row_lives():
        for _ in steps:
            kept = life.record.kept
            life.lines += [life.ask_row("total_row", i) for i in sorted({kept // 2, kept})] + [life.ask("total", kept)]
        yield from life.lines


def most_numbers(rng):
    """As many bytes in the ring and numbers in either row as are taken, and one more of each."""
    record, ring, _ = full(rng, 9, 20, 3)
    ring = scrambled(rng, record, ring, [4, 9]) + rng.randbytes(MOST_BYTES - len(ring))
    one, two = ([rng.randint(10**9, TOP_SUM) for _ in range(MOST_NUMBERS)] for _ in range(2))
    yield call("salvage_row", record._replace(mark=TOP), ring, one, two)
    yield call("salvage", record, ring, one)
    yield call("salvage", record, ring + b"\x00", numbers(record))
    yield call("salvage", record, ring[:10], one + [0])
    yield call("salvage_row", record, ring[:10], one[:20], two + [0])


def unreadable():
    """Missing and further arguments, names, signs, records of seven numbers, rings and rows that are none."""
    book = "9,3,1,0,0,3,1,0"
    for ring in ("4", "", "20F0", "20f", "-", "20f0ff"):
        yield f"salvage {book} {ring} 1,2,3"
        yield f"salvage_row {book} {ring} 1,2,3 1"
    for row in ("", ",", "1,2,3,", "1,,2,3", "-1,2,3", "4294967295,2,3", "4294967296,2,3", "1,2,3,4294967296", "-", "01,2,003", "1;2;3", TOP):
        yield f"salvage {book} 20f0 {row}"
        yield f"salvage_row {book} 20f0 {row} 1"
        yield f"salvage_row {book} 20f0 1,2,3 {row}"
    whole = f"{book} 20f0 1,2,3"
    for name in ("salvage", "salvage_row"):
        yield from (name, f"{name} {book}", f"{name} {book} 20f0", f"{name} {whole} 1 1", f" {name} {whole} 1", f"{name} {whole}  1")
        yield from (f"{name} 9,3,1,0,0,3,1 20f0 1,2,3", f"{name} {book},0 20f0 1,2,3 1", f"{name}s {whole}", f"{name.upper()} {whole} 1")
    yield from (f"salvage {whole}", f"salvage {whole} 1", f"salvage_row {whole}", f"salvage_row {whole} 1\r")
    yield from (f"salvag {whole}", f"salvage_ro {whole} 1")


def sections():
    yield "salvage: rows of sums around the ends of groups", itertools.chain(groups(random.Random(152)), ends_of_groups(random.Random(153)))
    yield "salvage: rows of sums of every size", rows(random.Random(154))
    yield "salvage: rows of sums where nothing is altered", none_altered(random.Random(155))
    yield "salvage: rows of sums of 4,096 slots", most_slots(random.Random(156))
    yield "salvage: rows of sums with any history", any_rows(random.Random(157), 30)
    yield "salvage: books from a good start with a row of sums, and on", lives_with_row()
    yield "salvage: 32,768 bytes, and 16,384 numbers in each row", most_numbers(random.Random(158))
    yield "salvage: lines that cannot be read, and some that just can", unreadable()
