"""Zones that take items, by sections; refused ones are in zone_refusal_calls.py. The zones are in zone_books.py."""

import itertools
import random

import model
from book_calls import numbers_of_a_book
from calls import call
from model import Record
from zone_books import ABC_ITEMS, A, B, C, day, five, lent, lives, longest, of_any_history, small_zones, some_counts, some_zones


def cases():
    """Any of cases A, B and C in any order, a single one too; in all three each zone alone; bytes behind."""
    with_items = list(zip((A, B, C), ABC_ITEMS))
    for size in (1, 2, 3):
        for chosen in itertools.permutations(with_items, size):
            zones, items = zip(*chosen)
            yield call("zones_add", *lent(zones), list(items))
    for zones, items in (([A, B, C], ABC_ITEMS), ([C, B, A], ABC_ITEMS[::-1])):
        yield from (call("zone_add", *lent(zones), zone, x) for zone, x in enumerate(items))
    yield call("zones_add", *lent([A, B, C], b"\xff\xff\xff"), ABC_ITEMS)
    yield from (call("zone_add", *lent([A, B, C], b"\x00"), zone, x) for zone, x in enumerate(ABC_ITEMS))


def alike(rng):
    """Zones with the same record, and with the same ring: each is given another count."""
    record, ring = of_any_history(rng, 9, 11, 1)
    for zones in ([(record, ring)] * 4, [(record, rng.randbytes(len(ring))) for _ in range(4)]):
        yield call("zones_add", *lent(zones), [9, 0, 5, 1])
        yield from (call("zone_add", *lent(zones), zone, 9) for zone in range(4))


def widths(rng):
    """Between two others a zone with slots of each width, whose stretch ends within a byte if it can: a 0 in rings all 1, or the largest in rings all
    0, goes into the last slot or into another."""
    for width in range(1, 17):
        L = 2**width - 1
        for byte, x in ((b"\xff", 0), (b"\x00", L)):
            middle = Record(L, 5, 1, 0, 0, 5, rng.choice([0, 2, 4, 4])), byte * model.book_bytes(L, 5, 1)
            zones = [(Record(1, 3, 1, 0, 0, 3, 2), byte), middle, (Record(3, 3, 1, 0, 0, 3, 0), byte)]
            all_of_them = call("zones_add", *lent(zones, byte), [x & 1, x, x & 3])
            yield rng.choice([all_of_them, call("zone_add", *lent(zones, byte), 1, x)])


def kinds(rng):
    """Five zones of different L, n and D: all of them at the least, the largest and any counts, and each of them alone."""
    zones = five(rng)
    records, rings = lent(zones, b"\x3c")
    for counts in ([0] * 5, [r.L for r in records], some_counts(rng, records), some_counts(rng, records)):
        yield call("zones_add", records, rings, counts)
    for zone, r in enumerate(records):
        yield from (call("zone_add", records, rings, zone, x) for x in (r.L, rng.randint(0, r.L)))


def long_stretches():
    """Four of the longest, with no byte to spare: the last slot of each is written, or of one."""
    zones = longest()
    yield call("zones_add", *lent(zones), [65535, 1, 256, 32768])
    yield call("zone_add", *lent(zones[:2]), 1, 43690)


def any_zones(rng, count):
    """Zones of any numbers and any history, with any bytes behind them."""
    for _ in range(count):
        zones = some_zones(rng, rng.choice([1, 2, 2, 3, 4, 5]))
        records, rings = lent(zones, rng.randbytes(rng.choice([0, 0, 1, 3])))
        counts, zone = some_counts(rng, records), rng.randrange(len(zones))
        yield call("zones_add", records, rings, counts)
        yield call("zone_add", records, rings, zone, counts[zone])


def at_a_block_end(rng, count):
    """Each zone at a block's end with the largest carry, and given its L."""
    for _ in range(count):
        zones = []
        for L, n, D in (numbers_of_a_book(rng) for _ in range(rng.randint(2, 4))):
            c, s = model.block_length(L, D), model.slot_count(L, n, D)
            record = Record(L, n, D, D - 1 + (c - 1) * L, c - 1, n, rng.choice([0, s - 1, rng.randrange(s)]))
            zones.append((record, rng.randbytes(model.book_bytes(L, n, D))))
        yield call("zones_add", *lent(zones), [record.L for record, _ in zones])


def most_zones(rng):
    """Of 96 different ones all, and the first, the last and some others alone."""
    records, rings = lent(small_zones(rng, 96), b"\x5a")
    yield call("zones_add", records, rings, some_counts(rng, records))
    yield call("zones_add", records, rings, [r.L for r in records])
    yield from (call("zone_add", records, rings, zone, records[zone].L) for zone in (0, 1, 31, 64, 94, 95))


def whole_day():
    """The day's rounds, and beside them each zone's counts by a book of its own."""
    yield from day().lines
    yield from day().beside()


def whole_lives():
    for life in lives():
        yield from life.lines
        yield from life.beside()


def sections():
    yield "zones: cases A, B and C", cases()
    yield "zones: alike", alike(random.Random(103))
    yield "zones: slots of every width", widths(random.Random(104))
    yield "zones: five kinds", kinds(random.Random(105))
    yield "zones: the longest stretches", long_stretches()
    yield "zones: books with any history", any_zones(random.Random(106), 16)
    yield "zones: at a block's end", at_a_block_end(random.Random(107), 8)
    yield "zones: 96 different ones", most_zones(random.Random(108))
    yield "zones: a day of counts", whole_day()
    yield "zones: books from a good start", whole_lives()
