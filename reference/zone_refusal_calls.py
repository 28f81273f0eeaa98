"""Zones that are refused, and some that just are not, by sections. The zones are in zone_books.py."""

import itertools
import random

import model
from answers import MOST_BYTES, MOST_NUMBERS, show
from book_calls import JUDGED
from calls import TOP, call
from model import NO_RECORD, Record
from paper_cases import BOOK
from rest_calls import EDGES, RESTING
from run_calls import counts_above
from zone_books import ABC_ITEMS, LONGEST, A, B, C, changed, five, lent, no_book, small_zones, some_counts

RECORDS, RINGS = lent([A, B, C])
ONE_BIT = Record(1, 1, 1, 0, 0, 0, 0), b"\x00"
# Numbers that are no zone's of three: some are one by their low digits.
NO_ZONES = (3, 4, 96, 255, 256, 258, 2**16, 2**32, 2**32 + 1, 2**63, 2**63 + 2, 2**64 - 3, TOP)
# What a zone can have under 17 and 7: its mark, and how much its item is above L.
STATES = list(itertools.product((0, 1), (0, 1)))


def how_many():
    """None with and without counts and bytes; one, two, 95, 96 and 97, of which the last is refused in each call."""
    for rings, counts in ((b"", []), (b"", [0]), (b"\xff\xff", []), (b"\xff", [0, 0])):
        yield call("zones_add", (), rings, counts)
    for rings, zone in ((b"", 0), (b"\xff", 1), (b"\xff", TOP)):
        yield call("zone_add", (), rings, zone, 0)
    for count in (1, 2, 95, 96, 97):
        records, rings = lent([ONE_BIT] * count)
        yield call("zones_add", records, rings, [1] * count)
        yield from (call("zone_add", records, rings, zone, 1) for zone in (0, count - 1))
    records, rings = lent([ONE_BIT] * 97)
    yield call("zones_add", records, rings, [1] * 96)
    yield call("zone_add", records, rings, 97, 1)
    yield from (call("zones_add", (Record(*[TOP] * 8),) * count, b"", [TOP] * count) for count in (96, 97))


def numbers_of_counts(rng):
    """One fewer than zones, one more, none, twice as many, and so many more that their number is the zones' in its low digits."""
    for count in (1, 3, 5):
        records, rings = lent(five(rng)[:count], b"\xff")
        counts = some_counts(rng, records)
        for others in (counts[:-1], counts, [*counts, 0], [], counts * 2, [*counts, *[0] * 256]):
            yield call("zones_add", records, rings, others)
    records, rings = lent(small_zones(rng, 96))
    counts = some_counts(rng, records)
    yield from (call("zones_add", records, rings, others) for others in (counts[:-1], [*counts, 0], []))
    yield call("zones_add", RECORDS, RINGS, [0] * MOST_NUMBERS)
    yield call("zones_add", RECORDS, RINGS, [0] * (MOST_NUMBERS + 1))


def zone_numbers(rng):
    """Each zone's, and those that are no zone's of three, of one and of 96."""
    for zone in (0, 1, 2, *NO_ZONES):
        yield call("zone_add", RECORDS, RINGS, zone, 2)
    for zone in (0, 1, 256):
        yield call("zone_add", (BOOK,), b"\x40", zone, 2)
    records, rings = lent(small_zones(rng, 96))
    for zone in (95, 96, 97, 128, 2**32 + 95):
        yield call("zone_add", records, rings, zone, 0)


def items_above():
    """In each zone in turn an item at its L and some above it, in either call, and in the first zone every kind; all of them above; then any two, and
    the largest L."""
    for x in counts_above(5):
        yield call("zone_add", RECORDS, RINGS, 0, x)
    for zone, r in enumerate(RECORDS):
        for x in (r.L, r.L + 1, TOP):
            yield call("zone_add", RECORDS, RINGS, zone, x)
            yield call("zones_add", RECORDS, RINGS, [*ABC_ITEMS[:zone], x, *ABC_ITEMS[zone + 1 :]])
    yield call("zones_add", RECORDS, RINGS, [TOP] * 3)
    for above in itertools.combinations(range(3), 2):
        yield call("zones_add", RECORDS, RINGS, [x + 10 * (zone in above) for zone, x in enumerate(ABC_ITEMS)])
    largest = Record(65535, 1, 1, 0, 0, 0, 0)
    for x in (65535, 65536, 2**32 - 1):
        yield call("zones_add", (BOOK, largest), b"\x40\x00\x00", [5, x])
        yield call("zone_add", (BOOK, largest), b"\x40\x00\x00", 1, x)


def at_edges():
    """Each book at an edge of 8 between two others; the record that is none, last or first."""
    for number, (book, change) in enumerate(EDGES):
        ring, none = b"\x5a" * model.book_bytes(book.L, book.n, book.D), book._replace(**change)
        yield call("zones_add", (BOOK, book, BOOK), b"\x40" + ring + b"\x40", [2, 0, 2])
        if number % 2:
            yield call("zones_add", (BOOK, BOOK, none), b"\x40\x40" + ring, [2, 2, 0])
        else:
            yield call("zone_add", (none, BOOK), ring + b"\x40", 1, 2)
    for none in (*(BOOK._replace(**{number: TOP}) for number in JUDGED), NO_RECORD, Record(*[TOP] * 8)):
        yield call("zones_add", (BOOK, none), b"\x40\x40", [2, 2])


def no_books(rng):
    """Of five zones each in turn, and any two, of which the lower counts; one zone is given an item, whichever is none. Then all five."""
    records, rings = lent(five(rng))
    counts = some_counts(rng, records)
    for zone in range(5):
        yield call("zones_add", no_book(records, zone), rings, counts)
        for own in sorted((zone, (zone + 2) % 5)):
            yield call("zone_add", no_book(records, zone), rings, own, counts[own])
    for lower, higher in itertools.combinations(range(5), 2):
        yield call("zones_add", no_book(no_book(records, lower), higher), rings, counts)
    yield call("zone_add", no_book(no_book(records, 1), 4), rings, 4, 0)
    yield call("zones_add", (NO_RECORD,) * 5, rings, counts)


def ring_sizes(rng):
    """No bytes, the first stretch alone, all but the last, a byte short, just enough, and more, which stay: in either call. Zones whose stretches
    come to more than a line has bytes, and to numbers whose low digits are 0."""
    for zones in ([A], [A, B, C], five(rng)):
        records, rings = lent(zones)
        first, last = (len(ring) for _, ring in (zones[0], zones[-1]))
        for size in sorted({0, first, len(rings) - last, len(rings) - 1, len(rings)}):
            yield call("zones_add", records, rings[:size], [r.L for r in records])
            yield call("zone_add", records, rings[:size], 0, 0)
        for behind in (b"\xff", b"\x00\xa5\xff"):
            yield call("zones_add", records, rings + behind, [r.L for r in records])
            yield call("zone_add", records, rings + behind, len(zones) - 1, 0)
    for count in (5, 8, 64, 96):
        records = (Record(*LONGEST, 0, 0, 0, 0),) * count
        yield call("zones_add", records, b"\xff", [1] * count)
        yield call("zone_add", records, b"", 0, 1)
    yield call("zones_add", (Record(*LONGEST, 0, 0, 0, 0),) * 4, b"\x00" * (MOST_BYTES - 1), [1] * 4)


def at_rest():
    """Marks of every kind; each zone in turn, any two, and all: the lowest counts where all take a count, and its own mark where one does."""
    for number, mark in enumerate(RESTING):
        yield call("zones_add", changed(RECORDS, number % 3, mark=mark), RINGS, ABC_ITEMS)
    for resting in [*itertools.combinations(range(3), 1), *itertools.combinations(range(3), 2), range(3)]:
        records = tuple(r._replace(mark=2 * (zone in resting)) for zone, r in enumerate(RECORDS))
        yield call("zones_add", records, RINGS, ABC_ITEMS)
        yield from (call("zone_add", records, RINGS, zone, x) for zone, x in enumerate(ABC_ITEMS))


def with_states(states):
    """The zones with these marks, and items at L or above it by so much."""
    return tuple(r._replace(mark=mark) for r, (mark, _) in zip(RECORDS, states)), [r.L + above for r, (_, above) in zip(RECORDS, states)]


def lowest():
    """Every mixture of 17, 7 and neither in three zones, and with both some; then each zone alone with each of them, among others that rest."""
    both = STATES[-1]
    for states in (*itertools.product(STATES[:-1], repeat=3), *((first, both, last) for first, last in itertools.product(STATES, repeat=2))):
        records, counts = with_states(states)
        yield call("zones_add", records, RINGS, counts)
    for zone, own in itertools.product(range(3), STATES):
        records, counts = with_states([own if other == zone else (1, 0) for other in range(3)])
        yield call("zone_add", records, RINGS, zone, counts[zone])


def others_faults():
    """A zone is given an item while others rest, have a lower L, are no book, or lack a byte of their stretch; the others lie below it and above."""
    for zone, other in itertools.permutations(range(3), 2):
        item = RECORDS[zone].L
        yield call("zone_add", changed(RECORDS, other, mark=1), RINGS, zone, item)
        yield call("zone_add", no_book(RECORDS, other), RINGS, zone, item)
        yield call("zone_add", changed(RECORDS, zone, mark=1), RINGS, other, RECORDS[other].L)
        yield call("zone_add", RECORDS, RINGS, other, item)
    yield from (call("zone_add", RECORDS, RINGS[:-1], zone, 0) for zone in range(3))


def order():
    """20, 8, 4, then 17 and 7: each with and without those that come after it, 8 in a later zone than 17 and 7."""
    for none, short, (mark, above) in itertools.product((None, 2), (0, 1), STATES):
        records = RECORDS if none is None else no_book(RECORDS, none)
        records, rings, item = changed(records, 0, mark=mark), RINGS[: len(RINGS) - short], 5 + above
        for counts in ([item, 2, 7], [item, 2]):
            yield call("zones_add", records, rings, counts)
        yield call("zone_add", records, rings, 0, item)
        if mark == above:
            yield call("zone_add", records, rings, 3, item)


def order_of_97(rng):
    """97 zones: before each of the others, and before 20 by another number of counts. The same faults among 96 of them."""
    records, rings = lent(small_zones(rng, 97))
    counts = some_counts(rng, records)
    for count in (96, 97):
        some, own = records[:count], counts[:count]
        yield call("zones_add", no_book(some, count - 1), b"", own)
        yield call("zones_add", changed(some, 40, mark=1), rings[:9], own)
        yield call("zones_add", changed(some, 40, mark=1), rings, [*own[:-1], TOP])
        yield call("zone_add", changed(some, 95, mark=1), rings, 95, TOP)


def of_96(rng):
    """8, 17 and 7 in the last of 96 zones and in another one, a byte too few, and zones that one call does not look at."""
    records, rings = lent(small_zones(rng, 96))
    records = tuple(r._replace(mark=0) for r in records)
    counts = some_counts(rng, records)
    for zone in (95, 63):
        yield call("zones_add", no_book(no_book(records, 95), zone), rings, counts)
        yield call("zones_add", changed(changed(records, 95, mark=1), zone, mark=1), rings, counts)
        yield call("zones_add", changed(records, 95, mark=1), rings, [x + 10 * (own == zone) for own, x in enumerate(counts)])
    yield call("zones_add", records, rings[:-1], counts)
    yield call("zone_add", changed(records, 95, mark=1), rings, 94, 0)
    yield call("zone_add", no_book(records, 95), rings, 0, 0)


def unreadable():
    """Semicolons, records of seven and nine numbers among others, missing and further arguments, signs, names; many digits in a record."""
    a, b = show(BOOK), show(B[0])
    for records in (";", f"{a};", f";{a}", f"{a};;{b}", f"{a};-", f"-;{a}", f"{a},{b}", f"{a}; {b}", ""):
        yield f"zones_add {records} 4021 2,2"
    for records in (f"{a};", f"{a},{b}", "-;-"):
        yield f"zone_add {records} 4021 0 2"
    for other in ("5,6,10,13,1,6,0", f"{a},0", f"{a[:-1]}x", f"{a[:-1]}{TOP + 1}"):
        yield f"zones_add {b};{other} 2140 2,2"
    yield f"zones_add {a},0;{b} 4021 2,2"
    yield f"zones_add {'0' * 500}{a};{b[:-1]}{TOP} 4021 02,002"
    for whole in (f"{a};{b} 4021", f"{a};{b} 4021 2,2 2", f"{a};{b} 402 2,2", f"{a};{b} 4021 2;2", f"{a};{b} 4021 2,", f"{a};{b} 4021 -"):
        yield f"zones_add {whole}"
    for whole in ("", " 0", " 0 2 2", " - 2", " 0 2,2", f" {TOP + 1} 2", f" 0 {TOP + 1}", " 01 002"):
        yield f"zone_add {a};{b} 4021{whole}"
    for name in ("zones_ad", "zone_adds", "ZONES_ADD", " zones_add", "zones_add "):
        yield f"{name} {a};{b} 4021 2,2"
    yield from ("zones_add", "zone_add", f"add {a};{b} 4021 2", f"zones_add {a} 40 2\r")


def sections():
    yield "zones: how many", how_many()
    yield "zones: other numbers of counts", numbers_of_counts(random.Random(109))
    yield "zones: zone numbers", zone_numbers(random.Random(110))
    yield "zones: items above L", items_above()
    yield "zones: records that are no book, at the edges", at_edges()
    yield "zones: records that are no book, zone by zone", no_books(random.Random(111))
    yield "zones: short rings, and longer ones", ring_sizes(random.Random(112))
    yield "zones: some at rest", at_rest()
    yield "zones: the lowest with 17 or 7", lowest()
    yield "zones: one zone, and faults of the others", others_faults()
    yield "zones: the order of refusals", itertools.chain(order(), order_of_97(random.Random(113)))
    yield "zones: refusals of 96", of_96(random.Random(114))
    yield "zones: lines that cannot be read, and some that just can", unreadable()
