"""Zones to be tried with calls: of the cases, of many kinds, and many small ones; and whole lives of them, with the items that each zone was given.

A zone is a pair of its record and its stretch.
"""

import random
from functools import cache

import model
import zone_model
from book_calls import any_book, any_history
from calls import call
from rest_calls import CASES
from row_books import some_items
from run_calls import opened

# Cases A, B and C, and the item that each is given most often; it closes a block of each.
A, B, C = ((record, ring) for record, ring, _, _ in CASES)
ABC_ITEMS = [2, 2, 7]
# L, n and D of zones whose slots are 1, 3, 16, 1 and 5 bits wide; all stretches but the third end within a byte.
FIVE = [(5, 25, 10), (7, 6, 1), (65535, 3, 1), (600, 58, 3600), (40, 7, 2)]
# The longest stretch that there is: 4,096 slots of 16 bits.
LONGEST = (65535, 4096, 1)


def lent(zones, behind=b""):
    """The records and the ring bytes of these zones, and bytes behind them."""
    return tuple(record for record, _ in zones), b"".join(ring for _, ring in zones) + behind


def changed(records, zone, **numbers):
    """The records with some numbers of one of them changed."""
    return (*records[:zone], records[zone]._replace(**numbers), *records[zone + 1 :])


def no_book(records, zone):
    """The records with one that is none: its carry is too large by 1."""
    r = records[zone]
    return changed(records, zone, R=r.D + r.p * r.L)


def of_any_history(rng, L, n, D):
    """A zone with nothing true about its history, and any bytes for its stretch."""
    record, ring = any_history(rng, L, n, D)
    return record, ring[: zone_model.stretch_bytes(record)]


def five(rng):
    return [of_any_history(rng, *numbers) for numbers in FIVE]


def some_zones(rng, count):
    """Zones of any numbers and any history."""
    return [(record, ring[: zone_model.stretch_bytes(record)]) for record, ring in (any_book(rng) for _ in range(count))]


def small_zones(rng, count):
    """Many zones with small numbers, all of them chosen anew for each."""
    sizes = [(rng.randint(1, 9), rng.randint(1, 9)) for _ in range(count)]
    return [of_any_history(rng, L, n, rng.choice([1, L, rng.randint(1, n * L)])) for L, n in sizes]


def some_counts(rng, records):
    """A count for each zone, none above its L."""
    return [rng.choice([0, r.L, rng.randint(0, r.L)]) for r in records]


class ZonesLife:
    """Zones from a good start: each line carries the records and the ring bytes that the last one left. Beside them the items that each zone has
    taken, and after every step the records, the bytes, and how many items those were."""

    def __init__(self, numbers, behind=b""):
        self.records, self.rings = lent([opened(*of_zone) for of_zone in numbers], behind)
        self.lines, self.items, self.steps = [], [[] for _ in numbers], []

    def add_all(self, counts):
        self.lines.append(call("zones_add", self.records, self.rings, counts))
        self.took(zone_model.add_all(self.records, self.rings, counts), enumerate(counts))

    def add_one(self, zone, x):
        self.lines.append(call("zone_add", self.records, self.rings, zone, x))
        self.took(zone_model.add_one(self.records, self.rings, zone, x), [(zone, x)])

    def took(self, answer, items):
        refusal, _, self.records, self.rings = answer
        if not refusal:
            for zone, x in items:
                self.items[zone].append(x)
        self.steps.append((self.records, self.rings, [len(of_zone) for of_zone in self.items]))

    def rest(self, zone):
        self.records = changed(self.records, zone, mark=1)

    def wake(self, zone):
        self.records = changed(self.records, zone, mark=0)

    def beside(self):
        """For each zone the run of its items by a book of its own, which has to come to the same; and the zone's total of all that it has kept."""
        own, _ = zone_model.stretches(self.records, self.rings)
        for r, ring, items in zip(self.records, own, self.items):
            yield call("run", *opened(r.L, r.n, r.D), items)
            yield call("total", r, ring, r.kept)


# The box's setting, a zone with n as many as the rounds of the day, and others: slots of 1, 1, 2 and 4 bits.
DAY = [(600, 1440, 3600), (150, 240, 900), (40, 61, 25), (9, 100, 1)]
ROUNDS = 240


@cache
def day():
    """A count for each zone in every round; some rounds go zone by zone, in any order."""
    rng = random.Random(101)
    life = ZonesLife(DAY, behind=b"\xa5\x5a")
    for rounds, counts in enumerate(zip(*(some_items(rng, L, ROUNDS) for L, _, _ in DAY))):
        if rounds % 60 == 37:
            for zone in rng.sample(range(len(DAY)), len(DAY)):
                life.add_one(zone, counts[zone])
        else:
            life.add_all(list(counts))
    return life


def some_step(rng, life):
    """Counts, one of them perhaps above L, or an item; now and then a zone rests meanwhile."""
    zone, counts = rng.randrange(len(life.records)), some_counts(rng, life.records)
    resting = rng.choice([None, None, rng.randrange(len(life.records))])
    if resting is not None:
        life.rest(resting)
    if rng.randrange(5) == 0:
        counts[zone] += life.records[zone].L + 1
    if rng.randrange(2):
        life.add_all(counts)
    else:
        life.add_one(zone, counts[zone])
    if resting is not None:
        life.wake(resting)


@cache
def lives():
    """Zones that are given counts and items, and that rest now and then."""
    rng, all_lives = random.Random(102), []
    for numbers in ([(5, 6, 10), (3, 4, 2)], [(9, 3, 1), (5, 6, 10), (7, 20, 21)], FIVE):
        life = ZonesLife(numbers, rng.randbytes(rng.randint(0, 2)))
        for _ in range(11):
            some_step(rng, life)
        all_lives.append(life)
    return all_lives


def longest():
    """As many of the longest stretches as a line can hold."""
    L, n, D = LONGEST
    return [(model.Record(L, n, D, 0, 0, n, n - 1), bytes([zone]) * model.book_bytes(L, n, D)) for zone in range(4)]
