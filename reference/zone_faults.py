"""What the reference's zones have to agree on; make_vectors.py holds them to it each time."""

import itertools
import random

import answers
import model
import zone_model
from coarse_faults import figure_faults
from run_calls import opened
from zone_books import DAY, ZonesLife, day, lent, lives

# What a zone's own book is refused with, in the order in which it counts for all of them; 20 comes before.
RANKS = {20: 0, 8: 1, 4: 2, 17: 3, 7: 3}
WITH_ZONE = (8, 17, 7)


def own_stretches(records, rings):
    """As zone_model's, and none for a record that is no book."""
    for r in records:
        size = zone_model.stretch_bytes(r) if model.is_book(r) else 0
        yield rings[:size]
        rings = rings[size:]


def own_refusals(records, rings, items):
    """What each zone's book answers by itself, asked for its item or, if it has none, for a total of nothing."""
    for zone, (r, own) in enumerate(zip(records, own_stretches(records, rings))):
        yield zone, model.add(r, own, items[zone])[0] if zone in items else model.total(r, own, 0)[0]


def first_refusal(records, rings, items, misfit):
    """Of all refusals that there are the first by rank, then by zone; with 20 and 4 the zone is 0."""
    found = [(20, 0)] if misfit or len(records) not in range(1, 97) else []
    found += [(refusal, zone * (refusal != 4)) for zone, refusal in own_refusals(records, rings, items) if refusal]
    return min(found, key=lambda fault: (RANKS[fault[0]], fault[1]), default=(0, 0))


def taken_faults(before, after, items, name):
    """Each zone with an item is what its own book leaves, each other zone and the bytes behind are as they were."""
    (old, old_behind), (new, new_behind) = (zone_model.stretches(*lent) for lent in (before, after))
    for zone, (r, ring) in enumerate(zip(before[0], old)):
        expected = model.add(r, ring, items[zone]) if zone in items else (0, r, ring)
        if (0, after[0][zone], new[zone]) != expected:
            yield f"{name}: zone {zone} is not what a book of its own is"
    if new_behind != old_behind or len(after[0]) != len(before[0]):
        yield f"{name}: other bytes or zones than before"


def one_by_one(records, rings, items, order):
    """The records and bytes after an adding to each of the zones, in this order."""
    for zone in order:
        _, _, records, rings = zone_model.add_one(records, rings, zone, items[zone])
    return records, rings


def orders(rng, count):
    """Every order of few zones, some orders of many."""
    zones = range(count)
    return itertools.permutations(zones) if count < 4 else [zones, zones[::-1], *(rng.sample(zones, count) for _ in range(3))]


def asked(arguments):
    """The records, the bytes, the items by zone, and what is under 20 beside the number of zones."""
    records, rings, *rest = arguments
    if len(rest) == 1:
        return records, rings, dict(enumerate(rest[0])), len(rest[0]) != len(records)
    return records, rings, {rest[0]: rest[1]}, rest[0] >= len(records)


def line_faults(lines):
    """For every line: its refusal is the first of all there are; a refusal takes nothing and names a zone with 8, 17 and 7 alone; otherwise each
    zone is what its own book is, in whatever order they are given their items."""
    rng = random.Random(115)
    for line, arguments, (refusal, zone, *after) in answers.among(lines, zone_model.add_all, zone_model.add_one):
        records, rings, items, misfit = asked(arguments)
        name = line[:200]
        if (refusal, zone) != first_refusal(records, rings, items, misfit):
            yield f"{name}: refusal {refusal} of zone {zone} is not the first"
        if zone and refusal not in WITH_ZONE:
            yield f"{name}: a zone with refusal {refusal}"
        if refusal:
            if after != [records, rings]:
                yield f"{name}: refused, and changed"
            continue
        yield from taken_faults((records, rings), after, items, name)
        if len(items) == len(records):
            if any([*one_by_one(records, rings, items, order)] != after for order in orders(rng, len(records))):
                yield f"{name}: another order of zones comes to something else"


def how_far_faults(record, ring, items, name):
    """The window that is named truly holds the amount, and each shorter one less than the amount and D − 1; not reached, none holds that."""
    true = [sum(items[len(items) - i :]) for i in range(record.kept + 1)]
    most = model.total(record, ring, record.kept)[1]
    for v in (1, most // 2 + 1, most, most + 1, true[-1] + 1):
        refusal, i = model.far(record, ring, v) if v else (6, 0)
        shorter = true[:i] if refusal == 0 else true if refusal == 9 else []
        if (refusal == 0 and true[i] < v) or any(total >= v + record.D - 1 for total in shorter[1:]):
            yield f"{name}: how far back for {v} gives {i}"


def demand_faults(life, name):
    """After every step each zone is a book of its own that was given the zone's items alone; every few steps, and after the last, its totals and
    windows are within the tolerance of the true ones."""
    alone = [opened(r.L, r.n, r.D) for r in life.records]
    fed = [0] * len(alone)
    for step, (records, rings, sizes) in enumerate(life.steps, 1):
        own, _ = zone_model.stretches(records, rings)
        for zone, items in enumerate(life.items):
            _, _, *alone[zone] = model.run(*alone[zone], items[fed[zone] : sizes[zone]])
            if [records[zone]._replace(mark=0), own[zone]] != [*alone[zone]]:
                yield f"{name}: after {step} steps zone {zone} is not a book of its own"
            if step % 8 == 0 or step == len(life.steps):
                yield from figure_faults(*alone[zone], items[: sizes[zone]], f"{name}, zone {zone}")
                yield from how_far_faults(*alone[zone], items[: sizes[zone]], f"{name}, zone {zone}")
        fed = sizes


def life_faults():
    yield from demand_faults(day(), "a day")
    for number, life in enumerate(lives()):
        yield from demand_faults(life, f"life {number}")


def some_order(rng):
    """The day's items in any order that leaves each zone its own: for each item the zone that is given it."""
    given = [zone for zone, items in enumerate(day().items) for _ in items]
    rng.shuffle(given)
    return given


def day_faults():
    """The day's items come to the same in any order that leaves each zone its own, item by item, and to what single books of them are."""
    rng = random.Random(116)
    end = day().records, day().rings
    single = lent([model.run(*opened(*numbers), items)[2:] for numbers, items in zip(DAY, day().items)], end[1][zone_model.all_bytes(end[0]) :])
    if end != single:
        yield "a day: not what single books of its items are"
    for _ in range(5):
        life = ZonesLife(DAY, behind=b"\xa5\x5a")
        left = [iter(items) for items in day().items]
        for zone in some_order(rng):
            life.add_one(zone, next(left[zone]))
        if (life.records, life.rings) != end:
            yield "a day: its items in another order come to something else"


def faults(lines):
    """All of these, in words; none, it is hoped."""
    yield from line_faults(lines)
    yield from life_faults()
    yield from day_faults()
