"""A book for each zone of a picture (docs/SCOPE.md, Zones), in the manner of model.py and over its books alone, zone by zone.

Zones have numbers from 0, and their records stand in a tuple. The ring bytes give each zone its own stretch, in order and as long as its own B;
bytes behind the last stretch are no zone's.
"""

import model

MOST_ZONES = 96


def stretch_bytes(r):
    """A zone's own B."""
    return model.book_bytes(r.L, r.n, r.D)


def all_bytes(records):
    return sum(stretch_bytes(r) for r in records)


def stretches(records, rings):
    """Each zone's stretch, in order, and the bytes behind them."""
    own = []
    for r in records:
        own.append(rings[: stretch_bytes(r)])
        rings = rings[stretch_bytes(r) :]
    return own, rings


def judged(records, rings, items, misfit):
    """The refusal and its zone, 0 and 0 for none: 20, 8 for the lowest such zone of all, 4, then of the zones with an item the lowest that has 17
    or 7. Where 8 and 4 are not given these two are all that its own book can refuse."""
    if not 1 <= len(records) <= MOST_ZONES or misfit:
        return 20, 0
    for zone, r in enumerate(records):
        if not model.is_book(r):
            return 8, zone
    if len(rings) < all_bytes(records):
        return 4, 0
    own, _ = stretches(records, rings)
    for zone in sorted(items):
        refusal = model.add(records[zone], own[zone], items[zone])[0]
        if refusal:
            return refusal, zone
    return 0, 0


def add_to(records, rings, items, misfit):
    """Gives each zone its item, by the zone's number; misfit is what else a call has under 20. A refusal takes nothing."""
    refusal, zone = judged(records, rings, items, misfit)
    if refusal:
        return refusal, zone, records, rings
    after, (own, behind) = list(records), stretches(records, rings)
    for zone, x in items.items():
        _, after[zone], own[zone] = model.add(after[zone], own[zone], x)
    return 0, 0, tuple(after), b"".join(own) + behind


def add_all(records, rings, counts):
    """A count for each zone; under 20 comes another number of them."""
    return add_to(records, rings, dict(enumerate(counts)), len(counts) != len(records))


def add_one(records, rings, zone, x):
    """An item for one zone; under 20 comes a zone that there is not. All zones are judged for 8 and 4, and this one alone for 17 and 7."""
    return add_to(records, rings, {zone: x}, zone >= len(records))
