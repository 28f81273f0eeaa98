"""Books to be salvaged: rings with chosen fields, good books that a brown-out has gone over, and whole lives of them."""

import itertools
import random

import model
from book_calls import any_history
from life import Life, RowLife
from model import Record
from row_books import TOP_SUM, packed, some_items
from row_model import entries, in_slots, slots
from salvage_model import oldest_first
from trend_books import good

# L, n and D with z of 2, 6, 9, 300 and 40,000, in slots of 2, 3, 4, 9 and 16 bits: D of 1, 2 and more.
SETTINGS = [(2, 5, 1), (11, 7, 2), (9, 9, 1), (899, 6, 3), (40000, 5, 1)]
# The numbers of bits that a slot can have where fields above z can be.
WIDTHS = range(2, 17)


def quotients_of(width):
    """Some z of so many digits that are not all 1: the least, the largest, and one between."""
    least, most = 2 ** (width - 1), 2**width - 2
    return sorted({least, (least + most) // 2, most})


def bounds(z, D):
    """The least and the largest L of which z is the largest quotient by this D, as far as a book can have it."""
    return sorted({L for L in ((z - 1) * D + 1, min(z * D, model.LARGEST_BOUND)) if (z - 1) * D < L <= model.LARGEST_BOUND})


def largest(r):
    return model.largest_quotient(r.L, r.D)


def with_fields(r, fields):
    """The ring of a book in which these fields stand."""
    return packed(model.field_width(r.L, r.D), fields)


def with_tail(r, ring, bits):
    """The ring with other bits after its last slot: those of a byte, as far as there is room for them."""
    size = model.book_bytes(r.L, r.n, r.D)
    over = 8 * size - slots(r) * model.field_width(r.L, r.D)
    return ring[: size - 1] + bytes([ring[size - 1] >> over << over | bits & (1 << over) - 1]) + ring[size:]


def too_large(rng, r):
    """A number above z that fits into a slot: the least, the largest, or any."""
    least, most = largest(r) + 1, 2 ** model.field_width(r.L, r.D) - 1
    return rng.choice([least, most, rng.randint(least, most)])


def scrambled(rng, r, ring, places):
    """The ring with a number above z in the u-th newest slot, for each of these u, and any bits after the last slot."""
    newest, fields = oldest_first(r)[::-1], in_slots(r, ring)
    for u in places:
        fields[newest[u - 1]] = too_large(rng, r)
    after = with_fields(r, fields) + ring[model.book_bytes(r.L, r.n, r.D) :]
    return with_tail(r, after, rng.choice([0, 255, rng.randrange(256)]))


def numbers(r, further=0):
    """A row for slot numbers, of which none is a slot's."""
    return [TOP_SUM] * (slots(r) + further)


def full(rng, L, n, D, head):
    """The record and ring of a good book that has gone round and stands at this head, D being below L."""
    return good(L, n, D, some_items(rng, L, 2 * n + head))[:2]


def longest(rng, L, D, head):
    """4,096 fields up to z, D being below L; no items need have come to them."""
    record = Record(L, model.LARGEST_SLOTS, D, D - 1, 0, model.LARGEST_LENGTH, head)
    return record, with_fields(record, some_items(rng, largest(record), model.LARGEST_SLOTS))


def any_ring(rng):
    """A record that is not refused, with nothing true about its history; of D below L mostly, and any bytes for its ring, those bits too that no
    slot has."""
    L = rng.choice([rng.randint(2, 9), rng.randint(2, 300), rng.randint(2, 65535)])
    n = rng.choice([rng.randint(1, 9), rng.randint(10, 90)])
    D = rng.choice([1, rng.randint(1, L - 1), rng.randint(1, min(L - 1, 9)), rng.randint(L, n * L)])
    record, ring = any_history(rng, L, n, D)
    return record._replace(mark=rng.choice([0, 0, rng.randint(1, 2**64 - 1)])), ring


def every_ring():
    """Three slots of two bits that hold 2 at the most, with bits behind them: every number in every slot, at heads of 0 and 1."""
    for head, fields in itertools.product((0, 1), itertools.product(range(4), repeat=3)):
        record = Record(2, 3, 1, 0, 0, 3, head)
        yield record, with_tail(record, with_fields(record, fields), sum(fields) + head)


# L, n, D, and what comes one after another, each time so many items and then the slots that a brown-out scrambles, the newest being 1; with none,
# only bits after the last slot. Before the ring is full, when it just is, and laps later; again before the last ones are written over.
LIVES = [
    *((2, 7, 1, ((4, (2,)), (9, (1, 7)), (3, (5,)), (8, ()))), (11, 9, 2, ((30, (4, 6, 9)), (2, (4,)), (11, (9,)), (10, ())))),
    *((899, 12, 3, ((1, (1, 4)), (3, (3,)), (30, (12,)), (13, ()))), (5, 12, 10, ((31, ()), (7, ())))),
]
# The same for books with a row: one group of slots and a few.
ROW_LIVES = [
    *((2, 33, 1, ((80, (2, 33)), (31, (30,)), (35, ()))), (9, 65, 2, ((70, (40,)), (1, (1,)), (66, (65,)), (64, ())))),
    *((7, 32, 2, ((40, (9, 10, 11)), (25, ()))), (3, 64, 6, ((150, ()), (70, ()))), (700, 100, 3, ((260, (37, 70)), (101, ())))),
]


def steps(rng, life, L, plan):
    """Lives through a plan. Gives all items so far, each time before a brown-out and when its ring has been salvaged."""
    items = []
    for size, places in plan:
        more = some_items(rng, L, size)
        life.run(more[:-1])
        life.add(more[-1])
        items += more
        yield items
        life.brown_out(scrambled(rng, life.record, life.ring, places))
        life.salvage(numbers(life.record, 1))
        yield items


def lives():
    """Each life, and what it goes through."""
    for number, (L, n, D, plan) in enumerate(LIVES):
        rng = random.Random(120 + number)
        life = Life(L, n, D, rng.randbytes(model.book_bytes(L, n, D)))
        yield life, steps(rng, life, L, plan)


def row_lives():
    for number, (L, n, D, plan) in enumerate(ROW_LIVES):
        rng = random.Random(130 + number)
        life = RowLife(L, n, D, rng.randbytes(model.book_bytes(L, n, D)), [8] * entries(n))
        yield life, steps(rng, life, L, plan)


def brown_outs():
    """Good books with all their items, and the ring as a brown-out left it: from no slot altered to all of them, with few items kept and many."""
    rng = random.Random(140)
    for L, n, D in [*SETTINGS, (300, 20, 7), (70, 33, 9)]:
        for size, altered in itertools.product((0, 1, n - 1, n, 2 * n + 3), (0, 1, 2, n)):
            record, ring, items = good(L, n, D, some_items(rng, L, size))
            yield record, scrambled(rng, record, ring, rng.sample(range(1, n + 1), altered)), items
