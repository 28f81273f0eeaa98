"""Rings that are salvaged, by sections. The books are in salvage_books.py, calls with a row of sums in salvage_row_calls.py."""

import itertools
import random

import model
from book_calls import JUDGED
from calls import TOP, call
from model import NO_RECORD, Record
from paper_cases import BOOK
from rest_calls import EDGES, RESTING
from row_books import some_items
from row_model import slots
from salvage_books import SETTINGS, WIDTHS, any_ring, bounds, every_ring, full, largest, lives, longest, numbers, quotients_of, scrambled
from salvage_books import with_fields, with_tail
from salvage_model import salvage
from trend_books import good

# Cases B and C of docs/SCOPE.md: slots of two bits that hold 2 at the most, and of four bits that hold 9.
CASE_B, CASE_C = Record(3, 4, 2, 1, 0, 4, 0), Record(9, 3, 1, 0, 0, 3, 1)


def cases():
    """Case A, where no field can be too large, with any bits behind its slots; B and C with each slot too large, and all; what is told then."""
    for byte in (0x40, 0x41, 0x50, 0x5F, 0xE0, 0xFF):
        yield call("salvage", BOOK, bytes([byte]), [7, 8, 9])
    for byte in (0x21, 0xE1, 0x31, 0x2D, 0x23, 0xFF):
        yield call("salvage", CASE_B, bytes([byte]), [9, 9, 9, 9])
    for ring in (b"\x20\x40", b"\xf0\x40", b"\x2a\x40", b"\x20\xa0", b"\xbc\xd0", b"\x90\x9f", b"\x20\x4f\xff"):
        yield call("salvage", CASE_C, ring, [9, 9, 9])
        _, _, record, after, _ = salvage(CASE_C, ring, [9, 9, 9])
        yield from (call("total", record, after, i) for i in (record.kept, record.kept + 1))


def unseen():
    """L 1, n 3, D 2, items 1 0 0 0: the oldest slot scrambled to 1 cannot be told from a true one. The same with z of 2, and 1 in the place of 2."""
    for L, n, D, items, ring in ((1, 3, 2, [1, 0, 0, 0], b"\x80"), (2, 3, 1, [2, 1, 0], b"\x50"), (2, 3, 1, [2, 1, 0], b"\xd0")):
        record, _, _ = good(L, n, D, items)
        yield call("salvage", record, ring, [0] * 4)
        _, _, record, after, _ = salvage(record, ring, [0] * 4)
        yield from (call("total", record, after, i) for i in range(n + 1))


def three_slots():
    for record, ring in every_ring():
        yield call("salvage", record, ring, [9, 8, 7])


def single_slots(rng):
    """The newest slot alone, the one before it, the oldest and the one behind it: at a head of 0, of s − 1, and between."""
    for (L, n, D), u in itertools.product(SETTINGS, (1, 2, -1, 0)):
        for head in (0, n // 2, n - 1):
            record, ring = full(rng, L, n, D, head)
            yield call("salvage", record, scrambled(rng, record, ring, [u if u > 0 else n + u]), numbers(record))


def some_slots(rng):
    """None of the slots, several, and all of them."""
    for L, n, D in SETTINGS:
        for count in (0, 2, n // 2 + 1, n - 1, n):
            record, ring = full(rng, L, n, D, rng.randrange(n))
            yield call("salvage", record, scrambled(rng, record, ring, rng.sample(range(1, n + 1), count)), numbers(record, rng.choice([0, 2])))


def kept_items(rng):
    """Some u with few kept, with just as many as are newer than the slot, one less, one more, and all."""
    L, n, D = 9, 9, 2
    for u in (1, 2, 5, 8, 9):
        for kept in sorted({0, 1, u - 2, u - 1, u, n - 1, n} & set(range(n + 1))):
            record, ring = full(rng, L, n, D, rng.randrange(n))
            places = [u, *(older for older in range(u + 1, n + 1) if rng.randrange(3) == 0)]
            yield call("salvage", record._replace(kept=kept), scrambled(rng, record, ring, places), numbers(record))


def widths(rng):
    """Every width and some z: fields of z, one below and one above, of 0, and of all 1; at any head. Then all of them too large, and any."""
    for width in WIDTHS:
        for z in quotients_of(width):
            D = rng.choice([D for D in (1, 2, 3, 7, 40, 1000) if bounds(z, D)])
            record = Record(rng.choice(bounds(z, D)), 7, D, rng.randrange(D), 0, 7, rng.randrange(7))
            fields = rng.sample([z, z + 1, z - 1, 0, 2**width - 1, z, z + 1], 7)
            yield call("salvage", record, with_tail(record, with_fields(record, fields), rng.randrange(256)), numbers(record))
        n = rng.randint(8, 40)
        record = Record(rng.choice(bounds(z, D)), n, D, 0, 0, n, rng.randrange(n))
        for ring in (b"\xff" * model.book_bytes(*record[:3]), rng.randbytes(model.book_bytes(*record[:3]))):
            yield call("salvage", record, ring, numbers(record))


def none_too_large(rng):
    """z of all 1, where a slot has no room for more; and D of L and above, with slots of one bit and blocks of one item and of more: nothing is
    altered, and only the bits after the last slot become 0."""
    for width in range(1, 17):
        L = 2**width - 1
        record = Record(L, 5, 1, 0, 0, rng.choice([3, 5]), rng.randrange(5))
        yield call("salvage", record, b"\xff" * (model.book_bytes(L, 5, 1) + 1), numbers(record))
    wide = [(65535, 4096, c * 65535) for c in (2000, 4096)]
    for L, n, D in ((1, 3, 2), (5, 6, 5), (5, 31, 10), (5, 31, 14), (7, 4, 28), (600, 1440, 3600), *wide):
        c, s = model.block_length(L, D), model.slot_count(L, n, D)
        for p in sorted({0, c - 1}):
            record = Record(L, n, D, rng.randint(0, D - 1 + p * L), p, rng.choice([p, n]), rng.randrange(s))
            for ring in (b"\xff" * model.book_bytes(L, n, D), rng.randbytes(model.book_bytes(L, n, D) + 1)):
                yield call("salvage", record, ring, numbers(record))


def after_last_slot(rng):
    """Every number of bits after the last slot, of slots of one bit and of three: set and clear, the last slot too large or not."""
    for n, bits in itertools.product(range(1, 9), (0, 255)):
        record = Record(1, n, 1, 0, 0, n, 0)
        yield call("salvage", record, with_tail(record, rng.randbytes(1), bits), numbers(record))
        for last in (6, 7):
            record = Record(6, n, 1, 0, 0, n, rng.randrange(n))
            yield call("salvage", record, with_tail(record, with_fields(record, [*some_items(rng, 6, n - 1), last]), bits), numbers(record))


def ring_sizes(rng):
    """Rings short by a byte, of none, of just enough, and longer: what is behind stays, whatever it is."""
    for L, n, D in (*SETTINGS, (5, 31, 10)):
        record = Record(L, n, D, 0, 0, n, 0)
        ring = b"\xff" * model.book_bytes(L, n, D)
        for lent in (ring[:-1], b"", ring, ring + b"\xff", ring + b"\x00", ring + rng.randbytes(9)):
            yield call("salvage", record, lent, numbers(record))


def row_sizes(rng):
    """Rows of none, of one entry too few, of just enough, of one and of five more, whatever they hold: nothing altered, a slot, and all of them."""
    for L, n, D in (SETTINGS[0], SETTINGS[3], (5, 31, 10)):
        for altered in (0, 1, n) if D < L else (0,):
            record, ring, _ = good(L, n, D, some_items(rng, L, 2 * n + 1))
            for size in (0, slots(record) - 1, slots(record), slots(record) + 1, slots(record) + 5):
                lent = [rng.choice([0, 2**32 - 1, rng.randrange(2**32)]) for _ in range(size)]
                yield call("salvage", record, scrambled(rng, record, ring, rng.sample(range(1, n + 1), altered)), lent)


def no_books():
    """Beside each book at an edge of 8 the record that is none: with rings, and with none and no row."""
    for book, change in EDGES:
        ring = b"\xff" * (model.book_bytes(book.L, book.n, book.D) + 1)
        for record in (book, book._replace(**change)):
            yield call("salvage", record, ring, [5] * slots(book))
        yield call("salvage_row", book._replace(**change, mark=TOP), b"", [], [])
    for record in (*(CASE_C._replace(**{number: TOP}) for number in JUDGED), NO_RECORD, Record(*[TOP] * 8)):
        yield call("salvage", record, b"\xff\xff", [1, 2, 3])


def order():
    """8, 4, 21, 18: each with and without those that come after it. Then the same where ring and rows are short by their last."""
    for R, ring, lent in itertools.product((0, 1), (b"\x2f\x4f", b""), ([7, 7, 7, 7], [])):
        record = CASE_C._replace(R=R)
        yield call("salvage", record, ring, lent)
        yield from (call("salvage_row", record, ring, lent, row) for row in ([6, 6], []))
    for head, size, lent in itertools.product((32, 33), (17, 16), (33, 32)):
        record, ring = Record(9, 33, 1, 0, 0, 33, head), b"\xff" * size
        yield call("salvage", record, ring, [7] * lent)
        yield from (call("salvage_row", record, ring, [7] * lent, [6] * row) for row in (2, 1))


def at_rest():
    """The mark is not asked for and stays, whatever number it is; what is salvaged rests on or is woken as any other. A refusal hands it back."""
    for mark in RESTING:
        record = CASE_C._replace(mark=mark)
        yield from (call("salvage", record, b"\x2f\x4f", lent) for lent in ([1, 2, 3], [1, 2]))
        yield call("salvage_row", record, b"\x2f\x4f", [1, 2, 3], [9])
    for record in (CASE_C._replace(mark=1), CASE_C):
        _, _, record, ring, _ = salvage(record, b"\x20\xf4", [1, 2, 3])
        yield from (call("add", record, ring, 2), call("run", record, ring, [2, 3]), call("total", record, ring, 1), call("total", record, ring, 2))
        yield from (call("verdict", record, ring, 1, 2), call("rest", record), call("wake", record))


def twice(rng):
    """What a salvage left is salvaged again, with the same row of slot numbers and another."""
    for record, ring in [full(rng, L, n, D, rng.randrange(n)) for L, n, D in SETTINGS] + [any_ring(rng) for _ in range(6)]:
        if largest(record) + 1 < 2 ** model.field_width(record.L, record.D):
            ring = scrambled(rng, record, ring, rng.sample(range(1, slots(record) + 1), (slots(record) + 1) // 2))
        yield call("salvage", record, ring, numbers(record))
        _, _, record, ring, listed = salvage(record, ring, numbers(record))
        yield from (call("salvage", record, ring, lent) for lent in (listed, [0] * len(listed)))


def most_slots(rng):
    """4,096 slots of 1, 2, 4, 9 and 16 bits: none of them altered, the newest, the oldest, some, and all."""
    for L, D, head, kinds in ((2, 1, 4095, "none some"), (9, 1, 0, "newest all"), (2999, 10, 33, "oldest some"), (65534, 1, 2048, "some all")):
        record, ring = longest(rng, L, D, head)
        for kind in kinds.split():
            places = {"none": [], "newest": [1], "oldest": [4096], "some": rng.sample(range(2, 4096), 40), "all": range(1, 4097)}[kind]
            yield call("salvage", record, scrambled(rng, record, ring, places), [7] * 4096)
    record = Record(65535, 4096, 65535, 9, 0, 4096, 7)
    yield from (call("salvage", record, rng.randbytes(513), [7] * size) for size in (4096, 4095))


def any_rings(rng, count):
    for _ in range(count):
        record, ring = any_ring(rng)
        yield call("salvage", record, ring, [rng.randrange(9) for _ in numbers(record, rng.choice([0, 0, 1, -1]))])


def windows(r):
    """Half of what is kept, all, and one too many."""
    return sorted({r.kept // 2, r.kept, r.kept + 1})


def whole_lives():
    """Lives with brown-outs: after each step totals, how far back and verdicts."""
    for life, steps in lives():
        for _ in steps:
            most = model.total(life.record, life.ring, life.record.kept)[1]
            life.lines += [life.ask("total", i) for i in windows(life.record)]
            life.lines += [life.ask("far", most // 2 + 1), life.ask("verdict", life.record.kept, most + life.record.D)]
        yield from life.lines


def sections():
    yield "salvage: cases A, B and C", cases()
    yield "salvage: what cannot be seen", unseen()
    yield "salvage: every ring of three slots", three_slots()
    yield "salvage: one slot altered", single_slots(random.Random(141))
    yield "salvage: none, several and all slots altered", some_slots(random.Random(142))
    yield "salvage: how many items are kept", kept_items(random.Random(143))
    yield "salvage: fields of 2 to 16 bits", widths(random.Random(144))
    yield "salvage: books in which no field can be too large", none_too_large(random.Random(145))
    yield "salvage: bits after the last slot", after_last_slot(random.Random(146))
    yield "salvage: short rings, and longer ones", ring_sizes(random.Random(147))
    yield "salvage: rows of slot numbers of every size", row_sizes(random.Random(148))
    yield "salvage: records that are no book", no_books()
    yield "salvage: the order of refusals", order()
    yield "salvage: books at rest", at_rest()
    yield "salvage: twice", twice(random.Random(149))
    yield "salvage: 4,096 slots", most_slots(random.Random(150))
    yield "salvage: books with any history", any_rings(random.Random(151), 40)
    yield "salvage: books from a good start, and on", whole_lives()
