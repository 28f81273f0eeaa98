"""Books made coarser, by sections. The books are in coarse_books.py, most calls with a row in coarse_row_calls.py."""

import itertools
import random

import model
from book_calls import JUDGED, numbers_of_a_book
from calls import TOP, call
from coarse_books import any_book, lived, lives, of_good_books, second_ring
from coarse_model import coarsen
from model import NO_RECORD, Record
from paper_cases import BOOK, RINGS
from rest_calls import EDGES, RESTING
from row_books import TOP_SUM, some_items
from trend_books import good, good_exact

# Below 2, from 2 to 16, and above; some are 2 by their low digits, and some are so large that m·D has small ones.
TIMES = (0, 1, 2, 3, 15, 16, 17, 255, 256, 258, 2**32, 2**32 + 2, 2**63, 2**63 + 2, 2**64 // 10 + 1, TOP)


def case_a():
    """Every m, alone and with a byte behind the ring; and what is told of the coarser book."""
    for ring, m in itertools.product(RINGS, range(2, 5)):
        yield call("coarsen", BOOK, ring, m, b"\xff\xff")
    for m in (2, 3):
        _, record, _, ring = coarsen(BOOK, b"\x40", m, b"\xff")
        yield from (call("total", record, ring, i) for i in range(7))
        yield from (call("far", record, ring, v) for v in (4, 5, 14, 15))
        yield from (call("add", record, ring, x) for x in (2, 5, 6))


def reached():
    """L 1, n 3, D 1, items 1 0 1, twice: m·D is reached while the block is open. Then every few items."""
    for items in ([1, 0, 1], *itertools.product((0, 1), repeat=4)):
        record, ring, _ = good(1, 3, 1, items)
        yield call("coarsen", record, ring, 2, b"\xff")
        _, record, _, ring = coarsen(record, ring, 2, b"\xff")
        yield call("add", record, ring, items[-1])
        yield call("total", record, ring, record.kept)


def good_books(books):
    for (record, ring, _), m in books:
        yield call("coarsen", record, ring, m, second_ring(record, m))


def times(rng):
    """Every kind of m for a book whose D goes 16 times into n·L and more, and for one of which it does not."""
    for L, n, D in ((5, 400, 10), (5, 31, 10)):
        record, ring, _ = good(L, n, D, some_items(rng, L, 2 * n + 1))
        for m in TIMES:
            yield call("coarsen", record, ring, m, b"\xff" * 16)


def tolerances():
    """m·D at n·L, and as little above it as can be; the largest of either. Then the largest carries, with quotients that are all 1."""
    for L, n, c, m in (
        *((5, 6, 2, 3), (5, 6, 2, 4), (5, 5, 2, 3), (1, 2, 1, 2), (1, 3, 2, 2), (1, 4, 2, 2), (1, 16, 1, 16), (1, 15, 1, 16), (1, 1, 1, 2)),
        *((65535, 4096, 256, 16), (65535, 4095, 256, 16), (65535, 4096, 2048, 2), (65535, 4096, 2048, 3), (65535, 4096, 4096, 16)),
    ):
        record = Record(L, n, c * L, c * L - 1, 0, n, 0)
        yield call("coarsen", record, b"\xa5" * model.book_bytes(L, n, c * L), m, b"\xff" * 200)
    for L, c, m in itertools.product((1, 65535), (256, 2048), (2, 15, 16)):
        record = Record(L, 4096, c * L, c * L - 1 + (c - 1) * L, c - 1, 4096, 0)
        yield call("coarsen", record, b"\xff\xff", m, b"\xff\xff")


def no_multiples():
    """D one below a multiple of L, at it, and one above; and D below L, also where L is a multiple of it."""
    for L in (2, 600, 65535):
        for D in sorted({1, L // 2, L - 1, L, L + 1, 2 * L - 1, 2 * L, 2 * L + 1, 7 * L - L // 2, 7 * L}):
            record = Record(L, 60, D, 0, 0, 60, 0)
            yield call("coarsen", record, b"\xa5" * model.book_bytes(L, 60, D), 2, b"\xff" * 8)


def ring_sizes(rng):
    """Either ring and both short by a byte, of none, of just enough, and longer: what is behind either stays."""
    for L, n, D, m in ((5, 6, 10, 2), (600, 1440, 3600, 2), (1, 33, 1, 4)):
        record, ring, _ = good(L, n, D, some_items(rng, L, 2 * n - 1))
        firsts, seconds = ([lent[:-1], b"", lent, lent + b"\xa5\x5a"] for lent in (ring, second_ring(record, m)))
        for first, second in itertools.product(firsts, seconds):
            yield call("coarsen", record, first, m, second)


def after_last_slot(rng):
    """Bits set in either ring that no slot has: those of the first are not read, those of the second become 0."""
    for n in (9, 12, 15, 16):
        record, ring, _ = good_exact(1, n, some_items(rng, 1, 20))
        dirty = ring[:1] + bytes([ring[1] | (1 << (16 - n)) - 1])
        for lent, byte in itertools.product((ring, dirty), (b"\xff", b"\x00")):
            yield call("coarsen", record, lent, 2, second_ring(record, 2, 1, byte))


def no_books():
    """Beside each book at an edge of 8 the record that is none: with rings, and with none, no row and m out of range."""
    for book, change in EDGES:
        ring = b"\x5a" * model.book_bytes(book.L, book.n, book.D)
        for record in (book, book._replace(**change)):
            yield call("coarsen", record, ring, 2, b"\xff" * 1024)
        yield call("coarsen_row", book._replace(**change, mark=TOP), b"", TOP, b"", [])
    for record in (*(BOOK._replace(**{number: TOP}) for number in JUDGED), NO_RECORD, Record(*[TOP] * 8)):
        yield call("coarsen", record, b"", TOP, b"")


def order():
    """8, 4 for the first ring, 19 for either, 3, 4 for the second ring, 18: each with and without those that come after it."""
    for R, first, (D, m), second in itertools.product((7, 99), (b"\x5a", b""), ((10, 2), (10, 17), (11, 2), (10, 4)), (b"\xff", b"")):
        yield call("coarsen", Record(5, 7, D, R, 0, 7, 1), first, m, second)
    for m, second, row in itertools.product((2, 17, 4), (b"\xff", b""), ([6, 7], [])):
        yield call("coarsen_row", Record(5, 7, 10, 7, 0, 7, 1), b"\x5a", m, second, row)


def longer_order(rng):
    """The same for 65 slots of one bit in the second ring, which is short by its last byte, as the row is by its last number."""
    record, ring, _ = good(3, 260, 6, some_items(rng, 3, 700))
    for lent, m, second, row in itertools.product((ring, ring[:-1]), (2, 1), (9, 8), (3, 2)):
        yield call("coarsen_row", record, lent, m, b"\xff" * second, [TOP_SUM] * row)


def at_rest():
    """The mark is carried over, whatever number it is; the coarser book then rests or is woken as any other. A refusal hands it back."""
    for mark in RESTING:
        record = BOOK._replace(mark=mark)
        for m in (2, 1):
            yield call("coarsen", record, b"\x40", m, b"\xff")
        yield call("coarsen_row", record, b"\x40", 3, b"\xff", [9])
    for record in (BOOK._replace(mark=1), BOOK):
        _, record, _, ring = coarsen(record, b"\x40", 2, b"\xff")
        yield from (call("add", record, ring, 2), call("run", record, ring, [2, 3]), call("total", record, ring, 5))
        yield from (call("verdict", record, ring, 5, 4), call("rest", record), call("wake", record))


def any_books(rng, count):
    """Rings of any bytes, in which no items need have come to the quotients; further bytes behind either ring."""
    for _ in range(count):
        record, ring, m = any_book(rng)
        yield call("coarsen", record, ring, m, rng.randbytes(len(second_ring(record, m)) + rng.choice([0, 1])))


def any_numbers(rng, count):
    """Books of any tolerance, mostly no multiple of L, and any m."""
    for _ in range(count):
        L, n, D = numbers_of_a_book(rng)
        D = rng.choice([D, L * rng.randint(1, n)])
        record = Record(L, n, D, rng.randint(0, D - 1), 0, rng.randint(0, n), 0)
        yield call("coarsen", record, rng.randbytes(model.book_bytes(L, n, D)), rng.randint(1, 17), b"\xff" * rng.randint(0, 9))


def twice(rng):
    """Once by a product, and by its parts, one after the other."""
    for L, n, D, size, parts in (
        *((1, 40, 1, 97, (2, 3)), (1, 40, 1, 97, (3, 2)), (5, 75, 10, 150, (2, 2)), (5, 75, 10, 40, (4, 4)), (9, 64, 9, 100, (16, 2))),
        (1, 1024, 1, 1024, (16, 16)),
    ):
        record, ring, _ = good(L, n, D, some_items(rng, L, size))
        yield call("coarsen", record, ring, parts[0] * parts[1], b"\xff" * 300)
        for m in (*parts, *parts):
            yield call("coarsen", record, ring, m, second_ring(record, m))
            refusal, record, _, second = coarsen(record, ring, m, second_ring(record, m))
            ring = ring if refusal else second


def whole_lives(rng):
    for life in lives():
        yield from lived(rng, *life)


def sections():
    yield "coarser: case A", case_a()
    yield "coarser: the new tolerance reached in an open block", reached()
    for name, books in of_good_books().items():
        yield name, good_books(books)
    yield "coarser: how many times", times(random.Random(86))
    yield "coarser: the largest tolerance", tolerances()
    yield "coarser: tolerances that are no multiple of L", no_multiples()
    yield "coarser: short rings, and longer ones", ring_sizes(random.Random(87))
    yield "coarser: bits after the last slot", after_last_slot(random.Random(88))
    yield "coarser: records that are no book", no_books()
    yield "coarser: the order of refusals", itertools.chain(order(), longer_order(random.Random(89)))
    yield "coarser: books at rest", at_rest()
    yield "coarser: books with any history", itertools.chain(any_books(random.Random(90), 40), any_numbers(random.Random(93), 12))
    yield "coarser: twice", twice(random.Random(94))
    yield "coarser: books from a good start, and on", whole_lives(random.Random(95))
