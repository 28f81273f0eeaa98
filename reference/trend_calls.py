"""Trends, and the figures of two windows at once, by sections."""

import itertools
import random

import model
from book_calls import JUDGED, any_book
from calls import TOP, call
from model import NO_RECORD, Record
from paper_cases import BOOK, RINGS
from rest_calls import EDGES, RESTING
from row_books import exact, some_items
from trend_books import SMALL, good, of_good_books

# A window and how many items more: both within 64 bits, and their sum above them, or little or 0 within them or within 32.
WRAPPING = [
    *((TOP, 0), (TOP, 1), (TOP, 3), (TOP, TOP), (0, TOP), (1, TOP), (4, TOP - 2), (2**63, 2**63), (2**63 + 1, 2**63 + 2)),
    *((2**32 - 1, 1), (2**31, 2**31), (2**32 + 1, 2**32 + 2)),
]


def trends(asked):
    """The windows of each good book."""
    for (record, ring, _), windows in asked:
        for i in windows:
            yield call("trend", record, ring, i)


def case_a():
    """Every window, alone and with a byte behind the ring; the largest carry, of which window 0 leaves just 0; and every mark of rest."""
    for ring in RINGS:
        for i in (*range(5), 6, 7, TOP):
            yield call("trend", BOOK, ring, i)
    for i in range(4):
        yield call("trend", BOOK._replace(R=14), b"\x40", i)
    for mark in RESTING:
        yield call("trend", BOOK._replace(mark=mark), b"\x40", 2)


def some_marked_book(rng):
    """Any book and ring, in one of three cases at rest."""
    record, ring = any_book(rng)
    return record._replace(mark=rng.choice([0, 0, rng.randint(1, TOP)])), ring


def any_books(rng, count):
    """Rings of any bytes: a window of at most half of what is kept, that half, and one more."""
    for _ in range(count):
        record, ring = some_marked_book(rng)
        half = record.kept // 2
        for i in sorted({rng.randint(0, half), half, half + 1}):
            yield call("trend", record, ring, i)


def largest():
    """Fields above z in one half of the ring and 0 in the other: trends above and below those that any items could make."""
    ring = b"\xff" * 768 + bytes(768)
    for head in (0, 2048):
        for R in (0, 16383):
            yield call("trend", Record(65535, 4096, 16384, R, 0, 4096, head), ring, 2048)


def no_books(name, *too_many):
    """Beside each book at an edge of 8 the record that is none: with a ring, and with none and windows that are too long."""
    for book, change in EDGES:
        ring = bytes(model.book_bytes(book.L, book.n, book.D))
        for record in (book, book._replace(**change)):
            yield call(name, record, ring, *(1 for _ in too_many))
        yield call(name, book._replace(**change), b"", *too_many)
    for record in (*(BOOK._replace(**{number: TOP}) for number in JUDGED), NO_RECORD):
        yield call(name, record, b"", *too_many)


def short_rings(name, *windows):
    """A byte too few, and none: 4, whether the window is too long or not."""
    for record in (BOOK, Record(9, 3, 1, 0, 0, 3, 1), Record(600, 1440, 3600, 0, 5, 1440, 239)):
        size = model.book_bytes(record.L, record.n, record.D)
        for ring, window in itertools.product((bytes(size - 1), b""), windows):
            yield call(name, record, ring, *window)


def pairs(most):
    """Every window, with as many items more as there can be, and with fewer."""
    return [(i, k) for i in range(most + 1) for k in range(most + 1 - i)]


def totals_of_case_a():
    """Every window with every number of items more, up to a sum of 7; and at rest."""
    for i, k in pairs(7):
        yield call("totals", BOOK, b"\x40", i, k)
    for mark in (1, TOP):
        for i, k in ((2, 3), (3, 4)):
            yield call("totals", BOOK._replace(mark=mark), b"\x40", i, k)


def wide_totals():
    """Sums around what is kept, and those that 64 bits do not hold."""
    for record in (BOOK, Record(1, 4096, 4096, 4095, 0, 4096, 0)):
        kept = record.kept
        for i, k in ((0, kept), (kept, 0), (1, kept - 1), (kept - 1, 1), (0, kept + 1), (kept + 1, 0), (1, kept), (kept, 1), *WRAPPING):
            yield call("totals", record, b"\x40", i, k)


def totals_from_a_good_start(rng):
    """Some pairs of windows of each of the settings whose trends are asked for."""
    for L, n, D, sizes in SMALL:
        for size in sizes:
            record, ring, _ = good(L, n, D, some_items(rng, L, size))
            for i, k in rng.sample(pairs(record.kept), min(4, record.kept)):
                yield call("totals", record, ring, i, k)


def totals_around_slot_0(rng):
    """Every head of few slots, and some of many slots of one bit: slot 0 lies in the first window, among the items more, and between them."""
    for head in range(8):
        record, ring, _ = exact(15, 8, some_items(rng, 15, 16 + head))
        for i, k in ((2, 3), (3, 5), (5, 1)):
            yield call("totals", record, ring, i, k)
    for head in (0, 10, 64, 100, 199):
        record, ring, _ = exact(1, 200, some_items(rng, 1, 400 + head))
        for i, k in ((10, 90), (64, 136)):
            yield call("totals", record, ring, i, k)


def totals_of_any_books(rng, count):
    """Rings of any bytes: a sum within what is kept, that sum itself, and one more."""
    for _ in range(count):
        record, ring = some_marked_book(rng)
        i = rng.randint(0, record.kept)
        for k in sorted({rng.randint(0, record.kept - i), record.kept - i, record.kept - i + 1}):
            yield call("totals", record, ring, i, k)


def totals_of_the_longest(rng):
    """The largest ring: all that is kept, behind a short window and behind a long one."""
    record, ring, _ = exact(65535, 4096, some_items(rng, 65535, 4096 + 1000))
    for i, k in ((1, 4095), (4095, 1)):
        yield call("totals", record, ring, i, k)


def unreadable():
    """Signs, missing and further arguments, names, and windows around 2^64."""
    book = "5,6,10,13,1,6,0,0"
    for window in ("-1", "-0", "+1", "-", "", "01", TOP, TOP + 1, 2**65 + 2):
        yield f"trend {book} 40 {window}"
        yield f"totals {book} 40 2 {window}"
    for name in ("trend", "totals"):
        yield from (name, f"{name} {book}", f"{name} {book} 40", f"{name} {book} 40 1 1 1", f"{name} 5,6,10,13,1,6,0 40 1", f"{name} {book} 4 1 1")
    yield from (f"trend {book} 40 1 1", f"totals {book} 40 1", f"total {book} 40 1 1", f"trends {book} 40 1", f"Trend {book} 40 1")


def sections():
    yield "trend: case A", case_a()
    for name, asked in of_good_books():
        yield name, trends(asked)
    yield "trend: books with any history", itertools.chain(any_books(random.Random(76), 18), largest())
    yield "trend: records that are no book", no_books("trend", TOP)
    yield "trend: short rings", short_rings("trend", (0,), (1,), (2**63,))
    yield "totals: case A", totals_of_case_a()
    yield "totals: windows of any size", wide_totals()
    yield "totals: books from a good start", totals_from_a_good_start(random.Random(77))
    yield "totals: around slot 0", totals_around_slot_0(random.Random(78))
    yield "totals: books with any history", itertools.chain(totals_of_any_books(random.Random(79), 12), totals_of_the_longest(random.Random(80)))
    yield "totals: records that are no book", no_books("totals", TOP, TOP)
    yield "totals: short rings", short_rings("totals", (0, 0), (1, 1), (TOP, 1))
    yield "trend: lines that cannot be read, and some that just can", unreadable()
