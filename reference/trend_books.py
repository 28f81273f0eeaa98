"""Good books with the items that they were given, to be asked for trends; and the bounds in which a trend then lies."""

import random

import model
from calls import TOP, call
from row_books import exact, some_items
from run_calls import opened
from worked import at_once

# Windows that no book has; of some of them twice the window is little in 32 bits, or in 64.
WIDE = (2**31 - 1, 2**31, 2**31 + 1, 2**63 - 1, 2**63, 2**63 + 1, TOP)
# D a multiple of L and not above n·L / 2, or below L: a block holds D − 1, and two whole blocks are kept.
WITH_ENDS = [(1, 4, 2), (5, 6, 10), (9, 4, 4), (600, 1440, 3600), (65535, 4096, 65535 * 2048)]
# L, n, D and numbers of items: tolerances of 1, below L, of L, and above L with blocks of two, three and seven; kept odd and even; open blocks
# that hold a window and twice the window, the window alone, and not even that.
SMALL = [
    *((7, 6, 1, (3, 17)), (9, 7, 4, (4, 15)), (5, 8, 5, (5, 20)), (5, 9, 10, (7, 22))),
    *((4, 13, 13, (8, 28)), (3, 20, 21, (6, 20, 45))),
]


def good(L, n, D, items):
    """The record and ring of a book that was opened and given these items, and the items."""
    return (*at_once(*opened(L, n, D), items), items)


def good_exact(L, s, items):
    """The same for a tolerance of 1, without any of the model's calls."""
    return (*exact(L, s, items)[:2], items)


def block(L, D, amount):
    """The items of a block that come to this amount, the first ones as large as they can be."""
    return [min(L, max(0, amount - k * L)) for k in range(model.block_length(L, D))]


def fewest():
    """L 1, n 2, D 2 after every few items, of which some reach an end; and one where the trend is above 0 and the true one below."""
    for size in range(2, 5):
        for number in range(2**size):
            yield good(1, 2, 2, [number >> k & 1 for k in range(size)]), [1]
    yield good(2, 2, 3, [2, 1]), [1]


def lowest(L, n, D):
    """The figure of the last block falls short by D − 1, since what lies before it comes to D; that of the last two by nothing."""
    return good(L, n, D, block(L, D, D - 1) + block(L, D, 1) + [L] * model.block_length(L, D))


def highest(L, n, D, last):
    """The figure of the last block falls short by nothing, since what lies before it comes to D − 1; that of the last two by D − 1."""
    return good(L, n, D, block(L, D, D - 1) + block(L, D, last))


def both_ends():
    """Trends that are 2·(D − 1) below the true ones and D − 1 above them, some of another sign."""
    yield from fewest()
    for L, n, D in WITH_ENDS:
        for book in (lowest(L, n, D), *(highest(L, n, D, last) for last in (0, 1, L))):
            yield book, [model.block_length(L, D)]


def small_books(rng):
    """Every window up to one that is too long."""
    for L, n, D, sizes in SMALL:
        for size in sizes:
            yield good(L, n, D, some_items(rng, L, size)), range(min(n, size) // 2 + 2)


def around_slot_0(rng):
    """Every head of few slots, and some of many slots of one bit: slot 0 lies in the window, behind it in its double, and at the end of either."""
    for head in range(8):
        yield good_exact(15, 8, some_items(rng, 15, 16 + head)), (1, 2, 4)
        yield good(5, 16, 10, some_items(rng, 5, 33 + 2 * head)), (3, 5, 7)
    for head in (0, 32, 63, 64, 65, 128, 199):
        yield good_exact(1, 200, some_items(rng, 1, 400 + head)), (32, 64)


def wide_windows(rng):
    """Few items kept and many: each half of them, one more, all of them, and windows that no book has."""
    for L, n, D, size in ((5, 6, 10, 0), (5, 6, 10, 5), (5, 6, 10, 9), (1, 4096, 4096, 5000)):
        half = min(n, size) // 2
        yield good(L, n, D, some_items(rng, L, size)), sorted({0, 1, half, half + 1, min(n, size), 2**63 + half, *WIDE})


def box(rng):
    """The box's setting, in movement, in movement that ends, and in one that begins."""
    L, n, D = 600, 1440, 3600
    moving, still = some_items(rng, L, 1000), [0] * 747
    for items in (moving + moving[:747], moving + still, still + moving):
        yield good(L, n, D, items), (1, 5, 6, 7, 30, 360, 719, 720)


def longest(rng):
    """The largest L and n, with the least tolerance and with the largest: any items, and all of the last half the largest or 0."""
    L, n = 65535, 4096
    half, none = [L] * (n // 2), [0] * (n // 2)
    for items, windows in ((some_items(rng, L, n + 33), (1024, 2048, 2049)), (none + half, (2047, 2048)), (half + none, (2048,))):
        yield good_exact(L, n, items), windows
    for items in (some_items(rng, L, 2 * n + 33), half * 4, none + half * 3, half * 3 + none):
        yield good(L, n, n * L, items), (1, 33, 1024, 2048)


def of_good_books():
    """Sections of good books: each book with the windows that it is asked for."""
    yield "trend: both ends, and zero", both_ends()
    yield "trend: books from a good start", small_books(random.Random(71))
    yield "trend: around slot 0", around_slot_0(random.Random(72))
    yield "trend: windows of any size", wide_windows(random.Random(73))
    yield "trend: the box's setting", box(random.Random(74))
    yield "trend: the longest books", longest(random.Random(75))


def true_trend(items, i):
    """Twice the total of the last i items less that of the last 2i."""
    newest = items[::-1]
    return 2 * sum(newest[:i]) - sum(newest[: 2 * i])


def above_true(record, ring, items, i):
    """How far the trend lies above the true one."""
    return model.trend(record, ring, i)[1] - true_trend(items, i)


def faults():
    """Trends of good books out of their bounds, and ends that are not reached, in words; nothing, it is hoped."""
    for (record, ring, items), windows in (asked for _, part in of_good_books() for asked in part):
        for i in windows:
            if 2 * i <= record.kept and not -2 * (record.D - 1) <= above_true(record, ring, items, i) <= record.D - 1:
                yield f"{call('trend', record, ring, i)}: out of the bounds around {true_trend(items, i)}"
    for L, n, D in WITH_ENDS:
        c = model.block_length(L, D)
        if above_true(*lowest(L, n, D), c) != -2 * (D - 1) or above_true(*highest(L, n, D, 1), c) != D - 1:
            yield f"L {L}, n {n}, D {D}: an end of the bounds is not reached"
