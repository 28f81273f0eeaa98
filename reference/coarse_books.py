"""Books to be made coarser: good ones with the items that they were given, whole lives of them, and books with any history."""

import itertools
import random
from functools import cache

import coarse_model
import model
from life import Life, RowLife
from model import Record
from row_books import some_items
from row_model import entries
from trend_books import good, good_exact

# L, n, D and m: blocks of one item, of two, of three, and of so many that few blocks are kept; n that is and that is not a number of whole blocks.
SMALL = [(1, 40, 1, 2), (9, 41, 9, 16), (5, 36, 10, 2), (5, 37, 10, 9), (3, 61, 9, 4), (7, 50, 70, 5)]


def second_ring(r, m, further=0, byte=b"\xff"):
    """A ring of just the bytes that the coarser book takes, and further ones."""
    return byte * (model.book_bytes(r.L, r.n, m * r.D) + further)


def sizes(n, c, m):
    """Numbers of items: J of 0, 1, m − 1, m and m + 1, each with an open block of 0 and of c − 1; around n; and after laps of the ring."""
    few = {J * c + p for J in (0, 1, m - 1, m, m + 1) for p in (0, c - 1)}
    return sorted({size for size in few if size <= n} | {n - 1, n, n + 1, 2 * n, 3 * n + c, 5 * n + c - 1})


def small_books(rng):
    """Each number of items in each of the settings."""
    for L, n, D, m in SMALL:
        for size in sizes(n, model.block_length(L, D), m):
            yield good(L, n, D, some_items(rng, L, size)), m


def box(rng):
    """The box's setting, before a day is full, when it just is, and days later; in movement, in movement that ends, and in one that begins."""
    L, n, D = 600, 1440, 3600
    moving, still = some_items(rng, L, 1447), [0] * 744
    for items in (moving[:731], moving[:1440], moving + moving[:1000], moving + still, still + moving, [L] * 1451):
        for m in (2, 7, 16):
            yield good(L, n, D, items), m


def largest(rng):
    """4,096 blocks of one item, with the least L and the largest; and blocks so long that m·D is n·L, or nearly."""
    for size, m in ((4095, 2), (4096, 16), (5001, 3)):
        yield good_exact(1, 4096, some_items(rng, 1, size)), m
    yield good(65535, 4096, 65535, some_items(rng, 65535, 4133)), 2
    for L, blocks in itertools.product((1, 65535), (16, 5, 3, 2)):
        D = 4096 // blocks * L
        for items in ([L] * 9000, some_items(rng, L, 7777)):
            yield good(L, 4096, D, items), blocks


@cache
def of_good_books():
    """Sections of good books, each book with its m."""
    return {
        "coarser: blocks kept": [*small_books(random.Random(81))],
        "coarser: the box's setting": [*box(random.Random(82))],
        "coarser: the longest books": [*largest(random.Random(83))],
    }


# L, n, D, and what comes one after another, each time so many items and then an m, 0 for none: made coarser once and more often, with items
# between and without.
LIVES = [
    *((1, 40, 1, ((90, 2), (0, 2), (5, 3), (90, 0))), (3, 61, 9, ((150, 2), (7, 3), (0, 2), (40, 0)))),
    *((9, 20, 9, ((0, 2), (13, 5), (30, 0))), (600, 1440, 3600, ((3007, 4), (33, 10), (1500, 0)))),
]
# The same for books with a row: several groups of slots before and after.
ROW_LIVES = [
    *((1, 130, 1, ((300, 2), (67, 2), (9, 0))), (7, 400, 7, ((801, 3), (97, 2), (130, 0))), (5, 270, 10, ((71, 2), (140, 2), (1, 0)))),
    (3, 64, 3, ((64, 2), (1, 0))),
]


def with_items(rng, L, n, D, plan):
    """A life with its items in the place of their numbers."""
    return L, n, D, [(some_items(rng, L, size), m) for size, m in plan]


def lives():
    return [with_items(random.Random(84), *life) for life in LIVES]


def row_lives():
    return [with_items(random.Random(85), *life) for life in ROW_LIVES]


def windows(r):
    """One behind the open block, half of what is kept, all, and one too many."""
    return sorted({r.p + 1, r.kept // 2, r.kept, r.kept + 1})


def lived(rng, L, n, D, plan):
    """A life's calls, and at the end of each step totals, how far back, and a trend."""
    life = Life(L, n, D, rng.randbytes(model.book_bytes(L, n, D)))
    for items, m in plan:
        life.run(items[:-2])
        for x in items[-2:]:
            life.add(x)
        if m:
            life.coarsen(m, second_ring(life.record, m, rng.randint(0, 1)))
        kept, most = life.record.kept, model.total(life.record, life.ring, life.record.kept)[1]
        life.lines += [life.ask("total", i) for i in windows(life.record)]
        life.lines += [life.ask("far", v) for v in (most // 2 + 1, most)]
        life.lines.append(life.ask("trend", kept // 2))
    return life.lines


def lived_with_row(rng, L, n, D, plan):
    """The same with a row, and totals."""
    life = RowLife(L, n, D, rng.randbytes(model.book_bytes(L, n, D)), [9] * entries(n))
    for items, m in plan:
        life.run(items[:-1])
        for x in items[-1:]:
            life.add(x)
        if m:
            life.coarsen(m, second_ring(life.record, m), [8] * (coarse_model.coarser_entries(life.record, m) + 1))
        life.lines += [life.ask_row("total_row", i) for i in windows(life.record)]
    return life.lines


def any_book(rng):
    """A record that is not refused for some m, with nothing true about its history, and any bytes for its ring, those bits too that no slot has."""
    L = rng.choice([1, rng.randint(1, 9), rng.randint(1, 65535), 65535])
    n = rng.choice([rng.randint(2, 12), rng.randint(13, 300)])
    c = rng.randint(1, rng.choice([1, n // 2]))
    D = c * L
    p = rng.randrange(c)
    R = rng.choice([0, D - 1, D - 1 + p * L, rng.randint(0, D - 1 + p * L)])
    kept = rng.choice([p, n, n, rng.randint(p, n)])
    mark = rng.choice([0, 0, rng.randint(1, 2**64 - 1)])
    record = Record(L, n, D, R, p, kept, rng.randrange(model.slot_count(L, n, D)), mark)
    m = rng.randint(2, min(16, n // c))
    return record, rng.randbytes(model.book_bytes(L, n, D) + rng.choice([0, 1])), m
