"""Calls of the book, by sections."""

import random

import model
from calls import TOP, around, call
from life import Life
from model import Record

# The numbers of a record that 8 looks at: all but the mark.
JUDGED = Record._fields[:-1]


def bad_openings():
    """Each range left to either side, the largest numbers, and the largest D that opens."""
    ring = b"\xa5\xa5"
    for numbers in ((0, 6, 10), (65536, 6, 10), (5, 0, 10), (5, 4097, 10), (5, 6, 0), (5, 3, 16), (5, 3, 15)):
        yield call("open", *numbers, ring)
    yield call("open", TOP, TOP, TOP, b"\x00\xa5")
    yield call("open", 65535, 4096, TOP, b"\x00\xa5")


def short_rings():
    """A byte fewer than a book takes, and none: 4, unless a number or the record comes before it."""
    yield call("open", 9, 3, 1, b"\xa5")
    for L in (5, 0):
        yield call("open", L, 6, 10, b"")
        record = Record(L, 6, 10, 13, 1, 6, 0)
        for x in (5, 6):
            yield call("add", record, b"", x)
        yield call("total", record, b"", 0)
        yield call("total", record, b"", 7)
        yield call("far", record, b"", 0)
        yield call("verdict", record, b"", 0, 0)


def openings(rng):
    """The ends of each range, alone and together, and rings one byte short."""
    ring = rng.randbytes(3)
    for L in around(1, 5, 65535):
        yield call("open", L, 6, 10, ring)
        yield call("open", L, 0, 10, ring)
    for n in around(1, 6, 4096):
        yield call("open", 5, n, 10, ring)
        yield call("open", 5, n, 0, ring)
    for D in around(1, 5, 10, 30):
        yield call("open", 5, 6, D, ring)
    for D in around(65535 * 4096):
        yield call("open", 65535, 4096, D, ring)
        yield call("open", 65535, 4096, D, b"")
    for L, n, D in ((1, 1, 1), (1, 4096, 1), (65535, 1, 1), (65535, 9, 1), (600, 1440, 3600), (7, 100, 10), (7, 100, 3)):
        size = model.book_bytes(L, n, D)
        for length in (size - 1, size, size + 1):
            yield call("open", L, n, D, rng.randbytes(length))


def numbers_of_a_book(rng):
    """L, n and D that open, from narrow to wide, D as often below L as above."""
    L = rng.choice([rng.randint(1, 9), rng.randint(1, 300), rng.randint(1, 65535), 65535])
    n = rng.choice([rng.randint(1, 9), rng.randint(1, 120)])
    D = rng.choice([1, L, n * L, rng.randint(1, n * L), rng.randint(1, min(n * L, 3 * L)), rng.randint(1, L)])
    return L, n, D


def whole_lives(rng, count):
    """Books from a good start under random items, asked now and then."""
    for _ in range(count):
        L, n, D = numbers_of_a_book(rng)
        life = Life(L, n, D, rng.randbytes(model.book_bytes(L, n, D) + rng.randint(0, 1)))
        for _ in range(rng.randint(1, 14)):
            life.add(rng.choice([0, L, rng.randint(0, L)]))
        yield from life.lines
        kept = life.record.kept
        for i in sorted({0, 1, kept, kept + 1, rng.randint(0, kept)}):
            yield life.ask("total", i)
        yield from questions(rng, life)


def questions(rng, life):
    """Amounts at, below and above a figure, where the verdict and the window turn."""
    record, ring = life.record, life.ring
    w = rng.randint(1, record.kept)
    f = model.total(record, ring, w)[1]
    for v in sorted({0, 1, f, f + 1, f + record.D - 1, f + record.D}):
        yield life.ask("verdict", w, v)
        yield life.ask("far", v)
    yield life.ask("verdict", 0, f + 1)
    yield life.ask("verdict", record.kept + 1, f + 1)


def any_book(rng):
    """A record that passes 8, with nothing true about its history, and any bytes for its ring."""
    return any_history(rng, *numbers_of_a_book(rng))


def any_history(rng, L, n, D):
    """The same with these numbers."""
    c = model.block_length(L, D)
    p = rng.randrange(min(c, n + 1))
    R = rng.choice([0, D - 1 + p * L, rng.randint(0, D - 1 + p * L)])
    kept = rng.choice([p, n, rng.randint(p, n)])
    head = rng.randrange(model.slot_count(L, n, D))
    return Record(L, n, D, R, p, kept, head), rng.randbytes(model.book_bytes(L, n, D) + rng.choice([0, 0, 1]))


def calls_on(rng, record, ring):
    yield call("add", record, ring, rng.choice([0, record.L, rng.randint(0, record.L), record.L + 1, TOP]) & TOP)
    kept = min(record.kept, 5000)
    for i in sorted({0, kept, rng.randint(0, kept), kept + 1, TOP}):
        yield call("total", record, ring, i)
    w = rng.randint(0, kept)
    f = model.total(record, ring, w)[1]
    v = rng.choice([f, f + 1, f + record.D - 1, f + record.D, rng.randint(0, TOP), TOP]) & TOP
    yield call("verdict", record, ring, w, v)
    yield call("verdict", record, ring, w, rng.choice([0, 1, TOP]))
    yield call("far", record, ring, v)
    yield call("far", record, ring, rng.choice([0, 1, f, TOP]))


def arbitrary_books(rng, count):
    for _ in range(count):
        yield from calls_on(rng, *any_book(rng))


def last_slots(rng, count):
    """Adding at a block's end: the largest carry, every head, rings all 0 and all 1."""
    for _ in range(count):
        L, n, D = numbers_of_a_book(rng)
        c = model.block_length(L, D)
        if c > n:
            continue
        s = model.slot_count(L, n, D)
        ring = rng.choice([b"\x00", b"\xff"]) * model.book_bytes(L, n, D)
        record = Record(L, n, D, D - 1 + (c - 1) * L, c - 1, n, rng.choice([0, s - 1, rng.randrange(s)]))
        yield call("add", record, ring, L)


def changed_records():
    """Case A's record with one number changed, at an edge or as large as it can be, and with all of them so; the first of all is a book."""
    base = Record(5, 6, 10, 13, 1, 6, 0)
    changed = [{}, {"L": 0}, {"L": 65536}, {"n": 0}, {"n": 4097}, {"D": 0}, {"D": 31}, {"kept": 7}, {"kept": 0}, {"p": 2}]
    changed += [{"head": 3}, {"R": 14}, {"R": 15}] + [{name: TOP} for name in JUDGED]
    return [base._replace(**numbers) for numbers in changed] + [Record(*[TOP] * len(JUDGED))]


def no_books():
    """Each of these asked, and the last of them with the largest numbers."""
    ring = b"\x40"
    for record in changed_records():
        yield from asked(record, ring)
    largest = changed_records()[-1]
    yield call("far", largest, ring, TOP)
    yield call("verdict", largest, ring, TOP, TOP)


def off_by_one(rng):
    """Each condition of 8 off by one, alone, for a few books; and the order 8, 4, then the call's own."""
    for base in (Record(5, 6, 10, 13, 1, 6, 0), Record(3, 4, 2, 1, 0, 4, 0), Record(600, 1440, 3600, 0, 5, 1440, 239)):
        size = model.book_bytes(base.L, base.n, base.D)
        ring = rng.randbytes(size)
        for name in JUDGED:
            for value in around(*thresholds(base, name)):
                yield from asked(base._replace(**{name: value}), ring)
        yield from asked(base, ring[:-1])
        yield from asked(base._replace(head=TOP), ring[:-1])
        yield call("add", base, ring[:-1], base.L + 1)
        yield call("total", base, ring[:-1], base.kept + 1)
        yield call("verdict", base, ring[:-1], 0, 0)
        yield call("verdict", base, ring, base.kept + 1, 0)


def thresholds(base, name):
    """The values at which 8 begins to hold for one number of the record."""
    c = model.block_length(base.L, base.D)
    s = model.slot_count(base.L, base.n, base.D)
    return {
        "L": (base.L, 65535),
        "n": (base.n, base.kept, 4096),
        "D": (base.D, base.n * base.L),
        "R": (base.D - 1 + base.p * base.L,),
        "p": (c, base.p),
        "kept": (base.n, base.p),
        "head": (s,),
    }[name]


def asked(record, ring):
    yield call("total", record, ring, 0)
    yield call("add", record, ring, 0)
    yield call("far", record, ring, 1)
    yield call("verdict", record, ring, 1, 1)


def wild_records(rng, count):
    """The numbers that 8 looks at, of any size: nearly always 8."""
    for _ in range(count):
        numbers = [rng.choice([0, 1, rng.randint(0, 20), rng.randint(0, 70000), rng.randint(0, TOP), TOP]) for _ in JUDGED]
        record, ring = Record(*numbers), rng.randbytes(rng.randint(0, 4))
        yield from rng.sample(list(asked(record, ring)), 2)


def long_books(rng):
    """The longest books: n 4,096 with one-bit slots, with the widest, and one block for all."""
    for L, D in ((1, 1), (65535, 16384), (3, 3 * 4096), (2, 1)):
        n = 4096
        ring = rng.randbytes(model.book_bytes(L, n, D))
        record = Record(L, n, D, D - 1, 0, n, rng.randrange(model.slot_count(L, n, D)))
        f = model.total(record, ring, n)[1]
        for i in (1, 2047, n, n + 1):
            yield call("total", record, ring, i)
        for v in (max(1, f // 2), f, f + 1):
            yield call("far", record, ring, v)
        yield call("verdict", record, ring, n, f + D)
        yield call("add", record, ring, L)


def shapes(rng):
    """The ends of each range, alone and together, and any numbers that open."""
    for L in (0, 1, 5, 65535, 65536, TOP):
        for n in (0, 1, 6, 4096, 4097, TOP):
            for D in sorted({0, 1, L, 2 * L, n * L - 1, n * L, n * L + 1, TOP - 1, TOP}):
                if 0 <= D <= TOP:
                    yield call("shape", L, n, D)
    for _ in range(60):
        yield call("shape", *numbers_of_a_book(rng))


def sections():
    yield "bad openings", bad_openings()
    yield "short rings: the book's calls", short_rings()
    yield "openings: the ends of each range", openings(random.Random(4))
    yield "books from a good start", whole_lives(random.Random(5), 60)
    yield "books with any history", arbitrary_books(random.Random(6), 120)
    yield "adding at a block's end", last_slots(random.Random(7), 60)
    yield "records that are no book", no_books()
    yield "records that are no book: off by one", off_by_one(random.Random(8))
    yield "records of any numbers", wild_records(random.Random(9), 60)
    yield "the longest books", long_books(random.Random(10))
    yield "shapes", shapes(random.Random(18))
