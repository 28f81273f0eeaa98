"""Runs of counts, by sections."""

import random

import model
from answers import MOST_BYTES, MOST_NUMBERS
from book_calls import any_book, changed_records, numbers_of_a_book
from calls import TOP, call
from life import Life
from model import Record
from paper_cases import BOOK, ITEMS
from worked import one_by_one


def opened(L, n, D, further=0):
    """An opened book's record and ring, and bytes behind the ring that are not the book's."""
    return Record(L, n, D, 0, 0, 0, 0), bytes(model.book_bytes(L, n, D)) + b"\xa5" * further


def some_counts(rng, L, size):
    return [rng.choice([0, L, rng.randint(0, L)]) for _ in range(size)]


def cases():
    """Case A's record with a byte behind its ring; its items in two runs, parted at every place."""
    for counts in ([], [5], [5, 5, 5], [5, 6, 5]):
        yield call("run", BOOK, b"\x40\xff", counts)
    for size in range(1, len(ITEMS)):
        record, ring = one_by_one(*opened(5, 6, 10), ITEMS[:size])
        yield call("run", record, ring, ITEMS[size:])


def sizes(c, p):
    """None and one; a block's counts, and what fills the open block, each also one short and one over; and that with a block on top."""
    return sorted({0, 1, c - 1, c, c + 1, c - p - 1, c - p, c - p + 1, 2 * c - p})


def open_blocks(rng):
    """From a block's beginning, middle and end, at the last slot, with kept so that a block's counts just fill it up to n."""
    for L, n, D, phases in ((3, 4, 2, [0]), (5, 6, 10, [0, 1]), (5, 3, 15, [2]), (3, 20, 21, [0, 3, 6]), (1, 200, 64, [0, 37])):
        c, s = model.block_length(L, D), model.slot_count(L, n, D)
        for p in phases:
            record = Record(L, n, D, rng.randint(0, D - 1 + p * L), p, max(p, n - c), s - 1)
            ring = rng.randbytes(model.book_bytes(L, n, D))
            for size in sizes(c, p):
                yield call("run", record, ring, some_counts(rng, L, size))


def largest_block():
    """The longest block, filled with the largest counts on top of the largest carry, and one short of that."""
    L, n = 65535, 4096
    D = n * L
    for size in (n - 1, n):
        yield call("run", Record(L, n, D, D - 1, 0, n, 0), b"\x7f", [L] * size)
    yield call("run", Record(L, n, D, D - 1 + (n - 1) * L, n - 1, n, 0), b"\x7f", [L])


def laps(rng):
    """A ring of one slot 10,000 times over; rings of narrow and wide slots eight times, from an opened book and from any."""
    for L, D in ((1, 1), (9, 1)):
        yield call("run", *opened(L, 1, D), some_counts(rng, L, 10000))
    for width in (1, 2, 4, 5, 8, 11, 16):
        L = 2**width - 1
        yield call("run", *opened(L, 6, 1), some_counts(rng, L, 48))
        L = min(65535, 2 ** (width + 1) - 3)
        record = Record(L, 6, 2, 1, 0, 3, 2)
        yield call("run", record, rng.randbytes(model.book_bytes(L, 6, 2)), some_counts(rng, L, 50))
    yield call("run", *opened(5, 6, 10), some_counts(rng, 5, 50))
    yield call("run", *opened(600, 1440, 3600), some_counts(rng, 600, 3000))


def most_counts(rng):
    """As many as are taken: in blocks of one and of six; the last above L; of 20 digits each, behind the longest ring. And one more."""
    for L, n, D in ((9, 100, 4), (600, 1440, 3600)):
        yield call("run", *opened(L, n, D), some_counts(rng, L, MOST_NUMBERS))
    yield call("run", *opened(9, 100, 4), some_counts(rng, 9, MOST_NUMBERS - 1) + [TOP])
    record, ring = opened(5, 4096, 5 * 4096)
    digits = ",".join(str(x).zfill(20) for x in some_counts(rng, 5, MOST_NUMBERS))
    yield call("run", record, ring.ljust(MOST_BYTES, b"\xa5")) + " " + digits
    yield call("run", *opened(9, 100, 4), some_counts(rng, 9, MOST_NUMBERS + 1))


def counts_above(L):
    """Above L, some by their high digits alone: their low ones, or L less them, are those of counts that are not."""
    return sorted({L + 1, 2**16, 2**32, 2**32 + L, 2**63 - 1, 2**63, 2**63 + L, 2**63 + L + 1, TOP})


def too_large(rng):
    """Every kind of count above L, one by one and all at once; one in every place; one at the end of many lengths; two of them."""
    for L in (1, 5, 65535):
        start = opened(L, 6, L)
        yield call("run", *start, [L] * 9)
        for x in counts_above(L):
            yield call("run", *start, [0, L, x, L])
        yield call("run", *start, counts_above(L))
    for place in range(7):
        counts = some_counts(rng, 5, 7)
        counts[place] = rng.choice(counts_above(5))
        yield call("run", BOOK, b"\x40", counts)
    for size in (1, 2, 8, 9, 16, 17, 33, 65):
        yield call("run", BOOK, b"\x40", some_counts(rng, 5, size - 1) + [6])
    for first, second in ((6, TOP), (TOP, 6), (6, 6)):
        yield call("run", BOOK, b"\x40", [5, first, 0, 5, second, 1])


def no_books():
    """8 before a count above L and before a short ring, and at an empty run too."""
    for record in changed_records():
        yield call("run", record, b"\x40", [3, 6])
        yield call("run", record, b"", [])


def ring_sizes(rng):
    """A byte short: 4, with counts that are taken, with one above L and with none. Bytes behind the ring: they stay."""
    for L, n, D in ((5, 6, 10), (600, 1440, 3600), (65535, 6, 1)):
        record, ring = opened(L, n, D, further=3)
        size = model.book_bytes(L, n, D)
        for counts in ([L], [L + 1], []):
            yield call("run", record, ring[: size - 1], counts)
            yield call("run", record, ring, counts)
        yield call("run", record, ring, some_counts(rng, L, 40))


def any_runs(rng, count):
    """Any book, and a run for it: in one of six a count is above L."""
    for _ in range(count):
        record, ring = any_book(rng)
        counts = some_counts(rng, record.L, rng.choice([1, rng.randint(2, 9), rng.randint(10, 60)]))
        if rng.randrange(6) == 0:
            counts[rng.randrange(len(counts))] = rng.choice(counts_above(record.L))
        yield record, ring, counts


def arbitrary_books(rng, count):
    for record, ring, counts in any_runs(rng, count):
        yield call("run", record, ring, counts)


def whole_lives(rng, count):
    """Books from a good start: runs one after another, an item between them, and what the last items come to."""
    for _ in range(count):
        L, n, D = numbers_of_a_book(rng)
        life = Life(L, n, D, rng.randbytes(model.book_bytes(L, n, D)))
        for size in (rng.randint(0, 9), rng.randint(1, 40)):
            life.run(some_counts(rng, L, size))
            life.add(rng.randint(0, L))
        yield from life.lines
        yield life.ask("total", life.record.kept)


def faults():
    """Where a run of the model is not what its adding does, one count after another, in words; nothing, it is hoped."""
    for record, ring, counts in any_runs(random.Random(20), 500):
        above = [place for place, x in enumerate(counts, 1) if model.add(record, ring, x)[0] == 7]
        expected = (7, above[0], record, ring) if above else (0, 0, *one_by_one(record, ring, counts))
        if model.run(record, ring, counts) != expected:
            yield f"{call('run', record, ring, counts)}: not what adding one by one comes to"


def sections():
    yield "cases A to D: runs", cases()
    yield "runs: the open block filled, one short, one over", open_blocks(random.Random(19))
    yield "runs: the longest block and the largest carry", largest_block()
    yield "runs: many laps of the ring", laps(random.Random(21))
    yield "runs: 16,384 counts in a line", most_counts(random.Random(22))
    yield "runs: counts above L", too_large(random.Random(23))
    yield "runs: records that are no book", no_books()
    yield "runs: short rings, and longer ones", ring_sizes(random.Random(24))
    yield "runs: books with any history", arbitrary_books(random.Random(20), 36)
    yield "runs: books from a good start", whole_lives(random.Random(25), 4)
