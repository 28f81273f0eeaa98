"""Whole lives of books with a row of sums, by sections."""

import random

import model
from book_calls import numbers_of_a_book
from calls import call
from life import RowLife
from paper_cases import ITEMS
from row_books import TOP_SUM, some_items
from row_model import entries
from run_calls import some_counts

# L, n, D and how many items: 1 1 0, where the sum is of the lap before; slots of one group and of a few; blocks of two and of three.
LIVES = [(1, 2, 1, 3), (7, 33, 1, 70), (9, 32, 4, 34), (5, 70, 10, 76), (3, 99, 9, 104)]


def case_a():
    """Case A's items and one more with a row of one number, and every window of both; the same windows with other numbers in the row."""
    life = RowLife(5, 6, 10, b"\xff\xff", [TOP_SUM, 5])
    for x in ITEMS:
        life.add(x)
    for i in range(8):
        life.lines.append(life.ask_row("total_row", i))
        life.lines += [call("total_row", life.record, life.ring, [other], i) for other in (0, 2, TOP_SUM)]
    life.add(2)
    yield from life.lines
    for i in range(8):
        yield life.ask_row("total_row", i)


def items_of(L, n, D, size):
    """The items of a life, the same ones one by one and by runs."""
    return [1, 1, 0] if n == 2 else some_items(random.Random(n), L, size)


def one_by_one(rng):
    """From the opening on, and after each item a total: of all that is kept and of a part, by turns."""
    for L, n, D, size in LIVES:
        life = RowLife(L, n, D, rng.randbytes(model.book_bytes(L, n, D)), [rng.randint(0, TOP_SUM) for _ in range(entries(n))])
        for number, x in enumerate(items_of(L, n, D, size)):
            life.add(x)
            life.lines.append(life.ask_row("total_row", rng.randint(0, life.record.kept) if number % 2 else life.record.kept))
        yield from life.lines


def by_runs(rng):
    """The same items by runs of any size: they leave what the items one by one leave."""
    for L, n, D, size in LIVES:
        life = RowLife(L, n, D, bytes(model.book_bytes(L, n, D)), [7] * entries(n))
        counts = items_of(L, n, D, size)
        while counts:
            step = rng.choice([1, 2, rng.randint(1, 40)])
            life.run(counts[:step])
            counts = counts[step:]
            life.lines.append(life.ask_row("total_row", life.record.kept))
        yield from life.lines


def rests(rng, count):
    """Lives in which items and runs come while the book rests: the row stays too. Totals answer at rest as awake."""
    for _ in range(count):
        L, _, D = numbers_of_a_book(rng)
        n = rng.randint(33, 100)
        D = min(D, 2 * L)
        life = RowLife(L, n, D, rng.randbytes(model.book_bytes(L, n, D)), [1] * entries(n))
        for size in (70, 30, 1, 64):
            life.run(some_counts(rng, L, size))
            life.rest()
            life.add(rng.randint(0, L))
            life.run(some_counts(rng, L, 3))
            life.lines += [life.ask_row("total_row", i) for i in (life.record.kept, rng.randint(0, life.record.kept))]
            life.wake()
            life.add(rng.randint(0, L))
        yield from life.lines


def sections():
    yield "row: case A", case_a()
    yield "row: items one by one, and a total after each", one_by_one(random.Random(47))
    yield "row: the same items by runs", by_runs(random.Random(48))
    yield "row: books that rest and wake", rests(random.Random(49), 3)
