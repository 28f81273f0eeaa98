"""What the reference's coarser books have to agree on; make_vectors.py holds them to it each time."""

import itertools
import random

import answers
import coarse_model
import model
from calls import call
from coarse_books import any_book, lives, of_good_books, row_lives, second_ring
from model import Record

# Numbers of a book whose histories are all tried: L, n, D and m.
EVERY_HISTORY = [(1, 3, 1, 2), (1, 4, 1, 3), (1, 4, 2, 2), (2, 4, 2, 2), (1, 7, 2, 3), (2, 4, 4, 2), (3, 3, 3, 3)]


def between(rng, low, high):
    """The least, the largest, or any."""
    return rng.choice([low, high, rng.randint(low, high)])


def some_spread(rng, L, size, amount):
    """So many items that come to this amount, each between 0 and L."""
    items = []
    for others in range(size - 1, -1, -1):
        items.append(between(rng, max(0, amount - others * L), min(L, amount)))
        amount -= items[-1]
    rng.shuffle(items)
    return items


def some_history(rng, r, ring):
    """Any history that gives the old quotients and R: first the carry at the end of each block, from the newest block back to the start. A block
    holds at most D, so that a quotient of 0 lets the carry grow and one of 1 lets it shrink."""
    c, old = model.block_length(r.L, r.D), coarse_model.quotients(r, ring)
    carries = [between(rng, max(0, r.R - r.p * r.L), min(r.R, r.D - 1))]
    for q in reversed(old):
        carries.insert(0, between(rng, carries[0], r.D - 1) if q else between(rng, 0, carries[0]))
    blocks = [some_spread(rng, r.L, c, q * r.D + late - early) for q, early, late in zip(old, carries, carries[1:])]
    return carries[0], [*itertools.chain(*blocks), *some_spread(rng, r.L, r.p, r.R - carries[-1])]


def gives(r, ring, start, items):
    """Whether it is a history that gives the old quotients and R: a book of tolerance D takes these items, closes blocks with those, and holds R.
    One of a single slot does, since the quotient of each block is looked at when it is closed."""
    _, now, slot = model.open_book(r.L, model.block_length(r.L, r.D), r.D, b"\xff")
    now, closed = now._replace(R=start), []
    for x in items:
        refusal, now, slot = model.add(now, slot, x)
        if refusal:
            return False
        if now.p == 0:
            closed += model.fields_of(now, slot)
    return 0 <= start < r.D and closed == coarse_model.quotients(r, ring) and (now.R, now.p) == (r.R, r.p)


def other_histories(rng, r, ring, second):
    """Some histories; for many items, or a long ring, one."""
    return [some_history(rng, r, ring) for _ in range(1 if r.kept > 1000 or len(second) > 1000 else 6)]


def taken(lines):
    """The calls among these lines that make a book coarser: the line, the arguments, and what it gives."""
    for line, arguments, (refusal, *given) in answers.among(lines, coarse_model.coarsen, coarse_model.coarsen_row):
        if not refusal:
            yield line, arguments, given


def history_faults(lines):
    """The model's own history is one that gives the old quotients and R; every other such history comes to what the line gives."""
    rng = random.Random(91)
    for line, (r, ring, m, second, *row), given in taken(lines):
        if not gives(r, ring, *coarse_model.history(r, ring)):
            yield f"{line}: the model's own history gives something else"
        lent = row[0] if row else [0] * coarse_model.coarser_entries(r, m)
        for start, items in other_histories(rng, r, ring, second):
            made = coarse_model.after(r, m, second, lent, start, items)
            if not gives(r, ring, start, items) or list(made[: len(given)]) != given:
                yield f"{line}: not what the history {start}, {items} comes to"


def all_histories(L, n, D):
    """Each remainder with each few items."""
    for size in range(n + 1):
        yield from itertools.product(range(D), itertools.product(range(L + 1), repeat=size))


def every_history_faults():
    """Where few histories can be, each of them: the book that it leaves, made coarser, is the coarser book that it leaves."""
    for L, n, D, m in EVERY_HISTORY:
        for start, items in all_histories(L, n, D):
            old, coarser = (model.run(Record(L, n, t, start, 0, 0, 0), bytes(model.book_bytes(L, n, t)), items)[2:] for t in (D, m * D))
            _, record, _, second = coarse_model.coarsen(*old, m, second_ring(old[0], m))
            if (record, second) != coarser:
                yield f"L {L}, n {n}, D {D}, m {m}: not what the history {start}, {items} leaves"


def figure_faults(record, ring, items, name):
    """Every figure is at most the true total, and above it less the tolerance."""
    true = [0, *itertools.accumulate(items[::-1])]
    fields = model.fields_of(record, ring)
    for i in range(1, record.kept + 1):
        if not true[i] - record.D < model.figure(record, fields, i) <= true[i]:
            yield f"{name}: window {i} gives {model.figure(record, fields, i)}, and {true[i]} is true"


def bound_faults():
    """The bounds hold with m·D for good books made coarser. One that has lost no item is the book that was opened so."""
    for (r, ring, items), m in itertools.chain(*of_good_books().values()):
        name = call("coarsen", r, ring, m, second_ring(r, m))
        _, record, _, second = coarse_model.coarsen(r, ring, m, second_ring(r, m))
        yield from figure_faults(record, second, items, name)
        fresh = Record(r.L, r.n, m * r.D, 0, 0, 0, 0), bytes(len(second))
        if len(items) <= r.n and (record, second) != model.run(*fresh, items)[2:]:
            yield f"{name}: not the book that was opened with this tolerance"


def life_faults():
    """So do they after every step of a life."""
    for L, n, D, plan in lives() + row_lives():
        _, record, ring = model.open_book(L, n, D, bytes(model.book_bytes(L, n, D)))
        items = []
        for more, m in plan:
            items += more
            _, _, record, ring = model.run(record, ring, more)
            yield from figure_faults(record, ring, items, f"a life of L {L}, n {n}, D {D}")
            if m:
                _, record, _, ring = coarse_model.coarsen(record, ring, m, second_ring(record, m))
                yield from figure_faults(record, ring, items, f"a life of L {L}, n {n}, D {D} made coarser")


def twice_faults():
    """Twice is once by the product."""
    rng = random.Random(92)
    for r, ring, _ in (any_book(rng) for _ in range(300)):
        for one, two in ((2, 2), (2, 3), (3, 2), (4, 4), (2, 8), (5, 3)):
            if one * two * r.D <= r.n * r.L:
                _, coarser, _, between_ring = coarse_model.coarsen(r, ring, one, second_ring(r, one))
                second = second_ring(r, one * two)
                if coarse_model.coarsen(coarser, between_ring, two, second) != coarse_model.coarsen(r, ring, one * two, second):
                    yield f"{call('coarsen', r, ring, one * two, second)}: not {one} times and then {two} times"


def faults(lines):
    """All of these, in words; none, it is hoped."""
    yield from history_faults(lines)
    yield from every_history_faults()
    yield from bound_faults()
    yield from life_faults()
    yield from twice_faults()
