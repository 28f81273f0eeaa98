"""Books with a row of sums, to be tried with calls: kept ones, and rows of other numbers."""

import model
from model import Record
from row_model import GROUP, ends, entries, run_row, slots

# The largest number of a row.
TOP_SUM = 2**32 - 1
# Numbers of slots within a group, at its end and over it, for one group, for two, and for as many as there can be.
FEW_SLOTS = (1, 31, 32, 33, 64, 65)
MOST_SLOTS = model.LARGEST_SLOTS


def heads(s):
    """The slots before, at and behind each end."""
    near = {end + d for end in ends(s) for d in (-1, 0, 1)}
    return sorted(slot for slot in near if 0 <= slot < s)


def packed(width, fields):
    """A ring with these numbers in its slots."""
    digits = "".join(format(x, "b").zfill(width) for x in fields)
    return model.bytes_of(digits.ljust(8 * model.ring_bytes(width, len(fields)), "0"))


def exact(L, s, items):
    """Record, ring and row of a book with tolerance 1 that was opened with this row and has taken these items. Each stands in its slot as it is,
    so that none of the model's calls is needed."""
    fields, row = [0] * s, [0] * entries(s)
    for number, x in enumerate(items):
        slot = number % s
        fields[slot] = x
        if slot % GROUP == GROUP - 1 or slot == s - 1:
            row[slot // GROUP] = sum(fields[: slot + 1])
    return Record(L, s, 1, 0, 0, min(s, len(items)), len(items) % s), packed(L.bit_length(), fields), row


def some_items(rng, L, size):
    return [rng.choice([0, L, rng.randint(0, L), rng.randint(0, L)]) for _ in range(size)]


def full(rng, L, s, head, laps=2):
    """An exact book that has gone round so many times and stands at this head: behind it lie slots and sums of the lap before."""
    return exact(L, s, some_items(rng, L, laps * s + head))


def kept(rng, L, n, D, size):
    """A book of any tolerance that has taken so many items with its row."""
    record = Record(L, n, D, 0, 0, 0, 0)
    ring, row = bytes(model.book_bytes(L, n, D)), [0] * entries(slots(record))
    return run_row(record, ring, row, some_items(rng, L, size))[2:]


def other_rows(rng, size):
    """Rows that no book has left: the least and the largest numbers, falling ones, the two by turns, and any."""
    yield [0] * size
    yield [TOP_SUM] * size
    yield [TOP_SUM - k * (TOP_SUM // size) for k in range(size)]
    yield [(0, TOP_SUM)[k % 2] for k in range(size)]
    yield [(TOP_SUM, 0)[k % 2] for k in range(size)]
    yield [rng.randint(0, TOP_SUM) for _ in range(size)]
