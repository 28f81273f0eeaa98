"""What the reference's calls with a row have to agree on among themselves; make_vectors.py holds them to it each time."""

import random
from collections import Counter

import model
from book_calls import any_book
from calls import call
from row_books import TOP_SUM, exact, kept, some_items
from row_model import add_row, all_readings, entries, run_row, slots, total_row
from run_calls import counts_above, some_counts

MOST_FIELDS, MOST_SUMS = 64, 3
# Numbers of slots whose readings are looked at for every head and every number of newest slots.
SLOTS = (1, 2, 31, 32, 33, 34, 63, 64, 65, 66, 96, 97)


def slots_read(readings):
    """How often each slot goes into what is read: once for a single field, and with all before an end for its sum, added or taken off."""
    singly, added, taken = readings
    times = Counter(singly)
    for end in added:
        times.update(range(end))
    for end in taken:
        times.subtract(range(end))
    return {slot: count for slot, count in times.items() if count}


def reading_faults():
    """Every slot of a window is to be read once and no other at all, with no more than 64 fields, the oldest one's own among them, and 3 sums;
    both of which are reached."""
    most = set()
    for s in SLOTS:
        for head in range(s):
            for j in range(1, s + 1):
                readings = singly, added, taken = all_readings(s, head, j)
                most.add((len(singly) + 1, len(added) + len(taken)))
                if slots_read(readings) != {(head - 1 - k) % s: 1 for k in range(j)}:
                    yield f"{s} slots, head {head}: what is read is not the {j} newest slots"
    if max(fields for fields, _ in most) != MOST_FIELDS or max(sums for _, sums in most) != MOST_SUMS:
        yield f"of fields and sums are read {sorted(most)[-3:]}"


def kept_books(rng):
    """Books kept with a row from their opening on: small ones with blocks of one to four items after some laps or less."""
    for n in (1, 2, 31, 32, 33, 64, 65, 66, 100):
        for L, D in ((1, 1), (6, 1), (9, 4), (5, 5), (5, 11), (3, 12)):
            if D <= n * L:
                yield kept(rng, L, n, D, rng.randint(0, 3 * n))


def total_faults():
    """The figure of a kept book is the plain walk's, for every window; and so it is where nothing of the row has been kept by the model."""
    rng = random.Random(61)
    books = [*kept_books(rng), *(exact(9, s, some_items(rng, 9, 3 * s - 1)) for s in (33, 65, 97))]
    for record, ring, row in books:
        for i in range(record.kept + 1):
            if total_row(record, ring, row, i)[1] != model.total(record, ring, i)[1]:
                yield f"{call('total_row', record, ring, row, i)}: not what the plain walk gives"


def exact_faults():
    """Books of tolerance 1 by the model and without it."""
    for size in (0, 1, 33, 97, 98, 200):
        items = some_items(random.Random(size), 9, size)
        made = exact(9, 97, items)
        record = made[0]._replace(kept=0, head=0)
        if run_row(record, bytes(len(made[1])), [0] * len(made[2]), items)[2:] != made:
            yield f"{size} items of tolerance 1: the model leaves something else than they do"


def run_faults():
    """A run is to be its counts one by one, or nothing at all; record and ring are to be those of the run without a row."""
    rng = random.Random(62)
    for _ in range(200):
        record, ring = any_book(rng)
        row = [rng.randint(0, TOP_SUM) for _ in range(entries(slots(record)))]
        counts = some_counts(rng, record.L, rng.randint(0, 50))
        if counts and rng.randrange(5) == 0:
            counts[rng.randrange(len(counts))] = rng.choice(counts_above(record.L))
        refusal, place, *left = run_row(record, ring, row, counts)
        now = [record, ring, row]
        for x in [] if refusal else counts:
            _, *now = add_row(*now, x)
        if left != now or (refusal, place, *left[:2]) != model.run(record, ring, counts):
            yield f"{call('run_row', record, ring, row, counts)}: not what adding one by one comes to"


def faults():
    """All of these, in words; none, it is hoped."""
    yield from reading_faults()
    yield from total_faults()
    yield from exact_faults()
    yield from run_faults()
