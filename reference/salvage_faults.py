"""What the reference's salvaged rings have to agree on; make_vectors.py holds them to it each time."""

import itertools
import random

import answers
import model
from calls import call
from coarse_faults import figure_faults
from model import Record
from row_books import some_items
from row_model import in_slots, run_row, slots, total_row
from salvage_books import brown_outs, lives, numbers, row_lives, with_fields
from salvage_model import salvage, salvage_row
from zone_faults import how_far_faults


def read_for(r, i):
    """The slots that the figure of a window reads, the newest first."""
    j, _, _ = model.blocks(r, [0] * slots(r), i)
    return [(r.head - 1 - k) % slots(r) for k in range(j)]


def ring_faults(r, ring, after, listed, name):
    """Of the ring: just the slots that are named have other fields, and these hold z; no field is above z; what is behind the slots is 0 up to the
    end of byte B − 1, and beyond it as it was."""
    z, size = model.largest_quotient(r.L, r.D), model.book_bytes(r.L, r.n, r.D)
    before, now = in_slots(r, ring), in_slots(r, after)
    if {slot for slot in range(slots(r)) if before[slot] != now[slot]} != {*listed} or any(now[slot] != z for slot in listed):
        yield f"{name}: other slots than those named"
    if max(now) > z or after != with_fields(r, now) + ring[size:]:
        yield f"{name}: something is left that no book has, or is changed behind it"


def kept_faults(r, kept, listed, name):
    """Of what is kept: the longest window reads no altered slot, and one of an item more would, unless kept is what it was."""
    if not kept <= r.kept or {*read_for(r, kept)} & {*listed}:
        yield f"{name}: a window that is kept reads an altered slot"
    if kept < r.kept and not {*read_for(r, kept + 1)} & {*listed}:
        yield f"{name}: a longer window reads no altered slot"


def line_faults(lines):
    """For every line: a refusal leaves all as it was; otherwise ring, kept and numbers are as above, nothing else of the record is changed, and a
    second run alters nothing."""
    for line, (r, ring, lent, *row), (refusal, count, record, after, written, *sums) in answers.among(lines, salvage, salvage_row):
        name, again = line[:200], salvage_row if row else salvage
        if refusal:
            if (count, record, after, written, sums) != (0, r, ring, lent, row):
                yield f"{name}: refused, and changed"
            continue
        listed = written[:count]
        yield from ring_faults(r, ring, after, listed, name)
        yield from kept_faults(r, record.kept, listed, name)
        if [(slot - r.head) % slots(r) for slot in listed] != sorted((slot - r.head) % slots(r) for slot in {*listed}):
            yield f"{name}: not in order from head round"
        if written[count:] != lent[count:] or record != r._replace(kept=record.kept):
            yield f"{name}: another entry, or another number of the record"
        if again(record, after, written, *sums) != (0, 0, record, after, written, *sums):
            yield f"{name}: a second run alters something"


def few_or_all(kept):
    """Every window of few items, and some of many."""
    return range(kept + 1) if kept <= 8 else sorted({*range(1, kept, kept // 4), kept})


def total_faults(r, ring, row, name):
    """Totals by the row are the plain walk's."""
    for i in few_or_all(r.kept):
        if total_row(r, ring, row, i)[1] != model.total(r, ring, i)[1]:
            yield f"{name}: window {i} by the row is not what the plain walk gives"


def row_faults(lines):
    """So they are with every row that is rebuilt, in whatever lap the ring stands, and as further items come."""
    rng = random.Random(159)
    for line, _, (refusal, _, record, ring, _, *row) in answers.among(lines, salvage_row):
        if refusal:
            continue
        yield from total_faults(record, ring, *row, line[:200])
        now = record._replace(mark=0), ring, *row
        for size in (1, 33) if record.n <= 100 else ():
            now = run_row(*now, some_items(rng, record.L, size))[2:]
            yield from total_faults(*now, f"{line[:200]}, and further items")


def demand_faults(record, ring, items, name):
    """Totals and windows are within the tolerance of the true ones."""
    yield from figure_faults(record, ring, items, name)
    yield from how_far_faults(record, ring, items, name)


def brown_out_faults():
    """So they are of good books in whose rings a brown-out left numbers above z, for every window that is kept then, and after each of some further
    items, over a lap and more."""
    rng = random.Random(160)
    for r, ring, items in brown_outs():
        name = call("salvage", r, ring, numbers(r))
        _, _, record, ring, _ = salvage(r, ring, numbers(r))
        yield from demand_faults(record, ring, items, name)
        for size in (1, 1, 2, record.n // 2, record.n):
            more = some_items(rng, record.L, size)
            _, _, record, ring = model.run(record, ring, more)
            items = items + more
            yield from demand_faults(record, ring, items, f"{name}, and further items")
        if record.kept != record.n:
            yield f"{name}: after a lap not all is kept"


def every_brown_out_faults():
    """The same for every few items and every set of slots, where a slot of two bits holds 2 at the most."""
    for size, items in ((size, items) for size in range(4) for items in itertools.product(range(3), repeat=size)):
        _, _, r, ring = model.run(Record(2, 3, 1, 0, 0, 0, 0), b"\x00", items)
        for hit in itertools.product((False, True), repeat=3):
            lent = with_fields(r, [3 if too_large else x for x, too_large in zip(in_slots(r, ring), hit)])
            _, _, record, after, _ = salvage(r, lent, [0] * 3)
            for further in ([], [2], [1, 2, 0, 1]):
                yield from figure_faults(*model.run(record, after, further)[2:], [*items, *further], call("salvage", r, lent, [0] * 3))


def life_faults():
    """So they are after every step of a life."""
    for life, steps in itertools.chain(lives(), row_lives()):
        for items in steps:
            yield from demand_faults(life.record, life.ring, items, life.lines[0])


def faults(lines):
    """All of these, in words; none, it is hoped."""
    yield from line_faults(lines)
    yield from row_faults(lines)
    yield from brown_out_faults()
    yield from every_brown_out_faults()
    yield from life_faults()
