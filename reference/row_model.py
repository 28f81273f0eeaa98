"""The calls with a row of running sums (docs/SCOPE.md, Running sums), in the manner of model.py, whose calls are the same ones without a row.

A row is a list of numbers. Sums stand at the ENDS of groups of slots: behind every 32 slots, and behind the last one.
"""

import model

GROUP = 32


def ends(s):
    """The ends of s slots, and before them 0, where no slot is summed up: the row has an entry for each of them but for this 0."""
    return [*range(0, s, GROUP), s]


def entries(s):
    """How many numbers of the row are used."""
    return len(ends(s)) - 1


def place(s, end):
    """Where in the row the sum of an end stands."""
    return ends(s).index(end) - 1


def sum_at(s, row, end):
    """What the row holds for an end; at 0 nothing is summed up, and nothing is read."""
    return row[place(s, end)] if end else 0


def slots(r):
    return model.slot_count(r.L, r.n, r.D)


def in_slots(r, ring):
    """The fields of the ring from slot 0 on."""
    width, bits = model.field_width(r.L, r.D), model.bits_of(ring)
    return [model.field(width, bits, slot) for slot in range(slots(r))]


def row_refusal(r, ring, row):
    """8, 4, 18: how every call on a record with a row begins."""
    return model.book_refusal(r, ring) or (18 if len(row) < entries(slots(r)) else 0)


def open_row(L, n, D, ring, row):
    """1, 2, 3, 4, 18; the used numbers of the row are 0, the others as they were."""
    refusal, record, opened = model.open_book(L, n, D, ring)
    used = 0 if refusal else entries(slots(record))
    if len(row) < used:
        refusal = 18
    if refusal:
        return refusal, model.NO_RECORD, ring, row
    return 0, record, opened, [0] * used + row[used:]


def with_sum(r, ring, row, slot):
    """The row once a slot is written: at an end the sum of all slots up to it is noted, whatever the row held."""
    end = slot + 1
    if end not in ends(slots(r)):
        return row
    at = place(slots(r), end)
    return row[:at] + [sum(in_slots(r, ring)[:end])] + row[at + 1 :]


def add_row(r, ring, row, x):
    """8, 4, 18, 17, 7; otherwise the item is taken as without a row, and where it fills a block, slot head has been written."""
    refusal = row_refusal(r, ring, row)
    if refusal:
        return refusal, r, ring, row
    refusal, after, ring = model.add(r, ring, x)
    if not refusal and after.p == 0:
        row = with_sum(after, ring, row, r.head)
    return refusal, after, ring, row


def run_row(r, ring, row, counts):
    """8, 4, 18, 17, 7; one count after another, and at the first that is refused all is as it was before the run."""
    refusal = row_refusal(r, ring, row) or (17 if model.rests(r) else 0)
    if refusal:
        return refusal, 0, r, ring, row
    now = r, ring, row
    for number, x in enumerate(counts, 1):
        refusal, *now = add_row(*now, x)
        if refusal:
            return refusal, number, r, ring, row
    return 0, 0, *now


def newest(s, head, j):
    """The j newest slots as two runs, each from a slot up to, and without, another: before head, and what that leaves before the last."""
    return [(max(0, head - j), head), (s - max(0, j - head), s)]


def readings(s, first, behind):
    """What is read for a run of slots: the slots read singly, the ends whose sums are added, and those whose sums are taken off.

    Between the end that follows the first slot, or 0 before slot 0, and the last end in the run two sums stand for all slots. A run
    that begins just at an end does not use the sum there, since it may be of the present lap where the others are of the one before.
    """
    if first == behind:
        return [], [], []
    low = min(end for end in ends(s) if end > first) if first else 0
    high = max(end for end in ends(s) if end <= behind)
    if low >= high:
        return [*range(first, behind)], [], []
    return [*range(first, low), *range(high, behind)], [high], [low] if low else []


def all_readings(s, head, j):
    """The readings of both runs of the j newest slots, joined."""
    both = [readings(s, *run) for run in newest(s, head, j)]
    return [one + two for one, two in zip(*both)]


def total_row(r, ring, row, i):
    """8, 4, 18, 5; then the figure, how many fields were read, and how many sums. What the sums leave of the slots counts as 0 if it is below."""
    refusal = row_refusal(r, ring, row)
    if not refusal and i > r.kept:
        refusal = 5
    if refusal:
        return refusal, 0, 0, 0
    if i <= r.p:
        return 0, model.total(r, ring, i)[1], 0, 0
    s = slots(r)
    j, e, g = model.blocks(r, model.fields_of(r, ring), i)
    singly, added, taken = all_readings(s, r.head, j)
    fields = in_slots(r, ring)
    amount = sum(fields[slot] for slot in singly) + sum(sum_at(s, row, end) for end in added) - sum(sum_at(s, row, end) for end in taken)
    return 0, model.figure_of(r, max(0, amount), e, g), len(singly) + 1, len(added) + len(taken)
