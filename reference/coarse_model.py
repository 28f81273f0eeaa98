"""Making a book coarser (docs/SCOPE.md, Coarser), in the manner of model.py and by that rule's own sentence.

A coarser book is what a fresh book of tolerance m·D comes to, had the history begun at the oldest wholly kept block with the carry at some remainder
below D. The record and ring do not tell which history it was. So one that gives the old quotients and R is made up, and the fresh book takes its
items one by one. coarse_faults.py tries other ones that give the same: they have to come to the same.
"""

import model
import row_model

FEWEST_TIMES = 2
MOST_TIMES = 16


def coarser_refusal(r, ring, m, second):
    """8, 4 for the first ring, 19, 3, 4 for the second ring."""
    refusal = model.book_refusal(r, ring)
    if refusal:
        return refusal
    if r.D % r.L or not FEWEST_TIMES <= m <= MOST_TIMES:
        return 19
    if m * r.D > r.n * r.L:
        return 3
    if len(second) < model.book_bytes(r.L, r.n, m * r.D):
        return 4
    return 0


def coarser_entries(r, m):
    """How many numbers of a row the coarser book uses."""
    return row_model.entries(model.slot_count(r.L, r.n, m * r.D))


def blocks_kept(r):
    """J: how many closed blocks are wholly kept."""
    return (r.kept - r.p) // model.block_length(r.L, r.D)


def quotients(r, ring):
    """What stands in the slots of these blocks, the oldest first."""
    return model.fields_of(r, ring)[: blocks_kept(r)][::-1]


def spread(L, size, amount):
    """So many items that come to this amount, the first ones as large as they can be."""
    return [min(L, max(0, amount - k * L)) for k in range(size)]


def history(r, ring):
    """A remainder and items that give the old quotients and R. Every block is all L or all 0, D or nothing, so that the carry in front of the open
    block is the remainder still; this one leaves the open block as little as it can."""
    start = min(r.R, r.D - 1)
    c = model.block_length(r.L, r.D)
    return start, [q * r.L for q in quotients(r, ring) for _ in range(c)] + spread(r.L, r.p, r.R - start)


def begun(r, D, ring, row, start):
    """A fresh book with the old one's L and n and this D, whose carry starts at this remainder."""
    _, record, ring, row = row_model.open_row(r.L, r.n, D, ring, row)
    return record._replace(R=start), ring, row


def after(r, m, second, row, start, items):
    """What a call gives and leaves if this was the history: the fresh book's record with the old one's mark, the bytes of its ring, ring and row."""
    _, _, record, second, row = row_model.run_row(*begun(r, m * r.D, second, row, start), items)
    return record._replace(mark=r.mark), model.book_bytes(r.L, r.n, m * r.D), second, row


def coarsen(r, ring, m, second):
    """8, 4, 19, 3, 4; a refusal hands the record back as it came, with 0 bytes."""
    refusal = coarser_refusal(r, ring, m, second)
    if refusal:
        return refusal, r, 0, second
    return 0, *after(r, m, second, [0] * coarser_entries(r, m), *history(r, ring))[:-1]


def coarsen_row(r, ring, m, second, row):
    """The same with a row for the new ring: 18 comes last."""
    refusal = coarser_refusal(r, ring, m, second)
    if not refusal and len(row) < coarser_entries(r, m):
        refusal = 18
    if refusal:
        return refusal, r, 0, second, row
    return 0, *after(r, m, second, row, *history(r, ring))
