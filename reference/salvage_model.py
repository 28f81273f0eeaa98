"""Salvage after a brown-out (docs/SCOPE.md, Salvage), in the manner of model.py and by that rule's own sentences.

The lent row of slot numbers is `numbers` here; a row of running sums is `row`.
"""

import model
import row_model


def salvage_refusal(r, ring, numbers):
    """8, 4, then 21 where the row of slot numbers has fewer than s entries."""
    return model.book_refusal(r, ring) or (21 if len(numbers) < row_model.slots(r) else 0)


def oldest_first(r):
    """Every slot, from head round to the newest, which is the one before head."""
    return [*range(r.head, row_model.slots(r)), *range(r.head)]


def altered(r, ring):
    """The slots with a field above z, from head round to the newest."""
    z, fields = model.largest_quotient(r.L, r.D), row_model.in_slots(r, ring)
    return [slot for slot in oldest_first(r) if fields[slot] > z]


def mended(r, ring):
    """Fields above z are z then, the bits after the last slot are 0, and the bytes from B on are as they were."""
    z, width, size = model.largest_quotient(r.L, r.D), model.field_width(r.L, r.D), model.book_bytes(r.L, r.n, r.D)
    digits = "".join(format(min(x, z), "b").zfill(width) for x in row_model.in_slots(r, ring))
    return model.bytes_of(digits.ljust(8 * size, "0")) + ring[size:]


def how_new(r, slot):
    """u: the slot is the u-th newest."""
    return oldest_first(r)[::-1].index(slot) + 1


def kept_then(r, slots):
    """The smaller of kept and p + (u − 1)·c, the newest altered slot being the u-th newest; kept where none is altered."""
    if not slots:
        return r.kept
    u = how_new(r, slots[-1])
    return min(r.kept, r.p + (u - 1) * model.block_length(r.L, r.D))


def salvage(r, ring, numbers):
    """8, 4, 21; a refusal gives a count of 0 and all as it came. The mark is not asked for, and stays."""
    refusal = salvage_refusal(r, ring, numbers)
    if refusal:
        return refusal, 0, r, ring, numbers
    slots = altered(r, ring)
    return 0, len(slots), r._replace(kept=kept_then(r, slots)), mended(r, ring), slots + numbers[len(slots) :]


def rebuilt(r, ring, row):
    """Each used entry is the sum of the fields from slot 0 to its group's end, the others are as they were."""
    fields, s = row_model.in_slots(r, ring), row_model.slots(r)
    return [sum(fields[:end]) for end in row_model.ends(s)[1:]] + row[row_model.entries(s) :]


def salvage_row(r, ring, numbers, row):
    """The same with a row of running sums: 18 comes last. It is rebuilt from the fields that the ring has then, altered or not."""
    refusal, count, record, after, listed = salvage(r, ring, numbers)
    if not refusal and len(row) < row_model.entries(row_model.slots(r)):
        refusal = 18
    if refusal:
        return refusal, 0, r, ring, numbers, row
    return 0, count, record, after, listed, rebuilt(record, after, row)
