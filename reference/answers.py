"""A line of the vectors' format and its answer: what a call's arguments are read from, and how what it gives is written.

Every call of model.py, row_model.py, coarse_model.py, zone_model.py, salvage_model.py, lit_model.py and page_model.py has its name here, and what
it takes.
"""

import coarse_model
import lit_model
import model
import page_model
import row_model
import salvage_model
import zone_model

MOST_BYTES = 32768
# In a row, be it one of counts, one of sums or one of slot numbers.
MOST_NUMBERS = 16384
# One more than a call takes.
MOST_RECORDS = zone_model.MOST_ZONES + 1
# The program's own limit: a line that fills its buffer of 600,000 bytes cannot be read.
LONGEST_LINE = 599999


class Unreadable(Exception):
    """A line that no call can be read from."""


def take_number(text):
    """Digits alone, leading zeros allowed, below 2^64."""
    if not text or any(c not in "0123456789" for c in text):
        raise Unreadable
    digits = text.lstrip("0") or "0"
    if len(digits) > 20 or int(digits) >= 2**64:
        raise Unreadable
    return int(digits)


def take_byte(text):
    """A score's allowance is a byte, and so is what is looked into: no refusal is for a larger one, so the line cannot be read."""
    value = take_number(text)
    if value > 255:
        raise Unreadable
    return value


def take_tick(text):
    """A tick is of 32 bits: no refusal is for a larger number, so the line cannot be read."""
    value = take_number(text)
    if value >= page_model.TURN:
        raise Unreadable
    return value


def take_bytes(text):
    """Lower-case hex, two digits a byte, `-` for none; more than 32,768 bytes are not taken."""
    if text == "-":
        return b""
    if not text or len(text) % 2 or len(text) > 2 * MOST_BYTES or any(c not in "0123456789abcdef" for c in text):
        raise Unreadable
    return bytes.fromhex(text)


def take_record(text):
    numbers = [take_number(part) for part in text.split(",")]
    if len(numbers) != len(model.Record._fields):
        raise Unreadable
    return model.Record(*numbers)


def take_records(text):
    """Records joined by semicolons, `-` for none; more than 97 are not taken."""
    if text == "-":
        return ()
    parts = text.split(";")
    if len(parts) > MOST_RECORDS:
        raise Unreadable
    return tuple(take_record(part) for part in parts)


def take_counts(text):
    """Numbers joined by commas, `-` for none; more than 16,384 are not taken."""
    if text == "-":
        return []
    counts = [take_number(part) for part in text.split(",")]
    if len(counts) > MOST_NUMBERS:
        raise Unreadable
    return counts


def take_sums(text):
    """As counts, but each of 32 bits, as slot numbers are too: no refusal is for a larger one, so the line cannot be read."""
    sums = take_counts(text)
    if any(value >= 2**32 for value in sums):
        raise Unreadable
    return sums


def show(value):
    if isinstance(value, bytes):
        return value.hex() or "-"
    if isinstance(value, list):
        return ",".join(str(number) for number in value) or "-"
    if isinstance(value, model.Record):
        return ",".join(str(number) for number in value)
    if isinstance(value, tuple):
        return ";".join(show(record) for record in value) or "-"
    return str(value)


N, Y, A, T, R, Z, C, S = take_number, take_bytes, take_byte, take_tick, take_record, take_records, take_counts, take_sums

CALLS = {
    "ring_clear": (model.ring_clear, (N, N, Y)),
    "ring_read": (model.ring_read, (N, N, Y, N)),
    "ring_write": (model.ring_write, (N, N, Y, N, N)),
    "ring_sum": (model.ring_sum, (N, N, Y, N, N)),
    "open": (model.open_book, (N, N, N, Y)),
    "add": (model.add, (R, Y, N)),
    "run": (model.run, (R, Y, C)),
    "rest": (model.rest, (R,)),
    "wake": (model.wake, (R,)),
    "total": (model.total, (R, Y, N)),
    "totals": (model.totals, (R, Y, N, N)),
    "trend": (model.trend, (R, Y, N)),
    "far": (model.far, (R, Y, N)),
    "verdict": (model.verdict, (R, Y, N, N)),
    "open_row": (row_model.open_row, (N, N, N, Y, S)),
    "add_row": (row_model.add_row, (R, Y, S, N)),
    "run_row": (row_model.run_row, (R, Y, S, C)),
    "total_row": (row_model.total_row, (R, Y, S, N)),
    "coarsen": (coarse_model.coarsen, (R, Y, N, Y)),
    "coarsen_row": (coarse_model.coarsen_row, (R, Y, N, Y, S)),
    "zones_add": (zone_model.add_all, (Z, Y, C)),
    "zone_add": (zone_model.add_one, (Z, Y, N, N)),
    "salvage": (salvage_model.salvage, (R, Y, S)),
    "salvage_row": (salvage_model.salvage_row, (R, Y, S, S)),
    "rank": (lit_model.rank, (Y, N, N)),
    "select": (lit_model.select, (Y, N, N)),
    "rank_coarse": (lit_model.rank_coarse, (Y, N, N, N)),
    "select_coarse": (lit_model.select_coarse, (Y, N, N, N)),
    "in_byte": (lit_model.in_byte, (A, N)),
    "pgm": (model.pgm, (Y,)),
    "score": (model.score, (N, A, Y, Y)),
    "score_mask": (model.score_mask, (N, A, Y, Y, Y)),
    "show": (page_model.show, (R, Y, N, N, Y, T, Y, T, T)),
    "shape": (model.shape, (N, N, N)),
}


def read(line):
    """The call that a line names, and its arguments."""
    fields = line.split(" ")
    call, kinds = CALLS.get(fields[0], (None, ()))
    if call is None or len(fields) != 1 + len(kinds):
        raise Unreadable
    return call, [kind(text) for kind, text in zip(kinds, fields[1:])]


def among(lines, *calls):
    """Those of the lines that one of these calls can be read from, with its arguments and what it gives."""
    for line in lines:
        if CALLS.get(line.split(" ", 1)[0], (None,))[0] not in calls:
            continue
        try:
            call, arguments = read(line)
        except Unreadable:
            continue
        yield line, arguments, call(*arguments)


def answer(line):
    """The answer to one line, both without the line feed. A name is its own answer."""
    if len(line) > LONGEST_LINE:
        return "?"
    if line.startswith("#"):
        return line
    try:
        call, arguments = read(line)
    except Unreadable:
        return "?"
    return " ".join(show(value) for value in call(*arguments))
