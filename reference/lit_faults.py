"""What the reference's lit frames have to agree on; make_vectors.py holds them to it each time."""

import answers
from lit_model import in_byte, rank, rank_coarse, select, select_coarse


def lit_before(data, i):
    """How many of the first i bits are 1, the bytes taken as one whole number."""
    return bin(int.from_bytes(data, "big") >> (8 * len(data) - i)).count("1")


def is_lit(data, place):
    return lit_before(data, place) > lit_before(data, place - 1)


def flipped(data, length):
    """Each bit behind the length the other way round, and a byte more."""
    behind = 2 ** (8 * len(data) - length) - 1
    return (int.from_bytes(data, "big") ^ behind).to_bytes(len(data), "big") + b"\xff"


def has_fault(call, data, length, *numbers):
    """Whether one of the faults is there that are refused with 22."""
    *step, asked = numbers
    if length > 65536 or length > 8 * len(data) or step == [0]:
        return True
    if call in (rank, rank_coarse):
        return asked > length
    return not 1 <= asked <= lit_before(data, length)


def rank_faults(data, length, i, r):
    """It is the number of ones; where frame i is lit, select of it is i."""
    if r != lit_before(data, i):
        yield "not the number of ones"
    if i > 0 and is_lit(data, i) and select(data, length, r) != (0, i):
        yield "select of the rank is another frame"


def select_faults(data, length, k, place):
    """The frame is lit, is one of the length, and its rank is k."""
    if not 1 <= place <= length or not is_lit(data, place) or rank(data, length, place) != (0, k):
        yield "the rank of the place is not k"


def rank_coarse_faults(data, length, d, i, r):
    """A multiple of d, above the rank less d and not above the rank; with a step of 1 it is the rank."""
    fine = rank(data, length, i)[1]
    if r % d != 0 or not fine - d < r <= fine:
        yield "no coarse rank"
    if d == 1 and r != fine:
        yield "another rank with a step of 1"


def select_coarse_faults(data, length, d, k, place):
    """Behind the (k − d)-th lit frame, or behind 0, and not behind the k-th one, which it is where d divides k. Otherwise its neighbour before is
    lit, with a multiple of d as its rank, or there is none."""
    fine, least = select(data, length, k)[1], select(data, length, k - d)[1] if k > d else 0
    if not least < place <= fine:
        yield "no coarse select"
    if k % d == 0 and place != fine:
        yield "another place than select's, where d divides k"
    if k % d != 0 and place != 1 and not (is_lit(data, place - 1) and lit_before(data, place - 1) % d == 0):
        yield "not behind a lit frame of such a rank"


OWN = {rank: rank_faults, select: select_faults, rank_coarse: rank_coarse_faults, select_coarse: select_coarse_faults}


def line_faults(lines):
    """For every line: refused just where it should be, with 0; otherwise as above. Bits behind the length do not matter."""
    for call, own in OWN.items():
        for line, (data, *numbers), given in answers.among(lines, call):
            name = line if len(line) < 200 else f"{line[:100]} … {line[-100:]}"
            if (given == (22, 0)) != has_fault(call, data, *numbers):
                yield f"{name}: refused or not, wrongly"
            elif given[0] == 0:
                yield from (f"{name}: {fault}" for fault in own(data, *numbers, given[1]))
            if numbers[0] <= 8 * len(data) and call(flipped(data, numbers[0]), *numbers) != given:
                yield f"{name}: a bit behind the length matters"


def byte_faults():
    """A look into a byte is select of its eight bits, and 0 where that is refused."""
    for byte in range(256):
        for k in range(10):
            if in_byte(byte, k) != (0, select(bytes([byte]), 8, k)[1]):
                yield f"in_byte {byte} {k}: not what select gives"


def faults(lines):
    """All of these, in words; none, it is hoped."""
    yield from line_faults(lines)
    yield from byte_faults()
