"""Calls on lit frames that are refused, and some that just are not, by sections; and lines that cannot be read."""

import itertools
import random

from answers import MOST_BYTES
from calls import TOP, call
from lit_calls import STEPS, all_four, any_packed, chance, count_of, with_step
from lit_model import LONGEST

# Where eight bits a byte, or seven bits more, would be little or 0 within 64 bits, 32 or 16; some are a length of few bytes by their low digits.
WIDE = (
    *(2**16, 2**16 + 1, 2**16 + 8, 2**32 - 7, 2**32 - 1, 2**32, 2**32 + 8, 2**61, 2**61 + 1, 2**63, 2**63 + 8),
    *(2**64 - 64, 2**64 - 63, 2**64 - 9, 2**64 - 8, 2**64 - 7, 2**64 - 6, TOP - 1, TOP),
)


def no_bytes():
    """A slice of no bytes has no frame: the rank of 0 is all that is not refused."""
    for length, d, asked in itertools.product((0, 1, 8), (0, 1, 2, TOP), (0, 1, 8, TOP)):
        yield from all_four(b"", length, d, asked)


def no_frames():
    """The same where there are bytes, and all that they have is behind the length."""
    for data, d, asked in itertools.product((b"\x00", b"\xff", b"\xff" * 9), (0, 1, TOP), (0, 1, TOP)):
        yield from all_four(data, 0, d, asked)


def slices(rng):
    """Slices that have just as many bytes as the length asks for, one less, and one more: dark, lit or anything."""
    for length in (1, 7, 8, 9, 16, 17, 63, 64, 65, 129, 1000):
        size = (length + 7) // 8
        for lent in (size - 1, size, size + 1):
            data = rng.choice([bytes(lent), b"\xff" * lent, rng.randbytes(lent)])
            yield from all_four(data, length, rng.choice([1, 2, 8]), rng.randint(1, length))
            yield from (call("rank", data, length, i) for i in (0, length))
            yield call("select", b"\xff" * lent, length, length)


def ends(rng):
    """i at the length and one more, k at the number of ones and one more, 0 of both; a k that is no number of a lit frame but one of a frame."""
    for length, share in itertools.product((1, 8, 9, 64, 65), (0, 1, 4, 8)):
        data = any_packed(rng, chance(rng, length, share))
        count = count_of(data, length)
        yield from (call("rank", data, length, i) for i in (0, length, length + 1))
        yield from (call("select", data, length, k) for k in (0, count, count + 1, length + 1))
        for d in sorted({*STEPS, count + 1}):
            yield call("rank_coarse", data, length, d, length + 1)
            yield from (call("select_coarse", data, length, d, k) for k in (0, count, count + 1))


def wide_lengths():
    """Lengths of any size, where nothing else is wrong: with no bytes, few, and more."""
    for length, data in itertools.product(WIDE, (b"", b"\xff", b"\xff" * 9)):
        yield call("rank", data, length, 0)
        yield call("select", data, length, 1)
    for length in WIDE:
        yield from all_four(b"\xff" * 8, length, 1, length)


def wide_numbers():
    """i, k and steps of any size: as i and k they are too large, and a step may be anything but 0."""
    data = b"\x2c\x9f" * 8
    for wide in WIDE:
        yield from all_four(data, 128, 1, wide)
        yield from all_four(data, 128, wide, 60)
        yield from with_step(data, 128, wide, 73)
        yield from all_four(data, 128, wide, wide)


def alone_and_together():
    """Each fault beside each of the others: a length above the bits, or above 65,536 too; a step of 0; i or k of 0, too large, or right."""
    for length, d, asked in itertools.product((12, 17, LONGEST, LONGEST + 1, TOP), (0, 1, 3), (0, 3, 5, 6, 12, 13, 17, TOP)):
        yield from all_four(b"\x2c\x9f", length, d, asked)


def above_the_longest():
    """Around 65,536 frames, a byte too few, just enough, and one more: all lit. With 65,537, though as many bits are lent, every call is refused."""
    for length, size in itertools.product((LONGEST - 1, LONGEST), (8191, 8193)):
        yield call("rank", b"\xff" * size, length, length)
        yield call("select", b"\xff" * size, length, length)
    for size in (8192, 8193, 8194):
        yield from (call(name, b"\xff" * size, LONGEST + 1, 1) for name in ("rank", "select"))
    yield from with_step(b"\xff" * 8193, LONGEST + 1, 1, LONGEST)
    yield from with_step(b"\xff" * 8192, LONGEST, 0, LONGEST)
    yield from (call("rank", b"\xff" * 8193, LONGEST, i) for i in (LONGEST + 1, TOP))
    yield call("select_coarse", b"\xff" * 8192, LONGEST, LONGEST, LONGEST + 1)
    yield call("rank", b"\xff" * MOST_BYTES, 8 * MOST_BYTES, 0)
    yield call("select", b"\xff" * MOST_BYTES, LONGEST, LONGEST)


def unreadable():
    """Signs, hex, missing and further arguments, names; numbers around 2^64, and bytes around 256."""
    for rest in ("", " ", " 2c9f", " 2c9f 12", " 2c9f 12 ", " 2c9f 12 1", " 2c9f 12 2 1", " 2c9f 12 2 1 1", " 2c9f  12 2 1", " 2c9f 12 2 1 "):
        yield from (f"{name}{rest}" for name in ("rank", "select", "rank_coarse", "select_coarse"))
    for data in ("2c9", "2C9F", "2c9F", "2c9g", "0x2c", "2c,9f", "--", "-2c", "44", "-", ""):
        yield from (f"rank {data} 0 0", f"select {data} 4 1", f"rank_coarse {data} 0 1 0", f"select_coarse {data} 4 1 1")
    for number in ("-1", "+1", "-", "", "a", "1,1", "0" * 30 + "1", TOP, TOP + 1, TOP + 2):
        for name in ("rank", "select"):
            yield from (f"{name} 2c9f {number} 1", f"{name} 2c9f 12 {number}")
            yield from (f"{name}_coarse 2c9f {asked}" for asked in (f"{number} 1 1", f"12 {number} 1", f"12 1 {number}"))
        yield from (f"in_byte {number} 1", f"in_byte 44 {number}")
    for byte in (255, 256, 257, 300, 512, 2**16, 2**32, 2**32 + 1, TOP, "0255", "0256", "2c", "ff"):
        yield from (f"in_byte {byte} 1", f"in_byte {byte} 0")
    for rest in ("", " ", " 44", " 44 ", " 44 1 1", " 44 1 ", "  44 1", " 256", " 256 1 1"):
        yield f"in_byte{rest}"
    for name in ("ran", "ranks", "Rank", "RANK", " rank", "selec", "selects", "Select", "in_bytes", "in_byt", "rank-coarse", "coarse_rank", "rank_"):
        yield from (f"{name} 2c9f 12 1", f"{name} 44 1")
    yield from ("rank 2c9f 12 3\r", "select 2c9f\t12 1", "in_byte 44 1\r", f"rank {'00' * (MOST_BYTES + 1)} 0 0")


def sections():
    yield "lit: no bytes", no_bytes()
    yield "lit: a length of 0", no_frames()
    yield "lit: slices of every size", slices(random.Random(170))
    yield "lit: the ends of i and k", ends(random.Random(171))
    yield "lit: lengths of any size", wide_lengths()
    yield "lit: numbers of any size", wide_numbers()
    yield "lit: refusals alone and together", alone_and_together()
    yield "lit: above the longest rows", above_the_longest()
    yield "lit: lines that cannot be read, and some that just can", unreadable()
