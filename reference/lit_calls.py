"""Calls on lit frames, by sections. Those that are refused, or just are not, and lines that cannot be read are in lit_refusal_calls.py."""

import itertools
import random

import model
from calls import TOP, call
from lit_model import LONGEST, frames, ones, rank, select
from mask_calls import but_one

TWELVE = b"\x2c\x9f"
STEPS = (1, 2, 8, 100, TOP)
# Where a byte, a word of eight bytes, or a row of several words begins and ends.
BORDERS = (1, 2, 7, 8, 9, 16, 17, 32, 33, 56, 57, 63, 64, 65, 66, 72, 73, 127, 128, 129, 192, 193)
# How many of eight frames are lit, about: none, few, half, most, all.
SHARES = (0, 1, 4, 7, 8)


def packed(digits, behind="0", more=b""):
    """These frames in bytes, the last byte filled up with a digit, and bytes behind it."""
    return model.bytes_of(digits + behind * (-len(digits) % 8)) + more


def chance(rng, count, share=4):
    """So many frames, about a share of eight of them lit."""
    return "".join("1" if rng.randrange(8) < share else "0" for _ in range(count))


def any_packed(rng, digits):
    """These frames in bytes, whatever is behind them, with no byte more or with some."""
    return packed(digits + chance(rng, -len(digits) % 8), more=rng.randbytes(rng.choice([0, 0, 1, 9])))


def with_step(data, length, d, asked):
    """Both coarse calls, with the same number for i and for k."""
    for name in ("rank_coarse", "select_coarse"):
        yield call(name, data, length, d, asked)


def all_four(data, length, d, asked):
    """Every call, with the same number for i and for k."""
    for name in ("rank", "select"):
        yield call(name, data, length, asked)
    yield from with_step(data, length, d, asked)


def count_of(data, length):
    """How many frames are lit."""
    return len(ones(frames(data, length)))


def bytes_of_all_kinds():
    """Every byte, and every k from 0 to 9."""
    for byte, k in itertools.product(range(256), range(10)):
        yield call("in_byte", byte, k)


def large_in_byte():
    """Numbers k that are 1 to 8 by their low digits, and the largest."""
    for byte in (0x00, 0x01, 0x08, 0x2C, 0x80, 0xFE, 0xFF):
        for k in (10, 16, 63, 64, 65, 255, 256, 257, 2**16 + 1, 2**31, 2**32, 2**32 + 1, 2**32 + 8, 2**63, 2**63 + 3, TOP - 7, TOP):
            yield call("in_byte", byte, k)


def twelve():
    """Every i and k with steps up to one above the number of ones; then every length of the same bytes, and with a byte behind them."""
    for asked, d in itertools.product(range(14), (0, 1, 2, 3, 5, 6, TOP)):
        yield from all_four(TWELVE, 12, d, asked)
    for data, length in itertools.product((TWELVE, TWELVE + b"\xff"), range(18)):
        yield call("rank", data, length, length)
        yield from (call("select", data, length, count_of(data, min(length, 16)) + more) for more in (0, 1))


def short_rows(rng):
    """Every row of up to four frames, with every i and k and one more, and a step; whatever is behind them."""
    for length in range(5):
        for digits in map("".join, itertools.product("01", repeat=length)):
            for asked in range(length + 2):
                yield from all_four(any_packed(rng, digits), length, rng.randint(1, 3), asked)


def one_byte(rng):
    """Every byte as a row of eight frames or of fewer: the rank of some i, the last lit frame or one more, and some i or k with a step."""
    for byte in range(256):
        data, length = bytes([byte]), rng.randint(1, 8)
        count = count_of(data, length)
        yield call("rank", data, length, rng.randint(1, length))
        yield call("select", data, length, count + rng.randrange(2))
        yield call(rng.choice(["rank_coarse", "select_coarse"]), data, length, rng.randint(1, 4), rng.randint(1, count + 1))


def one_other(digit):
    """One lit frame in a dark row, or one dark frame in a lit row, at each border, the row ending there or going on."""
    for place, more in itertools.product(BORDERS, (0, 64)):
        length = place + more
        data = packed(but_one(digit, length, place - 1), digit)
        for i in sorted({place - 1, place, length}):
            yield call("rank", data, length, i)
        for k in sorted({1, place - 1, place, count_of(data, length)}):
            yield call("select", data, length, k)


def at_borders(rng):
    """Chance rows: i at each border, and k at the lit frame before it, there, or behind it."""
    for place in BORDERS:
        data, length = any_packed(rng, chance(rng, 200)), 200
        r = rank(data, length, place)[1]
        yield from (call("rank", data, length, i) for i in (place - 1, place))
        yield from (call("select", data, length, k) for k in (r, r + 1))
        yield from with_step(data, length, rng.choice([2, 3, 8]), r + 1)


def behind(rng):
    """Dark frames and nothing but lit bits behind them, and the other way round: none of those is counted."""
    for length in (0, 1, 2, 7, 8, 9, 10, 15, 16, 17, 63, 64, 65, 100, 129):
        for lit, more in itertools.product("01", (b"", b"\x00" * 9, b"\xff" * 9)):
            data = packed(lit * length, "1" if lit == "0" else "0", more)
            yield call("rank", data, length, length)
            yield from (call("select", data, length, k) for k in sorted({1, length, length + 1}))
        digits = chance(rng, length)
        yield from (call("select", packed(digits, "1", b"\xff"), length, digits.count("1") + k) for k in (0, 1))


def steps(rng):
    """Steps of every size, around the number of ones too: the number of ones, one less, and some i and k."""
    for length, share in itertools.product((12, 65, 300), (1, 4, 8)):
        data = any_packed(rng, chance(rng, length - 1, share) + "1")
        count = count_of(data, length)
        for d in sorted({*STEPS, *range(max(1, count - 1), count + 2), count // 2 + 1}):
            yield call("rank_coarse", data, length, d, length)
            yield call("rank_coarse", data, length, d, rng.randint(0, length))
            yield from (call("select_coarse", data, length, d, k) for k in sorted({1, count, max(1, count - 1), rng.randint(1, count)}))


def every_step(rng):
    """A row of 24 frames: every k and some i, with every step up to one above the number of ones."""
    data, length = any_packed(rng, chance(rng, 24)), 24
    count = count_of(data, length)
    for d in range(1, count + 2):
        yield from (call("select_coarse", data, length, d, k) for k in range(1, count + 1))
        yield from (call("rank_coarse", data, length, d, i) for i in range(d % 3, length + 1, 3))


def chance_rows(rng):
    """Rows of up to 73 frames and some of more, none, few, half, most or all of them lit."""
    for length in [*range(1, 74), 127, 128, 129, 255, 256, 257, 511, 512, 513, 1000, 1023, 1024, 1025, 4095, 4096, 4097]:
        data = any_packed(rng, chance(rng, length, rng.choice(SHARES)))
        count = count_of(data, length)
        yield from (call("rank", data, length, i) for i in (length, rng.randint(0, length)))
        yield from (call("select", data, length, k) for k in sorted({rng.randint(1, count + 1), count, count + 1}))
        yield from with_step(data, length, rng.choice([1, 2, 3, 8, count + 1]), rng.randint(1, count + 1))


def there_and_back(rng):
    """Select, and the rank of the place it gives and of the one before; the rank of a lit frame, and select of that."""
    for length, share in itertools.product((1, 8, 9, 64, 65, 128, 300), (1, 4, 7, 8)):
        data = any_packed(rng, chance(rng, length - 1, share) + "1")
        lit = ones(frames(data, length))
        for k in sorted({1, rng.randint(1, len(lit)), len(lit)}):
            _, place = select(data, length, k)
            yield call("select", data, length, k)
            yield from (call("rank", data, length, i) for i in (place, place - 1))
        for i in rng.sample(lit, min(3, len(lit))):
            yield call("rank", data, length, i)
            yield call("select", data, length, rank(data, length, i)[1])


def longest_alike():
    """As many frames as there can be, and one less, all of them lit; then dark, and lit bits behind them."""
    lit, dark = b"\xff" * 8192, bytes(8192)
    for length in (LONGEST - 1, LONGEST):
        yield from (call("rank", lit, length, i) for i in (0, length))
        yield from (call("select", lit, length, k) for k in (1, length, length + 1))
        yield from (call(name, packed("0" * length, "1", b"\xff"), length, asked) for name, asked in (("rank", length), ("select", 1)))
    yield from with_step(lit, LONGEST, 100, LONGEST)
    yield from with_step(dark, LONGEST, 100, 1)
    yield from (call(name, dark, LONGEST, asked) for name, asked in (("rank", LONGEST), ("select", 1)))


def longest_with_one():
    """One lit frame among them: the first, the last, and some between."""
    for place in (1, 2, 32768, 32769, 65472, LONGEST - 1, LONGEST):
        data = packed(but_one("0", LONGEST, place - 1))
        yield from (call("rank", data, LONGEST, i) for i in (place - 1, place))
        yield call("select", data, LONGEST, 1)


def longest_of_chance(rng):
    """Chance rows of that length, with every step, and steps around the number of ones."""
    data = packed(chance(rng, LONGEST))
    count = count_of(data, LONGEST)
    yield from (call("rank", data, LONGEST, i) for i in (LONGEST, *rng.sample(range(LONGEST), 3)))
    yield from (call("select", data, LONGEST, k) for k in (count, count + 1, *rng.sample(range(1, count), 3)))
    for d in (*STEPS, count - 1, count, count + 1):
        yield call("rank_coarse", data, LONGEST, d, LONGEST)
        yield call("select_coarse", data, LONGEST, d, count)
    yield from with_step(data, LONGEST, 100, rng.randint(101, count))
    yield call("select_coarse", data, LONGEST, 100, count + 1)


def one_less_of_chance(rng):
    """A chance row of one frame less, with a lit bit behind it."""
    length = LONGEST - 1
    data = packed(chance(rng, length), "1")
    count = count_of(data, length)
    yield from (call("rank", data, length, i) for i in (rng.randrange(length), length))
    yield from (call("select", data, length, k) for k in (rng.randint(1, count), count, count + 1))
    yield call("rank_coarse", data, length, 100, length)
    yield from (call("select_coarse", data, length, 100, k) for k in (count, count + 1))


def sections():
    yield "lit: in a byte", bytes_of_all_kinds()
    yield "lit: in a byte, numbers of any size", large_in_byte()
    yield "lit: twelve frames", twelve()
    yield "lit: every row of up to four frames", short_rows(random.Random(161))
    yield "lit: rows of one byte", one_byte(random.Random(162))
    yield "lit: one lit frame", one_other("0")
    yield "lit: one dark frame", one_other("1")
    yield "lit: around the ends of bytes and words", at_borders(random.Random(163))
    yield "lit: bits behind the length", behind(random.Random(164))
    yield "lit: steps", steps(random.Random(165))
    yield "lit: every step", every_step(random.Random(166))
    yield "lit: chance rows", chance_rows(random.Random(167))
    yield "lit: there and back", there_and_back(random.Random(168))
    longest = (longest_alike(), longest_with_one(), longest_of_chance(random.Random(169)), one_less_of_chance(random.Random(172)))
    yield "lit: the longest rows", itertools.chain(*longest)
