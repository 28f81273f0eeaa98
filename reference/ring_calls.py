"""Calls of the ring itself, by sections."""

import itertools
import random

import model
from calls import TOP, around, call


def writes_reads_sums():
    """Five slots of 3 bits in three bytes, one more than they take; and a slot of 16 bits in a longer slice."""
    ring = b"\xff" * 3
    yield call("ring_clear", 3, 5, ring)
    _, ring = model.ring_clear(3, 5, ring)
    for slot, value in ((0, 5), (2, 6), (4, 7)):
        yield call("ring_write", 3, 5, ring, slot, value)
        _, ring = model.ring_write(3, 5, ring, slot, value)
    for slot in range(5):
        yield call("ring_read", 3, 5, ring, slot)
    for j in range(6):
        yield call("ring_sum", 3, 5, ring, 1, j)
    yield call("ring_write", 16, 1, b"\xa5" * 4, 0, 0x1234)
    yield call("ring_clear", 16, 1, b"\x12\x34\xa5\xa5")


def bad_numbers():
    """Refusal 10 in each of its ways, with the largest numbers there are."""
    ring = b"\xa5" * 3
    for width, slots, slot in ((0, 5, 0), (17, 1, 0), (3, 0, 0), (1, 4097, 0), (3, 5, 5)):
        yield call("ring_read", width, slots, ring, slot)
    yield call("ring_sum", 3, 5, ring, 5, 1)
    yield call("ring_sum", 3, 5, ring, 0, 6)
    yield call("ring_write", 3, 5, ring, 0, 8)
    yield call("ring_write", 3, 5, ring, TOP, TOP)
    yield call("ring_clear", TOP, TOP, ring)


def short_rings():
    """Fewer bytes than the slots take: 4, unless 10 comes before it."""
    for ring in (b"\xa5", b""):
        yield call("ring_clear", 3, 5, ring)
        yield call("ring_write", 3, 5, ring, 0, 1)
        yield call("ring_read", 3, 5, ring, 0)
        yield call("ring_sum", 3, 5, ring, 0, 1)
        yield call("ring_sum", 3, 5, ring, 0, 5)
        yield call("ring_read", 3, 5, ring, 5)


def ring_edges(rng):
    """Every limit of the ring's own calls, and one to each side of it."""
    ring = rng.randbytes(5)
    for width in around(1, 16):
        yield call("ring_clear", width, 2, ring)
        yield call("ring_read", width, 2, ring, 1)
        yield call("ring_write", width, 2, ring, 1, 1)
        yield call("ring_sum", width, 2, ring, 1, 2)
    for slots in around(1, 40, 41, 4096):
        yield call("ring_clear", 1, slots, ring)
        yield call("ring_read", 1, slots, ring, 0)
        yield call("ring_write", 1, slots, ring, 0, 1)
        yield call("ring_sum", 1, slots, ring, 0, 1)
    for slot in around(13):
        yield call("ring_read", 3, 13, ring, slot)
        yield call("ring_write", 3, 13, ring, slot, 5)
        yield call("ring_sum", 3, 13, ring, slot, 13)
        yield call("ring_sum", 3, 13, ring, 7, slot)


def ring_values(rng):
    """Every width: the largest value it takes, one more, and rings of B − 1, B and B + 1 bytes."""
    for width in range(1, 17):
        slots = rng.randint(1, 12)
        size = model.ring_bytes(width, slots)
        for length in (size - 1, size, size + 1):
            ring = rng.randbytes(length)
            for value in around(2**width):
                yield call("ring_write", width, slots, ring, rng.randrange(slots), value)
            yield call("ring_clear", width, slots, ring)
            yield call("ring_clear", width, slots, b"\xff" * length)
            yield call("ring_read", width, slots, ring, slots - 1)
            yield call("ring_sum", width, slots, ring, 0, slots)


def ring_random(rng, count):
    for _ in range(count):
        width = rng.randint(1, 16)
        slots = rng.choice([rng.randint(1, 20), rng.randint(1, 300)])
        ring = rng.randbytes(max(0, model.ring_bytes(width, slots) + rng.choice([0, 0, 0, 0, 3, -1])))
        slot = rng.randrange(slots) if rng.random() < 0.95 else slots
        which = rng.randrange(4)
        if which == 0:
            yield call("ring_clear", width, slots, ring)
        elif which == 1:
            yield call("ring_read", width, slots, ring, slot)
        elif which == 2:
            yield call("ring_write", width, slots, ring, slot, rng.randrange(2**width))
        else:
            yield call("ring_sum", width, slots, ring, slot, rng.randint(0, slots))


def one_bit_rings(rng, slots):
    """Rings for slots of one bit: all 1 and of chance, of B bytes and of more. Bits of no slot are 1 too, or anything."""
    size = model.ring_bytes(1, slots)
    for length in (size, size + rng.randint(1, 9)):
        yield b"\xff" * length
        yield rng.randbytes(length)


def one_bit_few(rng):
    """Up to ten slots of one bit: every next slot and every number of newest ones, with one of the four rings."""
    for slots in range(1, 11):
        rings = [*one_bit_rings(rng, slots)]
        for next_slot, j in itertools.product(range(slots), range(slots + 1)):
            yield call("ring_sum", 1, slots, rings[(next_slot + j) % 4], next_slot, j)


def one_bit_many(rng):
    """1 to 130 slots of one bit, which is more than two words of eight bytes, and as many as there can be."""
    for slots in [*range(1, 131), 4095, 4096]:
        for ring in one_bit_rings(rng, slots):
            for next_slot, j in ((0, slots), (slots - 1, slots)):
                yield call("ring_sum", 1, slots, ring, next_slot, j)
            for _ in range(2):
                yield call("ring_sum", 1, slots, ring, rng.randrange(slots), rng.randint(0, slots))


def ring_large(rng):
    """The largest ring, 8,192 bytes, and a slice of 32,768."""
    ring = rng.randbytes(8192)
    yield call("ring_sum", 16, 4096, ring, 0, 4096)
    yield call("ring_sum", 16, 4096, b"\xff" * 8192, 4095, 4096)
    yield call("ring_read", 16, 4096, ring[:8191], 4095)
    yield call("ring_write", 16, 4096, ring, 4095, 65535)
    yield call("ring_clear", 16, 4096, rng.randbytes(32768))


def sections():
    yield "ring: writes, reads and sums", writes_reads_sums()
    yield "ring: bad numbers", bad_numbers()
    yield "short rings: the ring's own calls", short_rings()
    yield "ring: limits", ring_edges(random.Random(1))
    yield "ring: every width", ring_values(random.Random(2))
    yield "ring: any calls", ring_random(random.Random(3), 400)
    yield "ring: the largest", ring_large(random.Random(17))
    yield "ring: few slots of one bit", one_bit_few(random.Random(32))
    yield "ring: slots of one bit", one_bit_many(random.Random(33))
