"""Rank and select over lit frames (docs/SCOPE.md, Lit frames), in the manner of model.py and by that rule's own sentences.

Frames are a list of bits, 1 for lit and 0 for dark, and have their places from 1 on. All four calls are refused with 22 alone, the look into a
byte never is.
"""

import model

LONGEST = 65536
REFUSED = 22, 0


def bits(data):
    """Eight a byte, the top bit first."""
    return [int(digit) for digit in model.bits_of(data)]


def frames(data, length):
    """So many bits; those behind are no frames."""
    return bits(data)[:length]


def ones(row):
    """The places of the ones, in order."""
    return [place for place, bit in enumerate(row, start=1) if bit == 1]


def has_frames(data, length):
    """Whether there can be so many frames, and the bytes have as many bits."""
    return length <= LONGEST and length <= 8 * len(data)


def rank(data, length, i):
    """How many of the first i frames are lit."""
    if not has_frames(data, length) or i > length:
        return REFUSED
    return 0, sum(frames(data, length)[:i])


def select(data, length, k):
    """The place of the k-th lit frame."""
    if not has_frames(data, length):
        return REFUSED
    lit = ones(frames(data, length))
    if k == 0 or k > len(lit):
        return REFUSED
    return 0, lit[k - 1]


def rank_coarse(data, length, d, i):
    """The largest multiple of d that is not above the rank of i."""
    refusal, r = rank(data, length, i)
    if refusal or d == 0:
        return REFUSED
    return 0, d * (r // d)


def select_coarse(data, length, d, k):
    """With t the largest multiple of d that is not above k: the k-th lit frame itself where t is k, otherwise the place behind the t-th one, which
    is 1 where t is 0. It is refused where the k-th one is."""
    refusal, place = select(data, length, k)
    if refusal or d == 0:
        return REFUSED
    t = d * (k // d)
    if t == k:
        return 0, place
    if t == 0:
        return 0, 1
    _, before = select(data, length, t)
    return 0, before + 1


def in_byte(byte, k):
    """The place of the k-th one in a byte, 0 where there is none; there is none for 0 and for any k above 8."""
    places = ones(bits(bytes([byte])))
    return 0, places[k - 1] if 1 <= k <= len(places) else 0
