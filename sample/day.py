#!/usr/bin/env python3
"""Writes a synthetic afternoon of a snowline camera as PGM images, one after another.

Sixty frames with wind in the trees, then dusk, in which fewer and fewer pixels move, then a stalled sensor that sends the same
frame again and again. The same frames come out each time: the noise is a small generator with a fixed seed.
"""
import os
import sys

WIDTH, HEIGHT = 64, 48
WINDY, DUSK, STALLED = 60, 40, 40
# A pixel that moves goes up by more than the allowance of 12, and from STEPS steps up it falls back to its calm shade.
STEP, STEPS = 13, 4
# The ridge, as places from left to right with their heights from the top.
RIDGE = (0, 22), (14, 12), (20, 16), (37, 5), (50, 19), (56, 15), (63, 20)


def noise(seed):
    while True:
        seed = (seed * 1103515245 + 12345) % 2**31
        yield seed >> 8


def write(pixels):
    sys.stdout.buffer.write(b"P5\n%d %d\n255\n" % (WIDTH, HEIGHT) + pixels)


def ridge(x):
    (left, high), (right, low) = next(pair for pair in zip(RIDGE, RIDGE[1:]) if x <= pair[1][0])
    return high + (low - high) * (x - left) / (right - left)


def shade(x, y):
    """The slope on a calm day: sky, snow down to a ragged line, rock, and a wood along the bottom."""
    if y < ridge(x):
        return 100 + y
    if y > 40 - abs(x % 6 - 3):
        return 15
    return 180 if y < 24 + (x * 7 % 5) else 70


def stir(pixels, calm, chance, count):
    """Moves so many pixels."""
    for _ in range(count):
        at = next(chance) % len(pixels)
        pixels[at] = calm[at] if pixels[at] == calm[at] + STEP * STEPS else pixels[at] + STEP


def main():
    chance = noise(2026)
    calm = bytes(shade(at % WIDTH, at // WIDTH) + next(chance) % 16 for at in range(WIDTH * HEIGHT))
    pixels = bytearray(calm)
    for _ in range(WINDY):
        stir(pixels, calm, chance, 250)
        write(pixels)
    for left in range(DUSK, 0, -1):
        stir(pixels, calm, chance, 4 * left)
        write(pixels)
    for _ in range(STALLED):
        write(pixels)


try:
    main()
    sys.stdout.flush()
except BrokenPipeError:
    # Whoever read the frames has gone; Python must not try to write the rest when it ends.
    os.dup2(os.open(os.devnull, os.O_WRONLY), sys.stdout.fileno())
