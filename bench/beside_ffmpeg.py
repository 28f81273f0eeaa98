#!/usr/bin/env python3
"""Times `frozen` beside ffmpeg's freezedetect on one stream of 160 x 120 frames, turn about, and prints the ratio.

    python3 bench/beside_ffmpeg.py crates/frozen/out/frozen

Needs Debian's ffmpeg. The stream is the same each time: fifty frames of noise, fifty with some hundred pixels changed, fifty still.
"""
import random
import statistics
import subprocess
import sys
import tempfile
import time

WIDTH, HEIGHT, FRAMES, RUNS = 160, 120, 20000, 15


def write_stream(file):
    chance = random.Random(7)
    pixels = bytearray(chance.randbytes(WIDTH * HEIGHT))
    for frame in range(FRAMES):
        kind = frame // 50 % 3
        if kind == 0:
            pixels = bytearray(chance.randbytes(WIDTH * HEIGHT))
        elif kind == 1:
            for _ in range(400):
                pixels[chance.randrange(len(pixels))] ^= 64
        file.write(b"P5\n%d %d\n255\n" % (WIDTH, HEIGHT) + pixels)
    file.flush()


def seconds(command, stream):
    with open(stream, "rb") as given:
        begin = time.perf_counter()
        subprocess.run(command, stdin=given, stdout=subprocess.DEVNULL, check=True)
        return time.perf_counter() - begin


def main():
    with tempfile.NamedTemporaryFile() as file:
        write_stream(file)
        commands = {
            "frozen": sys.argv[1:],
            "ffmpeg": "ffmpeg -v quiet -f pgm_pipe -i - -vf freezedetect -f null -".split(),
        }
        times = {name: [] for name in commands}
        for _ in range(RUNS):
            for name, command in commands.items():
                times[name].append(seconds(command, file.name))
    ratios = [slow / fast for fast, slow in zip(times["frozen"], times["ffmpeg"])]
    for name in commands:
        print(f"{name}: median {statistics.median(times[name]):.3f} s, from {min(times[name]):.3f} to {max(times[name]):.3f}")
    print(f"ffmpeg/frozen: median {statistics.median(ratios):.2f}, from {min(ratios):.2f} to {max(ratios):.2f}")


main()
