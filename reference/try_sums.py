#!/usr/bin/env python3
"""Holds the ring's sum of slots of one bit to a count of ones: 1 to 130 slots, every next slot and every number of newest ones. These are
too many for the gate.

    python3 reference/try_sums.py                            (runs crates/vectors/out/vectors, which is for x86-64)
    python3 reference/try_sums.py COMMAND ...                (any words: the command is run as it stands, and reads lines as `vectors` does)

Each number of slots is tried with rings all 1 and of chance, of B bytes and of more. It ends with status 1 at the first answer that is another.
"""

import itertools
import random
import subprocess
import sys
from pathlib import Path

import model
from calls import call
from ring_calls import one_bit_rings

COMMAND = sys.argv[1:] or [str(Path(__file__).resolve().parent.parent / "crates/vectors/out/vectors")]
MOST = 130
# numbers of slots given to one start of the program
STEP = 10


def ones(bits, slots, next_slot, j):
    """The ones of the j slots before the next one: in the row written twice they stand side by side."""
    end = next_slot + slots
    return (bits[:slots] * 2)[end - j : end].count("1")


def calls(rng, slots):
    """Every call with so many slots, and the answer to it."""
    for ring in one_bit_rings(rng, slots):
        bits = model.bits_of(ring)
        for next_slot, j in itertools.product(range(slots), range(slots + 1)):
            yield call("ring_sum", 1, slots, ring, next_slot, j), f"0 {ones(bits, slots, next_slot, j)}"


def main():
    rng = random.Random(34)
    tried = 0
    for first in range(1, MOST + 1, STEP):
        pairs = [pair for slots in range(first, min(first + STEP, MOST + 1)) for pair in calls(rng, slots)]
        lines = "".join(line + "\n" for line, _ in pairs)
        run = subprocess.run(COMMAND, input=lines.encode(), stdout=subprocess.PIPE)
        output = run.stdout.decode().split("\n")
        if run.returncode or len(output) != len(pairs) + 1:
            sys.exit(f"{len(pairs)} calls, {len(output) - 1} answers, and the program ended with status {run.returncode}")
        for (line, expected), answer in zip(pairs, output):
            if answer != expected:
                sys.exit(f"{line}: the program answers {answer}, counted {expected}")
        tried += len(pairs)
    print(f"{tried} sums of 1 to {MOST} slots of one bit: each is the number of ones")


if __name__ == "__main__":
    main()
