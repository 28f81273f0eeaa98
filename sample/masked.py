#!/usr/bin/env python3
"""Reads PGM images, one after another, and tells for each after the first how many pixels changed: all, and those that a mask leaves.

    python3 sample/day.py | python3 sample/masked.py sample/trees.pbm

The mask is a binary PBM; what is black in it does not count. Images are read and compared by the library itself: the program `vectors`
(built by rt run < /dev/null in crates/vectors) answers one call a line. It ends with status 1 at the first refusal, and names it.
"""
import sys
from pathlib import Path

from proved import ALLOWANCE, BOUND, LIMIT, ask, started, stop


def main():
    if len(sys.argv) != 2:
        stop("one word is needed: the file of the mask")
    mask = Path(sys.argv[1]).read_bytes()[:LIMIT].hex() or "-"
    data = sys.stdin.buffer.read()
    with started() as program:
        print("frame,score,masked")
        frame, before = 0, None
        while data:
            frame += 1
            _, _, _, used, _, _ = ask(program, f"frame {frame}", "pgm", data[:LIMIT].hex())
            now, data = data[: int(used)].hex(), data[int(used) :]
            if before:
                pair = BOUND, ALLOWANCE, before, now
                (score,) = ask(program, f"frame {frame}", "score", *pair)
                (masked,) = ask(program, f"frame {frame} with its mask", "score_mask", *pair, mask)
                print(f"{frame},{score},{masked}")
            before = now


main()
