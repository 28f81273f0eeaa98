#!/usr/bin/env python3
"""Makes the calls and the answers that the program `vectors` is held to: crates/vectors/stdin and crates/vectors/stdout.

    python3 reference/make_vectors.py            writes both files, the same ones each time
    python3 reference/make_vectors.py --check    says whether they are the ones that stand there

The answers come from model.py, row_model.py, coarse_model.py, zone_model.py, salvage_model.py, lit_model.py and page_model.py, which are written to
docs/SCOPE.md alone and are first held to the figures of worked.py.
The calls stand in sections, each begun by a line `# NAME`; docs/PROMISES.md names them.
It takes Python 3.9 or later, and no package.
"""

import sys
from pathlib import Path

import answers
import book_calls
import coarse_calls
import coarse_faults
import coarse_row_calls
import comment_calls
import image_calls
import lit_calls
import lit_faults
import lit_refusal_calls
import mask_calls
import mask_header_calls
import other_lines
import page_calls
import page_faults
import page_refusal_calls
import paper_cases
import rest_calls
import ring_calls
import row_calls
import row_faults
import row_lives
import row_total_calls
import run_calls
import salvage_calls
import salvage_faults
import salvage_row_calls
import score_calls
import trend_books
import trend_calls
import two_byte_calls
import worked
import zone_calls
import zone_faults
import zone_refusal_calls

HOME = Path(__file__).resolve().parent.parent / "crates" / "vectors"


def sections():
    """Every section's name and calls, in order. Random ones have a seed each, so that a change in one leaves the others as they are."""
    yield "lines of the format", []
    of_books = (paper_cases, ring_calls, book_calls, run_calls, rest_calls, row_calls, row_lives, row_total_calls, trend_calls)
    coarser = (coarse_calls, coarse_row_calls)
    of_zones = (zone_calls, zone_refusal_calls)
    salvaged = (salvage_calls, salvage_row_calls)
    of_lit_frames = (lit_calls, lit_refusal_calls)
    of_images = (image_calls, comment_calls, two_byte_calls, score_calls, mask_calls, mask_header_calls)
    of_the_page = (page_calls, page_refusal_calls)
    for part in (*of_books, *coarser, *of_zones, *salvaged, *of_lit_frames, *of_images, *of_the_page, other_lines):
        yield from part.sections()


def lines():
    """All lines, in order; in a section each call once, those worked by hand first."""
    for name, calls in sections():
        yield "# " + name
        yield from dict.fromkeys([*worked.lines(name), *calls])


def main():
    calls = list(lines())
    faults = [*worked.faults(), *run_calls.faults(), *row_faults.faults(), *trend_books.faults(), *mask_calls.faults()]
    faults += [*coarse_faults.faults(calls), *zone_faults.faults(calls), *salvage_faults.faults(calls), *lit_faults.faults(calls)]
    faults += page_faults.faults(calls)
    faults += [f"no section is named {name}" for name in worked.FIGURES.keys() - dict(sections()).keys()]
    if faults:
        sys.exit("\n".join(faults))
    stdin = "".join(line + "\n" for line in calls)
    stdout = "".join(answers.answer(line) + "\n" for line in calls)
    if sys.argv[1:] == ["--check"]:
        same = (HOME / "stdin").read_bytes() == stdin.encode() and (HOME / "stdout").read_bytes() == stdout.encode()
        sys.exit(None if same else "the files differ from what this script makes")
    HOME.mkdir(parents=True, exist_ok=True)
    (HOME / "stdin").write_bytes(stdin.encode())
    (HOME / "stdout").write_bytes(stdout.encode())
    print(f"{len(calls)} lines, {len(stdin)} bytes in, {len(stdout)} bytes out")


if __name__ == "__main__":
    main()
