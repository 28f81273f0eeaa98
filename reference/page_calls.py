"""What the page shows, by sections. Calls that are refused, or just are not, and lines that cannot be read are in page_refusal_calls.py."""

import itertools
import random

import model
from book_calls import any_book, any_history, numbers_of_a_book
from calls import TOP, call
from comment_calls import comment, commented
from image_calls import damaged, one_byte_maxval, random_image
from page_model import TURN
from paper_cases import BOOK
from rest_calls import CASES, MARKS, RESTING
from row_books import some_items
from trend_books import good
from two_byte_calls import two_byte_maxval

LAST = TURN - 1
# The example of docs/SCOPE.md, in the order of the call.
EXAMPLE = {
    **{"record": BOOK, "ring": b"\x40", "w": 4, "v": 9},
    **{"newest": b"P5 2 2 255 \x01\x02\x03\x04", "newest_tick": 4294967290},
    **{"older": b"P5 3 1 15 \x0f\x00\x07", "older_tick": 4294967000, "now": 3},
}
# The same with images of few bytes and ticks of few digits.
SMALL = {**EXAMPLE, "newest": b"P5 1 1 1 \x01", "newest_tick": 7, "older": b"P5  1 2 1 \x00\x01", "older_tick": 2, "now": 11}
# What to change for each verdict: the window's figure is 9, and the tolerance 10.
LIVE, UNDECIDED, FROZEN, RESTS = {"v": 9}, {"v": 10}, {"v": 19}, {"record": BOOK._replace(mark=1)}
OTHERS = (UNDECIDED, FROZEN, RESTS)
# Where a byte, 16 bits or a sign's bit ends, and a whole turn but one or two.
AGES = (0, 1, 9, 255, 256, 65535, 65536, 2**31 - 1, 2**31, 2**31 + 1, LAST - 1, LAST)
# Images of every kind: no two have rasters of one length that start in one place.
KINDS = [
    b"P5 1 1 1 \x00",  # the smallest
    b"P5\n2 3\n255\n\x01\x02\x03\x04\x05\x06",  # one byte a pixel
    b"P5 2 1 256 \x01\x00\x00\xff",  # two bytes a pixel
    b"P5 #made by\n3 1#c\r 15#\r\n\x0f\x00\x07",  # comments, also before the byte that delimits
    b"P5 0001 002 00065535 \x01\x02\x03\x04",  # zeros in front
    b"P5\r\n\t 1  1\n\n9 \x08P5 1 1",  # further white bytes, and bytes behind the raster
    b"P5 2 1 9 \x09\x00P5 2 1 9 \x01\x02",  # an image behind it
    b"P5 5 1 255\n#c\n 1",  # a raster that looks like a comment
]


def asked(*changes, among=EXAMPLE):
    """The example's call, changed so."""
    return call("show", *dict(itertools.chain(among.items(), *(change.items() for change in changes))).values())


def small(*changes):
    return asked(*changes, among=SMALL)


def example():
    """Amounts from the smallest to the largest, awake and at rest; the tick now around the two others, and at the ends."""
    for v, change in itertools.product((1, 8, 9, 10, 11, 17, 18, 19, 20, TOP), ({}, RESTS)):
        yield asked(change, {"v": v})
    near = {EXAMPLE[name] + d for name in ("newest_tick", "older_tick") for d in (-1, 0, 1)}
    for now, verdict in itertools.product(sorted({0, 1, *near, LAST}), (LIVE, FROZEN)):
        yield asked(verdict, {"now": now})


def turns(record, ring, w):
    """Amounts where the verdict on a window turns, at its figure and at D more, and 1 to both sides."""
    f = model.total(record, ring, w)[1]
    return sorted({v + d for v in (f, f + record.D) for d in (-1, 0, 1)} - {-1, 0})


def borders(rng):
    """Every window of cases A, B and C with these amounts, and once at rest."""
    for record, ring, _, _ in CASES:
        for w in range(1, record.kept + 1):
            amounts = turns(record, ring, w)
            yield from (small({"record": record, "ring": ring, "w": w, "v": v}) for v in amounts)
            yield small({"record": record._replace(mark=1), "ring": ring, "w": w, "v": rng.choice(amounts)})


def marks():
    """Every mark but 0 rests, whatever the amount is."""
    for mark, verdict in itertools.product(MARKS, (LIVE, UNDECIDED, FROZEN)):
        yield small(verdict, {"record": BOOK._replace(mark=mark)})


def shown_at(verdict, tick, other):
    """The tick of the picture that is shown at this verdict, and that of the other one."""
    return {"newest_tick": tick, "older_tick": other} if verdict is LIVE else {"newest_tick": other, "older_tick": tick}


def ticks_at_ends(rng):
    """The picture's tick and the tick now at the ends of their range and in its middle; any tick for the picture that is not shown."""
    ends = (0, 1, 2**31, LAST - 1, LAST)
    for tick, now, verdict in itertools.product(ends, ends, (LIVE, FROZEN)):
        yield small(verdict, shown_at(verdict, tick, rng.choice([*ends, rng.randrange(TURN)])), {"now": now})


def ages(rng):
    """Every age, of pictures before the passage from the largest tick to 0 and behind it."""
    for age, tick in itertools.product(AGES, (0, LAST - 5, LAST)):
        for verdict in (LIVE, rng.choice(OTHERS)):
            yield small(verdict, shown_at(verdict, tick, rng.randrange(TURN)), {"now": (tick + age) % TURN})


def orders_of_ticks():
    """Two ticks before the passage and one behind it, in every order, also where some are the same."""
    for ticks in itertools.product((LAST - 14, LAST - 4, 5), repeat=3):
        yield from (small(verdict, dict(zip(("newest_tick", "older_tick", "now"), ticks))) for verdict in (LIVE, UNDECIDED))


def any_ticks(rng):
    return {name: rng.getrandbits(rng.choice([8, 16, 31, 32, 32, 32])) for name in ("newest_tick", "older_tick", "now")}


def kinds_of_images():
    """Every image beside every other and beside itself, the newest shown and the other one."""
    for (newest, older), verdict in zip(itertools.product(KINDS, KINDS), itertools.cycle(OTHERS)):
        yield from (small(change, {"newest": newest, "older": older}) for change in (LIVE, verdict))


def long_headers_and_rasters():
    """Rasters that start around place 256, behind comments, white bytes and zeros; rasters of around 256 bytes, in one byte a pixel and in two."""
    long = [b"P5 1 1" + fill + b" 1 \x01" for fill in (comment(246), comment(247), b" " * 247)]
    long += [b"P5 " + b"0" * 245 + b"1 1 256 \x01\x00"]
    long += [b"P5 1 %d 1 " % size + bytes(size) for size in (255, 256, 257)]
    long += [b"P5 %d 1 256 " % size + b"\x01\x00" * size for size in (127, 128)]
    for data in long:
        yield small(LIVE, {"newest": data})
        yield small(FROZEN, {"older": data})


def large_images():
    """Images of 24,576 bytes: the newest, with a byte behind it; the other one, with a long comment and two bytes a pixel."""
    yield small(LIVE, {"newest": b"P5" + b"\n" * 10 + b"24 1023 255\n" + b"\xff" * 24552 + b"\x00"})
    yield small(UNDECIDED, {"older": b"P5 100 50 65535" + comment(14560) + b"\n" + b"\xff\xfe" * 5000})


def longest_books(rng):
    """n 4,096 with slots of one bit, with one block for all, and that with the largest numbers; and the program's setting."""
    for L, n, D in ((1, 4096, 1), (3, 4096, 3 * 4096), (65535, 4096, 65535 * 4096), (600, 1440, 3600)):
        record, ring = any_history(rng, L, n, D)
        record = record._replace(kept=n)
        for w in (n, rng.randint(1, n)):
            amounts = turns(record, ring, w)
            for v in rng.sample(amounts, 2) if D == 1 else amounts:
                yield small({"record": record, "ring": ring, "w": w, "v": v})


def any_image(rng):
    """One byte a pixel or two, with comments or without, with bytes behind it or without; one in twelve damaged."""
    plain = random_image(rng, rng.choice([one_byte_maxval, two_byte_maxval]))
    with_comments = commented(rng, plain)
    data = (plain if model.pgm(with_comments)[0] else with_comments) + rng.choice([b"", b"", rng.randbytes(3)])
    return damaged(rng, data) if rng.randrange(12) == 0 else data


def any_pictures(rng):
    return {"newest": any_image(rng), "older": any_image(rng), **any_ticks(rng)}


def good_books(rng, count):
    """Books from a good start, now and then at rest: a window, and amounts where its verdict turns."""
    for _ in range(count):
        L, n, D = numbers_of_a_book(rng)
        record, ring, _ = good(L, n, D, some_items(rng, L, rng.randint(1, 2 * n)))
        w = rng.randint(1, record.kept)
        for v in rng.sample(turns(record, ring, w), 3):
            yield asked(any_pictures(rng), {"record": record._replace(mark=rng.choice([0, 0, 0, 0, 1])), "ring": ring, "w": w, "v": v})


def any_books(rng, count):
    """Books with any history and any mark, something being kept: any window, now and then 0 or one that is too long, and any amount."""
    for _ in range(count):
        record, ring = any_book(rng)
        kept, mark = record.kept or record.n, rng.choice([0, 0, 0, 0, rng.choice(RESTING)])
        record = record._replace(kept=kept, mark=mark)
        w = rng.choice([kept, kept, rng.randint(1, kept), rng.randint(1, kept), rng.randint(0, kept + 1)])
        v = rng.choice([*turns(record, ring, w), 1, rng.randint(0, TOP)])
        yield asked(any_pictures(rng), {"record": record, "ring": ring, "w": w, "v": v})


def sections():
    yield "page: the example", example()
    yield "page: where the verdict turns", borders(random.Random(181))
    yield "page: marks", marks()
    yield "page: ticks at the ends", ticks_at_ends(random.Random(182))
    yield "page: ages of every size", ages(random.Random(183))
    yield "page: three ticks in every order", orders_of_ticks()
    rng = random.Random(184)
    yield "page: any ticks", [small(rng.choice([LIVE, rng.choice(OTHERS)]), any_ticks(rng)) for _ in range(30)]
    yield "page: images of every kind", kinds_of_images()
    yield "page: long headers and rasters", long_headers_and_rasters()
    yield "page: large images", large_images()
    yield "page: the longest books", longest_books(random.Random(185))
    yield "page: books from a good start", good_books(random.Random(186), 25)
    yield "page: books with any history", any_books(random.Random(187), 80)
