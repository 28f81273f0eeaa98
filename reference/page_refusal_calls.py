"""Calls of the page that are refused, and some that just are not, by sections; and lines that cannot be read."""

import itertools
import random

from answers import show
from book_calls import JUDGED, changed_records
from calls import TOP, around
from model import Record
from page_calls import EXAMPLE, FROZEN, LAST, LIVE, OTHERS, RESTS, any_ticks, small
from page_model import TURN
from paper_cases import BOOK
from rest_calls import CASES, EDGES, MARKS, NO_BOOK

# For each refusal two slices that are refused with it, the first of few bytes.
DAMAGED = {
    11: (b"x", b"P5 1 1 255#c\n\x07"),
    12: (b"P5 0 ", b"P5 1 1 65536 \x00\x00"),
    13: (b"P5 1024 24 1 ", b"P5 160 120 4095 \x00\x00"),
    14: (b"P5", b"P5 2 1 256 \x01\x00\x00"),
    15: (b"P5 1 1 1 \x02", b"P5 2 1 256 \x01\x00\x01\x01"),
}
SHORTEST = [few for few, _ in DAMAGED.values()]
# What to change for each refusal of the verdict: 8, 4, 6 by the amount, 6 by the window, and 5.
NO_VERDICT = ({"record": NO_BOOK}, {"ring": b""}, {"v": 0}, {"w": 0}, {"w": 7})
PLACES = ("newest", "older")
# The ten words of a call.
WORDS = small().split(" ")


def one_damaged():
    """Each slice as the newest image and as the other one, at each verdict."""
    for data, place, verdict in itertools.product(itertools.chain(*DAMAGED.values()), PLACES, (LIVE, *OTHERS)):
        yield small(verdict, {place: data})


def both_damaged():
    """Every pair of refusals: the newest image's is given."""
    for (newest, older), verdict in zip(itertools.product(SHORTEST, SHORTEST), itertools.cycle(OTHERS)):
        yield from (small(change, {"newest": newest, "older": older}) for change in (LIVE, verdict))


def order():
    """Every refusal of the verdict with every refusal of one image, and with both images damaged: the verdict's comes first."""
    for change in NO_VERDICT:
        yield small(change)
        yield from (small(change, {place: data}) for place in PLACES for data in SHORTEST)
        yield from (small(change, {"newest": newest, "older": older}) for newest, older in zip(SHORTEST, SHORTEST[1:] + SHORTEST[:1]))


def order_of_verdicts():
    """The verdict's refusals in every set of them, awake and at rest, with damaged images."""
    for none, short, zero, above in itertools.product((False, True), repeat=4):
        record, ring, w, v = NO_BOOK if none else BOOK, b"" if short else b"\x40", 7 if above else 4, 0 if zero else 9
        for mark, image in itertools.product((0, 1), ({"newest": SHORTEST[3]}, {"older": SHORTEST[4]})):
            yield small({"record": record._replace(mark=mark), "ring": ring, "w": w, "v": v}, image)


def no_books():
    """For each condition of 8 a record that is just a book and one that is none, awake and at rest; case A with one number
    changed; and a record that is none, with every mark."""
    for book, change in EDGES:
        for record, mark in itertools.product((book, book._replace(**change)), (0, 1)):
            yield small({"record": record._replace(mark=mark), "ring": bytes(16), "w": 1, "v": 1})
    yield from (small({"record": record, "w": 1}) for record in changed_records())
    yield from (small({"record": NO_BOOK._replace(mark=mark)}) for mark in MARKS)


def wild_records(rng, count):
    """Records, windows and amounts of any numbers."""
    for _ in range(count):
        *numbers, w, v = (rng.choice([0, 1, rng.randint(0, 20), rng.randint(0, 70000), rng.randint(0, TOP), TOP]) for _ in range(len(JUDGED) + 3))
        yield small({"record": Record(*numbers), "ring": rng.randbytes(rng.randint(0, 4)), "w": w, "v": v}, any_ticks(rng))


def ring_sizes():
    """A byte fewer than the book takes, just as many, and further ones, which may be anything: live, or at rest."""
    for (record, ring, _, _), mark in itertools.product(CASES, (0, 1)):
        for lent in (ring[:-1], ring, ring + b"\x00", ring + b"\xff" * 9):
            yield small({"record": record._replace(mark=mark), "ring": lent, "w": record.kept, "v": 1})


def empty_slices():
    """No bytes for the ring, for either image, and for any of them together."""
    for names, verdict in itertools.product(itertools.product((False, True), repeat=3), (LIVE, *OTHERS)):
        yield small(verdict, {name: b"" for name, empty in zip(("ring", *PLACES), names) if empty})


def windows_and_amounts():
    """Windows around what is kept, amounts around where the verdict turns, and the ends of both; some are those by their low digits."""
    for w in (*around(6), 2**32 + 4, 2**63 + 4):
        yield from (small({"w": w, "v": v}) for v in (0, 1, TOP))
    for v in (*around(9, 19), 2**32 + 9, 2**63 + 9):
        yield from (small(change, {"v": v}) for change in ({}, RESTS))
    yield from (small({"w": w, "v": v}, RESTS) for w, v in itertools.product((0, 6, 7, TOP), (0, TOP)))


def around_kept(rng):
    """Kept is just the open block, an item more, and all: a window as long, which is 6 for 0, and 5 for one that is longer."""
    for record, ring, _, _ in CASES:
        for kept in sorted({record.p, record.p + 1, record.n}):
            for w in (kept, kept + 1):
                yield small({"record": record._replace(kept=kept, mark=rng.randrange(2)), "ring": ring, "w": w, "v": rng.choice([1, 4, TOP])})


def beginnings():
    """Every beginning of the example's images, each beside the other one whole, the newest shown and not; and the two beginnings of one length."""
    for place in PLACES:
        for size, verdict in itertools.product(range(len(EXAMPLE[place])), (LIVE, FROZEN)):
            yield small(verdict, {place: EXAMPLE[place][:size]})
    for size in (0, 1, 9, 10, 12, 13, 14):
        yield small({place: EXAMPLE[place][:size] for place in PLACES})


def ticks_of_refused(rng):
    """Any ticks, where the call is refused: all numbers are 0."""
    for change in (*NO_VERDICT, *({place: data} for place in PLACES for data in SHORTEST)):
        yield small(change, any_ticks(rng))


def with_words(words):
    """A call with these words in some of its places."""
    return " ".join(words.get(place, word) for place, word in enumerate(WORDS))


def unreadable():
    """Ticks around 2^32 and 2^64, and such as are no number, also where the call would be refused; each other argument; missing and further ones;
    names."""
    for place, tick in itertools.product((6, 8, 9), (LAST, TURN, TURN + 3, 2**33 - 1, 2**63, TOP, TOP + 1, 10**30, "0" * 30 + "3", "00")):
        yield with_words({place: str(tick)})
    for place, word in itertools.product((6, 8, 9), ("-1", "+1", "-", "", "a", "0x3", "3,3", "3.", "3\t")):
        yield with_words({place: word})
    yield from (with_words({3: w, 9: str(TURN)}) for w in ("0", "7"))
    yield from (with_words({place: "-", 8: str(TURN)}) for place in (2, 5, 7))
    for place, word in itertools.product((3, 4), ("-1", "-", "", "a", "04", str(TOP), str(TOP + 1), str(TOP + 5))):
        yield with_words({place: word})
    for place, word in itertools.product((2, 5, 7), ("4", "4G", "4A", "", "--", "0x40", "40,40", "3")):
        yield with_words({place: word})
    for record in ("5,6,10,13,1,6,0", "5,6,10,13,1,6,0,0,0", "5,6,10,13,1,6,0,", "-", "", "5", f"5,6,10,13,1,6,0,{TOP + 1}", "05,6,10,13,1,6,0,00"):
        yield with_words({1: record})
    yield from (" ".join(WORDS[:count]) for count in range(1, 10))
    yield from (" ".join(WORDS[:place] + WORDS[place + 1 :]) for place in range(1, 9))
    yield from (small() + more for more in (" ", " 3", " 3 3", "\r", " -"))
    yield from (with_words({0: name}) for name in ("sho", "shows", "Show", "SHOW", " show", "show ", "shown", "page", "verdict", "pgm"))
    yield f"verdict {show(BOOK)} 40 4 9 3"


def sections():
    yield "page: a damaged image", one_damaged()
    yield "page: two damaged images", both_damaged()
    yield "page: every beginning of an image", beginnings()
    yield "page: empty slices", empty_slices()
    yield "page: the order of refusals", order()
    yield "page: the order of the verdict's refusals", order_of_verdicts()
    yield "page: records that are no book", no_books()
    yield "page: records of any numbers", wild_records(random.Random(188), 15)
    yield "page: short rings, and longer ones", ring_sizes()
    yield "page: windows and amounts of any size", windows_and_amounts()
    yield "page: windows around what is kept", around_kept(random.Random(189))
    yield "page: ticks of what is refused", ticks_of_refused(random.Random(190))
    yield "page: lines that cannot be read, and some that just can", unreadable()
