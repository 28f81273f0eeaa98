"""Cases A to F of docs/SCOPE.md, by sections. What was worked by hand of them is in worked.py."""

from calls import TOP, call
from life import Life
from model import Record

ITEMS = [3, 4, 5, 5, 0, 1, 5]
BOOK = Record(5, 6, 10, 13, 1, 6, 0)
# The ring of case A, alone and with a byte behind it that is not the book's.
RINGS = (b"\x40", b"\x40\xff")


def case_a_lives():
    for size in (1, 2):
        yield from Life(5, 6, 10, b"\xff" * size, ITEMS + [2]).lines
        yield from Life(5, 6, 10, b"\xff" * size, ITEMS + [5, 6]).lines


def case_a_windows():
    for ring in RINGS:
        for i in (*range(8), TOP):
            yield call("total", BOOK, ring, i)
    one_more = Life(5, 6, 10, b"\xff", ITEMS + [2])
    for i in range(7):
        yield one_more.ask("total", i)
    yield Life(5, 6, 10, b"\xff", ITEMS + [5]).ask("total", 6)


AMOUNTS = (0, 1, 4, 5, 9, 10, 14, 15, 18, 19, TOP)


def case_a_how_far():
    for ring in RINGS:
        for v in AMOUNTS:
            yield call("far", BOOK, ring, v)


def case_a_verdicts():
    for ring in RINGS:
        for v in AMOUNTS:
            for w in range(8):
                yield call("verdict", BOOK, ring, w, v)


def life_and_questions(L, n, D, ring, items, windows, amounts):
    life = Life(L, n, D, ring, items)
    yield from life.lines
    for i in windows:
        yield life.ask("total", i)
    for v in amounts:
        yield life.ask("far", v)
        for w in windows:
            yield life.ask("verdict", w, v)


def case_b():
    for ring in (b"\xff", b"\x00"):
        yield from life_and_questions(3, 4, 2, ring, [1, 3, 0, 3], range(6), [1, 2, 3, 6, 7])


def case_c():
    for ring in (b"\xff\xff", b"\x00\x00"):
        yield from life_and_questions(9, 3, 1, ring, [9, 0, 4, 2], range(5), [1, 2, 6, 7])


def case_d():
    yield from life_and_questions(5, 3, 15, b"\xff", [5, 5, 5, 0], range(5), [1, 15, 16])
    for D in (10, 15, 16):
        yield call("open", 5, 3, D, b"\xff")


def case_e():
    """Items at and above L; c0ff is the ring that the item L leaves of 40ff."""
    for ring in (*RINGS, b"\xc0\xff", b""):
        for x in (5, 6, TOP):
            yield call("add", BOOK, ring, x)
    yield call("open", 5, 6, 10, b"")


def case_f():
    yield from life_and_questions(5, 6, 10, b"\xff", [], [0, 1], [1])


def sections():
    yield "case A: record and ring", case_a_lives()
    yield "case A: windows", case_a_windows()
    yield "case A: how far back", case_a_how_far()
    yield "case A: verdicts", case_a_verdicts()
    yield "case B: record, ring and windows", case_b()
    yield "case C: record, ring and windows", case_c()
    yield "case D: slots and tolerance", case_d()
    yield "case E: items and a ring of no bytes", case_e()
    yield "case F: kept 0", case_f()
