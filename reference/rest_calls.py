"""Books at rest, by sections."""

import random

import model
from book_calls import JUDGED, any_book, calls_on, numbers_of_a_book
from calls import TOP, call
from life import Life
from model import NO_RECORD, Record
from paper_cases import AMOUNTS, BOOK, ITEMS
from run_calls import some_counts

# Marks of rest: small ones, ones whose low byte, low half, or all binary digits but the top one are 0, and the largest.
RESTING = (1, 2, 255, 256, 2**32, 2**63, TOP)
MARKS = (0, *RESTING)
NO_BOOK = BOOK._replace(R=15)
# Records and rings of cases A, B and C, with the windows and amounts to ask for.
CASES = [
    (BOOK, b"\x40", (*range(8), TOP), AMOUNTS),
    (Record(3, 4, 2, 1, 0, 4, 0), b"\x21", range(6), (0, 1, 2, 3, 6, 7)),
    (Record(9, 3, 1, 0, 0, 3, 1), b"\x20\x40", range(5), (0, 1, 2, 6, 7)),
]
# For each condition of 8 a record that is just a book, and the one number by which it is none.
EDGES = [
    (Record(1, 6, 3, 0, 0, 6, 0), {"L": 0}),
    (Record(65535, 6, 10, 0, 0, 6, 0), {"L": 65536}),
    (Record(5, 1, 5, 0, 0, 0, 0), {"n": 0}),
    (Record(5, 4096, 10, 0, 0, 6, 0), {"n": 4097}),
    (Record(5, 6, 1, 0, 0, 6, 0), {"D": 0}),
    (Record(5, 6, 30, 29, 0, 6, 0), {"D": 31}),
    (Record(5, 6, 10, 13, 1, 6, 0), {"kept": 7}),
    (Record(5, 6, 10, 13, 1, 1, 0), {"kept": 0}),
    (Record(5, 6, 10, 9, 1, 6, 0), {"p": 2}),
    (Record(5, 6, 10, 13, 1, 6, 2), {"head": 3}),
    (Record(5, 6, 10, 14, 1, 6, 0), {"R": 15}),
]


def with_marks(records, marks):
    """Each of the records with each of the marks."""
    return [record._replace(mark=mark) for record in records for mark in marks]


def both(records):
    for record in records:
        yield call("rest", record)
        yield call("wake", record)


def marks():
    """Case A with every mark, cases B and C with the two that the calls set."""
    yield from both(with_marks([BOOK], MARKS))
    yield from both(with_marks([record for record, *_ in CASES], (0, 1)))


def no_books():
    """8 with every mark, which comes back as it came; beside each such record the book next to it. Then the largest numbers, and zeros."""
    for book, change in EDGES:
        yield call("rest", book)
        yield call("wake", book._replace(mark=1))
        yield from both(with_marks([book._replace(**change)], MARKS))
    yield from both(BOOK._replace(**{name: TOP}) for name in JUDGED)
    yield from both([Record(*[TOP] * 8)])
    yield from both(with_marks([NO_RECORD], (0, 1)))


def taken(record, ring):
    """An item and an item above L, no counts, a count, and a count above L behind one that is not."""
    for x in (2, 6):
        yield call("add", record, ring, x)
    for counts in ([], [2], [2, 6]):
        yield call("run", record, ring, counts)


def items():
    """17 with every mark but 0, before 7 and at an empty run; 8 and 4 come before it. Then a byte behind the ring, and many counts."""
    for record in with_marks([BOOK], MARKS):
        yield from taken(record, b"\x40")
    for mark in (1, TOP):
        for record, ring in ((NO_BOOK, b"\x40"), (NO_BOOK, b""), (BOOK, b""), (CASES[2][0], b"\x20")):
            yield from taken(record._replace(mark=mark), ring)
    for book, change in EDGES:
        record = book._replace(**change, mark=1)
        yield call("add", record, bytes(16), 0)
        yield call("run", record, bytes(16), [])
    for record, ring, _, _ in CASES:
        yield call("add", record._replace(mark=1), ring + b"\xa5", record.L)
        yield call("run", record._replace(mark=1), ring + b"\xa5", [record.L] * 9)


def totals():
    """Awake and at rest the same; 8 and 4 too."""
    for record, ring, windows, amounts in CASES:
        for resting in with_marks([record], (0, 1, TOP)):
            for i in windows:
                yield call("total", resting, ring, i)
            for v in amounts:
                yield call("far", resting, ring, v)
    for record, ring in ((NO_BOOK, b"\x40"), (BOOK, b"")):
        for name in ("total", "far"):
            yield call(name, record._replace(mark=1), ring, 4)


def verdicts():
    """Every mark with amounts that awake are live, undecided and frozen; every window with every amount. Before resting come 8, 4, 6 and 5."""
    for record in with_marks([BOOK], MARKS):
        for v in (9, 10, 18, 19):
            yield call("verdict", record, b"\x40", 4, v)
    for record, ring, windows, amounts in CASES:
        for w in windows[1 : record.kept + 1]:
            for v in amounts[1:]:
                yield call("verdict", record._replace(mark=1), ring, w, v)
    for mark in (2, 256, TOP):
        for record, ring, w, v in (
            *((NO_BOOK, b"\x40", 4, 9), (NO_BOOK, b"", 0, 0), (BOOK, b"", 4, 9), (BOOK, b"", 7, 0)),
            *((BOOK, b"\x40", 4, 0), (BOOK, b"\x40", 0, 9), (BOOK, b"\x40", 7, 0), (BOOK, b"\x40", 7, 9)),
        ):
            yield call("verdict", record._replace(mark=mark), ring, w, v)


def openings():
    """The mark is 0, also where 1, 2, 3 or 4 is given; what was opened is put to rest."""
    for L, n, D, ring in ((0, 6, 10, b"\xff"), (5, 0, 10, b"\xff"), (5, 6, 31, b"\xff"), (5, 6, 10, b"")):
        yield call("open", L, n, D, ring)
    for L, n, D in ((5, 6, 10), (1, 1, 1), (600, 1440, 3600)):
        life = Life(L, n, D, b"\xff" * model.book_bytes(L, n, D))
        life.rest()
        yield from life.lines


def case_a_with_rests(rng):
    """Case A's items, and before each a rest in which it is refused; then what the book answers while it rests once more."""
    life = Life(5, 6, 10, b"\xff")
    for x in ITEMS + [2]:
        life.rest()
        life.add(x)
        life.run([x])
        life.wake()
        life.add(x)
    life.rest()
    yield from life.lines
    yield from calls_on(rng, life.record, life.ring)


def any_books(rng, count):
    """Books with any history, at rest with any mark."""
    for _ in range(count):
        record, ring = any_book(rng)
        resting = record._replace(mark=rng.choice([*RESTING, rng.randint(1, TOP)]))
        yield from calls_on(rng, resting, ring)
        yield call("run", resting, ring, some_counts(rng, record.L, rng.randint(0, 9)))
        yield from both([resting])


def some_step(rng, life):
    """A rest or a waking, whether the book rests or not; or a run, or an item."""
    kind = rng.randrange(5)
    if kind == 0:
        life.rest()
    elif kind == 1:
        life.wake()
    elif kind == 2:
        life.run(some_counts(rng, life.record.L, rng.randint(0, 9)))
    else:
        life.add(rng.randint(0, life.record.L))


def two_questions(rng, life):
    """A window's verdict for an amount at which it turns while the book is awake; and the window's figure, or how far back."""
    w = rng.randint(1, life.record.kept)
    f = model.total(life.record, life.ring, w)[1]
    v = max(1, rng.choice([f, f + 1, f + life.record.D - 1, f + life.record.D]))
    yield life.ask("verdict", w, v)
    yield life.ask(*rng.choice([("total", w), ("far", v)]))


def whole_lives(rng, count):
    """Books that begin with a run and then rest and wake at any time, asked after each step."""
    for _ in range(count):
        L, n, D = numbers_of_a_book(rng)
        life = Life(L, n, D, rng.randbytes(model.book_bytes(L, n, D) + rng.randint(0, 1)))
        life.run(some_counts(rng, L, rng.randint(1, 2 * n)))
        for _ in range(12):
            some_step(rng, life)
            life.lines += two_questions(rng, life)
        yield from life.lines


def unreadable():
    """Records of seven and of nine numbers in each call; marks that are no number below 2^64, and some that are; names and arguments."""
    for record in ("5,6,10,13,1,6,0", "5,6,10,13,1,6,0,1,0"):
        yield from (f"rest {record}", f"wake {record}", f"add {record} 40 2", f"run {record} 40 2")
        yield from (f"total {record} 40 5", f"far {record} 40 15", f"verdict {record} 40 4 18")
    for mark in ("", "1,", ",1", "-", "-1", "+1", "a", "1.", "0x1", "00", "01", "0" * 30 + "2", TOP, TOP + 1, TOP + 2, 2**65, 10**30):
        yield f"rest 5,6,10,13,1,6,0,{mark}"
    book = "5,6,10,13,1,6,0,1"
    for name in ("rest", "wake"):
        yield from (name, f"{name} ", f"{name} -", f"{name} 5", f"{name} {book} ", f" {name} {book}", f"{name}  {book}", f"{name} {book}\r")
        yield from (f"{name} {book} 40", f"{name} {book} {book}", f"{name} {book} 40 2", f"{name} {book} 40 4 18")
        yield from (f"{name}s {book}", f"{name[:-1]} {book}", f"{name.upper()} {book}")


def sections():
    yield "rest: setting and clearing the mark", marks()
    yield "rest: records that are no book", no_books()
    yield "rest: items and runs", items()
    yield "rest: totals and how far back", totals()
    yield "rest: verdicts", verdicts()
    yield "rest: openings", openings()
    yield "rest: case A, a rest before each item", case_a_with_rests(random.Random(35))
    yield "rest: books with any history", any_books(random.Random(37), 10)
    yield "rest: books from a good start", whole_lives(random.Random(36), 4)
    yield "rest: lines that cannot be read, and some that just can", unreadable()
