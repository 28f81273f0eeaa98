"""The calls of docs/SCOPE.md, in Python's whole numbers, written to its rules alone; those with a row of sums are in row_model.py.

Every call gives what its answer line holds (answers.py), first the refusal number, 0 for none;
bytes and records that a call may change are given as they are afterwards. Nothing here is fast, and nothing is shared with the
proved code: where the two differ, the rules decide which is wrong.
"""

from collections import namedtuple

LARGEST_BOUND = 65535
LARGEST_LENGTH = 4096
LARGEST_WIDTH = 16
LARGEST_SLOTS = 4096
LARGEST_SIDE = 1024
LARGEST_MAXVAL = 65535
IMAGE_LIMIT = 24576

# A record for which no mark is named has the mark 0.
Record = namedtuple("Record", "L n D R p kept head mark", defaults=[0])
NO_RECORD = Record(0, 0, 0, 0, 0, 0, 0)


def ceil_div(a, b):
    return -(-a // b)


# --- the ring ---------------------------------------------------------------------------------------------------------


def ring_bytes(width, slots):
    """B: as many bytes as the fields fill, the last one perhaps in part."""
    return ceil_div(slots * width, 8)


def bits_of(ring):
    """The digits one after another, each byte from its top bit down."""
    return "".join(format(byte, "08b") for byte in ring)


def bytes_of(bits):
    return bytes(int(bits[i : i + 8], 2) for i in range(0, len(bits), 8))


def field(width, bits, slot):
    """The number in a slot: its own width of digits, the highest first."""
    return int(bits[slot * width : slot * width + width], 2)


def newest_fields(width, slots, ring, next_slot, j):
    """What stands in the j newest slots before the next one, the newest first; behind slot 0 lies the last."""
    bits = bits_of(ring)
    return [field(width, bits, (next_slot - 1 - k) % slots) for k in range(j)]


def with_field(width, ring, slot, value):
    """The ring with one slot written, every other bit as it was."""
    bits = bits_of(ring)
    digits = format(value, "b").zfill(width)
    return bytes_of(bits[: slot * width] + digits + bits[slot * width + width :])


def cleared(ring, count):
    """The first B bytes 0 (the bits after the last slot too), the others as they were."""
    return bytes(count) + ring[count:]


def ring_refusal(width, slots, ring, bad=False):
    """10, then 4; bad is what else a call has under 10."""
    if not 1 <= width <= LARGEST_WIDTH or not 1 <= slots <= LARGEST_SLOTS or bad:
        return 10
    if len(ring) < ring_bytes(width, slots):
        return 4
    return 0


def ring_clear(width, slots, ring):
    refusal = ring_refusal(width, slots, ring)
    if refusal:
        return refusal, ring
    return 0, cleared(ring, ring_bytes(width, slots))


def ring_read(width, slots, ring, slot):
    """A slot that the ring does not have is 10."""
    refusal = ring_refusal(width, slots, ring, slot >= slots)
    return (refusal, 0) if refusal else (0, field(width, bits_of(ring), slot))


def too_large(width, value):
    """Whether the value needs more digits than the width; a width out of its range is 10 by itself, and no power of it is taken."""
    return width <= LARGEST_WIDTH and value >= 2**width


def ring_write(width, slots, ring, slot, value):
    refusal = ring_refusal(width, slots, ring, slot >= slots or too_large(width, value))
    return (refusal, ring) if refusal else (0, with_field(width, ring, slot, value))


def ring_sum(width, slots, ring, next_slot, j):
    """To ask for more slots than the ring has is 10, and so is a next slot that is none."""
    refusal = ring_refusal(width, slots, ring, next_slot >= slots or j > slots)
    if refusal:
        return refusal, 0
    return 0, sum(newest_fields(width, slots, ring, next_slot, j))


# --- the book ---------------------------------------------------------------------------------------------------------


def block_length(L, D):
    """c: how often L goes into D, and 1 where it does not."""
    return max(1, D // L)


def slot_count(L, n, D):
    """s: blocks enough for n items."""
    return ceil_div(n, block_length(L, D))


def largest_quotient(L, D):
    """z: c·L by D, rounded up."""
    return ceil_div(block_length(L, D) * L, D)


def field_width(L, D):
    """b: how many binary digits z has."""
    return largest_quotient(L, D).bit_length()


def book_bytes(L, n, D):
    return ring_bytes(field_width(L, D), slot_count(L, n, D))


def numbers_refusal(L, n, D):
    """1, 2, 3: the ranges of L, n and D, in this order."""
    if not 1 <= L <= LARGEST_BOUND:
        return 1
    if not 1 <= n <= LARGEST_LENGTH:
        return 2
    if not 1 <= D <= n * L:
        return 3
    return 0


def shape(L, n, D):
    """1, 2, 3; then c, s, z, b and B."""
    refusal = numbers_refusal(L, n, D)
    if refusal:
        return refusal, 0, 0, 0, 0, 0
    return 0, block_length(L, D), slot_count(L, n, D), largest_quotient(L, D), field_width(L, D), book_bytes(L, n, D)


def is_book(r):
    """Not 8: every number of the record where a book can have it; the mark may be any."""
    if numbers_refusal(r.L, r.n, r.D):
        return False
    return (
        r.p <= r.kept <= r.n
        and r.p < block_length(r.L, r.D)
        and r.head < slot_count(r.L, r.n, r.D)
        and r.R <= r.D - 1 + r.p * r.L
    )


def book_refusal(r, ring):
    """8, then 4: how every call on a record begins."""
    if not is_book(r):
        return 8
    if len(ring) < book_bytes(r.L, r.n, r.D):
        return 4
    return 0


def rests(r):
    """Any mark but 0 is one of rest."""
    return r.mark != 0


def taking_refusal(r, ring):
    """8, 4, 17: how every call that takes items begins."""
    return book_refusal(r, ring) or (17 if rests(r) else 0)


def open_book(L, n, D, ring):
    """1, 2, 3, 4; a refused opening gives a record of zeros. The mark is cleared."""
    refusal = numbers_refusal(L, n, D)
    if not refusal and len(ring) < book_bytes(L, n, D):
        refusal = 4
    if refusal:
        return refusal, NO_RECORD, ring
    return 0, Record(L, n, D, R=0, p=0, kept=0, head=0, mark=0), cleared(ring, book_bytes(L, n, D))


def block_closed(r, ring):
    """The quotient of R by D is noted in the head's slot, the remainder stays, and the head goes round by one."""
    q = r.R // r.D
    ring = with_field(field_width(r.L, r.D), ring, r.head, q)
    head = (r.head + 1) % slot_count(r.L, r.n, r.D)
    return r._replace(R=r.R - q * r.D, p=0, head=head), ring


def add(r, ring, x):
    """8, 4, 17, 7; otherwise the item is taken, and a block that it fills is closed."""
    refusal = taking_refusal(r, ring)
    if not refusal and x > r.L:
        refusal = 7
    if refusal:
        return refusal, r, ring
    r = r._replace(R=r.R + x, p=r.p + 1, kept=min(r.n, r.kept + 1))
    if r.p == block_length(r.L, r.D):
        r, ring = block_closed(r, ring)
    return 0, r, ring


def run(r, ring, counts):
    """8, 4, 17, 7; with 7 the place, from 1, of the first count above L. All counts are looked at before one is taken."""
    refusal = taking_refusal(r, ring)
    if refusal:
        return refusal, 0, r, ring
    above = [place for place, x in enumerate(counts, 1) if x > r.L]
    if above:
        return 7, above[0], r, ring
    for x in counts:
        _, r, ring = add(r, ring, x)
    return 0, 0, r, ring


def set_mark(r, mark):
    """8; otherwise the record with this mark, whichever it had."""
    return (0, r._replace(mark=mark)) if is_book(r) else (8, r)


def rest(r):
    """8; a book that rests already goes on resting."""
    return set_mark(r, 1)


def wake(r):
    """8; a book that is awake already stays so."""
    return set_mark(r, 0)


def fields_of(r, ring):
    """The book's fields, the newest first."""
    s = slot_count(r.L, r.n, r.D)
    return newest_fields(field_width(r.L, r.D), s, ring, r.head, s)


def blocks(r, fields, i):
    """A window's j blocks, of whose oldest e items lie outside; g is that block's quotient."""
    if i <= r.p:
        return 0, r.p - i, r.R // r.D
    c = block_length(r.L, r.D)
    j = ceil_div(i - r.p, c)
    return j, j * c - (i - r.p), fields[j - 1]


def figure_of(r, amount, e, g):
    """The figure of a window whose j slots add up to this amount."""
    return max(0, r.R + r.D * amount - (r.D - 1) - e * r.L * g)


def figure(r, fields, i):
    """The one figure of a window."""
    j, e, g = blocks(r, fields, i)
    return figure_of(r, sum(fields[:j]), e, g)


def total(r, ring, i):
    """8, 4, 5."""
    refusal = book_refusal(r, ring)
    if not refusal and i > r.kept:
        refusal = 5
    if refusal:
        return refusal, 0
    return 0, 0 if i == 0 else figure(r, fields_of(r, ring), i)


def totals(r, ring, i, k):
    """8, 4, then 5 where i + k is above kept; the figure for i, and that for k items more."""
    refusal, longer = total(r, ring, i + k)
    return (refusal, 0, 0) if refusal else (0, total(r, ring, i)[1], longer)


def trend(r, ring, i):
    """8, 4, then 5 where 2i is above kept; twice the figure for i less that for 2i, a number with a sign."""
    refusal, longer = total(r, ring, 2 * i)
    return (refusal, 0) if refusal else (0, 2 * total(r, ring, i)[1] - longer)


def far(r, ring, v):
    """8, 4, 6, 9; each window in turn from the shortest on."""
    refusal = book_refusal(r, ring)
    if not refusal and v == 0:
        refusal = 6
    if refusal:
        return refusal, 0
    fields = fields_of(r, ring)
    for i in range(1, r.kept + 1):
        if figure(r, fields, i) >= v:
            return 0, i
    return 9, 0


def verdict(r, ring, w, v):
    """8, 4, 6, 5; then the word and the figure. While the book rests no amount decides the word."""
    refusal = book_refusal(r, ring)
    if not refusal and (v == 0 or w == 0):
        refusal = 6
    if not refusal and w > r.kept:
        refusal = 5
    if refusal:
        return refusal, "none", 0
    f = figure(r, fields_of(r, ring), w)
    if rests(r):
        return 0, "resting", f
    if f >= v:
        return 0, "live", f
    return 0, "frozen" if f + r.D - 1 < v else "undecided", f


# --- images -----------------------------------------------------------------------------------------------------------

WHITE = b" \t\r\n"
DIGITS = b"0123456789"
COMMENT = b"#"
LINE_END = b"\r\n"
NO_IMAGE = (0, 0, 0, 0, 0, 0)


class Refused(Exception):
    """The first fault of an image, a mask or a score, with its number."""


class Header:
    """A header under way: where its next byte stands."""

    def __init__(self, data):
        self.data = data
        self.at = 0

    def here(self):
        """The byte that stands here, or why there is none: past the limit, or past the slice."""
        if self.at >= IMAGE_LIMIT:
            raise Refused(13)
        if self.at >= len(self.data):
            raise Refused(14)
        return self.data[self.at]

    def pass_comments(self):
        """Goes on behind the comments that stand here: each is a `#` and what follows it through the next CR or LF."""
        while self.here() in COMMENT:
            while self.here() not in LINE_END:
                self.at += 1
            self.at += 1

    def need(self, allowed):
        """The next byte that is in no comment, if it is allowed here; before the two bytes of the sign are taken there are no comments."""
        if self.at >= 2:
            self.pass_comments()
        byte = self.here()
        if byte not in allowed:
            raise Refused(11)
        self.at += 1
        return byte

    def white_then_digit(self):
        """White bytes, one at least, and the first digit of the number that has to follow."""
        byte = self.need(WHITE)
        while byte in WHITE:
            byte = self.need(WHITE + DIGITS)
        return byte

    def number(self, first, top):
        """The number and ONE white byte, at which it is judged."""
        value, byte = 0, first
        while byte in DIGITS:
            value = value * 10 + byte - DIGITS[0]
            byte = self.need(WHITE + DIGITS)
        if not 1 <= value <= top:
            raise Refused(12)
        return value

    def next_number(self, top):
        """The further white bytes, whose first the number before took, and the number."""
        byte = self.need(WHITE + DIGITS)
        while byte in WHITE:
            byte = self.need(WHITE + DIGITS)
        return self.number(byte, top)


def bytes_per_pixel(maxval):
    """One as long as a byte can hold maxval, and two above that."""
    return 1 if maxval <= 255 else 2


def pixels(raster, maxval):
    """The pixels of a raster as numbers, in their order: its bytes, or its bytes two by two, the first of the two being the higher."""
    if bytes_per_pixel(maxval) == 1:
        return list(raster)
    return [256 * high + low for high, low in zip(raster[0::2], raster[1::2])]


def read_header(data, sign, tops):
    """The numbers behind the sign, each from 1 up to its top, and where the raster starts; Refused if it is no header."""
    header = Header(data)
    for byte in sign:
        header.need(bytes([byte]))
    numbers = [header.number(header.white_then_digit(), tops[0])]
    numbers += [header.next_number(top) for top in tops[1:]]
    return numbers, header.at


def bytes_used(data, start, size):
    """Header and raster together; Refused if they are above the limit, or not all there."""
    used = start + size
    if used > IMAGE_LIMIT:
        raise Refused(13)
    if used > len(data):
        raise Refused(14)
    return used


def read_image(data):
    """width, height, maxval, bytes used, where the raster starts, how many bytes it has; Refused if it is none."""
    (width, height, maxval), start = read_header(data, b"P5", (LARGEST_SIDE, LARGEST_SIDE, LARGEST_MAXVAL))
    size = width * height * bytes_per_pixel(maxval)
    used = bytes_used(data, start, size)
    if max(pixels(data[start:used], maxval)) > maxval:
        raise Refused(15)
    return width, height, maxval, used, start, size


def pgm(data):
    """The refusal and what was read, all zeros where it is refused."""
    try:
        return (0,) + read_image(data)
    except Refused as fault:
        return (fault.args[0],) + NO_IMAGE


def read_mask(data):
    """width, height, and of every position in its order whether it is black; Refused if it is none. What pads a row is left out."""
    (width, height), start = read_header(data, b"P4", (LARGEST_SIDE, LARGEST_SIDE))
    row = ceil_div(width, 8)
    used = bytes_used(data, start, row * height)
    rows = [bits_of(data[at : at + row])[:width] for at in range(start, used, row)]
    return width, height, [bit == "1" for bit in "".join(rows)]


def read_pair(L, first, second):
    """Both images, Refused by 1, the first one's faults and the second one's, in this order."""
    if not 1 <= L <= LARGEST_BOUND:
        raise Refused(1)
    return read_image(first), read_image(second)


def pixels_of(data):
    _, _, maxval, used, start, _ = read_image(data)
    return pixels(data[start:used], maxval)


def moved(a, maxval, first, second):
    """Of each position whether its pixels differ by more than the allowance, which is told in parts of 255: by more than a/255 of maxval."""
    return [abs(x - y) * 255 > a * maxval for x, y in zip(pixels_of(first), pixels_of(second))]


def score(L, a, first, second):
    """1, then the refusals of each image, then 16; at most L."""
    try:
        one, two = read_pair(L, first, second)
        if one[:3] != two[:3]:
            raise Refused(16)
    except Refused as fault:
        return fault.args[0], 0
    return 0, min(L, sum(moved(a, one[2], first, second)))


def score_mask(L, a, first, second, mask):
    """1, then the refusals of each image, then the mask's, then 16 for images or a mask that differ; at most L. Black positions do not count."""
    try:
        one, two = read_pair(L, first, second)
        width, height, black = read_mask(mask)
        if one[:3] != two[:3] or one[:2] != (width, height):
            raise Refused(16)
    except Refused as fault:
        return fault.args[0], 0
    return 0, min(L, sum(counts and not hidden for counts, hidden in zip(moved(a, one[2], first, second), black)))
