"""Masks whose header is good, or is not, and the order of refusals of a score under a mask, by sections."""

import random

from calls import call
from comment_calls import comment
from image_calls import image
from mask_calls import mask
from model import IMAGE_LIMIT
from score_calls import DARK, LIT

# Ten pixels, all of which moved; of the mask's ten positions six are black, so that the score is 4.
PAIR = (image(10, 1, 255, bytes(10)), image(10, 1, 255, b"\xff" * 10))
BITS = b"\xf1\x40"

GOOD = [
    b"P4 10 1 " + BITS,
    b"P4\n10\n1\n" + BITS,
    b"P4\r10\r1\r" + BITS,
    b"P4\t10\t1\t" + BITS,
    b"P4 \t\r\n 10\n\n\r1 " + BITS,  # runs of white space
    b"P4\n0010 000001\n" + BITS,  # zeros in front
    b"P4 " + b"0" * 300 + b"10 1\n" + BITS,
    b"P4\r\n10 1\r\n\xf1",  # CR LF after height: LF is a byte of the raster
    b"P4 10 1  \xf1",  # so is a space
    b"P4 10 1 255\n" + BITS,  # there is no maxval: its digits are the raster
    b"P4 10 1\n" + BITS + b"\xff",  # bytes behind the mask
    b"P4 10 1\n" + BITS + b"P4 10 1\n" + BITS,
    b"P4 10 1\n" + BITS + b"#",
]

WRONG = [
    *(sign + b" 10 1\n" + BITS for sign in (b"Q4", b"p4", b"4P", b"P1", b"P2", b"P3", b"P5", b"P6", b"P7", b"P", b"4", b" P4")),
    *PAIR,  # a PGM
    b"P410 1\n" + BITS,  # no white byte after P4
    b"P4 -10 1\n" + BITS,  # a sign before a number
    b"P4 10x1\n" + BITS,  # a letter after digits
    b"P4 10 a\n" + BITS,  # and in the place of digits
    b"P4\x0c10 1\n" + BITS,  # a form feed
    b"P4 10 1\x0b" + BITS,
    b"P4 10 1" + BITS,  # no white byte after height
    b"P4 1025x",  # 11 before 12
    b"P4 10 1025x",
]

ENDS = [
    b"P4 1025",  # not yet judged
    b"P4 1025 ",  # judged
    b"P4 1025 x",  # 12 before 11
    b"P4 10 1025",
    b"P4 10 1025 ",
    b"P4 10 0",
    b"P4 10 0 ",
    b"P4 0 1025 ",
    b"P4 1024 1024 ",  # 13 before 14
]

COMMENTED = [
    b"P4#c\n 10 1 " + BITS,  # right behind P4, the white byte after it
    b"P4#c\r\n10 1 " + BITS,  # CR LF: the LF is that white byte
    b"P4 #a\n#b\r#c\n10 1 " + BITS,  # three in a row
    b"P4#a\n 10#b\n 1#c\n " + BITS,  # one behind each word
    b"P4 #P4 7 7 \n10 1 " + BITS,  # a header in a comment
    b"P4 ##\n10 1 " + BITS,  # a # in a comment
    b"P4 1#c\n0 1 " + BITS,  # inside a number
    b"P4 1#\n#\r#\n0 0#c\n1 " + BITS,
    b"P4 10 1#c\r\n" + BITS,  # CR ends the comment, LF delimits
    b"P4 10 1#c\n\r" + BITS,
    b"P4 10 1#a\n#b\r\n" + BITS,
    b"P4 10 1 ##",  # behind the white byte that delimits, a # is a byte of the raster
    b"P4 10 1\n#\n",
    b"P4 10 1#c\n #c\n" + BITS,
    b"P4\n# made by a viewer\n10 1\n" + BITS,
]

WRONGLY_COMMENTED = [
    b"#",  # before P4
    b"#c\nP4 10 1 " + BITS,
    b"P#",  # within P4
    b"P#\n4 10 1 " + BITS,
    b"P4#c\n10 1 " + BITS,  # its line end is no white byte
    b"P4 10#c\n1 " + BITS,  # nor between numbers: the width is 101
    b"P4 10 1#c\n" + BITS,  # nor does it delimit
    b"P4 10 1#c\n0 " + BITS,  # the height goes on, and is 10
    b"P4 10 1 #",  # one byte of the raster, and not the other
    b"P4 #c\nx",  # a wrong byte behind it
    b"P4#c 10 1 " + BITS,  # it has no end
    b"P4 10 1#c " + BITS,
    b"P4 10 1#c",
    b"P4 #a\n#b",
    b"P4 10#c\n25 1 ",  # 1025
    b"P4 0#c\n0 1 ",
    b"P4 10 102#c\n5 ",
    b"P4 1025#c\nx",  # 11 before 12
    b"P4 1025#c\n x",  # 12 before 11
    b"P4 1025 #c",  # 12 before 14
    b"P4 1025#c\n",  # not yet judged
]

# An image for each refusal that it can have, 2 x 2 as far as it goes, and a mask for each.
BAD_IMAGES = [b"P4 2 2\n\0\0", b"P5 2 0 ", b"P5 1024 1024 255 ", b"P5 2 2 255\n", b"P5 2 2 1\n\2\2\2\2"]
BAD_MASKS = [b"P5 2 2\n\0\0", b"P4 2 0 ", b"P4 1024 192 ", b"P4 2 2\n\0"]
# Good ones that do not fit; a mask that does.
OTHER_IMAGE, OTHER_MASK, FITTING = image(2, 1, 255, bytes(2)), mask(2, 1, b"\0"), mask(2, 2, b"\0\0")


def these(masks):
    return (call("score_mask", 600, 12, *PAIR, data) for data in masks)


def wrong_bytes():
    """Each byte of a header by each of a few others; a mask as an image, and an image as a mask."""
    yield from these(WRONG)
    header = b"P4 10\n1\n"
    for place in range(len(header)):
        yield from these(header[:place] + bytes([byte]) + header[place + 1 :] + BITS * 3 for byte in b"#x\x00\xff 50")
    good = GOOD[0]
    for first, second in ((good, PAIR[1]), (PAIR[0], good), (good, good)):
        for data in (good, PAIR[0]):
            yield call("score_mask", 600, 12, first, second, data)


def ranges():
    """The ends of each range, alone and with bytes of a raster; numbers that would be in range if they wrapped."""
    for number in (0, 1, 1023, 1024, 1025, 65536, 65537, 2**32 + 1, 2**64 + 1):
        yield from these(mask(number, 1, bytes(size)) for size in (0, 128))
        yield from these(mask(1, number, bytes(size)) for size in (0, 1))
    tall = [image(1, 1024, 255, pixel * 1024) for pixel in (b"\0", b"\xff")]
    yield call("score_mask", 65535, 12, *tall, mask(1, 1024, b"\x80\x7f\xff\x00" * 256))


def ends():
    """Every beginning of a mask, alone and with a byte more."""
    yield from these(ENDS)
    data = b"P4\r\n10\t 1\r" + BITS
    for end in range(len(data) + 1):
        yield from these([data[:end], data[:end] + b"#", data[:end] + b"x"])


def limits():
    """The limit of 24,576 bytes: headers of masks that fit and that do not; the longest header, and a byte behind its mask; a header without end."""
    yield from these([b"P4 1024 192\n", b"P4 1024 191\n", b"P4 1023 192\n", b"P4 1016 192\n", b"P4 192 1024\n"])
    yield from these([b"P4 680 289\n", b"P4  680 289\n", b"P4 673 289\n", b"P4 673  289\n", b"P4 681 289\n"])
    yield from these(b"P4 1024 191" + comment(size) + b"\n" for size in (116, 117))
    yield from these([b"P4" + comment(IMAGE_LIMIT - 10) + b" 10 1\n" + BITS + b"\xff", b"P4#".ljust(IMAGE_LIMIT, b"c")])


def commented():
    """Comments as they may stand and as they may not; one put into a mask at each place, with each way to end a line."""
    yield from these(COMMENTED + WRONGLY_COMMENTED)
    data = b"P4 10 1 " + BITS
    for line_end in (b"\n", b"\r", b"\r\n"):
        yield from these(data[:place] + b"#7 " + line_end + data[place:] for place in range(len(data) + 1))


def order():
    """Two faults at a time, of which the earlier decides: L, the first image, the second, the mask, 16."""
    for bad in BAD_IMAGES:
        yield call("score_mask", 0, 12, bad, LIT, FITTING)
        yield call("score_mask", 65536, 12, DARK, bad, FITTING)
        yield call("score_mask", 600, 12, bad, LIT, OTHER_MASK)
        yield call("score_mask", 600, 12, DARK, bad, OTHER_MASK)
        for second in BAD_IMAGES:
            yield call("score_mask", 600, 12, bad, second, FITTING)
        yield call("score_mask", 600, 12, bad, LIT, b"x")
        for data in BAD_MASKS:
            yield call("score_mask", 600, 12, DARK, bad, data)
    for data in BAD_MASKS:
        yield call("score_mask", 0, 12, DARK, LIT, data)
        yield call("score_mask", 600, 12, DARK, LIT, data)
        yield call("score_mask", 600, 12, DARK, OTHER_IMAGE, data)
        yield call("score_mask", 600, 12, OTHER_IMAGE, OTHER_IMAGE, data)
    for data in (FITTING, OTHER_MASK):
        yield call("score_mask", 0, 12, DARK, OTHER_IMAGE, data)
        yield call("score_mask", 600, 12, DARK, OTHER_IMAGE, data)
    yield call("score_mask", 600, 12, DARK, LIT, OTHER_MASK)
    for three in ((b"", b"", b""), (DARK, b"", b"x"), (DARK, LIT, b"")):
        yield call("score_mask", 600, 12, *three)


def random_headers(rng, count):
    """Strings of the bytes that matter, behind beginnings of a header."""
    for _ in range(count):
        start = rng.choice([b"", b"P4#", b"P4 1", b"P4 10 1", b"P4 10 1#"])
        yield from these([start + bytes(rng.choice(b"P4 01\n\r#") for _ in range(rng.randint(0, 12)))])


def sections():
    yield "masks: good headers, and ranges", [*these(GOOD), *ranges()]
    yield "masks: wrong bytes", wrong_bytes()
    yield "masks: ends", ends()
    yield "masks: limits", limits()
    yield "masks: comments", [*commented(), *random_headers(random.Random(70), 30)]
    yield "masks: the order of refusals", order()
