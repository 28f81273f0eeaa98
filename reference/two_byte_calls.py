"""Images with pixels of two bytes, and maxval from one end of its range to the other, by sections."""

import random

from calls import call
from comment_calls import comment
from image_calls import image, random_image, raster, row, these, whole_and_damaged

# The ends of the range, and where the second byte comes.
MAXVALS = (0, 1, 254, 255, 256, 257, 4095, 65534, 65535, 65536, 65537, 99999999999)

# White bytes, zeros in front and comments around maxval and before its pixels.
HEADERS = [
    b"P5\n2 1\n65535\n\x01\x02\x03\x04",  # one byte between two words
    b"P5 \t\r\n 2\n\n\r1\t\t513 \x02\x01\x02\x00",  # runs of white space
    b"P5 2 1 00300 \x01\x2c\x00\xff",  # zeros in front: 300
    b"P5 2 1 00255 \x01\x2c\x00\xff",  # 255, and bytes behind the raster
    b"P5\r\n1 1\r\n65535\r\nA",  # CR delimits, LF is the higher byte of the pixel
    b"P5 1 1 2625\r\nA",  # that pixel as bright as maxval
    b"P5 1 1 2624\r\nA",  # and brighter
    b"P5 1 1 65535   ",  # white bytes as a pixel
    b"P5 1 1 65535  ",  # one of them missing
    b"P5 #65535\n1 1 255 \x07",  # a larger number in a comment
    b"P5 #255\n1 1 65535 \x07\x08",
    b"P5 1 1 #c\n65535 \x07\x08",  # comments before, behind and in maxval
    b"P5 1 1#c\n 65535 \x07\x08",
    b"P5 1 1 65535#c\n \x07\x08",
    b"P5 1 1 65535#c\r\n\x07\x08",
    b"P5 1 1 65535#c\n\x07\x08",  # nothing delimits
    b"P5 1 1 6#c\n5#c\r5#c\n3#c\r5 \x07\x08",
    b"P5 1 1 65#c\n536 \x07\x08",
    b"P5 1 1 25#c\n5 \x07\x08",  # 255
    b"P5 1 1 25#c\n6 \x01\x00",  # 256
    b"P5 1 1 25#c\n6 \x01\x01",  # a pixel above it
    b"P5 1 1 65536#c\n",  # not yet judged
    b"P5 1 1 65536#c\n ",  # judged
    b"P5 1 1 65536#c\nx",  # 11 before 12
    b"P5 1 1 65536 #",  # 12 before 14
    b"P5 1 1 65535 #\n",  # behind the delimiter a # is a pixel's higher byte
    b"P5 1 1 65535 \n#",  # or its lower one
    b"P5 2 1 65535 #c\n#",
    b"P5 2 1 65535 #c\n",  # a byte short
    b"P5 1 1 8995 ##",  # as bright as maxval
    b"P5 1 1 8994 ##",  # brighter
]

# The largest image of two bytes a pixel, 24,576 bytes with this header, without its pixels.
LARGEST = b"P5 40 307 65535\n"
LARGEST_PIXELS = 40 * 307


def maxvals():
    """Two pixels of 0, in no byte up to five; then zeros in front, and numbers that would be in range if they wrapped."""
    for maxval in MAXVALS:
        for size in range(6):
            yield call("pgm", image(2, 1, maxval, bytes(size)))
    for digits in (b"000255", b"000256", b"0" * 300 + b"65535", b"0" * 300 + b"65536", b"65535x", b"65536x"):
        yield call("pgm", b"P5 1 1 " + digits + b" \x00\x02")
    for power in (16, 32, 64):
        for maxval in (1, 255, 256, 65535):
            yield call("pgm", image(1, 1, 2**power + maxval, bytes(2)))


def pixels_beside(maxval):
    """Maxval, the number above it, and pixels of which one byte alone would mislead: higher or lower than maxval's, 0 or 255, exchanged."""
    high, low = divmod(maxval, 256)
    by_high_byte = {high * 256 - 1, (high + 1) * 256, (high + 1) * 256 + low, 255 * 256}
    by_low_byte = {high * 256 + 255, low * 256 + high, 255, 65535}
    return sorted(pixel for pixel in {maxval, maxval + 1} | by_high_byte | by_low_byte if pixel <= 65535)


def bright_pixels():
    """Each such pixel alone, and first, in the middle and last of a row whose others are 0; then all bits set, at the largest maxval."""
    for maxval in (256, 257, 300, 4095, 65534):
        for pixel in pixels_beside(maxval):
            yield call("pgm", row(maxval, [pixel]))
            for place in (0, 8, 16):
                yield call("pgm", row(maxval, [pixel if at == place else 0 for at in range(17)]))
    yield call("pgm", image(3, 2, 65535, b"\xff" * 12))


def bright_places():
    """A pixel above maxval by 1 in each place of a row, and in some of longer rows, all others at maxval."""
    places = [(33, place) for place in range(33)]
    places += [(200, place) for place in (0, 63, 99, 100, 198, 199)] + [(331, place) for place in (0, 164, 165, 328, 329, 330)]
    for count, place in places:
        yield call("pgm", row(300, [301 if at == place else 300 for at in range(count)]))


def ends(rng):
    """Every beginning of an image, half pixels too, alone and with a byte more; bytes behind it; bright pixels, and 14 before 15."""
    data = image(3, 2, 4095, raster(4095, [rng.randint(0, 4095) for _ in range(6)]), (b"\r\n", b"\t ", b"\n\n", b"\r"))
    for end in range(len(data) + 1):
        yield call("pgm", data[:end])
        yield call("pgm", data[:end] + b"\x0f")
    for behind in (b"\xff", b"\xff\xff", data):
        yield call("pgm", data + behind)
    bright = row(4095, [4096, 4096])
    for end in range(len(bright) - 3, len(bright) + 1):
        yield call("pgm", bright[:end])


def comments_in_every_place():
    """A comment put into an image at each place, from before it to behind it."""
    data = b"P5 2 3 4095 " + b"\x0f\x07" * 6
    for place in range(len(data) + 1):
        yield call("pgm", data[:place] + b"#7\r\n" + data[place:])


def limits():
    """The limit of 24,576 bytes: 120 x 90, the largest image whole, cut, bright and with bytes behind it; headers of larger ones."""
    yield call("pgm", image(120, 90, 4095, b"\x0f\xff" * (120 * 90)))
    largest = LARGEST + b"\xff\xff" * LARGEST_PIXELS
    bright = LARGEST.replace(b"65535", b"65534") + b"\xff\xfe" * (LARGEST_PIXELS - 1) + b"\xff\xff"
    yield from these([largest, largest[:-1], largest + b"\xff", bright])
    yield from these([LARGEST, LARGEST.replace(b" ", b"  ", 1), b"P5 46 267 256\n", b"P5 96 127 256\n"])
    yield from these([b"P5 1024 12 255\n", b"P5 1024 12 256\n", b"P5 12 1024 65535\n", b"P5 1024 1024 65535\n"])
    for feeds in (24564, 24565):
        yield call("pgm", b"P5" + b"\n" * feeds + b"1 1 256\n\x01\x00")
    for size in (24563, 24564):
        yield call("pgm", b"P5 1 1 256" + comment(size) + b" \x01\x00")
    for size in (9, 10):  # headers alone, with which the raster would end at the limit, and one byte behind it
        yield call("pgm", b"P5 12 1023 256" + comment(size) + b"\n")


def two_byte_maxval(rng):
    return rng.choice([256, 65535, rng.randint(256, 999), rng.randint(256, 65535)])


def random_images(rng, count):
    for _ in range(count):
        yield from whole_and_damaged(rng, random_image(rng, two_byte_maxval))


def sections():
    yield "images: two bytes a pixel, ranges of maxval", maxvals()
    yield "images: two bytes a pixel, bright pixels", [*bright_pixels(), *bright_places()]
    yield "images: two bytes a pixel, ends", ends(random.Random(28))
    yield "images: two bytes a pixel, headers", [*these(HEADERS), *comments_in_every_place()]
    yield "images: two bytes a pixel, limits", limits()
    yield "images: two bytes a pixel, any", random_images(random.Random(29), 25)
