"""Scores, by sections."""

import random

from calls import TOP, around, call
from image_calls import damaged, image, raster, row
from two_byte_calls import LARGEST, LARGEST_PIXELS

# The program's worked pair and a white image, 2 x 2, on one line and with line feeds; and an image of that size with yet another header.
PIXELS = (bytes(4), bytes([20, 12, 13, 0]), b"\xff" * 4)
DARK, LIT, FULL = (b"P5 2 2 255\n" + pixels for pixels in PIXELS)
DARK_LF, LIT_LF, FULL_LF = (image(2, 2, 255, pixels) for pixels in PIXELS)
OTHERWISE = b"P5\n02\t2\r255\n" + bytes([13, 12, 13, 0])

# Pixels of two bytes, at maxval 65,535, where one part of 255 is 257 and 254 parts are 65,278.
TWO_BYTES = [
    *((0x1200, 0x1201), (0x1200, 0x12FF)),  # they differ in the lower byte alone
    *((0x0034, 0x0134), (0x0034, 0x0234), (0x0034, 0xFF34)),  # in the higher byte alone
    *((0x00FF, 0x0100), (0x7FFF, 0x8000), (0x00FF, 0x0200), (0x00FF, 0x0201)),  # the higher byte grows and the lower one falls
    *((0x1234, 0x3412), (0x00FF, 0xFF00), (0x0001, 0xFEFF), (0x0001, 0xFF00), (0x0000, 0xFFFE), (0x0000, 0xFFFF)),
]

# So many pixels that something is left, or nothing, when many are counted at once.
COUNTS = (1, 7, 8, 9, 15, 16, 17, 31, 33, 191, 192, 193, 385)


def scores():
    """The program's worked pair; allowances around each difference; bounds around the count."""
    for L, a, first, second in (
        (600, 12, DARK, LIT),
        (600, 12, LIT, DARK),
        (600, 12, LIT, LIT),
        (600, 0, DARK, LIT),
        (600, 255, DARK, FULL),
        (600, 254, DARK, FULL),
        (2, 0, DARK, LIT),
        (3, 0, DARK, LIT),
        (65535, 12, DARK, LIT),
        (600, 12, DARK, OTHERWISE),
    ):
        yield call("score", L, a, first, second)
    for a in (0, 11, 12, 13, 19, 20, 253, 254, 255):
        yield call("score", 600, a, DARK_LF, LIT_LF)
        yield call("score", 600, a, LIT_LF, DARK_LF)
        yield call("score", 600, a, FULL_LF, DARK_LF)


def refused_scores():
    """1, then the first image's refusal, then the second's."""
    for L in (0, 65536, TOP):
        yield call("score", L, 12, DARK, LIT)
    yield call("score", 0, 12, b"", b"x")
    for first, second in (
        (b"P5", b"x"),
        (b"x", b"P5"),
        (DARK, b"P5 2 2 255"),
        (b"x", b"P5 0 "),
        (DARK, b"P5 1 1 1\n\x02"),  # 15 before 16
    ):
        yield call("score", 600, 12, first, second)
    for L in around(1, 2, 3, 65535):
        yield call("score", L, 12, DARK_LF, LIT_LF)
        yield call("score", L, 0, DARK_LF, LIT_LF)
        yield call("score", L, 0, b"", b"x")


def unlike_images(rng):
    """Refusal 16, and what comes before it."""
    for other in (b"P5 1 2 255\n" + bytes(2), b"P5 2 1 255\n" + bytes(2), b"P5 2 2 9\n" + bytes(4)):
        yield call("score", 600, 12, DARK, other)
    others = [image(1, 2, 255, bytes(2)), image(2, 1, 255, bytes(2)), image(2, 2, 254, bytes(4))]
    others += [image(1, 1, 1, b"\x02"), image(2, 2, 255, bytes([20, 12, 13, 0]), (b" ", b"\r\n", b"\t", b" "))]
    others += [b"", b"P5", b"x", b"P5 0 ", b"P5 1024 1024 255 ", DARK_LF + b"\x00", LIT_LF[:-1]]
    for other in others:
        yield call("score", 600, 12, DARK_LF, other)
        yield call("score", 600, 12, other, DARK_LF)
        yield call("score", 600, 12, other, rng.choice(others))


def commented_scores():
    """The worked pair with comments in one header, in the other and in both, of different lengths; then comments for which one is refused."""
    dark = b"P5 #c\n2 2 255\n" + PIXELS[0]
    lit = b"P5\r# a longer one\r2#\n 2\n255#d\r\n" + PIXELS[1]
    for first, second in ((dark, LIT), (DARK, lit), (dark, lit), (lit, dark)):
        yield call("score", 600, 12, first, second)
    split = b"P5 2#c\n2 1 255\n"  # 22 x 1
    yield call("score", 600, 12, split + bytes(22), b"P5 22 1 255\n" + b"\x0d" * 22)
    yield call("score", 600, 12, DARK, split + bytes(22))
    no_white_byte = b"P5#c\n2 2 255\n" + PIXELS[1]
    yield call("score", 600, 12, DARK, no_white_byte)
    yield call("score", 600, 12, no_white_byte, b"P5 #")
    yield call("score", 600, 12, dark, b"P5 2 2 255#c" + PIXELS[1])


def parts_of_maxval():
    """Differences just at the allowance and 1 to both sides; each stands twice, at 0 and at maxval, with either image the brighter one."""
    for maxval in (1, 2, 100, 200, 254, 255, 256, 4095, 65535):
        allowances = [0, 1, 12, 254, 255] + [a for a in (17, 51) if a * maxval % 255 == 0]
        for a in allowances:
            at = a * maxval // 255
            for apart in range(max(0, at - 1), min(at + 1, maxval) + 1):
                yield call("score", 600, a, row(maxval, [0, maxval]), row(maxval, [apart, maxval - apart]))


def two_byte_pixels():
    """Each pair both ways; then bounds around the count of three changed pixels among four."""
    for x, y in TWO_BYTES:
        for a in (0, 1, 254):
            yield call("score", 600, a, row(65535, [x, y]), row(65535, [y, x]))
    for L in (0, 1, 2, 3, 4, 65535, 65536):
        yield call("score", L, 12, row(4095, [0, 192, 193, 4095]), row(4095, [193, 0, 0, 0]))


def unlike_maxvals():
    """Refusal 16 for another maxval, or another shape of as many bytes; what comes before it; and another header of the same numbers."""
    for one, two in ((1, 2), (254, 255), (255, 256), (256, 257), (255, 65535), (65534, 65535)):
        yield call("score", 600, 12, row(one, [0, 1]), row(two, [0, 1]))
        yield call("score", 600, 12, row(two, [0, 1]), row(one, [0, 1]))
    wide = image(2, 1, 256, bytes(4))
    for other in (image(4, 1, 255, bytes(4)), image(2, 2, 255, bytes(4)), image(1, 2, 256, bytes(4))):
        yield call("score", 600, 12, wide, other)
        yield call("score", 600, 12, other, wide)
    otherwise = image(2, 1, 256, bytes(4), (b" ", b"\t", b"#\n ", b"\r"))
    for other in (wide[:-1], image(2, 1, 257, b"\1\2\0\0"), image(2, 1, 65536, bytes(4)), otherwise):
        yield call("score", 600, 12, wide, other)
        yield call("score", 600, 12, other, wide)


def moved(rng, a, maxval, pixel):
    """Any pixel, the same, or one that is just as far off as the allowance lets it be, or 1 farther."""
    far = a * maxval // 255 + rng.randint(0, 1)
    other = rng.choice([rng.randint(0, maxval), pixel, pixel - far, pixel + far])
    return other if 0 <= other <= maxval else pixel


def random_rasters(rng, a, maxval, count):
    """The rasters of two images with so many pixels."""
    first = [rng.randint(0, maxval) for _ in range(count)]
    return raster(maxval, first), raster(maxval, [moved(rng, a, maxval, pixel) for pixel in first])


def rows_of_pixels(rng):
    """Rows of one byte and of two bytes a pixel: any pixels, and all of them changed."""
    for count in COUNTS:
        for maxval in (255, rng.randint(1, 254), 65535, rng.randint(256, 65534)):
            a = rng.choice([0, 1, 12, rng.randint(0, 255)])
            yield call("score", 600, a, *(image(count, 1, maxval, pixels) for pixels in random_rasters(rng, a, maxval, count)))
        for maxval in (200, 40000):
            yield call("score", 600, 254, row(maxval, [0] * count), row(maxval, [maxval] * count))


def random_maxvals(rng, count):
    for _ in range(count):
        width, height, a = rng.randint(1, 9), rng.randint(1, 9), rng.choice([0, 1, 12, rng.randint(0, 255)])
        maxval = rng.choice([rng.randint(1, 255), rng.randint(256, 999), rng.randint(256, 65535)])
        delimiters = (rng.choice([b"\n", b" #c\r"]), b" ", rng.choice([b"\n", b" \t"]), b"\n")
        pair = [image(width, height, maxval, pixels, delimiters) for pixels in random_rasters(rng, a, maxval, width * height)]
        if rng.random() < 0.2:
            pair[rng.randrange(2)] = damaged(rng, pair[0])
        yield call("score", rng.choice([rng.randint(1, 40), 600, 65535]), a, *pair)


def random_scores(rng, count):
    for _ in range(count):
        width, height = rng.randint(1, 8), rng.randint(1, 8)
        maxval = rng.choice([255, rng.randint(1, 255)])
        pair = []
        for _ in range(2):
            pixels = bytes(rng.randint(0, maxval) for _ in range(width * height))
            pair.append(image(width, height, maxval, pixels, (b"\n", b" ", rng.choice([b"\n", b" \t"]), b"\n")))
        if rng.random() < 0.2:
            pair[rng.randrange(2)] = damaged(rng, pair[0])
        L = rng.choice([1, rng.randint(1, 40), 600, 65535])
        yield call("score", L, rng.choice([0, 12, rng.randint(0, 255)]), *pair)


def large_scores():
    """The camera's size and the largest raster, black against white; the slices may be longer than the images."""
    header = b"P5\n160 120\n255\n"
    dark, lit = (header + pixel * 19200 for pixel in (b"\x80", b"\x8d"))
    yield call("score", 600, 12, dark, lit)
    for L, a in ((600, 12), (65535, 12), (65535, 13)):
        yield call("score", L, a, dark.ljust(24578, b"\0"), lit.ljust(24578, b"\0"))
    header = b"P5" + b"\n" * 10 + b"24 1023 255\n"
    black, white = (header + pixel * 24552 for pixel in (b"\0", b"\xff"))
    for size in (24578, 32768):
        yield call("score", 65535, 254, black.ljust(size, b"\0"), white.ljust(size, b"\0"))


def large_scores_of_maxvals():
    """Half of the pixels changed, at 160 x 120 of maxval 100 and at 120 x 90 of maxval 4,095; the largest image, black against white."""
    yield call("score", 65535, 12, image(160, 120, 100, b"22" * 9600), image(160, 120, 100, b"67" * 9600))
    dark, lit = b"\x03\xe8\x03\xe8", b"\x04\xa8\x04\xa9"  # 1,000 twice; 192 and 193 more
    yield call("score", 65535, 12, image(120, 90, 4095, dark * 5400), image(120, 90, 4095, lit * 5400))
    black, white = (LARGEST + pixel * LARGEST_PIXELS for pixel in (b"\0\0", b"\xff\xff"))
    yield call("score", 65535, 254, black, white)


def sections():
    yield "scores", scores()
    yield "refused scores", refused_scores()
    yield "scores of unlike images", unlike_images(random.Random(15))
    yield "scores of images with comments", commented_scores()
    yield "scores: any images, whole and damaged", random_scores(random.Random(16), 150)
    yield "scores: large images", large_scores()
    yield "scores: allowances in parts of maxval", parts_of_maxval()
    yield "scores: two bytes a pixel", two_byte_pixels()
    yield "scores: unlike maxvals", unlike_maxvals()
    yield "scores: numbers of pixels", rows_of_pixels(random.Random(30))
    yield "scores: any maxval", random_maxvals(random.Random(31), 70)
    yield "scores: large images of other maxvals", large_scores_of_maxvals()
