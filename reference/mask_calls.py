"""Scores under a mask, by sections. What can be wrong with the mask itself is in mask_header_calls.py."""

import itertools
import random

import model
from calls import around, call
from image_calls import damaged, image, row
from score_calls import DARK, LIT, random_rasters

# So many columns that a row's last byte is whole, has one bit to be looked at, or has one of padding.
WIDTHS = (1, 7, 8, 9, 15, 16, 17, 1024)
# So many that a run of white positions is counted at once, in one go or in several, or with positions left over.
LONG = (96, 191, 192, 193, 257, 300, 392, 520)
MIXED = ("00000001", "10000000", "01111110", "10100101", "11110000", "11111110", "01111111")


def mask(width, height, raster, gaps=(b"\n", b" ", b"\n")):
    """A binary PBM with the white bytes given, one gap after each word of its header."""
    words = [b"P4", str(width).encode(), str(height).encode()]
    return b"".join(word + gap for word, gap in zip(words, gaps)) + raster


def zeros(count):
    return "0" * count


def ones(count):
    return "1" * count


def any_digits(rng):
    """So many digits, of any kind."""
    return lambda count: "".join(rng.choice("01") for _ in range(count))


def painted(width, digits, pad=zeros, gaps=(b"\n", b" ", b"\n")):
    """The mask whose positions have these digits, 1 for black, each row padded to whole bytes."""
    rows = [digits[at : at + width] + pad(-width % 8) for at in range(0, len(digits), width)]
    return mask(width, len(rows), model.bytes_of("".join(rows)), gaps)


def but_one(digit, count, place):
    """So many of a digit, and the other one in this place."""
    other = "1" if digit == "0" else "0"
    return digit * place + other + digit * (count - place - 1)


def all_moved(width, height):
    """Black against white."""
    return [image(width, height, 255, pixel * (width * height)) for pixel in (b"\0", b"\xff")]


def one_moved(width, height, place):
    return [image(width, height, 255, bytes(pixel if at == place else 7 for at in range(width * height))) for pixel in (7, 77)]


def any_pair(rng, a, maxval, width, height):
    return [image(width, height, maxval, pixels) for pixels in random_rasters(rng, a, maxval, width * height)]


def worked_pair():
    """The program's worked pair under each mask that there is for it, padded with 0 and with 1."""
    for number in range(16):
        for pad in (zeros, ones):
            yield call("score_mask", 600, 12, DARK, LIT, painted(2, format(number, "04b"), pad))
    for a in (0, 255):
        yield call("score_mask", 600, a, LIT, DARK, painted(2, "0001"))


def single_positions():
    """Each position in turn: it alone moved, and it alone is black, or white; all moved, and it alone is black."""
    for place in range(18):
        for digit in "01":
            yield call("score_mask", 600, 12, *one_moved(9, 2, place), painted(9, but_one(digit, 18, place)))
        yield call("score_mask", 600, 12, *all_moved(9, 2), painted(9, but_one("0", 18, place), ones))


def single_bits():
    """Each bit of a byte alone, black or white, over a row that moved; behind the row's end it is padding. Then checkerboards."""
    for width in (1, 7, 8):
        for bit in range(8):
            for byte in (1 << bit, 255 - (1 << bit)):
                yield call("score_mask", 600, 12, *all_moved(width, 1), mask(width, 1, bytes([byte])))
    for width, height in ((8, 3), (9, 2)):
        for board in (b"\x55\xaa", b"\xaa\x55"):
            yield call("score_mask", 600, 12, *all_moved(width, height), mask(width, height, (board * 3)[: model.ceil_div(width, 8) * height]))


def paddings(rng):
    """Any images under any mask, the same one with each padding: 0, 1 and any."""
    for width in WIDTHS:
        for height in (1, 2, 3):
            a, maxval = rng.choice([0, 12, 60]), 255 if width == 1024 else rng.choice([255, 200, 4095])
            pair, digits = any_pair(rng, a, maxval, width, height), any_digits(rng)(width * height)
            for pad in (zeros, ones, any_digits(rng)):
                yield call("score_mask", 65535, a, *pair, painted(width, digits, pad))


def bounds():
    """Bounds around the count of three: five positions moved, and two of these are black."""
    first, second = row(255, [0] * 6), row(255, [99] * 5 + [0])
    for L in around(3, 5, 65535):
        yield call("score_mask", L, 12, first, second, painted(6, "010010"))
    for L in (0, 1, 65535, 65536):
        for digit in "01":
            yield call("score_mask", L, 12, first, second, painted(6, digit * 6))


def allowances(rng):
    """Differences just at the allowance and 1 to both sides, under a white mask padded with 1, and under any."""
    for maxval in (1, 255, 256, 4095, 65535):
        for a in (0, 12, 254, 255):
            at = a * maxval // 255
            apart = [far for far in (0, at - 1, at, at + 1, maxval) if 0 <= far <= maxval]
            first = row(maxval, [0 for _ in apart] + [maxval for _ in apart])
            second = row(maxval, apart + [maxval - far for far in apart])
            count = 2 * len(apart)
            for digits in (zeros(count), any_digits(rng)(count)):
                yield call("score_mask", 600, a, first, second, painted(count, digits, ones))


def eight(rng, kind):
    """The digits of a byte of this kind: white, black, or mixed."""
    return {"w": zeros(8), "b": ones(8), "m": rng.choice(MIXED)}[kind]


def kinds_of_bytes(rng):
    """Rows of three bytes, each white, black or mixed, the last one whole and not; two rows, the second one the first backwards."""
    for kinds in itertools.product("wbm", repeat=3):
        digits = "".join(eight(rng, kind) for kind in kinds)
        for width in (24, rng.choice([17, 18, 20, 23])):
            pair = any_pair(rng, 12, 255, width, 2)
            yield call("score_mask", 600, 12, *pair, painted(width, digits[:width] + digits[:width][::-1], any_digits(rng)))


def in_runs(rng, width):
    """A row of white, black and mixed bytes in runs, of which some are long."""
    digits = ""
    while len(digits) < width:
        kind = rng.choice("wbm")
        digits += "".join(eight(rng, kind) for _ in range(rng.choice([1, 2, 9, 24, 30])))
    return digits[:width]


def long_runs(rng):
    """Long runs, over images of which every pixel moved and over any; then all white but for one position."""
    for width in LONG:
        yield call("score_mask", 65535, 12, *all_moved(width, 1), painted(width, in_runs(rng, width), ones))
    for width, maxval in (*((width, 255) for width in LONG), (1023, 255), (97, 4095), (203, 4095)):
        yield call("score_mask", 65535, 12, *any_pair(rng, 12, maxval, width, 1), painted(width, in_runs(rng, width), any_digits(rng)))
    for width, place in itertools.product((200, 403), (0, 99, 199)):
        yield call("score_mask", 65535, 12, *all_moved(width, 1), painted(width, but_one("0", width, place), ones))


def sizes_beside(width, height):
    """Sizes that are not this one: by 1 off, turned, and with all positions in one row."""
    sizes = {(width - 1, height), (width + 1, height), (width, height - 1), (width, height + 1)}
    sizes |= {(height, width), (width * height, 1), (1, width * height), (width + 1, height + 1)}
    return sorted((w, h) for w, h in sizes - {(width, height)} if w and h)


def unlike_masks():
    """Refusal 16 for a mask of another width or height, its rows of as many bytes or not."""
    for width, height in ((1, 1), (7, 2), (8, 2), (9, 1)):
        for size in sizes_beside(width, height):
            yield call("score_mask", 600, 12, *all_moved(width, height), painted(size[0], zeros(size[0] * size[1])))
        yield call("score_mask", 600, 12, *all_moved(width, height), painted(width, zeros(width * height)))


def unlike_images():
    """Refusal 16 for images that differ, under a mask that fits the one, the other, both or none."""
    one = image(8, 2, 255, bytes(16))
    for width, height, maxval in ((7, 2, 255), (8, 1, 255), (8, 2, 254), (8, 2, 256), (4, 4, 255)):
        other = image(width, height, maxval, bytes(width * height * model.bytes_per_pixel(maxval)))
        for size in ((8, 2), (width, height), (9, 9)):
            yield call("score_mask", 600, 12, one, other, painted(size[0], ones(size[0] * size[1])))
            yield call("score_mask", 600, 12, other, one, painted(size[0], ones(size[0] * size[1])))


def any_gaps(rng):
    return (rng.choice([b"\n", b" #c\r", b"#c\n\t"]), rng.choice([b" ", b"\r\n"]), rng.choice([b"\n", b"\t", b"#\n "]))


def any_call(rng):
    """A bound, an allowance, two images and a mask, of which one may be damaged, or the mask of another size."""
    width, height, a = rng.randint(1, 12), rng.randint(1, 3), rng.choice([0, 12, rng.randint(0, 255)])
    three = any_pair(rng, a, rng.choice([1, 255, 4095, rng.randint(1, 255), rng.randint(256, 65535)]), width, height)
    off = rng.choice([0] * 12 + [1, -1])
    three.append(painted(max(1, width + off), any_digits(rng)(max(1, width + off) * height), any_digits(rng), any_gaps(rng)))
    if rng.random() < 0.4:
        which = rng.choice([0, 1, 2, 2, 2, 2])
        three[which] = damaged(rng, three[which])
    return rng.choice([1, rng.randint(1, 20), 600, 65535]), a, *three


def random_masks(rng, count):
    return (call("score_mask", *any_call(rng)) for _ in range(count))


def stripes(width, height):
    """Rows in turn white, black in their middle, black at both ends, and mixed."""
    third = width // 3
    rows = [zeros(width), zeros(third) + ones(third) + zeros(width - 2 * third), ones(third) + zeros(third) + ones(width - 2 * third)]
    rows.append(("00000000" + "11111111" + "".join(MIXED)) * width)
    return "".join(rows[at % 4][:width] for at in range(height))


def large_masks(rng):
    """The sizes that the camera has, with one byte a pixel and with two."""
    for width, height, maxval in ((160, 120, 255), (120, 90, 4095)):
        yield call("score_mask", 65535, 12, *any_pair(rng, 12, maxval, width, height), painted(width, stripes(width, height)))


def faults():
    """Where masks of the model do not do what the request says of them, in words; nothing, it is hoped."""
    rng = random.Random(63)
    for _ in range(300):
        width, height, a = rng.randint(1, 20), rng.randint(1, 4), rng.choice([0, 12, 60])
        pair, digits = any_pair(rng, a, rng.choice([255, 4095]), width, height), any_digits(rng)(width * height)
        answers = [model.score_mask(600, a, *pair, painted(width, digits, pad)) for pad in (zeros, ones, any_digits(rng))]
        darker = "".join(max(two) for two in zip(digits, any_digits(rng)(len(digits))))
        if len(set(answers)) != 1:
            yield f"mask {digits}, width {width}: padding counts"
        if model.score_mask(600, a, *pair, painted(width, zeros(len(digits)), ones)) != model.score(600, a, *pair):
            yield f"width {width}, height {height}: a white mask does not give the plain score"
        if model.score_mask(600, a, *pair, painted(width, ones(len(digits)))) != (0, 0):
            yield f"width {width}, height {height}: a black mask does not give 0"
        if model.score_mask(600, a, *pair, painted(width, darker)) > answers[0]:
            yield f"mask {digits}, width {width}: blackening raises the score"


def sections():
    yield "masks", [*worked_pair(), *single_positions(), *single_bits()]
    yield "masks: widths and paddings", paddings(random.Random(64))
    yield "masks: bounds and allowances", [*bounds(), *allowances(random.Random(65))]
    yield "masks: white, black and mixed bytes", [*kinds_of_bytes(random.Random(66)), *long_runs(random.Random(67))]
    yield "masks: other sizes, and images that differ", [*unlike_masks(), *unlike_images()]
    yield "masks: any, whole and damaged", random_masks(random.Random(68), 150)
    yield "masks: large images", large_masks(random.Random(69))
