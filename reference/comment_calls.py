"""Images with comments in their headers, by sections."""

import random

from calls import call
from image_calls import random_image, these, whole_and_damaged
from model import IMAGE_LIMIT

NO_LINE_END = bytes(byte for byte in range(256) if byte not in b"\r\n")

GOOD = [
    b"P5 #c\n1 1 255 \x07",  # before the width
    b"P5#c\n 2 2 255\n\x07\x07\x07\x07",  # right behind P5, the white byte after it
    b"P5 1 1#c\n 255 \x07",  # between a number and its white byte
    b"P5 1 1 #c\n255 \x07",  # between the white byte and a number
    b"P5 1 1 255#c\n \x07",  # before the white byte that delimits
    b"P5\r#c\r1\r#c\r1\r#c\r255\r\x07",  # lines that end in CR
    b"P5\r\n#c\r\n1 1\r\n#c\r\n255\n\x07",  # CR LF: the LF is a white byte
    b"P5#c\r\n1#c\r\n1 255 \x07",  # CR LF: that LF is the white byte that has to be there
    b"P5 #\n1#\n 1 #\r255#\r \x07",  # empty ones
    b"P5 #a\n#b\n1 1 255 \x07",  # two in a row
    b"P5#a\n#b\r#c\n 1 1 255 \x07",  # three in a row
    b"P5#a\n \t#b\r\n#c\n1 1 255 \x07",  # white bytes between them
    b"P5#a\n 1#b\n 1#c\n 255#d\n \x07",  # one behind each word
    b"P5 ##\n1 1 255 \x07",  # a # in a comment
    b"P5 # a#b #\n1 1 255 \x07",  # more of them
    b"P5 #12 34\t56 \n1 1 255 \x07",  # digits and white bytes in a comment
    b"P5 #P5 2 2 255 \n1 1 255 \x07",  # a header in a comment
    b"P5 #\x00\n1 1 255 \x07",  # a NUL
    b"P5 #" + NO_LINE_END + b"\n1 1 255 \x07",  # every byte that ends no line
    b"P5 1#c\n 1 255 \x07P5 1 1",  # bytes behind the raster
    b"P5 1 1 255 #",  # behind the white byte that delimits, a # is a pixel
    b"P5 3 1 255\n#c\n",  # so are all the bytes of what looks like a comment
    b"P5 1 1 255\n#",  # the first white byte behind maxval delimits
    b"P5 1 1 255#c\n #",  # and does so behind a comment
    b"P5 1 1 35 #",  # a # as bright as maxval
]

REFUSED = [
    b"#",  # before P5
    b"#c\nP5 1 1 255 \x07",
    b"P#",  # within P5
    b"P#\n5 1 1 255 \x07",
    b"P5#c\n2 2 255\n\x07\x07\x07\x07",  # its line end is no white byte
    b"P5#a\n#b\n1 1 255 \x07",  # nor are two
    b"P5 1#c\n1 255 \x07",  # nor between numbers: the width is 11, and the height 255
    b"P5 #c\nx",  # a wrong byte behind it
    b"P5 #a\n1#b\nx",
    b"P5 #c\n\x0c1 1 255 \x07",
    b"P5#c 1 1 255 \x07",  # it has no end
    b"P5 1 1 255#c",
    b"P5 1 1 255#c \x07",
    b"P5 #a\n#b",  # the second has none
    b"P5 1 1 34 #",  # a # as a pixel, brighter than maxval
]

# Behind maxval: a comment's own line end does not delimit, the next white byte does.
DELIMITERS = [
    b"P5 1 1 255#c\r\n\x07",  # CR ends the comment, LF delimits
    b"P5 1 1 255#c\n\r\x07",
    b"P5 1 1 255#c\r\r\x07",
    b"P5 1 1 255#c\n\n\x07",
    b"P5 1 1 255#c\r \x07",
    b"P5 2 1 255#c\r\n\r\n",  # what follows is the raster
    b"P5 2 1 255#c\r\n#\n",
    b"P5 1 1 255#a\n#b\r\n\x07",  # two comments
    b"P5 1 1 255#c\n\x07",  # the pixel stands in the place of the white byte
    b"P5 1 1 255#c\r\x07",
    b"P5 1 1 255#c\n7 \x07",  # a digit goes on with the number: a byte is missing
    b"P5 1 1 255#c\n7 \x07\x07",
    b"P5 1 1 255#c\n777 \x07\x07",
    b"P5 1 1 25#c\n5 \x07",
    b"P5 1 1 255#c\n",  # no white byte
    b"P5 1 1 255#c\r",
    b"P5 1 1 255#c\r\n",  # no pixel
    b"P5 2 1 255#c\r\n\x07",  # one pixel short
]

# A number goes on behind a comment, and is judged at the white byte.
NUMBERS = [
    b"P5 1#c\n2 1 255\n" + b"\x07" * 12,  # the width is 12
    b"P5 1#c\r2 1 255\n" + b"\x07" * 12,
    b"P5 1#c\n 2 255\n" + b"\x07" * 2,  # the width is 1
    b"P5 1#c\r\n2 255\n" + b"\x07" * 2,
    b"P5 1#\n#\n#\n2 1 255\n" + b"\x07" * 12,  # three comments within
    b"P5 1 1 2#a\n5#b\n5 \x07",  # each digit by itself
    b"P5 0#c\n0#c\n2 1 255 \x07\x07",  # zeros in front
    b"P5 00#c\n1 0#c\n1 0#c\n0255 \x07",
    b"P5 10#c\n24 1 255 " + b"\x07" * 1024,  # 1024
    b"P5 10#c\n25 1 255 ",  # 1025
    b"P5 1 10#c\n25 255 ",
    b"P5 1 1 25#c\n6 \x07",  # 256, and one of the two bytes that its pixel takes
    b"P5 1 1 6553#c\n5 \x07\x07",  # 65535
    b"P5 1 1 6553#c\n6 \x07\x07",  # 65536
    b"P5 0#c\n 1 255 \x07",  # 0
    b"P5 0#c\n0 1 255 \x07",
    b"P5 1 0#c\n 255 ",
    b"P5 1 1 0#c\n ",
    b"P5 1025#c\nx",  # 11 before 12
    b"P5 1025#c\n x",  # 12 before 11
    b"P5 1025 #c",  # 12 before 14
    b"P5 1025#c",  # not yet judged
    b"P5 1025#c\n",
    b"P5 1025#c\n#",
    b"P5 1025#c\n ",  # judged
    b"P5 1025#c\r\n",
    b"P5 1#c",
    b"P5 1#c\n",
    b"P5 1#c\n ",
]

# The form in which many programs write comments.
WRITERS = [
    b"P5\n# made by a viewer\n160 120\n255\n" + b"\x80" * 19200,
    b"P5\n160 120\n# made by a viewer\n255\n" + b"\x80" * 19200,
]


def every_place():
    """A comment put into an image at each place, from before it to behind it, with each way to end a line."""
    data = b"P5 12 3 255 " + b"\x07" * 36
    for line_end in (b"\n", b"\r", b"\r\n"):
        for place in range(len(data) + 1):
            yield call("pgm", data[:place] + b"#7 " + line_end + data[place:])


def line_ends():
    """Each of a few bytes in a comment within a number: CR and LF end it, and the width is 12; behind any other it is 1."""
    for byte in b"\n\r\0\t\v\f\x0e\x1a\x1c\x1e 25P#\x7f\x80\x85\x8a\x8d\xff":
        yield call("pgm", b"P5 1#" + bytes([byte]) + b"2\n 3 255 " + b"\x07" * 36)


def beginnings():
    """Every beginning of one image, alone and with one byte more."""
    data = b"P5#a\r\n3#\n \t2 #b\r#c\n2#d\n00#e\r\n" + b"#\n#\r\xc8\0"
    for end in range(len(data) + 1):
        yield call("pgm", data[:end])
        yield call("pgm", data[:end] + b"#")
        yield call("pgm", data[:end] + b"x")


def comment(size):
    """A comment of so many bytes."""
    return b"#".ljust(size - 1, b"c") + b"\n"


def limits():
    """The limit of 24,576 bytes: comments count as any other bytes of the header."""
    yield call("pgm", b"P5" + comment(24570) + b" 1 ")  # 24,575 bytes of a header: the next may come
    yield call("pgm", b"P5" + comment(24570) + b" 1 1")  # 24,576 of them: no more may come
    yield call("pgm", b"P5" + comment(24573) + b"x")  # the line end is the last byte but one
    yield call("pgm", b"P5" + comment(24574) + b" 1 1 255 \x07")  # the line end is the last byte that may be taken
    for size in (24564, 24565):  # the white byte that delimits is the last byte but one, and the last
        yield call("pgm", b"P5 1 1 255" + comment(size) + b" \x07")
    for empty in (12282, 12283):  # very many comments, in an image of 24,576 bytes and in a larger one
        yield call("pgm", b"P5" + b"#\n" * empty + b" 1 1 255 \x07")
    for size in (IMAGE_LIMIT - 1, IMAGE_LIMIT, IMAGE_LIMIT + 1, 32768):  # without end
        yield call("pgm", b"P5#".ljust(size, b"c"))
    for size in (9, 10):  # the raster would end at the limit, and one byte behind it
        yield call("pgm", b"P5 24 1023 255" + comment(size) + b"\n")
    for size in (1009, 1010):
        yield call("pgm", b"P5 1024 23" + comment(size) + b" 255 ")


def random_comment(rng):
    """Any bytes, few, and a line end; there may be one among the bytes too."""
    return b"#" + rng.randbytes(rng.randint(0, 6)) + rng.choice([b"\n", b"\r", b"\r\n"])


def commented(rng, data):
    """The image with up to three comments, most of them in its header."""
    for _ in range(rng.randint(0, 3)):
        place = rng.randint(1, min(len(data), 14))
        data = data[:place] + random_comment(rng) + data[place:]
    return data


def random_images(rng, count):
    for _ in range(count):
        yield from whole_and_damaged(rng, commented(rng, random_image(rng)))


def random_strings(rng, count):
    """Strings of the bytes that matter, alone and behind beginnings of a header."""
    for _ in range(count):
        start = rng.choice([b"", b"P5#", b"P5 1", b"P5 1 2", b"P5 1 1 5"])
        yield call("pgm", start + bytes(rng.choice(b"P5 12\n\r#") for _ in range(rng.randint(0, 14))))


def sections():
    yield "images: comments", these(GOOD + REFUSED + WRITERS)
    yield "images: comments in every place", every_place()
    yield "images: comments and their ends", [*these(DELIMITERS), *line_ends(), *beginnings()]
    yield "images: comments and numbers", these(NUMBERS)
    yield "images: comments at the limit", limits()
    yield "images: comments, any", [*random_images(random.Random(26), 50), *random_strings(random.Random(27), 280)]
