#!/usr/bin/env python3
"""Holds the program `frozen` to the reference on streams that are too large or too many for the gate.

    python3 reference/try_frozen.py                          (runs sample/frozen)
    python3 reference/try_frozen.py crates/frozen/out/frozen        (any words may follow: the command is run as it stands)

Each line tells a kind of stream and how many there were. It ends with status 1 at the first stream whose output is another. The last
three are of output that cannot be written: nothing may follow a row that got lost.
"""
import fcntl
import itertools
import os
import random
import subprocess
import sys
import termios
import time
from pathlib import Path

import model
from image_calls import image, raster

ROOT = Path(__file__).resolve().parent.parent
COMMAND = sys.argv[1:] or [str(ROOT / "sample/frozen")]
HEAD = "frame,score,kept,total,verdict\r\n"
LONG = 10_000
UNWRITTEN = b"frozen: standard output cannot be written\n"
# Longer than any of these runs takes, an emulated one on a busy machine too.
PATIENCE = 30


def output(data):
    """The whole output for a whole input, in the setting of docs/SCOPE.md, Program."""
    ring = bytes(model.book_bytes(600, 1440, 3600))
    _, book, ring = model.open_book(600, 1440, 3600, ring)
    text, last, frame = [HEAD], None, 0
    while data:
        frame += 1
        refusal, _, _, _, used, _, _ = model.pgm(data)
        image, item = data[:used], ""
        if not refusal and last is not None:
            refusal, item = model.score(600, 12, last, image)
        if refusal:
            text.append(f"{frame},refused {refusal},,,\r\n")
            break
        if last is not None:
            _, book, ring = model.add(book, ring, item)
        refusal, word, _ = model.verdict(book, ring, 30, 3600)
        text.append(f"{frame},{item},{book.kept},{model.total(book, ring, book.kept)[1]},{'early' if refusal else word}\r\n")
        data, last = data[used:], image
    return "".join(text).encode()


def frames(rng, count, width, height, maxval=255):
    """So many images, each with some pixels of the one before changed."""
    pixels = [rng.randint(0, maxval) for _ in range(width * height)]
    for _ in range(count):
        for _ in range(rng.choice((0, 1, len(pixels) // 4))):
            pixels[rng.randrange(len(pixels))] = rng.randint(0, maxval)
        yield image(width, height, maxval, raster(maxval, pixels))


def nudged_frames(rng, count, width, height, maxval):
    """So many images; from each to the next some pixels go just as far as the allowance of 12 lets them, and some 1 farther."""
    most = 12 * maxval // 255
    pixels = [rng.randint(0, maxval) for _ in range(width * height)]
    for _ in range(count):
        yield image(width, height, maxval, raster(maxval, pixels))
        for at in rng.sample(range(len(pixels)), len(pixels) // 10):
            far = rng.choice((most, most + 1))
            pixels[at] += far if pixels[at] + far <= maxval else -far


def hold(kind, streams):
    for data in streams:
        run = subprocess.run(COMMAND, input=data, capture_output=True)
        told, wanted = run.stdout, output(data)
        if told != wanted:
            sys.stderr.write(run.stderr.decode(errors="replace"))
            sys.exit(f"{kind}: another output for {data[:60]!r}..., {len(data)} bytes\n{told[-200:]!r}\n{wanted[-200:]!r}")
    print(f"{kind}: {len(streams)}, all as the reference says")


def damaged(rng, data):
    at = rng.randrange(len(data))
    return data[:at] + bytes([rng.randrange(256)]) + data[at + 1 :]


# Three images of one size whose comments have several places, lengths and ends; pixels of the second and the third look like comments.
COMMENTED = [
    b"P5\n# made by a viewer\n3 2\n255\n" + bytes(6),
    b"P5#a\r 3#b\n#\r\n2 2#c\n55# the CR ends it, the LF delimits\r\n" + b"#\n#\r12",
    b"P5 3# no pixel yet: 1 2 3\r 2\t#\n#\n255#d\n " + b"# c\n\0\xff",
]


def comment(rng, length):
    """A comment with so many bytes between its `#` and its line end."""
    return b"#" + bytes(rng.choice(b" #09Pcz\t\0\xff") for _ in range(length)) + rng.choice((b"\n", b"\r"))


def commented(rng, data, longest):
    """The image with up to three comments in its header; they are put in from its end on, so that none stands in another."""
    delimiter = data.index(b"255\n") + 3
    for place in sorted(rng.choices(range(2, delimiter + 1), k=rng.randrange(4)), reverse=True):
        data = data[:place] + comment(rng, rng.randrange(longest)) + data[place:]
    return data


def commented_streams(rng):
    """Short comments and long ones; then images at the limit, comments without end and a `#` between images."""
    yield b"".join(commented(rng, data, 20) for data in frames(rng, 200, 9, 7))
    yield b"".join(commented(rng, data, 1500) for data in frames(rng, 40, 160, 120))
    filled = b"P5 1 1 255#" + b"c" * 24562 + b"\r\n"
    yield filled + b"#" + filled + b"\x07" + filled + b"\xff"
    yield filled + b"#" + filled.replace(b"\r", b"c\r") + b"\x07"
    three = b"".join(COMMENTED)
    yield three + b"P5 3 2#" + b"c" * 30000 + b"\n 255\n" + bytes(6)
    yield three + b"P5 3 2#" + b"c" * 20000
    yield three + b"# no comment\n" + three


def two_byte_streams(rng):
    """Images of 120 x 90; other maxvals, below 255 too; the largest ones, and one that is too large; then another maxval in the stream."""
    yield b"".join(frames(rng, 200, 120, 90, 4095))
    yield b"".join(nudged_frames(rng, 60, 120, 90, 4095))
    for maxval in (100, 254, 256, 1023, 65534, 65535):
        yield b"".join(nudged_frames(rng, 40, 30, 20, maxval))
    yield b"".join(frames(rng, 4, 40, 307, 65535)) + b"P5  40 307 65535\n" + bytes(24560)
    yield b"".join(frames(rng, 3, 9, 7, 256)) + b"".join(frames(rng, 3, 9, 7, 257))
    yield b"".join(frames(rng, 3, 9, 7, 255)) + b"".join(frames(rng, 3, 9, 7, 256))


def held_open(rng):
    """With the pipe held open, each row comes within a second of its frame's last byte."""
    program = subprocess.Popen(COMMAND, stdin=subprocess.PIPE, stdout=subprocess.PIPE, bufsize=0)
    program.stdout.readline()
    longest = 0
    for data in (commented(rng, data, 500) for data in frames(rng, 20, 160, 120)):
        program.stdin.write(data[:-1])
        time.sleep(0.02)
        start = time.monotonic()
        program.stdin.write(data[-1:])
        program.stdout.readline()
        longest = max(longest, time.monotonic() - start)
    program.stdin.close()
    program.wait()
    if longest >= 1:
        sys.exit(f"held open: a row took {longest:.3f} s")
    print(f"held open: 20 frames, the slowest row after {longest:.3f} s")


def send(program, data):
    """Writes to the program as long as it reads."""
    try:
        program.stdin.write(data)
    except BrokenPipeError:
        pass


def ended(kind, program):
    """Waits for the end of a program whose input is still open."""
    try:
        program.wait(PATIENCE)
    except subprocess.TimeoutExpired:
        program.kill()
        program.wait()
        sys.exit(f"{kind}: it has not ended after {PATIENCE} s")


def full_device(worked):
    """Every write to /dev/full fails. It ends, though its input goes on, and says so."""
    kind = "output to /dev/full"
    with open("/dev/full", "wb") as full:
        program = subprocess.Popen(COMMAND, stdin=subprocess.PIPE, stdout=full, stderr=subprocess.PIPE, bufsize=0)
    send(program, worked)
    ended(kind, program)
    said = program.stderr.read()
    if said != UNWRITTEN:
        sys.exit(f"{kind}: it said {said!r} and not {UNWRITTEN!r}")
    print(f"{kind}: it ended, and said so")


def small_pipe():
    """A pipe as small as there is, whose writer is not made to wait: its ends, and how many bytes it holds."""
    reads, writes = os.pipe()
    room = fcntl.fcntl(writes, getattr(fcntl, "F_SETPIPE_SZ", 1031), 1)
    os.set_blocking(writes, False)
    return reads, writes, room


def quiet(program):
    """Waits until the program has ended, or has read all that it was sent and had time for its rows."""
    unread = bytearray(4)
    until = time.monotonic() + PATIENCE
    while program.poll() is None and time.monotonic() < until:
        fcntl.ioctl(program.stdin, termios.FIONREAD, unread)
        time.sleep(1)
        if not any(unread):
            return


def read_late(rng):
    """A pipe that is full when rows come and read when it is too late: what was written is a beginning of the output."""
    kind = "output to a full pipe"
    reads, writes, room = small_pipe()
    sent = list(frames(rng, max(2001, room // 8), 8, 6))
    program = subprocess.Popen(COMMAND, stdin=subprocess.PIPE, stdout=writes, stderr=subprocess.PIPE, bufsize=0)
    os.close(writes)
    send(program, b"".join(sent[:-1]))
    quiet(program)
    told = os.read(reads, room)
    # There is room again: a program that goes on would write the last row behind the hole.
    send(program, sent[-1])
    program.stdin.close()
    with open(reads, "rb") as rest:
        told += rest.read()
    ended(kind, program)
    wanted = output(b"".join(sent))
    if not wanted.startswith(told):
        both = itertools.zip_longest(told.split(b"\r\n"), wanted.split(b"\r\n"))
        came, due = next((came, due) for came, due in both if came != due)
        sys.exit(f"{kind}: a row is missing before one that is there: {came!r} came in the place of {due!r}")
    said = program.stderr.read()
    if said != (b"" if told == wanted else UNWRITTEN):
        sys.exit(f"{kind}: {len(told)} of {len(wanted)} bytes came, and it said {said!r}")
    print(f"{kind}: {len(told)} of {len(wanted)} bytes came, none behind one that did not")


def reader_gone(rng, signal):
    """The reader goes after the first line. It ends, though its input goes on, by the signal or, where that is ignored, by itself."""
    kind = "a reader that has gone" + ("" if signal else ", the signal ignored")
    program = subprocess.Popen(
        COMMAND, stdin=subprocess.PIPE, stdout=subprocess.PIPE, stderr=subprocess.DEVNULL, bufsize=0, restore_signals=signal
    )
    program.stdout.readline()
    program.stdout.close()
    send(program, b"".join(frames(rng, 100, 9, 7)))
    ended(kind, program)
    print(f"{kind}: it ended")


def main():
    rng = random.Random(6)
    worked = (ROOT / "crates/frozen/stdin").read_bytes()
    short = b"".join(frames(rng, 12, 9, 7))
    hold("empty", [b""])
    hold("worked", [worked])
    hold("cut at each of the first 40 bytes", [worked[:k] for k in range(1, 41)])
    hold("cut anywhere", [short[: rng.randrange(len(short))] for _ in range(100)])
    hold("damaged", [damaged(rng, short) for _ in range(100)])
    three = b"".join(COMMENTED)
    hold("commented, cut at every byte", [three[:k] for k in range(1, len(three) + 1)])
    hold("commented", list(commented_streams(rng)))
    wide = b"".join(nudged_frames(rng, 12, 9, 7, 4095))
    hold("two bytes a pixel, cut anywhere", [wide[: rng.randrange(len(wide))] for _ in range(100)])
    hold("two bytes a pixel, damaged", [damaged(rng, wide) for _ in range(100)])
    hold("two bytes a pixel, and other maxvals", list(two_byte_streams(rng)))
    hold("another size", [b"".join(frames(rng, 3, 9, 7)) + b"".join(frames(rng, 3, 7, 9))])
    hold("largest image", [b"P5 1024 23 255 " + bytes(1024 * 23) + b"P5 1024 24 255 " + bytes(1024 * 24)])
    hold(f"{LONG} frames", [b"".join(frames(rng, LONG, 16, 12))])
    hold("large frames", [b"".join(frames(rng, 300, 160, 120))])
    held_open(rng)
    full_device(worked)
    read_late(rng)
    reader_gone(rng, True)
    reader_gone(rng, False)


main()
