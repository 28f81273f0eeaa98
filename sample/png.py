"""Writes the raster of a PGM image as a PNG of greys: 8 bits a pixel where maxval is 255 or less, and 16 where it is above.

In a PNG the largest value is white; so the pixels of any other maxval are scaled to it, each to the nearest grey.
"""
import struct
import zlib

SIGN = b"\x89PNG\r\n\x1a\n"


def chunk(name, data):
    return struct.pack(">I", len(data)) + name + data + struct.pack(">I", zlib.crc32(name + data))


def scaled(value, maxval, white):
    return (2 * value * white + maxval) // (2 * maxval)


def greys(raster, maxval):
    """The bits of a pixel, and the raster in these."""
    if maxval <= 255:
        # What is above maxval stands in no raster that was accepted; the table has a place for every byte all the same.
        return 8, raster.translate(bytes(scaled(min(value, maxval), maxval, 255) for value in range(256)))
    if maxval == 65535:
        return 16, raster
    pixels = struct.unpack(f">{len(raster) // 2}H", raster)
    return 16, struct.pack(f">{len(pixels)}H", *(scaled(min(value, maxval), maxval, 65535) for value in pixels))


def png(width, height, maxval, raster):
    depth, data = greys(raster, maxval)
    row = width * depth // 8
    # Each row has its filter before it: 0, for none.
    lines = b"".join(b"\0" + data[at : at + row] for at in range(0, row * height, row))
    head = struct.pack(">IIBBBBB", width, height, depth, 0, 0, 0, 0)
    return SIGN + chunk(b"IHDR", head) + chunk(b"IDAT", zlib.compress(lines, 9)) + chunk(b"IEND", b"")
