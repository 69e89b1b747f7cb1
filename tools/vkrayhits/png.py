"""PNG images of eight bits a channel, by zlib of the standard library."""

import struct
import zlib


def png_of(rows):
    """Returns the bytes of a PNG of rows of pixels, each (red, green, blue) from 0 to 255."""
    data = b"".join(b"\0" + bytes(part for pixel in row for part in pixel) for row in rows)
    head = struct.pack(">IIBBBBB", len(rows[0]), len(rows), 8, 2, 0, 0, 0)
    return (b"\x89PNG\r\n\x1a\n" + chunk(b"IHDR", head) + chunk(b"IDAT", zlib.compress(data, 9))
            + chunk(b"IEND", b""))


def chunk(name, data):
    """Returns one chunk with its length and its sum."""
    return struct.pack(">I", len(data)) + name + data + struct.pack(">I", zlib.crc32(name + data))


def rows_of(data):
    """Returns the rows of pixels of a PNG that png_of made."""
    width, height = struct.unpack(">II", data[16:24])
    size = struct.unpack(">I", data[33:37])[0]
    flat = zlib.decompress(data[41 : 41 + size])
    step = 1 + 3 * width
    lines = [flat[row * step + 1 : (row + 1) * step] for row in range(height)]
    return [[tuple(line[3 * it : 3 * it + 3]) for it in range(width)] for line in lines]
