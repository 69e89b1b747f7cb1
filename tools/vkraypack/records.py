"""The bytes of records, from whole numbers: docs/RECORDING.md, "Records" and "Sizes".

A number that its field can't hold raises PackError, which says which number and where. Whether the
numbers that a field can hold are within the limits of a recording is for vkray to say.
"""

import struct
from fractions import Fraction
from typing import NamedTuple

IDENTITY = ((1, 0, 0, 0), (0, 1, 0, 0), (0, 0, 1, 0))
FARTHEST = 2**24  # the greatest distance that a ray may have, in lengths of its direction


class PackError(ValueError):
    """Input of which no recording is made; its text says what is wrong and where."""


class Instance(NamedTuple):
    """One instance of a bottom structure; the fields are those of VkAccelerationStructureInstanceKHR."""

    structure: int  # the id of the bottom structure
    matrix: tuple = IDENTITY  # three rows of four whole numbers, the last of each the translation
    custom: int = 0  # the custom index, below 2^24
    mask: int = 255
    offset: int = 0  # the binding-table offset, below 2^24
    flags: int = 0  # the sum of the bits of docs/RECORDING.md, "Instance flags"


class Ray(NamedTuple):
    """One ray. tmin and tmax count lengths of the direction, and are whole numbers of 1/65536."""

    origin: tuple
    direction: tuple
    tmin: object = 0
    tmax: object = FARTHEST


def whole(value, low, high, where):
    """Returns the value where it is a whole number from low to high."""
    if isinstance(value, bool) or not isinstance(value, int) or not low <= value <= high:
        raise PackError(f"{where}: {value!r} is no whole number from {low} to {high}")
    return value


def numbers(values, bits, signed, where):
    """Returns the bytes of a flat list of whole numbers of so many bits, 8, 16, 32 or 64 each."""
    low, high = (-(2 ** (bits - 1)), 2 ** (bits - 1) - 1) if signed else (0, 2**bits - 1)
    for place, value in enumerate(values):
        whole(value, low, high, f"{where}, number {place}")
    letter = {8: "b", 16: "h", 32: "i", 64: "q"}[bits]
    return struct.pack(f"<{len(values)}{letter if signed else letter.upper()}", *values)


def rows(lists, length, signed, where):
    """Returns the bytes of lists of so many numbers of 32 bits each, one after another."""
    flat = []
    for place, row in enumerate(lists):
        if not isinstance(row, (list, tuple)) or len(row) != length:
            raise PackError(f"{where} {place}: {row!r} is no list of {length} numbers")
        flat += row
    try:
        return numbers(flat, 32, signed, where)
    except PackError:
        for place, row in enumerate(lists):
            numbers(row, 32, signed, f"{where} {place}")
        raise


def instance_bytes(instance, place):
    """Returns the 64 bytes of an instance, which stands at this place of its list."""
    where = f"instance {place}"
    if not isinstance(instance.matrix, (list, tuple)) or len(instance.matrix) != 3:
        raise PackError(f"{where}: its matrix has not three rows")
    custom = whole(instance.custom, 0, 2**24 - 1, f"{where}, custom index")
    mask = whole(instance.mask, 0, 255, f"{where}, mask")
    offset = whole(instance.offset, 0, 2**24 - 1, f"{where}, binding-table offset")
    flags = whole(instance.flags, 0, 255, f"{where}, flags")
    reference = 256 * (whole(instance.structure, 0, 2**32 - 1, f"{where}, structure") + 1)
    matrix = rows(instance.matrix, 4, True, f"{where}, row")
    return matrix + struct.pack("<IIQ", custom | mask << 24, offset | flags << 24, reference)


def ray_bytes(ray, place):
    """Returns the 40 bytes of a ray, which stands at this place of its list."""
    where = f"ray {place}"
    ends = [distance(ray.tmin, f"{where}, tmin"), distance(ray.tmax, f"{where}, tmax")]
    return rows([ray.origin, ray.direction], 3, True, f"{where}, vector") + struct.pack("<QQ", *ends)


def distance(value, where):
    """Returns a distance in whole numbers of 1/65536."""
    if isinstance(value, bool) or not isinstance(value, (int, float, Fraction)):
        raise PackError(f"{where}: {value!r} is no number")
    try:
        scaled = Fraction(value) * 65536
    except (OverflowError, ValueError):
        raise PackError(f"{where}: {value!r} is no distance") from None
    if scaled.denominator != 1 or not 0 <= scaled < 2**64:
        raise PackError(f"{where}: {value!r} is no whole number of 1/65536 from 0 up")
    return int(scaled)


def aligned(size):
    """Returns the size, rounded up to a multiple of 256."""
    return (size + 255) // 256 * 256


def structure_size(counts):
    """Returns the bytes of a structure whose geometries have so many primitives."""
    return aligned(128 + 32 * len(counts) + 128 * sum(counts))


def scratch_size(counts):
    """Returns the bytes of the scratch memory of its build, which are enough for an update as well."""
    return aligned(256 + 64 * sum(counts))
