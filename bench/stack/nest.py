"""Framed tree images that nest each operator in each of its places as deep as an accepted image allows, with a leaf at the bottom and with an
`and` whose operands fill the image; then the deepest chain that is read, and refused."""
import os
import struct
import sys

sys.dont_write_bytecode = True
sys.path.insert(0, os.path.join(os.path.dirname(os.path.abspath(__file__)), "..", "replay"))
from images import AND, LEVELS, NEGATE

NAME = b"\0" * 9
PAYLOADS = [b"\0", b"\6" + NAME, b"\7" + NAME, b"\x0b\0\1\0", b"\x0c\0\1"]


def node(op, kids, payload=b"\0"):
    rest = bytes([op]) + struct.pack(">II", 0x3F800000, 0) + payload + struct.pack(">H", len(kids)) + b"".join(kids)
    return struct.pack(">I", len(rest)) + rest


THIS = node(12, [])


def nested(inner, op, count, place, payload, levels):
    """As many levels as fit."""
    for _ in range(levels):
        kids = [THIS] * count
        kids[place] = inner
        outer = node(op, kids, payload)
        if len(outer) + 7 > 6144:
            return inner
        inner = outer
    return inner


def trees():
    for op in range(1, 52):
        for count in (1, 2, 3):
            for place in range(count):
                for payload in PAYLOADS:
                    yield nested(THIS, op, count, place, payload, LEVELS - 1)
                    around = len(nested(node(AND, []), op, count, place, payload, LEVELS - 2)) + 7
                    yield nested(node(AND, [THIS] * ((6144 - around) // 16)), op, count, place, payload, LEVELS - 2)
    yield nested(THIS, NEGATE, 1, 0, b"\0", 382)


for tree in trees():
    image = b"\0\0" + tree
    image = b"\1" + struct.pack(">I", len(image)) + image
    sys.stdout.buffer.write(struct.pack(">I", len(image)) + image)
