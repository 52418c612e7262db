"""Small trees by hand: every byte as an operator code and as a payload kind, settings, cuts and wrong lengths."""
import struct
from images import *

# A product of two floats, of which one has a name behind it that is not read.
WHOLE = image(node(MUL, b"\0", [node(FLOAT, payload(1)), node(FLOAT, payload(1), [node(ENTITY, payload(4))])]))


def relengthed(tree):
    """The same with a true length in front."""
    return tree[:1] + struct.pack(">I", len(tree) - 5) + tree[5:]


def small():
    for b in range(256):
        yield image(node(b, payload(4), [node(THIS)]), arrays=1)
        yield image(node(ENTITY, payload(b)))
    for b in 0, 1, 2, 3, 127, 128, 255:
        yield image(node(THIS), b, 0)
        yield image(node(DIV, b"\0", [node(THIS), node(THIS)]), 0, b)
        yield bytes([b]) + WHOLE[1:]


def cuts():
    for n in range(len(WHOLE)):
        yield WHOLE[:n]
        if n >= 5:
            yield relengthed(WHOLE[:n])


def wrong_bytes():
    """Each byte of a tree one more and one less."""
    for i in range(len(WHOLE)):
        for d in 1, 255:
            yield WHOLE[:i] + bytes([(WHOLE[i] + d) % 256]) + WHOLE[i + 1:]


def longer():
    for n in 1, 2, 16, 255:
        yield WHOLE + bytes(n)
        yield relengthed(WHOLE + bytes(n))
