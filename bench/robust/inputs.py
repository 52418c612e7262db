"""The inputs, the same in every run: input i depends on i alone."""
import random
import struct

LONGEST = 6144


def framed(images):
    return b"".join(struct.pack(">I", len(i)) + i for i in images)


def frames(data):
    """The images of a framed list as `pieces` takes them: one that is cut off as far as it goes, a length that is cut off filled up with zeros."""
    at = 0
    while at < len(data):
        head = data[at:at + 4]
        at += len(head)
        count = struct.unpack(">I", head.ljust(4, b"\0"))[0]
        yield data[at:at + count]
        at += len(data[at:at + count])


def headed(rest):
    """Bytes behind a right first byte and a true length."""
    return b"\1" + struct.pack(">I", len(rest)) + rest


def damaged(r, image):
    """A few bytes set to others, cut out or put in; half of the time the length is made true again."""
    b = bytearray(image)
    for _ in range(r.randint(1, 3)):
        at = r.randrange(len(b))
        kind = r.randrange(4)
        if kind == 0:
            b[at] = r.randrange(256)
        elif kind == 1:
            b[at] ^= 1 << r.randrange(8)
        elif kind == 2:
            del b[at:at + r.randint(1, 4)]
        else:
            b[at:at] = r.randbytes(r.randint(1, 4))
        if not b:
            return b""
    return headed(bytes(b[5:])) if r.random() < 0.5 else bytes(b)


def one(i, stored):
    """Input i, from the stored tree images."""
    r = random.Random(i)
    image = r.choice(stored)
    kind = i % 8
    if kind == 0:
        return image[:r.randrange(len(image) + 1)]
    if kind == 1:
        return r.randbytes(r.choice([0, 1, 4, 5, 6, 7, r.randrange(300), r.randrange(LONGEST + 1)]))
    if kind == 2:
        return headed(bytes([r.randrange(2), r.randrange(2)]) + r.randbytes(r.randrange(200)))
    if kind == 3:
        return headed(bytes(r.choice([LONGEST - 5, LONGEST - 4, LONGEST, 20000, 70000]) + r.randrange(2)))
    if kind == 4:
        return image + r.randbytes(r.choice([1, 2, 100, LONGEST, 66000]))
    return damaged(r, image) if kind < 7 else image
