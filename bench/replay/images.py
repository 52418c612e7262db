"""Tree images written and read, and program images read, as 01 lays them out."""
import struct

ARRAY, FLOAT, STRING, THIS, ENTITY, TEMP, CONTEXT, MEMBER, QUERY = 1, 7, 8, 12, 13, 14, 15, 16, 17
LESS, AND, COALESCE, SEMICOLON, LOOP, FOR_EACH, BREAK = 18, 24, 26, 28, 29, 30, 31
ASSIGNMENT, POINTER, NEGATE, ADD, MUL, DIV, HOST, VOLATILE = 33, 34, 37, 39, 40, 41, 42, 43
CODES = [*range(1, 52), *range(64, 124)]
KINDS = range(13)
# The levels that an accepted tree may have.
LEVELS = 31


def payload(kind, text=b"x"):
    """A payload of a kind."""
    if kind == 1:
        return struct.pack(">Bf", 1, 1.5)
    if kind == 2:
        return struct.pack(">BQ", 2, 77)
    if 3 <= kind <= 10:
        return name(kind, 5, text)
    if kind == 11:
        return struct.pack(">BHB", 11, 7, 2)
    if kind == 12:
        return struct.pack(">BH", 12, 9)
    return bytes([kind])


def name(kind, number, text=b"x"):
    return struct.pack(">BQB", kind, number, len(text)) + text


def node(op, data=b"\0", children=(), scale=1.0, offset=0.0):
    rest = struct.pack(">Bff", op, scale, offset) + data + struct.pack(">H", len(children)) + b"".join(children)
    return struct.pack(">I", len(rest)) + rest


def image(root, arrays=0, divisor=0):
    rest = bytes([arrays, divisor]) + root
    return struct.pack(">BI", 1, len(rest)) + rest


def nodes(tree):
    """(code, kind, children, level, text length or None) of each node of a tree that passed questions 2 to 4."""
    found = []

    def read(at, level):
        op, kind = tree[at + 4], tree[at + 13]
        size = {0: 0, 1: 4, 2: 8, 11: 3, 12: 2}.get(kind)
        text = tree[at + 22] if size is None else None
        at += 14 + (9 + text if size is None else size)
        (children,) = struct.unpack_from(">H", tree, at)
        found.append((op, kind, children, level, text))
        at += 2
        for _ in range(children):
            at = read(at, level + 1)
        return at

    end = read(7, 1)
    assert end == len(tree)
    return found


def program(card):
    """The fields of a program image that coverage looks at."""
    at = 5

    def take(form):
        nonlocal at
        v = struct.unpack_from(">" + form, card, at)
        at += struct.calcsize(">" + form)
        return v

    def text():
        nonlocal at
        (n,) = take("H")
        at += n

    p = {"code": [take("BBIH") for _ in range(take("I")[0])]}
    for section, form in [("consts", "I"), ("posts", "II"), ("hashes", "Q")]:
        p[section] = [take(form) for _ in range(take("I")[0])]
    p["names"] = [(take("Q"), text()) for _ in range(take("I")[0])]
    p["temps"] = [take("H") for _ in range(take("I")[0])]
    p["members"] = [(take("Q"), text(), text()) for _ in range(take("I")[0])]
    p["stores"] = [(take("BH"), [take("Q") for _ in range(take("H")[0])]) for _ in range(take("I")[0])]
    p["calls"] = [(take("HB"), [take("I") for _ in range(take("H")[0])]) for _ in range(take("I")[0])]
    p["stack"], p["loops"], p["handlers"], p["flags"], p["float_loop"] = take("HHHHB")
    assert at == len(card) and card[0] == 1 and struct.unpack_from(">I", card, 1)[0] == at - 5
    return p
