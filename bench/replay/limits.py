"""Trees on both sides of each limit, and what the genuine build must say of them.

Each is (words, tree, refusal, what the program image must have); see coverage.py for the last.
"""
from images import *

THIS_NODE = node(THIS)
# A code that is none, and the levels of the deepest chain that 6,144 bytes hold.
UNKNOWN, MOST_LEVELS = 52, 383


def chain(levels, data=b"\0", op=NEGATE, last=THIS_NODE):
    """A tree of so many levels."""
    t = last
    for _ in range(levels - 1):
        t = node(op, data, [t])
    return t


def unread(levels):
    """So many levels where none but the root is lowered."""
    return node(THIS, b"\0", [chain(levels - 1)])


def target(levels):
    """So many levels, most of them below an assignment's target, where nothing is lowered."""
    return node(ASSIGNMENT, b"\0", [node(TEMP, name(5, 9, b"t"), [chain(levels - 2)]), THIS_NODE])


def right(n):
    t = THIS_NODE
    for _ in range(n):
        t = node(MUL, b"\0", [THIS_NODE, t])
    return t


def loops(n, each=False):
    t = THIS_NODE
    for _ in range(n):
        t = node(FOR_EACH, b"\0", [node(ENTITY, name(4, 1)), THIS_NODE, t]) if each else node(LOOP, b"\0", [node(FLOAT, payload(1)), t])
    return t


def handlers(n):
    t = THIS_NODE
    for _ in range(n):
        t = node(COALESCE, b"\0", [t, THIS_NODE])
    return t


def temps(n):
    return node(SEMICOLON, b"\0", [node(TEMP, name(5, 100 + i, b"t%d" % i)) for i in range(n)])


def host(n, op):
    return node(op, payload(12), [THIS_NODE] * n)


def long_tree(size):
    """An image of so many bytes: names in a statement list."""
    left, kids = size - 7 - 16, []
    while left:
        n = left if left <= 280 else min(280, left - 25)
        kids.append(node(ENTITY, name(4, len(kids), b"n" * (n - 25))))
        left -= n
    return node(SEMICOLON, b"\0", kids)


def around(limit):
    return range(limit - 1, limit + 3)


def counted(field, limit, tree):
    """Trees whose count stands around a limit of the float loop."""
    for n in around(limit):
        yield f"{field} {n}", image(tree(n)), 0, {field: n, "float_loop": int(n <= limit)}


def limits():
    for n in around(LEVELS):
        refusal = 0 if n <= LEVELS else 4
        yield f"levels {n}", image(chain(n)), refusal, {}
        yield f"levels {n} of members", image(chain(n, payload(6), MEMBER)), refusal, {}
        yield f"levels {n} of queries", image(chain(n, payload(11), QUERY)), refusal, {}
        yield f"levels {n}, unread", image(unread(n)), refusal, {}
        yield f"levels {n} of a target", image(target(n)), refusal, {}
    for n in LEVELS, LEVELS + 1, MOST_LEVELS:
        yield f"damage at level {n}", image(chain(n, last=node(UNKNOWN))), 3, {}
    for n in around(255):
        for op in HOST, VOLATILE:
            yield f"host arguments {n}, operator {op}", image(host(n, op)), 0 if n <= 255 else 7, {"sub": n} if n <= 255 else {}
    yield from counted("stack", 16, right)
    yield from counted("loops", 4, loops)
    yield from counted("handlers", 4, handlers)
    yield from counted("temps", 8, temps)
    for n in around(4):
        yield f"loops {n} of ForEach", image(loops(n, True)), 0, {"loops": n, "float_loop": 0}
    for n in 6143, 6144, 6145:
        yield f"{n} bytes", image(long_tree(n)), 0 if n <= 6144 else 2, {}
    for n in 0, 1, 254, 255:
        yield f"text of {n} bytes", image(node(MEMBER, name(6, 3, b"m" * n), [node(ENTITY, name(4, 4, b"e" * n))])), 0, {}
