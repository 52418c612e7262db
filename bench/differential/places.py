#!/usr/bin/env python3
"""Tree images on standard output, each behind its length: every operator code with every payload kind and 0 to 4 children, in every place where a rule lowers or looks at a node."""
import os
import struct
import sys

sys.path.insert(0, os.path.join(os.path.dirname(os.path.abspath(__file__)), "..", "replay"))
from images import *

CONDITIONAL, EQUAL = 27, 22
THIS_NODE = node(THIS)
HALF = node(FLOAT, payload(1))
VARIABLE = node(ENTITY, name(4, 21, b"v"))
LOCAL = node(TEMP, name(5, 22, b"t"))
CHILDREN = [[THIS_NODE] * 4, [VARIABLE, HALF, LOCAL, THIS_NODE], [LOCAL, THIS_NODE, HALF, VARIABLE]]

# A node as a part of another, for each place.
PLACES = [
    lambda n: n,
    lambda n: node(ADD, b"\0", [n, THIS_NODE]),
    lambda n: node(ADD, b"\0", [THIS_NODE, n, n]),
    lambda n: node(DIV, b"\0", [n, THIS_NODE]),
    lambda n: node(DIV, b"\0", [THIS_NODE, n]),
    lambda n: node(EQUAL, payload(2), [n]),
    lambda n: node(AND, b"\0", [n, n, THIS_NODE]),
    lambda n: node(COALESCE, b"\0", [n, HALF]),
    lambda n: node(COALESCE, b"\0", [VARIABLE, n]),
    lambda n: node(CONDITIONAL, b"\0", [n, THIS_NODE, n]),
    lambda n: node(SEMICOLON, b"\0", [n, n], offset=2.0),
    lambda n: node(LOOP, b"\0", [n, node(SEMICOLON, b"\0", [n, node(BREAK)])]),
    lambda n: node(FOR_EACH, b"\0", [n, THIS_NODE, THIS_NODE]),
    lambda n: node(FOR_EACH, b"\0", [LOCAL, n, n]),
    lambda n: node(ASSIGNMENT, b"\0", [n, HALF], scale=3.0),
    lambda n: node(ASSIGNMENT, b"\0", [VARIABLE, n]),
    lambda n: node(ASSIGNMENT, b"\0", [node(MEMBER, name(6, 31, b"m"), [n]), HALF]),
    lambda n: node(MEMBER, name(6, 32, b"p"), [node(MEMBER, name(6, 33, b"q"), [n])]),
    lambda n: node(QUERY, payload(11), [n, node(CONDITIONAL, b"\0", [THIS_NODE, n])]),
    lambda n: node(POINTER, b"\0", [n, n]),
    lambda n: node(HOST, payload(12), [THIS_NODE, n]),
    lambda n: node(ARRAY, name(7, 34, b"a"), [n]),
]


def main():
    out = sys.stdout.buffer
    turn = 0
    for op in CODES:
        for kind in KINDS:
            for count in range(5):
                for place in PLACES:
                    turn += 1
                    n = node(op, payload(kind), CHILDREN[turn % 3][:count], scale=1.0 if turn % 2 else 2.0)
                    for setting in (0, 1):
                        t = image(place(n), setting, (turn + setting) % 2)
                        out.write(struct.pack(">I", len(t)) + t)


main()
