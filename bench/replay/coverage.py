"""What a list covers, counted; and the points that it must have."""
from collections import Counter
from images import CODES, KINDS, nodes, program

# Opcodes 1 to 48, with the subs that 01 names; HostMath's sub is its argument count.
SUBS = {"DivGuard": (20, 2), "Cmp": (23, 4), "CmpConst": (24, 4), "Eq": (25, 2), "EqConst": (26, 2), "EqHash": (27, 2)}


class Coverage:
    def __init__(self, pairs):
        """`pairs`: (tree, (refusal, program image))."""
        self.refusals, self.sizes, self.images = Counter(), [], []
        self.met, self.roots, self.instructions = set(), set(), set()
        self.set_flags, self.clear_flags, self.settings, self.texts = set(), set(), set(), set()
        for tree, (refusal, card) in pairs:
            self.refusals[refusal] += 1
            self.sizes.append(len(tree))
            if refusal not in (2, 3, 4):
                self.read_tree(tree, refusal)
            if refusal == 0:
                self.read_program(tree, card)

    def read_tree(self, tree, refusal):
        for code, kind, _, _, text in nodes(tree):
            self.met.add((code, kind))
            if refusal == 0:
                self.texts.add(text)

    def read_program(self, tree, card):
        p = program(card)
        self.images.append(len(card))
        self.roots.add(tree[11])
        self.instructions |= {(op, sub) for op, sub, _, _ in p["code"]}
        self.settings.add((tree[5], tree[6]))
        for bit in range(11):
            (self.set_flags if p["flags"] >> bit & 1 else self.clear_flags).add(bit)

    def lines(self):
        opcodes = {op for op, _ in self.instructions}
        yield f"{sum(self.refusals.values())} trees: accepted {self.refusals[0]}, " + ", ".join(f"refused {r} {self.refusals[r]}" for r in range(2, 9))
        yield f"tree images of {min(self.sizes)} to {max(self.sizes)} bytes, {sum(self.sizes)} in all; program images of {min(self.images)} to {max(self.images)} bytes, {sum(self.images)} in all"
        yield f"{len({c for c, _ in self.met})} operators, {len({k for _, k in self.met})} payload kinds, {len(self.met)} pairs of the two; {len(self.roots)} operators at the root of an accepted tree"
        yield f"{len(opcodes)} opcodes, {len(self.instructions)} with their subs; flags set {sorted(self.set_flags)}, clear {sorted(self.clear_flags)}"

    def missing(self):
        """The points that are not there, in words."""
        yield from (f"refusal {r}" for r in [0, *range(2, 9)] if self.refusals[r] < 20)
        yield from (f"refusal {r} is none that the build gives" for r in self.refusals if r not in (0, *range(2, 9)))
        yield from (f"operator {c} with payload kind {k}" for c in CODES for k in KINDS if (c, k) not in self.met)
        yield from (f"operator {c} at the root of an accepted tree" for c in [1, *range(7, 52)] if c not in self.roots)
        yield from (f"opcode {op}" for op in range(1, 49) if op not in {o for o, _ in self.instructions})
        yield from (f"{name} with sub {s}" for name, (op, n) in SUBS.items() for s in range(n) if (op, s) not in self.instructions)
        yield from (f"flag {b} set" for b in range(11) if b not in self.set_flags)
        yield from (f"flag {b} clear" for b in range(11) if b not in self.clear_flags)
        yield from (f"settings {a} {d} in an accepted tree" for a in (0, 1) for d in (0, 1) if (a, d) not in self.settings)
        yield from (f"a text of {n} bytes in an accepted tree" for n in (0, 255) if n not in self.texts)
        if sum(self.refusals.values()) < 3000:
            yield "3,000 trees"


def wrong_limit(refusal, card, expected, fields):
    """Whether an answer at a limit is not the one that the list must have there."""
    if refusal != expected:
        return True
    if expected:
        return False
    p = program(card)
    have = {**p, "temps": len(p["temps"]), "sub": max(sub for _, sub, _, _ in p["code"])}
    return any(have[f] != v for f, v in fields.items())
