#!/usr/bin/env python3
"""statements.py OLD NEW: the statements of crates/*/proofs/*.antt of two checkouts that have the same name and are not the same, old and new, and how many there are."""
import glob
import os
import re
import sys

STATED = re.compile(r"^ *(?:(?:unfoldable|abbrev|pub) )*([a-zA-Z_][\w\-']*) : (.*(?:\n {4,}→[^\n]*)*)", re.M)
RECORD = re.compile(r"^ *(?:pub )?record ([A-Za-z_]\w*)(.*(?:\n {2,}pub [^\n]*)+)", re.M)


def statements(root):
    """Crate, name, and what is stated, in one line; the first of two of one name."""
    found = {}
    for path in sorted(glob.glob(f"{root}/crates/*/proofs/*.antt")):
        crate = os.path.relpath(path, f"{root}/crates").split(os.sep)[0]
        with open(path, encoding="utf-8") as f:
            text = f.read()
        for pattern in (STATED, RECORD):
            for m in pattern.finditer(text):
                found.setdefault((crate, m[1]), re.sub(r"\s+", " ", m[2]).strip())
    return found


old, new = statements(sys.argv[1]), statements(sys.argv[2])
changed = [key for key in old if key in new and old[key] != new[key]]
for crate, name in changed:
    print(f"{crate} {name}\n    old: {old[crate, name]}\n    new: {new[crate, name]}")
print(f"{len(changed)} changed of {len(old)}")
