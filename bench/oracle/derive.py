#!/usr/bin/env python3
"""derive.py TREE: makes TREE/ops.rs and TREE/compile/opcodes.rs from the genuine files that `build` copied into TREE.

01 numbers the operators in order of first mention in `expr` (51, and 60 of the library) and the opcodes in order of `enum Instr` without its library
arms (48); so both lists are read from the genuine text.
"""
import re
import sys


def operators(text):
    """(name, code) of each operator."""
    body = text[text.index("fn expr(&mut self"):]
    body = re.sub(r"//[^\n]*", "", body[:body.index("\nfn first_child")])
    arm = re.search(r'#\[cfg\(feature = "stdlib"\)\]\s*((?:\|?\s*Op::\w+\s*)+)=>', body).group(1)
    library = re.findall(r"Op::(\w+)", arm)
    plain = [op for op in dict.fromkeys(re.findall(r"\bOp::(\w+)", body)) if op not in library]
    assert (len(plain), plain[0], plain[-1]) == (51, "Array", "Comma"), plain
    assert (len(library), library[0], library[-1]) == (60, "Mod", "EaseInOutElastic"), library
    return [(op, i + 1) for i, op in enumerate(plain)] + [(op, i + 64) for i, op in enumerate(library)]


def instructions(text):
    """(name, has fields) of each instruction."""
    body = text[text.index("pub(crate) enum Instr {"):]
    found, library = [], False
    for line in body[:body.index("\n}\n")].splitlines()[1:]:
        line = line.strip()
        if line == '#[cfg(feature = "stdlib")]':
            library = True
        elif not line.startswith("//"):
            name, fields = re.match(r"(\w+)\s*(\{.*\})?,$", line).groups()
            if not library:
                found.append((name, bool(fields)))
            library = False
    assert (len(found), found[0][0], found[-1][0]) == (48, "Const", "End"), found
    return found


def ops_rs(codes):
    arms = "".join(f"            {c} => Self::{op},\n" for op, c in codes)
    return (
        "#[repr(u8)]\n#[derive(Copy, Clone, Debug, PartialEq, Eq, Hash)]\npub enum ExpressionOp {\n"
        + "".join(f"    {op} = {c},\n" for op, c in codes)
        + "}\npub struct OpMeta {\n    pub name: &'static str,\n}\nimpl ExpressionOp {\n"
        + "    pub fn from_code(code: u8) -> Option<Self> {\n        Some(match code {\n" + arms + "            _ => return None,\n        })\n    }\n"
        + "    pub fn ordinal(self) -> u8 {\n        self as u8\n    }\n"
        + "    pub fn meta(self) -> OpMeta {\n        OpMeta { name: self.friendly_name() }\n    }\n"
        + "    pub fn friendly_name(self) -> &'static str {\n        \"?\"\n    }\n}\n"
    )


def opcodes_rs(instrs):
    arms = "".join(f"        Instr::{n}{' { .. }' if fields else ''} => {i + 1},\n" for i, (n, fields) in enumerate(instrs))
    return "fn opcode(i: &Instr) -> u8 {\n    match i {\n" + arms + "    }\n}\n"


def main(tree):
    codes = operators(open(f"{tree}/compile/codegen/mod.rs").read())
    instrs = instructions(open(f"{tree}/compile/program.rs").read())
    open(f"{tree}/ops.rs", "w").write(ops_rs(codes))
    open(f"{tree}/compile/opcodes.rs", "w").write(opcodes_rs(instrs))


main(sys.argv[1])
