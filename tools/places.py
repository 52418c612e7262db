#!/usr/bin/env python3
"""places.py [FOLDER]: counts, below FOLDER/crates/*/src (here: this repository), the places that docs/DESIGN-PASS.md tells of, point by point, and lists them.

1 own enums, flags with a value beside, constants and signatures in which a number stands for a kind; 2 functions alike but for names and numbers; 3 loops that
are no `for`; 4 casts by `as`, conversions, comparisons and prints by hand; 5 clauses and pairs of parameters that many functions share; 6 lengths beside
buffers; 7 matches on which rule to run, parameters that name an instruction; 8 lines of proofs.
"""
import collections
import glob
import os
import re
import sys

ROOT = sys.argv[1] if len(sys.argv) > 1 else os.path.dirname(os.path.dirname(os.path.abspath(__file__)))
KINDS = r"number|refusal|rule|op|o|kind|sub|step|last|first_word"
HAND = r"larger|fewer|least|wide|number|sum|one_more|plus|high|low|two|four|joined|float_of|bits_of|is_identity|pack|put_text|text|root_kind|root_index|divisor"


def sources():
    for path in sorted(glob.glob(f"{ROOT}/crates/*/src/*.rt")):
        with open(path, encoding="utf-8") as f:
            yield os.path.relpath(path, f"{ROOT}/crates"), f.read()


def closing(text, at, pair):
    """The place behind the bracket that closes the one at `at`."""
    depth = 0
    for i in range(at, len(text)):
        depth += {pair[0]: 1, pair[1]: -1}.get(text[i], 0)
        if depth == 0:
            return i + 1
    return len(text)


def functions(text):
    """Name, parameters, result, clauses and body of each function with a body."""
    for m in re.finditer(r"^( *)(?:pub(?:\(crate\))? )?fn (\w+)(?:<[^(]*>)?\(", text, re.M):
        behind = closing(text, m.end() - 1, "()")
        opens = re.compile(rf"^{m[1]}\{{\n|(?<=[^=]) \{{\n(?=.*\n)", re.M).search(text, behind)
        ends = text.find(";\n", behind)
        if not opens or 0 <= ends < opens.start() and "{" not in text[behind:ends]:
            continue
        start = opens.end() - 2
        head = text[behind:start]
        result = re.match(r" -> ([^\n{]+)", head)
        parameters = re.sub(r"\s+", " ", text[m.end():behind - 1]).strip(" ,")
        yield m[2], parameters, result[1].strip() if result else "()", head, text[start + 1:closing(text, start, "{}") - 1].strip("\n")


def skeleton(body):
    """A body with each name and number taken out."""
    words = re.sub(r"//[^\n]*", "", body)
    return re.sub(r"\s+", "", re.sub(r"\b(?!let|mut|if|else|while|for|in|return|match|as\b)\w+\b", "_", words))


def show(title, rows):
    print(f"{title}: {len(rows)}")
    for row in rows:
        print(f"    {row}")


def main():
    enums, flags, constants, signatures, loops, casts, hand, prints, lengths, switches = [], [], [], [], [], [], [], [], [], []
    alike, clauses, pairs = collections.defaultdict(list), collections.Counter(), collections.Counter()
    for path, text in sources():
        enums += [f"{path} {n}" for n in re.findall(r"^\s*(?:pub )?enum (\w+)", text, re.M)]
        flags += [f"{path} {n}" for n, body in re.findall(r"struct (\w+)[^{;]*\{(.*?)\n\}", text, re.S) if re.search(r"\b(fine|written|number): (bool|u8)", body)]
        n = len(re.findall(r"^pub const [A-Z_]+: u8 = ", text, re.M))
        if n and re.search(r"refusals|operators|opcodes|subs", path):
            constants.append(f"{path} {n}")
        loops += [f"{path} {line.strip()}" for line in re.findall(r"^\s*(?:while|loop) .*$", text, re.M)]
        casts += [path] * len(re.findall(r" as (?:u8|u16|u32|u64|usize)\b", text))
        prints += [path] * len(re.findall(r"\bio::(?:write_all|print_decimal)\b", text))
        switches += [f"{path} match {x}" for x in re.findall(r"match (rule|op) ", text)]
        for name, parameters, result, head, body in functions(text):
            if re.search(rf"\b({KINDS}): u(8|16|32)\b", parameters) or (result in ("u8", "u32") and re.search(r"rule|kind|refusal|check_image|number_of|divisor|^op$|op_at", name)):
                signatures.append(f"{path} {name}")
            if re.fullmatch(HAND, name):
                hand.append(f"{path} {name}")
            if re.search(r"\b(image|out|tree|room): &(mut )?\[u8\], n: usize", parameters):
                lengths.append(f"{path} {name}")
            if body.count("\n") >= 2:
                alike[skeleton(body)].append(f"{path} {name}")
            for clause in re.findall(r"requires \{ (.*?) \}\n", head, re.S):
                clauses.update(part.strip("() ") for part in clause.split("×"))
            names = [p.strip() for p in parameters.split(",") if ":" in p]
            pairs.update(zip(names, names[1:]))
    families = [members for members in alike.values() if len(members) > 1]
    print("1"), show("own enums", enums), show("flags or numbers with a value beside", flags), show("constants for kinds", constants), show("signatures with a number for a kind", signatures)
    print("2"), show("families of functions alike", [", ".join(f) for f in families])
    print("3"), show("loops that are no for", loops)
    print("4"), print(f"casts: {len(casts)}"), show("conversions, comparisons, prints by hand", hand), print(f"calls that print bytes: {len(prints)}")
    print("5"), show("facts in three clauses or more", [f"{n} {c}" for c, n in clauses.most_common() if n > 2])
    show("parameters side by side in ten functions or more", [f"{n} {a}, {b}" for (a, b), n in pairs.most_common() if n > 9])
    print("6"), show("lengths beside buffers", lengths)
    print("7"), show("switches", switches)
    proofs = {c: sum(len(open(p, encoding="utf-8").readlines()) for p in glob.glob(f"{ROOT}/crates/{c}/proofs/**/*.antt", recursive=True)) for c in sorted(os.listdir(f"{ROOT}/crates"))}
    print("8"), print(f"lines of proofs: {sum(proofs.values())}"), print("    " + ", ".join(f"{c} {n}" for c, n in proofs.items() if n))


main()
