#!/usr/bin/env python3
"""respell: brings the repository's own definitions and lemmas to the kit's spelling (PORTING.md, part 3; CONTRACT_STYLE.md, Names).

    tools/respell.py [--list] [FOLDER]    # the repository at FOLDER, or this one; --list changes nothing and prints old and new names

A definition, a lemma, a field, a constructor and a constant has `_` between its words; a dash stays behind the name of a type alone. A lemma that
would get the name of a definition gets `_lem`. Names of the library, of Rattle's own goals and of functions in src/ are left. Where two names
would fall together in a file of definitions or proofs, nothing is written; a definition may have the name of the Rust function that it describes.
"""
import pathlib
import re
import sys

# names that would fall together with another word of ours or of the library
INSTEAD = {"in-loop": "in_a_loop", "in-handler": "in_a_handler", "finished-code": "the_finished_code", "nan-bits": "nan_bits_lem", "rule-of": "lowerings_of",
           "stackMax": "top_stack", "loopsMax": "top_loops", "handlersMax": "top_handlers"}
# names that are bound without a type
BOUND = set("set-pool set-count open-here yes-to no-to at-next at-check at-back stackMax loopsMax handlersMax".split())
STOP = r"\s(){}.,;:\"`→∷λ|"
TOKEN = re.compile(rf"[^{STOP}]+")
BARE = re.compile(rf"(?<![^{STOP}])(?<!\.)[^{STOP}]+")
KEYWORDS = r"(?:(?:pub|abbrev|unfoldable|mutual|record|data|let|where|ghost|in)\s+)*"
DECLARED = re.compile(rf"(?:^\s*|\blet\s|\bin\s|\bwhere\s){KEYWORDS}([^{STOP}]+)(?:\s+[({{][^)}}]*[)}}])*\s+:\s")
MEMBERS = re.compile(rf"^\s+(?:pub\s+)?((?:[^{STOP}]+\s+)+)(?:[({{][^)}}]*[)}}]\s+)*:\s")
USE = re.compile(r"^\s*(?:ghost\s+)?(?:pub\s+)?use\s+([^\s{;]+?)(?:\.\{(.*)\}|\s+as\s+(\S+?))?;?\s*$")
MADE = re.compile(r"(Answers|Invariants|Goals|Given)\.antt$")


def declarations(path):
    """(name, is a word and no lemma, is a field) of each declaration of a proof or definition file that Rattle did not ask for"""
    record_at = None
    for line in path.read_text().splitlines():
        if line.lstrip().startswith("--"):
            continue
        indent = len(line) - len(line.lstrip())
        if line.strip() and record_at is not None and indent <= record_at:
            record_at = None
        if record_at is None and re.match(r"\s*(?:pub |abbrev |unfoldable )*(?:record|data)\b", line):
            record_at = indent
        is_field = record_at is not None and indent > record_at
        found = MEMBERS.match(line) if is_field else None
        for name in found.group(1).split() if found else []:
            yield name, True, True
        for found in DECLARED.finditer(line):
            name = found.group(1)
            rest = line[found.end():]
            if MADE.search(path.name) and re.match(r"(goal|given)\.", rest.strip()):
                continue
            is_word = "/specs/" in str(path) or is_field or re.match(r"\s*(?:pub )?(?:abbrev|unfoldable|record|data)\b", line)
            yield name, bool(is_word), is_field


def own(names):
    """spelled otherwise than the kit spells: a hump or a dash inside"""
    return {n for n in names if re.search(r"[a-z0-9][A-Z]", n) and not n[0].isupper() or re.search(r"[^-]-[^-]", n)}


def snake(part):
    return part if part[:1].isupper() and not part.isupper() else re.sub(r"([a-z0-9])([A-Z])", lambda m: m.group(1) + "_" + m.group(2).lower(), part)


def respelled(name):
    """a constant keeps its capitals; behind the name of a type a dash stays"""
    if name.upper() == name and any(c.isalpha() for c in name):
        return name.replace("-", "_")
    parts = name.split("-")
    new = snake(parts[0])
    for part in parts[1:]:
        new += ("_" if part and not new[0].isupper() else "-") + snake(part)
    return new


class Repository:
    def __init__(self, top):
        self.top = top
        self.crates = {line.split(":")[0].split()[0] for line in (top / "crates.txt").read_text().splitlines() if line.strip() and line[0] != "#"}
        self.proofs = sorted(p for p in top.glob("crates/*/**/*.antt") if "/out/" not in str(p))
        self.words, self.fields, names = set(), set(), set()
        for path in self.proofs:
            for name, is_word, is_field in declarations(path):
                names.add(name)
                if is_field:
                    self.fields.add(name)
                if is_word:
                    self.words.add(name)
            names |= BOUND.intersection(TOKEN.findall(path.read_text()))
        self.map = {n: respelled(n) for n in own(names)}
        taken = {self.map.get(w, w) for w in self.words}
        for name in names - self.words:
            new = self.map.get(name, name)
            if new != name and new in taken:
                self.map[name] = new + "_lem"
        self.map = {n: m for n, m in (self.map | INSTEAD).items() if n != m and n in names}
        # an operator's own text, where it stands between its arguments
        self.map |= {n.strip("◌"): m.strip("◌") for n, m in self.map.items() if "◌" in n}

    def is_own_path(self, path):
        parts = path.split(".")
        return parts[0] == "Rattle" and len(parts) > 1 and parts[1] in self.crates

    def context(self, text, path=None):
        """names that come from the library here; aliases of modules that are not ours"""
        foreign, aliases = set(), set()
        for line in text.splitlines():
            line = re.sub(r"^(old|new): ", "", line)
            found = USE.match(line)
            if not found:
                continue
            module, items, alias = found.groups()
            if self.is_own_path(module) and not module.endswith((".Goals", ".Given")):
                continue
            if items:
                foreign |= {i.split(" as ")[-1].strip() for i in items.split(",")}
            if alias:
                aliases.add(alias)
        if path is not None and path.suffix == ".antt":
            foreign -= {d[0] for d in declarations(path)}
            if MADE.search(path.name):
                foreign |= made_here(text)
        return foreign, aliases

    def turned(self, text, foreign, aliases):
        def line_turned(line):
            found = USE.match(re.sub(r"^(old|new): ", "", line))
            if found and (not self.is_own_path(found.group(1)) or found.group(1).endswith((".Goals", ".Given"))):
                return line
            comment = re.match(r"(.*?)(--\s.*|//.*|#.*)?$", line)
            return self.code(comment.group(1), foreign, aliases) + self.prose(comment.group(2) or "")
        return "\n".join(line_turned(line) for line in text.split("\n"))

    def code(self, text, foreign, aliases):
        def one(found):
            name, start = found.group(0), found.start()
            if name not in self.map or name in foreign:
                return name
            if start and text[start - 1] == ".":
                head = re.search(rf"([^{STOP}]*)\.$", text[:start]).group(1)
                if head in aliases or not head[:1].isupper() and name not in self.fields:
                    return name
            return self.map[name]
        return TOKEN.sub(one, text)

    def prose(self, text):
        """in a comment or a page: words with a hump, and names between backquotes"""
        text = re.sub(r"`[^`]*`", lambda m: TOKEN.sub(lambda t: self.map.get(t.group(0), t.group(0)), m.group(0)), text)
        return TOKEN.sub(lambda t: self.map.get(t.group(0), t.group(0)) if re.search(r"[a-z][A-Z]", t.group(0)) or t.group(0).isupper() else t.group(0), text)


def made_here(text):
    return set(re.findall(r"^(?:pub |abbrev )*(\S+) : (?:goal|given)\.", text, re.M))


def main():
    arguments = sys.argv[1:]
    option = arguments.pop(0) if arguments and arguments[0].startswith("--") else ""
    top = pathlib.Path(arguments[0] if arguments else pathlib.Path(__file__).resolve().parent.parent).resolve()
    repository = Repository(top)
    if option == "--list":
        for name, new in sorted(repository.map.items()):
            print(name, new)
        return
    files = repository.proofs + sorted(top.glob("crates/*/src/**/*.rt")) + sorted(top.glob("crates/*/must-fail/*.edit"))
    files += sorted(top.glob("bench/edits/**/*.edit"))
    new_texts, wrong = {}, 0
    for path in files:
        text = path.read_text()
        context_text = text
        if path.suffix == ".edit":
            target = re.search(r"^file: (\S+)", text, re.M).group(1)
            crate = path.parent.parent
            near = crate / target
            context_text = text + "\n" + (near.read_text() if near.exists() else "")
        foreign, aliases = repository.context(context_text, path)
        new = repository.turned(text, foreign, aliases)
        if path.suffix != ".edit":
            wrong += fallen_together(path.relative_to(top), text, new, repository, foreign)
        if new != text:
            new_texts[path] = new
    for path in [top / "README.md"] + sorted((top / "docs").glob("**/*.md")):
        text = path.read_text()
        new = "\n".join(repository.prose(line) for line in text.split("\n"))
        if new != text:
            new_texts[path] = new
    if wrong:
        sys.exit(f"respell: {wrong} names fall together, nothing is written")
    for path, new in new_texts.items():
        path.write_text(new)
    print(f"respell: {len(repository.map)} names, {len(new_texts)} files")


def fallen_together(path, text, new, repository, foreign):
    if path.suffix == ".rt":
        return 0
    lines = (re.sub(r"--\s.*", "", line) for line in text.splitlines())
    before = {t for line in lines if not USE.match(line) for t in BARE.findall(line)}
    before |= {i.strip() for line in text.splitlines() if USE.match(line) and USE.match(line).group(2) for i in USE.match(line).group(2).split(",")}
    wrong = 0
    by_new = {}
    for name in before:
        target = repository.map.get(name, name) if name not in foreign else name
        by_new.setdefault(target, set()).add(name)
    for target, olds in sorted(by_new.items()):
        if len(olds) > 1:
            print(f"{path}: {' and '.join(sorted(olds))} would both be {target}")
            wrong += 1
    return wrong


main()
