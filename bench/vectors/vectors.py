"""Worked examples as text: a line with the example's name, then `image HEX`, then `program HEX` or `refused NUMBER`; other lines are not looked at.

vectors.py ANSWERS FILE..: holds the answers of the program ANSWERS (bench/robust/answers.c over the static library) to the examples of each file.
"""
import struct
import subprocess
import sys


def examples(path):
    """(name, tree image, (refusal, program image)) of each example."""
    with open(path, encoding="utf-8") as f:
        blocks = [block.splitlines() for block in f.read().split("\n\n")]
    for lines in blocks:
        told = dict(line.split(" ", 1) for line in lines if line.startswith(("image ", "program ", "refused ")))
        if "image" in told:
            yield lines[0].split()[0], bytes.fromhex(told["image"]), (int(told.get("refused", 0)), bytes.fromhex(told.get("program", "")))


def answers(program, trees):
    got = subprocess.run([program], input=b"".join(struct.pack(">I", len(t)) + t for t in trees), stdout=subprocess.PIPE, check=True).stdout
    at = 0
    for _ in trees:
        refusal, n = struct.unpack_from(">II", got, at)
        yield refusal, got[at + 8:at + 8 + n]
        at += 8 + n


def held(program, path):
    """Whether every example of a file is answered as it says; a line for each that is not, and one for the file."""
    found = list(examples(path))
    wrong = [(name, got, due) for (name, _, due), got in zip(found, answers(program, [tree for _, tree, _ in found]), strict=True) if got != due]
    for name, got, due in wrong:
        print(f"{path}: {name} gives {got[0]} and {len(got[1])} bytes {got[1].hex()}, not {due[0]} and {len(due[1])} bytes {due[1].hex()}")
    print(f"{path}: {len(found) - len(wrong)} of {len(found)} agree")
    return bool(found) and not wrong


if __name__ == "__main__":
    sys.exit(0 if all([held(sys.argv[1], path) for path in sys.argv[2:]]) else 1)
