"""feed.py REPO BIN WORK COUNT: feeds every program COUNT inputs and holds its status and what it writes to the static library's answers."""
import os
import random
import re
import struct
import subprocess
import sys

from inputs import frames, framed, one

repo, bins, work, count = sys.argv[1], sys.argv[2], sys.argv[3], int(sys.argv[4])
REASONS = {r: subprocess.check_output([os.path.join(repo, "bench/answers/check"), str(r)], text=True).strip() for r in range(2, 9)}
REPLAY = re.compile(
    r"(tree \d+: (refusal|length) \d+, expected \d+\n|tree \d+: byte \d+ is \d+, expected \d+\n)*"
    r"(tree \d+: the list is cut off|tree \d+: the list gives a length of \d+, for which there is no room"
    r"|the list is cut off before its first tree|the list goes on behind its \d+ trees|\d+( of \d+)? agree)\n")
faults = 0


def fault(program, i, words):
    global faults
    faults += 1
    if faults <= 20:
        print(f"FAULT {program} on input {i}: {words}")


def run(program, data):
    """Status, standard output, standard error."""
    paths = [os.path.join(work, n) for n in ("in", "out", "err")]
    with open(paths[0], "wb") as f:
        f.write(data)
    with open(paths[0], "rb") as i, open(paths[1], "wb") as o, open(paths[2], "wb") as e:
        status = subprocess.Popen([os.path.join(bins, program)], stdin=i, stdout=o, stderr=e, close_fds=False).wait()
    return status, open(paths[1], "rb").read(), open(paths[2], "rb").read()


def answers(images):
    """(refusal, program image) of each, by the static library."""
    got = subprocess.run([os.path.join(work, "answers")], input=framed(images), stdout=subprocess.PIPE, check=True).stdout
    at, out = 0, []
    while at < len(got):
        refusal, n = struct.unpack(">II", got[at:at + 8])
        out.append((refusal, got[at + 8:at + 8 + n]))
        at += 8 + n
    assert len(out) == len(images)
    return out


def listing(refusal, image):
    """The listing of an answer, as 01 lays it out."""
    if refusal:
        return f"refused {refusal}\n"
    n = struct.unpack(">I", image[5:9])[0]
    lines = ["%d %d %d %d %d" % ((i,) + struct.unpack(">BBIH", image[9 + 8 * i:17 + 8 * i])) for i in range(n)]
    stack, loops, handlers, flags, float_loop = struct.unpack(">HHHHB", image[-9:])
    return "\n".join(lines + [f"depths {stack} {loops} {handlers}", f"flags {flags}", f"float_loop {float_loop}"]) + "\n"


def held(program, i, data, out, err):
    """One run against the output and the line on standard error that are due."""
    status, got, said = run(program, data)
    if status != 0:
        fault(program, i, f"ends with {status}")
    if got != out:
        fault(program, i, f"standard output has {got[:60]!r}, not {out[:60]!r}")
    if said != err:
        fault(program, i, f"standard error has {said[:80]!r}, not {err[:80]!r}")


def replayed(i, stored):
    """A damaged replay list: a known last line, no signal, nothing on standard error."""
    r = random.Random(i)
    at = r.randrange(4, len(stored))
    data = bytearray(struct.pack(">I", r.choice([0, 1, 3, 2 ** 32 - 1])) + stored[4:at] if i % 4 else stored[:at % 5000])
    if i % 3 == 0 and data:
        data[r.randrange(len(data))] ^= 1 << r.randrange(8)
    status, got, said = run("replay", bytes(data))
    if status != 0 or said or not REPLAY.fullmatch(got.decode("ascii", "replace")):
        fault("replay", i, f"ends with {status}, {got[-80:]!r}, {said[:80]!r}")


def full(image):
    """Standard output that takes nothing: one line on standard error says so."""
    for program, data in (("listing", image), ("compile", image), ("pieces", framed([image, image]))):
        with open("/dev/full", "wb") as o:
            p = subprocess.run([os.path.join(bins, program)], input=data, stdout=o, stderr=subprocess.PIPE)
        if p.returncode != 0 or p.stderr != b"not written: standard output took only a part of it, or nothing\n":
            fault(program, "/dev/full", f"ends with {p.returncode}, {p.stderr!r}")


def main():
    stored = list(frames(open(f"{repo}/crates/pieces/stdin", "rb").read())) + [open(f"{repo}/examples/hand.tree", "rb").read()]
    stored = [s for s in stored if s]
    inputs = [one(i, stored) for i in range(count)]
    lists = [framed(inputs[i:i + 1 + i % 3])[:len(inputs[i]) + 4 + i % 50] if i % 4 else inputs[i] for i in range(count)]
    parts = [list(frames(data[:65536])) for data in lists]
    expected = answers(inputs)
    met = [sum(1 for r, _ in expected if r == n) for n in range(10)]
    for i, (data, (refusal, image)) in enumerate(zip(inputs, expected)):
        held("listing", i, data, listing(refusal, image).encode(), b"")
        held("compile", i, data, image, f"refused {refusal}: {REASONS[refusal]}\n".encode() if refusal else b"")
    of_parts = iter(answers([image for part in parts for image in part]))
    for i, (data, part) in enumerate(zip(lists, parts)):
        lines = [f"piece {k + 1}\n" + listing(*next(of_parts)) for k in range(len(part))]
        held("pieces", i, data, "".join(lines).encode(), b"")
    fed = "listing, compile, pieces"
    if os.path.exists(os.path.join(bins, "replay")):
        kept = open(f"{repo}/crates/replay/stdin", "rb").read()[:200000]
        for i in range(count):
            replayed(i, kept)
        fed += ", replay"
    full(stored[0])
    print(f"{count} inputs each to {fed}; accepted {met[0]}, refusals 2 to 8: {met[2:9]}; faults {faults}")
    return 1 if faults else 0


sys.exit(main())
