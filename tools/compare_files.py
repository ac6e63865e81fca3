#!/usr/bin/env python3
"""Damages session files and compares two readers of them, number and offset of each.

  compare_files.py PROGRAM REFERENCE [COUNT [SEED]]

PROGRAM is the program of crates/replay_files: files on standard input, each after its length in four bytes, a line for
each. REFERENCE is a command that takes file names and writes for each a line that ends in two numbers: 0 and how many
declarations there are, or a refusal's number and offset. COUNT files are made of those in recorded/ (100,000 if it is
not given); SEED makes a run repeatable. Ends with 1 if a line differs.
"""
import glob, os, random, shlex, subprocess, sys, tempfile

BATCH = 2000
WORDS = [b"self", b"d0", b"d00", b"d", b"dx", b"d9_", b"d_ctx_", b"d_ctx", b"d_ctx_Eq_0", b"__super_", b"__super", b"_",
         b"__super_Ord__Eq", b"t", b"t0", b"t01", b"t9x", b"T1", b"selfish", b"Int", b"Bool", b"a", b"z", b"primEqInt",
         b"", b"n" * 32, b"n" * 33, b"n-n", b"n n", b"n\x00", b"\x80n", b"9", b"A_z"]


def name_places(data):
    """The place of each name's length byte, as far as there are any."""
    places, at = [], 2
    for _ in range(int.from_bytes(data[:2], "little")):
        if at >= len(data):
            break
        places.append(at)
        at += 1 + data[at]
    return places


def with_name(data, at, word):
    return data[:at] + bytes([len(word)]) + word + data[at + 1 + data[at]:]


def one_change(data, rnd):
    kind = rnd.randrange(9)
    at = rnd.randrange(len(data) + 1)
    if kind == 0:
        return data[:at]
    if kind == 1:
        return data + bytes(rnd.randrange(256) for _ in range(rnd.randint(1, 4)))
    if kind == 2:
        return data[:at] + bytes([rnd.randrange(256)]) + data[at + 1:]
    if kind == 3:
        return data[:at] + bytes([rnd.randrange(8)]) + data[at + 1:]
    if kind == 4:
        number = rnd.choice([0, 1, 2, 63, 64, 65, 511, 512, 513, 1023, 1024, 1025, 4095, 4096, 4097, 65535])
        return data[:at] + number.to_bytes(2, "little") + data[at + 2:]
    if kind == 5:
        return data[:at] + data[at + rnd.randint(1, 3):]
    if kind == 6:
        return data[:at] + bytes(rnd.randrange(4) for _ in range(rnd.randint(1, 3))) + data[at:]
    places = name_places(data)
    if not places:
        return data
    if kind == 7:
        return with_name(data, rnd.choice(places), rnd.choice(WORDS))
    first = rnd.choice(places)
    return with_name(data, rnd.choice(places), data[first + 1:first + 1 + data[first]])


def damaged(seeds, rnd):
    data = rnd.choice(seeds)
    for _ in range(rnd.choice([0, 1, 1, 1, 2, 3])):
        data = one_change(data, rnd)
    return data


def at_the_limits():
    """Counts at their limits and one past them, and files of about the greatest length."""
    def two(n):
        return n.to_bytes(2, "little")

    def names(n):
        texts = [b"n%d" % i for i in range(n)]
        return two(n) + b"".join(bytes([len(t)]) + t for t in texts)

    none = two(0)
    for n in (0, 1, 1023, 1024, 1025):
        yield names(n) + none * 3
    for n in (4095, 4096, 4097):
        yield names(1) + two(n) + b"\0\0\0" * n + none * 2
        yield names(1) + none + two(n) + b"\2\1" * n + none
    for n in (511, 512, 513):
        yield names(1) + none + two(1) + b"\2\1" + two(n) + b"\3\0\0" * n
    for n in (63, 64, 65):
        yield names(1) + two(2) + b"\0\0\0" + b"\1\0\0" + two(n) + none * n + none * 2
        yield names(1) + none * 2 + two(1) + b"\0" + none * 2 + two(n) + none * n + none * 2
    for n in (0, 1, 65534, 65535, 65536, 65590):
        yield b"\0" * n
    for own in range(3):
        yield names(1) + two(3) + b"\0\0\0" + b"\0\0\0" + b"\2" + two(own) + two(own + 1) + none * 2


def lines_of(program, batch):
    data = b"".join(len(f).to_bytes(4, "little") + f for f in batch)
    return subprocess.run(shlex.split(program), input=data, capture_output=True).stdout.decode().split("\n")


def answers_of(reference, batch, folder):
    paths = []
    for i, f in enumerate(batch):
        paths.append(os.path.join(folder, "%d.ses" % i))
        with open(paths[-1], "wb") as out:
            out.write(f)
    text = subprocess.run(shlex.split(reference) + paths, capture_output=True).stdout.decode()
    return [tuple(int(x) for x in l.split()[-2:]) for l in text.split("\n") if l]


def as_answer(line):
    words = line.split()
    return (0, int(words[4])) if words and words[0] == "read" else tuple(int(x) for x in words[1:])


def main():
    program, reference = sys.argv[1:3]
    count = int(sys.argv[3]) if len(sys.argv) > 3 else 100_000
    rnd = random.Random(int(sys.argv[4]) if len(sys.argv) > 4 else 1)
    here = os.path.join(os.path.dirname(os.path.abspath(__file__)), "..", "recorded", "*.ses")
    seeds = [open(p, "rb").read() for p in sorted(glob.glob(here))]
    files, told, bad = list(at_the_limits()), {}, 0
    with tempfile.TemporaryDirectory() as folder:
        while count > 0:
            while len(files) < min(BATCH, count):
                files.append(damaged(seeds, rnd))
            for f, line, want in zip(files, lines_of(program, files), answers_of(reference, files, folder)):
                told[want[0]] = told.get(want[0], 0) + 1
                if as_answer(line) != want:
                    bad += 1
                    print("differs:", line, want, f[:80].hex())
            count -= len(files)
            files = []
    print(sum(told.values()), "files;", ", ".join("%d: %d" % p for p in sorted(told.items())), ";", bad, "differ")
    sys.exit(bad > 0)


main()
