#!/usr/bin/env python3
"""places.py [TREE]: counts in src/ and proofs/ the places that docs/DESIGN-PASS.md speaks of."""
import glob
import re
import sys

TREE = sys.argv[1] if len(sys.argv) > 1 else "."
TEXT = {p: open(p).read() for p in sorted(glob.glob(f"{TREE}/crates/*/src/**/*.rt", recursive=True))}
CODE = {p: re.sub(r"//[^\n]*", "", t) for p, t in TEXT.items()}
FAILS = {"Refused", "Bad", "Nothing", "Cut", "Wrong", "Over", "Missing", "Clash", "Full", "Failed", "First"}


def enums():
    for p, t in CODE.items():
        for m in re.finditer(r"enum (\w+) \{(.*?)\n\}", t, re.S):
            yield p, m.group(1), re.findall(r"^\s+(\w+)(?:\([^)]*\))?,", m.group(2), re.M)


def functions():
    for p, t in CODE.items():
        for m in re.finditer(r"fn (\w+)(?:<[^>]*>)?\(([^)]*)\)", t):
            yield p, m.group(1), re.sub(r"\s+", " ", m.group(2))


def lines(pattern):
    return sum(len(re.findall(pattern, t, re.M)) for t in CODE.values())


def together(pattern):
    return sum(bool(re.search(pattern, ps)) for _, _, ps in functions())


rows = [
    ("1 own enums of the shape of Option or Result", sum(bool(set(vs) & FAILS) for _, _, vs in enums())),
    ("1 arms that hand on a refusal", lines(r"(Refused|Bad|Wrong)\([^)]*\) => (return )?\w+(::\w+)*::(Refused|Bad|Wrong)\(")),
    ("1 numbers for kinds", lines(r"\b(tag|op) == \d")),
    ("3 loops by while or loop", lines(r"\bwhile |\bloop \{")),
    ("3 loops by for", lines(r"^\s*for .* in ")),
    ("4 equality, order, conversion, printing by hand", lines(r"fn (less|same|same_row|number|code|wide|byte_of|text|decimal|count|letter|weight)\b")),
    ("5 base, work and names together", together(r"base: &\[u64\].*work: ")),
    ("5 top and left together", together(r"top: usize, left: usize")),
    ("5 at and k together", together(r"at: usize, k: usize")),
    ("5 vs, ps and t together", together(r"vs: usize, (ps|preds): usize, [tu]: usize")),
    ("5 tv and dv together", together(r"tv: usize, dv: usize")),
    ("5 src and index together", together(r"src: &\[u8\], index: &\[u64\]")),
    ("5 classes and insts together", together(r"classes: &\[u64\].*insts: &\[u64\]")),
    ("5 env and order together", together(r"env: &\[u64\], order: &\[u64\]")),
    ("5 file and at together", together(r"file: &\[u8\], at: usize")),
    ("7 functions that switch on a number op", together(r"\bop: usize")),
    ("8 answers", sum(len(re.findall(r"^(?:pub )?\S+ : goal\.", open(p).read(), re.M)) for p in glob.glob(f"{TREE}/crates/*/proofs/**/Answers.antt", recursive=True))),
    ("lines of src", sum(t.count("\n") for t in TEXT.values())),
    ("parameters of a function, on average", round(sum(len([x for x in ps.split(",") if x.strip()]) for _, _, ps in functions()) / max(1, len(list(functions()))), 2)),
]
for name, n in rows:
    print(f"{n:>7}  {name}")
