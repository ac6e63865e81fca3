#!/usr/bin/env python3
"""session_test.py NAME.ses [BUDGET WORK BINDERS]: a computed test of a session file, on standard output.
session_test.py --all: writes crates/sessions/proofs from recorded/index.txt.

A test is the file's declarations in antt, and the statement that they compute to the text that stands beside the file
in NAME.out (as the reference's listing prints it with its step columns). The file must be a good one: reading it with
its refusals is another definition's work."""
import os, re, struct, sys

HEAD = """-- Recorded sessions, computed: text, steps, kept nodes and both counters. (tools/session_test.py)
use mathlib.Core.Path.{◌≡◌, refl}
use mathlib.Core.Bool.{true, false}
use mathlib.Core.List.{List, [], ◌∷◌}
use Rattle.meaning.specs.Ast.{Ty, arrow, Expr, eint, ebool, eapp, Decl, nil, ◌◂◌}
use Rattle.meaning.proofs.Metered.{everything, metered, said}
use Rattle.meaning.proofs.Written.{v, c, ev, lam, bind, class, instance, define, check, at, sig, body}
"""


class Reader:
    def __init__(self, data):
        self.data, self.at = data, 0

    def u8(self):
        self.at += 1
        return self.data[self.at - 1]

    def u16(self):
        self.at += 2
        return struct.unpack_from("<H", self.data, self.at - 2)[0]

    def take(self, n):
        self.at += n
        return self.data[self.at - n:self.at]

    def many(self, item):
        return [item() for _ in range(self.u16())]


def antt_list(items):
    return "[]" if not items else "(" + " ∷ ".join(items) + " ∷ [])"


def declarations(data):
    """The declarations of a session file as antt terms, nodes written out as trees."""
    r = Reader(data)
    names = r.many(lambda: r.take(r.u8()).decode())
    quote = lambda i: f'"{names[i]}"'
    types, exprs = [], []

    def ty():
        tag = r.u8()
        if tag == 0:
            return f"(v {quote(r.u16())})"
        if tag == 1:
            con, args = quote(r.u16()), r.many(r.u16)
            return f"(c {con} " + ("nil)" if not args else "(" + " ◂ ".join(types[a] for a in args) + " ◂ nil))")
        return f"(arrow {types[r.u16()]} {types[r.u16()]})"

    def expr():
        tag = r.u8()
        if tag == 0:
            return f"(ev {quote(r.u16())})"
        if tag == 1:
            return f"(eint {struct.unpack('<Q', r.take(8))[0]})"
        if tag == 2:
            return "(ebool " + ("true)" if r.u8() else "false)")
        if tag == 3:
            return f"(lam {quote(r.u16())} {exprs[r.u16()]})"
        if tag == 4:
            return f"(eapp {exprs[r.u16()]} {exprs[r.u16()]})"
        return f"(bind {quote(r.u16())} {exprs[r.u16()]} {exprs[r.u16()]})"

    for _ in range(r.u16()):
        types.append(ty())
    for _ in range(r.u16()):
        exprs.append(expr())

    def decl():
        tag = r.u8()
        typed = lambda word: antt_list(r.many(lambda: f"{word} {quote(r.u16())} {types[r.u16()]}"))
        bodies = lambda: antt_list(r.many(lambda: f"body {quote(r.u16())} {exprs[r.u16()]}"))
        if tag == 0:
            name, var = quote(r.u16()), quote(r.u16())
            supers = antt_list(r.many(lambda: quote(r.u16())))
            return f"class {name} {var} {supers} {typed('sig')} {bodies()}"
        if tag == 1:
            context = typed("at")
            return f"instance {context} {quote(r.u16())} {types[r.u16()]} {bodies()}"
        if tag == 2:
            return f"define {quote(r.u16())} {exprs[r.u16()]}"
        return f"check {exprs[r.u16()]}"

    out = r.many(decl)
    if r.at != len(data):
        raise ValueError("bytes after the last declaration")
    return out


def test(path, budget="512", work="65536", binders="512"):
    tag = re.sub(r"[^A-Za-z0-9]+", "_", os.path.basename(path)[:-4])
    with open(path, "rb") as f:
        body = "\n    ∷ ".join(declarations(f.read()) + ["[]"])
    with open(path[:-4] + ".out", encoding="utf-8") as f:
        expected = f.read().replace("\n", "\\n")
    return (f"\nabbrev {tag} : List Decl\n{tag} =\n    {body}\n"
            f"\n{tag}_computed : metered {budget} {work} {binders} {tag} ≡ said \"{expected}\"\n"
            f"unfolding everything metered said\n{tag}_computed = refl\n")


def write_all():
    root = os.path.dirname(os.path.dirname(os.path.abspath(__file__)))
    modules = {}
    for line in open(os.path.join(root, "recorded/index.txt"), encoding="utf-8"):
        if line.strip() and not line.startswith("#"):
            module, name, *sizes = line.split()
            modules.setdefault(module, []).append(test(os.path.join(root, "recorded", name + ".ses"), *sizes))
    proofs = os.path.join(root, "crates/sessions/proofs")
    for module, tests in modules.items():
        with open(os.path.join(proofs, module + ".antt"), "w", encoding="utf-8") as f:
            f.write(HEAD + "".join(tests))
    with open(os.path.join(proofs, "Lib.antt"), "w", encoding="utf-8") as f:
        f.write("".join(f"pub mod {m}\n" for m in modules))


if __name__ == "__main__":
    if sys.argv[1:] == ["--all"]:
        write_all()
    else:
        sys.stdout.write(HEAD + test(*sys.argv[1:]))
