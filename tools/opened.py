#!/usr/bin/env python3
"""opened.py: writes crates/meaning/proofs/Metered.antt, the one definition under which whole sessions compute.

Its `unfolding` line names every unfoldable definition of crates/meaning/specs that a session runs through, so run it
again when a definition is added there or renamed."""
import glob, os, re

ROOT = os.path.dirname(os.path.dirname(os.path.abspath(__file__)))
SPECS = os.path.join(ROOT, "crates/meaning/specs")
# Files of statements, which no session runs through.
STATEMENTS = {"Lib", "Plain", "Derives", "Select"}


def unfoldables(path):
    names, in_block = [], False
    for line in open(path, encoding="utf-8"):
        if line.startswith("unfoldable mutual"):
            in_block = True
        elif m := re.match(r"unfoldable pub (\S+) :", line):
            names.append(m.group(1))
        elif in_block and (m := re.match(r"  pub (\S+) :", line)):
            names.append(m.group(1))  # one member opens its whole block
            in_block = False
    return names


HEAD = """-- Sessions as the reference prints them: each line with the steps spent, the kept nodes and both counters after it.
-- To unfold `everything` is to unfold each definition that a session runs through. (Written by tools/opened.py.)
use mathlib.Core.List.{List, [], ◌∷◌}
use Prim.Native.Nat.{ℕ, suc}
use native.Mathlib.Decide.{ℕ_discrete, dec_lt}
"""

BODY = """
-- Named on a proof's `unfolding` line it opens all of them.
unfoldable pub everything : Unit {0}
unfolding {all}
everything = tt

-- A declaration's line, then ` | steps kept t-counter d-counter`.
unfoldable pub metered_lines : ℕ → List Answer → Text
metered_lines k [] cs = cs
metered_lines k (a ∷ rest) cs =
    show_nat k (quoted " " (show_result a.result (quoted " | " (show_nat a.spent (quoted " " (show_nat (kept a.checker) (quoted " "
    (show_nat a.checker.state.tv_counter (quoted " " (show_nat a.checker.state.dv_counter (quoted "\\n" (metered_lines (suc k) rest cs))))))))))))

-- A whole session with the meters of each declaration.
unfoldable pub metered : (budget work binders : ℕ) → List Decl → List ℕ
unfolding metered_lines everything
metered budget work binders ks = quoted "declarations " (show_nat (count ks) (quoted "\\n" (metered_lines 0 (session budget work binders ks new) [])))

-- What the listing program prints of declarations.
unfoldable pub lined : List Decl → List ℕ
unfolding everything
lined ks = printed (listing 512 65_536 512 65_536 ks)

-- A text's bytes.
unfoldable pub said : String → List ℕ
unfolding quoted
said s = quoted s []
"""


def main():
    text, everything = HEAD, []
    extra = {"Ast": ["Decl"], "Session": ["Answer"], "Text": ["Text"]}
    for path in sorted(glob.glob(SPECS + "/*.antt")):
        module = os.path.basename(path)[:-5]
        if module in STATEMENTS:
            continue
        names = unfoldables(path)
        everything += names
        if names + extra.get(module, []):
            text += f"use Rattle.meaning.specs.{module}.{{{', '.join(extra.get(module, []) + names)}}}\n"
    text += "use Prim.Native.String.{String}\n"
    text += BODY.replace("{all}", " ".join(everything) + " ℕ_discrete dec_lt")
    with open(os.path.join(ROOT, "crates/meaning/proofs/Metered.antt"), "w", encoding="utf-8") as f:
        f.write(text)


if __name__ == "__main__":
    main()
