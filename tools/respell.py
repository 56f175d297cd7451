#!/usr/bin/env python3
"""Respells the repository's own definitions, fields and lemmas: words in snake case, types in camel case.

Run once, at the top, after the kit's port.py. It finds the names that the .antt files declare, and writes the
new spelling wherever such a name stands in an .antt file, in a ghost line or clause of an .rt file, or in a
must-fail edit. Names that Rattle makes of the program's own names are left alone.
"""
import glob
import re
import sys

WORD = r"A-Za-z0-9_'\-₀-₉ℓα-ωΑ-ΩℕℤŁ"
TOKEN = re.compile(r"[%s]+" % WORD)

# a name that stays, since the program's text has it or Rattle makes it
KEEP = set()
# a name whose new spelling the rule does not give
CHOSEN = {
    # operators and rules of the example machine have the same letters
    "name-ADD": "name_add_operator",
    "name-CNST": "name_cnst_operator",
    "name-LOAD": "name_load_operator",
    "name-REG": "name_reg_operator",
    # the number of a field's refusal, beside `refusal_number` of any
    "refusalNumber": "field_refusal_number",
    # a lemma on `map_ok`, beside `map_err`
    "map-err": "map_ok_err",
    # the theorem of all accepted nodes, beside the record `LabelsStay` that it speaks of
    "Labels-stay": "AcceptedLabelsStay",
}


def respelled(name):
    if name in CHOSEN:
        return CHOSEN[name]
    if name in KEEP:
        return name
    if re.match(r"[A-Z]", name):
        parts = [p for p in name.split("-") if p]
        return "".join(p[0].upper() + p[1:] for p in parts)
    out = re.sub(r"(?<=[a-z0-9])(?=[A-Z])", "_", name).replace("-", "_")
    return "".join(c.lower() if "A" <= c <= "Z" else c for c in out)


DECL = re.compile(r"^(\s*)((?:abbrev |unfoldable |pub |record |data |ruleset )*)([^\s:(){}.,;=|\[\]λ→]+(?: [^\s:(){}.,;=|\[\]λ→]+)*)\s*((?:[({][^:]*:.*)?):\s")


def declared(text, path):
    names = set()
    for line in text.split("\n"):
        s = line.strip()
        if s.startswith(("--", "use ", "let ", "module ", "elim ", "|", "in ", "unfolding ")):
            continue
        m = DECL.match(line)
        if not m:
            continue
        if re.search(r":\s*goal\.", line):
            continue
        for n in m.group(3).split(" "):
            if TOKEN.fullmatch(n):
                names.add(n)
    return names


def antt_files():
    return sorted(
        f
        for f in glob.glob("crates/*/specs/**/*.antt", recursive=True) + glob.glob("crates/*/proofs/**/*.antt", recursive=True)
        if "/out/" not in f
    )


def rt_files():
    return sorted(f for f in glob.glob("crates/*/src/**/*.rt", recursive=True) if "/out/" not in f)


def own_names():
    names = {}
    for f in antt_files():
        for n in declared(open(f).read(), f):
            new = respelled(n)
            if new != n:
                names.setdefault(n, set()).add(f)
    for f in antt_files() + rt_files():
        for n in re.findall(r" as ([%s]+)" % WORD, "\n".join(l for l in open(f).read().split("\n") if re.match(r"\s*(ghost )?use ", l))):
            if respelled(n) != n:
                names.setdefault(n, set()).add(f)
    return names


STD = re.compile(r"(?:ghost )?use (?:Rattle\.std\b|borrow\b|native\b|denote\b|Prim\b|lib\b|mathlib\b|specs\b)[^{;]*\{([^}]*)\}")


def taken_from_std(text):
    names = set()
    for m in STD.finditer(text):
        for part in m.group(1).split(","):
            if " as " not in part:
                names.add(part.strip())
    return names


def respell_text(text, names, keep, where):
    """The text with each own name in its new spelling, but for the names that `keep` has."""
    said = set()

    def one(m):
        n = m.group(0)
        if n not in names or n in keep:
            return n
        before = text[max(0, m.start() - 2):m.start()]
        if before.endswith("c.") and not re.match(r"[%s]" % WORD, text[max(0, m.start() - 3)]):
            said.add(n)
        return respelled(n)

    out = TOKEN.sub(one, text)
    for n in sorted(said):
        print(f"look: {where}: c.{n} now c.{respelled(n)}")
    return out


def conflicts(f, text, names, keep):
    here = set(TOKEN.findall(text))
    made = {}
    for n in here & set(names) - keep:
        made.setdefault(respelled(n), []).append(n)
    for new, olds in made.items():
        if len(olds) > 1 or new in here:
            print(f"conflict: {f}: {sorted(olds)} and {new}: {new in here}")


def rt_parts(text):
    """Where comments and text literals stand in an .rt file."""
    return [(m.start(), m.end()) for m in re.finditer(r'b?"(?:[^"\\\\]|\\\\.)*"', text)]


def respell_rt(text, names, keep, where):
    out, last = [], 0
    for a, b in rt_parts(text):
        out.append(respell_text(text[last:a], names, keep, where))
        out.append(text[a:b])
        last = b
    out.append(respell_text(text[last:], names, keep, where))
    return "".join(out)


def main():
    names = own_names()
    if "--list" in sys.argv:
        for n in sorted(names):
            print(n, respelled(n), len(names[n]), sorted(names[n])[0])
        return
    edits = sorted(glob.glob("crates/*/must-fail/*.edit"))
    for f in antt_files() + rt_files() + edits:
        text = open(f).read()
        keep = taken_from_std(text)
        conflicts(f, text, names, keep)
        new = respell_rt(text, names, keep, f) if f.endswith((".rt", ".edit")) else respell_text(text, names, keep, f)
        if new != text and "--try" not in sys.argv:
            open(f, "w").write(new)


if __name__ == "__main__":
    main()
