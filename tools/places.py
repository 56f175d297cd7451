#!/usr/bin/env python3
"""Lists the places in src/ that docs/DESIGN-PASS.md counts, a heading for each kind, with their number.

    python3 tools/places.py [ROOT]        counts, and the places
    python3 tools/places.py [ROOT] -c     counts alone
"""
import collections
import glob
import itertools
import os
import re
import sys

args = [a for a in sys.argv[1:] if a != "-c"]
short = "-c" in sys.argv
os.chdir(args[0] if args else ".")
FILES = sorted(glob.glob("crates/*/src/**/*.rt", recursive=True))
TEXT = {p: open(p, encoding="utf-8").read() for p in FILES}

# kind: (title, pattern of a line)
LINES = [
    ("1a", "arms `None =>` and `Err(..) =>` of a match", r"^\s*(None|Err\(\w+\)) =>"),
    ("1b", "comments that name a filler: 0 where there is none", r"//.*(\b0 where|\b0 for none)"),
    ("1c", "enums of two cases", None),
    ("1d", "functions that answer a number for a kind of refusal", r"fn number\(&?self\) -> u8"),
    ("1e", "functions that answer a number that means nothing", r"^(    )?0$"),
    ("3a", "loops that count an index", r"^\s*('\w+: )?for .* in (\(?\w+\.\.|.*\.enumerate\(\))"),
    ("3b", "loops by `while`", r"^\s*('\w+: )?while "),
    ("3c", "tests of an index or a number against a length", r"\bif .*(<|>=|<=|>) ?[\w.]*(len\(\)|count\(\)|self\.len\b)|number\.0 < self\.count\(\) &&"),
    ("3d", "loops that search, answering from within", None),
    ("4a", "impls of conversions", r"^impl.* (From|TryFrom|FromStr)<"),
    ("4b", "methods and functions that compare", r"fn (same\w*|is|compare|is_own_source|is_rank_of)\b"),
    ("4c", "impls of comparison, copying or printing by hand", r"^impl(<[^>]*>)? (PartialEq|Eq|PartialOrd|Ord|Clone|Copy|Debug|Display)(<.*>)? for "),
    ("6a", "lengths beside memory", r"^\s*(len|most): usize,|^\s*bytes: \[u8; 16\],"),
    ("6b", "links by number", r"^\s*(pub )?(head|next|before): Option<u32>,|RowEnd\(pub Option<u32>\)"),
    ("7a", "matches on which form, kind or make is meant", r"match (form|kind|self|header\.make|entry|machine|rule\.form|node\.kids|key) \{"),
]


def lines(pattern):
    for p in FILES:
        for i, line in enumerate(TEXT[p].split("\n"), 1):
            if re.search(pattern, line):
                yield f"{p}:{i}: {line.strip()}"


def two_cases():
    for p in FILES:
        text = re.sub(r"//.*", "", TEXT[p])
        for m in re.finditer(r"enum (\w+)[^{;]*\{", text):
            i, depth, commas = m.end(), 1, 0
            while depth:
                c = text[i]
                depth += (c in "{(") - (c in "})")
                if depth == 1 and c == ",":
                    commas += 1
                i += 1
            if commas == 2:
                yield f"{p}: {m.group(1)}"


def searching_loops():
    for p in FILES:
        rows = TEXT[p].split("\n")
        for i, line in enumerate(rows):
            m = re.match(r"(\s*)('\w+: )?(for|while) ", line)
            if m:
                end = next((j for j in range(i + 1, len(rows)) if rows[j].startswith(m.group(1) + "}")), i)
                if any(re.search(r"\breturn\b", r) for r in rows[i:end]):
                    yield f"{p}:{i + 1}: {line.strip()}"


def clauses():
    for p in FILES:
        crate = p.split("/")[1]
        for m in re.finditer(r"\b(ensures|requires)\b(?:\s+\w+)?\s*\{", TEXT[p]):
            i, depth = m.end(), 1
            while depth:
                depth += {"{": 1, "}": -1}.get(TEXT[p][i], 0)
                i += 1
            yield crate, " ".join(TEXT[p][m.end():i - 1].split())


def repeated():
    same, facts = collections.Counter(), collections.Counter()
    for crate, text in clauses():
        same[(crate, text)] += 1
        names = re.findall(r"→ ((?:[A-Z]\w*\.)*(?:Means|Holds|Stands|Keeps|Lived|Knows|means|keeps|Few|Priced)\b)", "→ " + text)
        for name in {n.split(".")[-1] for n in names}:
            facts[(crate, f"{name} .. → ..")] += 1
        if re.search(r"numbered \(next_place \w+\.\w+\) \(to_come \w+\.\w+\)", text):
            facts[(crate, "numbered (next_place ..) (to_come ..)")] += 1
    for table in (same, facts):
        for (crate, text), n in sorted(table.items()):
            if n >= 3:
                yield f"{crate}: {n} times: {text}"


def together():
    groups = collections.defaultdict(list)
    for p in FILES:
        crate = p.split("/")[1]
        for m in re.finditer(r"\bfn (\w+)(?:<[^(]*?>)?\(", TEXT[p]):
            i, depth = m.end(), 1
            while depth:
                depth += {"(": 1, ")": -1}.get(TEXT[p][i], 0)
                i += 1
            parts = re.split(r",(?![^<(\[]*[>)\]])", TEXT[p][m.end():i - 1])
            names = [" ".join(re.sub(r"'\w+ ?|\bmut ", "", x).split()) for x in parts if ":" in x]
            for three in itertools.combinations(names, 3):
                groups[(crate, three)].append(m.group(1))
    for (crate, three), functions in sorted(groups.items()):
        if len(functions) >= 3:
            yield f"{crate}: {', '.join(three)}: {', '.join(functions)}"


def proofs():
    count = collections.Counter()
    for p in glob.glob("crates/*/proofs/**/*.antt", recursive=True):
        count[p.split("/")[1]] += len(open(p, encoding="utf-8").read().split("\n")) - 1
    for crate in sorted(count):
        yield f"{crate}: {count[crate]} lines"


OWN = {"1c": two_cases, "3d": searching_loops}
KINDS = [(k, t, (lambda q=q: lines(q)) if q else OWN[k]) for k, t, q in LINES]
KINDS.append(("5a", "facts in three or more contracts of a crate", repeated))
KINDS.append(("5b", "three parameters that three or more functions of a crate share", together))
KINDS.append(("8a", "crates with proofs by hand", proofs))
for kind, title, places in sorted(KINDS, key=lambda k: k[0]):
    found = list(places())
    print(f"{kind} {len(found):4}  {title}")
    if not short:
        for place in found:
            print("          " + place)
