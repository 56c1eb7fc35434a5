#!/usr/bin/env python3
"""Brings the repository's own definitions, lemmas, fields and variables to snake case, after port.py of the kit.

usage: python3 tools/respell.py            at the top of the repository, once: rewrites specs/, proofs/ and the clauses of src/ in place
       python3 tools/respell.py --names    prints each old and new name

A word is respelled if it begins with a small letter and has a capital in it, as heldList, which becomes held_list; each part of a name that
dashes join, too. A field or definition of specs/ has no dash: vertices-few becomes vertices_few. Types, modules and facts keep their capital.
Functions of src/, strings and exported names keep theirs. Where a new name would be one that stands already, TWO has another.
"""
import glob
import re
import sys

PART = r"[^\s(){}.;,@\"«»\[\]\\:`]+"
TOKEN = re.compile(r"--[^\n]*|\"(?:[^\"\\]|\\.)*\"|" + PART)
CAMEL = re.compile(r"^[a-z]+[0-9]*[A-Z]")
DECLARED = re.compile(r"^\s*(?:abbrev |unfoldable |pub |data |record )*(" + PART + "(?: " + PART + r")*) :")

# Lemmas that a definition's new name would fall together with: each has _lem behind it, in the file that declares it and where that one is imported.
LEMMAS = {
    "ends_now": ["lines/proofs/Lines"],
    "entry_in": ["journeys/proofs/VendorLists"],
    "held_back": ["records/proofs/RecordBytes"],
    "no_stop": ["vetting/proofs/FitLaws"],
    "number_read": ["rows/proofs/Quoteless"],
    "read_as": ["reread/proofs/Reading"],
    "refused_as": ["covering/proofs/Answered"],
    "standing_by": ["trips/proofs/AsDefined"],
    "stop_is": ["recorded/proofs/Whole", "naming/proofs/Places"],
    "stops_at": ["lines/proofs/Reading"],
    "walk_at": ["journeys/proofs/Decoding"],
    "in_order": ["answered/proofs/Vertices", "hoporder/proofs/HopOrder"],
}


def snake(part):
    return re.sub(r"(?<=[a-z0-9])[A-Z]|(?<=[A-Z])[A-Z](?=[a-z])", lambda m: "_" + m.group(0).lower(), part)


def files(kind):
    return sorted(glob.glob(f"crates/*/{kind}/**/*.antt", recursive=True))


def tokens(text):
    for m in TOKEN.finditer(text):
        t = m.group(0)
        if not t.startswith(("--", '"')):
            yield m.start(), t


def sources():
    return sorted(glob.glob("crates/*/src/**/*.rt", recursive=True))


def table():
    names, foreign = {}, set()
    for path in files("specs") + files("proofs") + sources():
        text = open(path, encoding="utf-8").read()
        for m in re.finditer(r"^(?:ghost )?use (\S+?)\.?\{([^}]*)\}|^(?:ghost )?use (\S+)", text, re.M):
            whole = m.group(1) or m.group(3)
            own = re.match(r"Rattle\.(\w+)", whole)
            if own and own.group(1) in CRATES:
                continue
            for _, t in tokens(m.group(2) or ""):
                foreign.add(t)
        for _, t in tokens(text):
            if path.endswith(".rt"):
                continue
            for part in t.split("-"):
                if CAMEL.match(part) and t not in foreign:
                    names[t] = None
    for path in files("specs"):
        for line in open(path, encoding="utf-8"):
            m = DECLARED.match(line)
            if m and not line.lstrip().startswith("--"):
                for t in m.group(1).split():
                    if "-" in t and re.match(r"^[a-z]", t):
                        names[t] = None
    specs = set()
    for path in files("specs"):
        for line in open(path, encoding="utf-8"):
            m = DECLARED.match(line)
            if m:
                specs.update(m.group(1).split())
    for t in names:
        new = "-".join(snake(p) for p in t.split("-"))
        if t in specs:
            new = new.replace("-", "_")
        names[t] = new
    return {a: b for a, b in names.items() if a not in foreign and a != b}


CRATES = {p.split("/")[1] for p in glob.glob("crates/*/src")}


def respelled(text, names):
    """The names, also where a comment has them between backquotes."""
    quoted = lambda m: "`" + TOKEN.sub(lambda k: names.get(k.group(0), k.group(0)), m.group(1)) + "`"
    one = lambda t: re.sub(r"`([^`]*)`", quoted, t) if t.startswith("--") else names.get(t, t)
    return TOKEN.sub(lambda m: one(m.group(0)), text)


def lemmas(path, text):
    """The lemmas of LEMMAS that a file declares or imports, under their new names."""
    for name, homes in LEMMAS.items():
        for home in homes:
            crate, _, module = home.split("/")
            here = path == f"crates/{home}.antt"
            brought = re.search(rf"^use Rattle\.{crate}\.proofs\.{module}\.\{{[^}}]*(?<![\w'-]){name}(?![\w'-])", text, re.M)
            if here or brought:
                text = re.sub(rf"(?<![\w'.-]){name}(?![\w'.-])", name + "_lem", text)
    return text


def main(argv):
    names = table()
    if argv == ["--names"]:
        for a, b in sorted(names.items()):
            print(a, b)
        return 0
    if not names:
        print("nothing is left to respell")
        return 0
    for path in files("specs") + files("proofs") + sources():
        old = open(path, encoding="utf-8").read()
        new = respelled(lemmas(path, old) if path.endswith(".antt") else old, names)
        if new != old:
            with open(path, "w", encoding="utf-8") as out:
                out.write(new)
    print(len(names), "names respelled")
    return 0


if __name__ == "__main__":
    raise SystemExit(main(sys.argv[1:]))
