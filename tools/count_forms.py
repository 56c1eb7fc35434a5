#!/usr/bin/env python3
"""Counts, in a checkout, the places of docs/DESIGN-PASS.md's eight points: `python3 tools/count_forms.py [FOLDER]`, with --list each place too."""

import glob
import os
import re
import subprocess
import sys
from collections import Counter

TABLES = {"vertices", "walks", "hops", "hop_size"}
# Parameters that stand for one thing: the tables, an id table, the bounds of a split, a table and its numbers.
GROUPS = {
    "tables": lambda p: len(TABLES & p) >= 2 and "hops" in p,
    "id table": lambda p: {"bs", "ns", "ms"} <= p or {"bt", "nt", "mt"} <= p or {"b", "n", "m"} <= p,
    "bounds": lambda p: {"lo", "hi"} <= p,
    "held buffer and its table": lambda p: bool({"held", "b", "table"} & p) and "t" in p,
}


def functions(text):
    """The functions of a file: name, the names of the parameters with their types, the clauses and the body."""
    for m in re.finditer(r"^ *(?:pub(?:\([a-z]+\))? )?(?:extern \"C\" )?fn (\w+)(?:<[^>]*>)?\(([^{]*?)\)(?: -> ([^\n{]*))?\n((?: +(?:requires|ensures)[^\n]*\n(?: {8,}[^\n]*\n)*)*) *\{\n(.*?)^ *\}$", text, re.S | re.M):
        name, given, result, clauses, body = m.groups()
        yield name, dict(re.findall(r"(\w+): ([^,]+(?:\[[^\]]*\])?)", given)), result or "", clauses, body


def split_enums(text):
    """The enums of a file with their variants."""
    for m in re.finditer(r"^(?:pub )?enum (\w+) \{\n(.*?)^\}", text, re.S | re.M):
        yield m[1], re.findall(r"^    (\w+)", re.sub(r"\{.*?\}", "", m[2], flags=re.S), re.M)


def places(root):
    found = {k: [] for k in ("1 enum like Option or Result", "1 flag with a value", "1 number for a refusal", "3 loop by hand", "4 by hand", "5 parameters that travel together", "5 clause in three functions", "6 buffer with a length", "6 search by hand", "7 switch")}
    clauses = Counter()
    for path in sorted(glob.glob(f"{root}/crates/*/src/*.rt")):
        crate = path.split("/crates/")[1].split("/")[0]
        text = open(path).read()
        code = re.sub(r"//[^\n]*", "", text)
        for name, variants in split_enums(code):
            if len(variants) <= 2 and name != "Kind" or {"Faulty", "Bad"} & set(variants):
                found["1 enum like Option or Result"].append(f"{crate}::{name}")
        for m in re.finditer(r"^(?:pub )?struct (\w+) \{\n(.*?)^\}", code, re.S | re.M):
            if re.search(r": bool,", m[2]) or re.search(r"\b(number|refusal): u32", m[2]) and "place: u32" in m[2]:
                found["1 flag with a value"].append(f"{crate}::{m[1]}")
        found["1 number for a refusal"] += [f"{crate}: {m[0]}" for m in re.finditer(r"refused\(\d+,|refusal\(\d+,|\.number != 0|-> Refusal\b|\bnumber: u32\b", code)]
        fn = ""
        for line in code.split("\n"):
            m = re.match(r" *(?:pub(?:\([a-z]+\))? )?fn (\w+)", line)
            fn = m[1] if m else fn
            if re.match(r" *(while|loop)\b", line):
                found["3 loop by hand"].append(f"{crate}::{fn}")
        for name, given, result, said, body in functions(code):
            here = f"{crate}::{name}"
            if re.search(r"^(same_bytes|lesser|not_after|lower|sooner|later_of|less|below|put_number|decimal|digits)$", name):
                found["4 by hand"].append(here)
            found["5 parameters that travel together"] += [f"{here} ({g})" for g, test in GROUPS.items() if test(set(given))]
            if any(re.search(r"\[u(8|16|32)\]", t) for t in given.values()) and {"count", "n", "size", "height"} & set(given):
                found["6 buffer with a length"].append(here)
            if re.search(r"\(lo \+ hi\) / 2|lo \+ \(hi - lo\) / 2", body):
                found["6 search by hand"].append(here)
            if any(t.strip() == "bool" for t in given.values()):
                found["7 switch"].append(here)
            for c in set(re.findall(r"requires (?:\w+ )?\{ (.*) \}", said)):
                clauses[c] += 1
    found["5 clause in three functions"] = [f"{c} ({n})" for c, n in sorted(clauses.items()) if n >= 3]
    return found


def proofs(root):
    answers = notes = 0
    for path in glob.glob(f"{root}/crates/*/proofs/**/Answers.antt", recursive=True):
        answers += len(re.findall(r"^pub [\w.+-]+ : goal\.", open(path).read(), re.M))
    for path in glob.glob(f"{root}/crates/*/proofs/**/*.antt", recursive=True):
        text = open(path).read()
        body = "\n".join(l for l in text.split("\n") if not re.match(r"(pub )?use |pub mod |mod |--", l))
        words = set(re.findall(r"[^\s(){}\[\],;.]+", body))
        for names in re.findall(r"^use [^\n{]*\{([^}]*)\}", text, re.M):
            for one in names.split(","):
                one = one.strip()
                parts = [p for p in one.split("◌") if p]
                notes += not (one in words or parts and all(p in body for p in parts))
    return {"8 answers": answers, "8 imported names that are not said": notes}


def main():
    shown = "--list" in sys.argv
    roots = [a for a in sys.argv[1:] if a != "--list"]
    root = roots[0] if roots else "."
    for point, these in places(root).items():
        print(f"{len(these):5}  {point}")
        for one in these if shown else []:
            print(f"         {one}")
    for point, number in proofs(root).items():
        print(f"{number:5}  {point}")


main()
