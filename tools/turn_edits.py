#!/usr/bin/env python3
"""Brings the edits that the check must refuse (crates/*/must-fail, crates/*/also-fail) to the spelling of the sources after port.py and respell.py.

usage: python3 tools/turn_edits.py            at the top of the repository: rewrites, in place, each edit of a .antt file that still has the old spelling
       python3 tools/turn_edits.py --check    lists each edit that does not apply to the tree as it stands; with a folder behind it, to the tree in that folder

LANDED is the last commit of the old spelling, TURNED the commit that respelled the sources and no edit. For each pair of an edit the line that holds
its old text is found in LANDED's file and the line that became of it in TURNED's. What each word became is learnt from all the lines of both. Those words,
and the few rules of `turned`, make the new line from the old one: it must come out as TURNED has it, letter for letter, or the edit is left and listed.
The same words and rules are then applied to the line with the wrong text in it, so that the new edit is wrong in what the old one was wrong in.
Imports were gathered in one line of the prelude: an edit that imports a word has it added in front of the first of the line that imports the others.
Edits of src/ name code, which kept its spelling: --check tells those whose line was wrapped anew, and they are turned by hand.
An edit whose text is no longer LANDED's was turned before, by this script or by hand, and is left alone.
"""
from __future__ import annotations

import difflib
import functools
import glob
import os
import re
import subprocess
import sys
from collections import Counter, defaultdict

LANDED = "312978c260d24ed6d2a461becd08da41e96d48bb"
TURNED = "4a147fdbdcaca0af3a88aad0425d63b6aca478fe"
WORD = re.compile(r"[^\s(){},;:.·«»\[\]`]+")
TOKEN = re.compile(r"\s+|[(){},;]|[^\s(){},;]+")
USE = re.compile(r"^(?:pub )?use (\S+?)\.?\{([^}]*)\}$")
APART = {"let", "in", "where", "record", "λ", "unfolding"}

Pair = tuple[str, str]


class Left(Exception):
    """Why an edit cannot be turned."""


@functools.lru_cache(maxsize=None)
def at(commit: str, path: str) -> str:
    return subprocess.run(["git", "show", f"{commit}:{path}"], capture_output=True, text=True, encoding="utf-8").stdout


def edits(root: str = ".") -> list[str]:
    return sorted(p for kind in ("must-fail", "also-fail") for p in glob.glob(os.path.join(root, "crates", "*", kind, "*.edit")))


def parsed(text: str) -> tuple[str, list[Pair]]:
    """The file that an edit changes and its pairs of texts."""
    lines = text.split("\n")
    file = next(line[6:] for line in lines if line.startswith("file: "))
    olds = [line[5:] for line in lines if line.startswith("old: ")]
    news = [line[5:] for line in lines if line.startswith("new: ") or line == "new:"]
    if len(olds) != len(news):
        raise Left("its old and new texts are not pairs")
    return file, list(zip(olds, news))


def key(line: str) -> str:
    """What the respelling leaves of a line, nearly: two lines with the same key are one line."""
    return re.sub(r"[\s()·._\-◌′']", "", line).lower()


@functools.lru_cache(maxsize=None)
def aligned(path: str) -> dict[int, int]:
    """Which line of TURNED's file each line of LANDED's became."""
    a, b = at(LANDED, path).split("\n"), at(TURNED, path).split("\n")
    found = {}
    for tag, i, k, j, m in difflib.SequenceMatcher(None, [key(x) for x in a], [key(x) for x in b], autojunk=False).get_opcodes():
        if tag == "equal" or k - i == m - j:
            found.update(zip(range(i, k), range(j, m)))
    return found


@functools.lru_cache(maxsize=None)
def words_of(path: str) -> dict[str, Counter[str]]:
    """What each word of LANDED's file is in TURNED's, and how often."""
    a, b = at(LANDED, path).split("\n"), at(TURNED, path).split("\n")
    seen: dict[str, Counter[str]] = defaultdict(Counter)
    for i, j in aligned(path).items():
        old, new = WORD.findall(a[i].replace("′", "'")), WORD.findall(b[j])
        if len(old) == len(new) and not a[i].startswith(("use ", "--")):
            for x, y in zip(old, new):
                seen[x][y] += 1
    return seen


@functools.lru_cache(maxsize=None)
def names(path: str) -> dict[str, str]:
    """The words of a file; of those that it has not, what they are in any file of specs/."""
    found: dict[str, str] = {}
    everywhere: dict[str, Counter[str]] = defaultdict(Counter)
    for other in subprocess.run(["git", "ls-tree", "-r", "--name-only", LANDED, "crates"], capture_output=True, text=True).stdout.split():
        if re.match(r"crates/\w+/specs/.*\.antt$", other):
            for word, into in words_of(other).items():
                everywhere[word].update(into)
    for table in (everywhere, words_of(path)):
        for word, into in table.items():
            found[word] = into.most_common(1)[0][0]
    return found


def operator(token: str) -> bool:
    return token != "_" and not any(c.isalnum() or c in "[]\"" for c in token) and not re.match(r"\.\w", token)


def applied(tokens: list[str], i: int, out: list[str]) -> int:
    """Appends tokens from i on to out, up to the bracket that closes them, with each projection tight: (x .f) is x.f, f x .p is (f x).p."""
    spine: list[str] = []
    space = ""

    def flush() -> None:
        if spine:
            out.append(" ".join(spine))
            spine.clear()

    while i < len(tokens):
        t = tokens[i]
        if t.isspace():
            space = t
            i += 1
            continue
        if t in ")}":
            break
        if re.match(r"\.\w", t) and space and spine:
            spine[:] = [(spine[0] if len(spine) == 1 else "(" + " ".join(spine) + ")") + t]
            i, space = i + 1, ""
            continue
        atom, apart = t, operator(t) or t in ",;{" or t in APART or (t.endswith(".") and len(t) > 1)
        if t == "(":
            inner: list[str] = []
            k = applied(tokens, i + 1, inner)
            body, closed = "".join(inner), k < len(tokens) and tokens[k] == ")"
            raw = "".join(tokens[i + 1 : k])
            alone = re.search(r" \.\w+$", raw) and single(body)
            atom = body if alone and closed else "(" + body + (")" if closed else "")
            i = k
        if apart or (not spine and space):
            flush()
            out.append(space)
        elif spine and not space:
            spine[-1] += atom
            i += 1
            continue
        if apart:
            out.append(atom)
        else:
            spine.append(atom)
        space = ""
        i += 1
        if t == "{":
            i = applied(tokens, i, out)
            if i < len(tokens):
                out.append("}")
                i += 1
    flush()
    out.append(space)
    return i


def single(text: str) -> bool:
    """One word with its projections, or brackets with theirs: no space stands outside of brackets."""
    depth = 0
    for c in text:
        depth += (c == "(") - (c == ")")
        if depth == 0 and c.isspace():
            return False
    return True


def turned(text: str, table: dict[str, str]) -> str:
    """A line, or a part of one, in the new spelling."""
    text = text.replace("′", "'")
    text = re.sub(r"Rattle·(\w+)·(specs|proofs)\.\2(?![\w'-])", r"Rattle.\1.\2", text)
    text = re.sub(r"Rattle·(\w+)", r"Rattle.\1", text)
    text = re.sub(r"(?<![\w'])_([^\w\s,{}]+)_(?![\w'])", r"◌\1◌", text)
    text = WORD.sub(lambda m: table.get(m.group(0), m.group(0)), text)
    tokens, out, i = TOKEN.findall(text), [], 0
    while i < len(tokens):
        i = applied(tokens, i, out)
        if i < len(tokens):
            out.append(tokens[i])
            i += 1
    return "".join(out)


def items(line: str) -> list[str]:
    m = USE.match(line)
    return [x.strip() for x in m.group(2).split(",")] if m else []


def importing(pair: Pair, now: str, table: dict[str, str]) -> Pair | None:
    """The pair that adds to the imports of a file what an edit's pair adds, or None where all of it is imported already."""
    old, new = (turned(t, table) for t in pair)
    uses = [line for line in now.split("\n") if USE.match(line)]
    had = {x for line in uses for x in items(line)}
    more = [x for x in items(new) if x not in items(old) and x not in had]
    if not more:
        return None
    module = USE.match(new).group(1)
    best = max(uses, key=lambda line: (USE.match(line).group(1) == module, len(set(items(line)) & set(items(old)))))
    start, first = best[: best.index("{") + 1], items(best)[0]
    return start + first, start + ", ".join([*more, first])


def shortest(now: str, line: str, wrong: str) -> Pair:
    """The least whole words in which two lines differ, widened until they stand once in the file."""
    a, b = TOKEN.findall(line), TOKEN.findall(wrong)
    i = 0
    while i < min(len(a), len(b)) and a[i] == b[i]:
        i += 1
    k = 0
    while k < min(len(a), len(b)) - i and a[-1 - k] == b[-1 - k]:
        k += 1
    while True:
        old, new = "".join(a[i : len(a) - k]), "".join(b[i : len(b) - k])
        if old.strip() and now.count(old) == 1:
            return old, new
        if not i and not k:
            raise Left("its line stands more than once")
        i, k = max(0, i - 1), max(0, k - 1)


def turn(path: str) -> str:
    """The text of an edit in the new spelling."""
    text = at(LANDED, path)
    file, pairs = parsed(text)
    source = "/".join(path.split("/")[:2]) + "/" + file
    table, lines = names(source), aligned(source)
    before, now = at(LANDED, source), at(TURNED, source)
    made: list[Pair | None] = []
    for old, new in pairs:
        if before.count(old) != 1:
            raise Left("its old text did not stand once in LANDED's file")
        n = before.count("\n", 0, before.index(old))
        line = before.split("\n")[n]
        before = before.replace(old, new)
        if old.startswith("use "):
            pair = importing((old, new), now, table)
        else:
            if n not in lines:
                raise Left("no line of TURNED's file is told to be its line")
            here, wrong = now.split("\n")[lines[n]], turned(line.replace(old, new), table)
            if turned(line, table) != here:
                raise Left(f"its line is not made as it stands:\n    {line}\n    {turned(line, table)}\n    {here}")
            pair = turned(old, table), turned(new, table)
            if now.count(pair[0]) != 1 or here.replace(*pair) != wrong:
                pair = shortest(now, here, wrong)
        made.append(pair)
        if pair:
            if now.count(pair[0]) != 1 or pair[0] == pair[1]:
                raise Left("its new pair does not stand once")
            now = now.replace(*pair)
    out, left = [], iter(made)
    for row in text.split("\n"):
        if row.startswith("old: "):
            pair = next(left)
            if pair:
                out += [f"old: {pair[0]}", f"new: {pair[1]}" if pair[1] else "new:"]
        elif row.startswith("new:"):
            continue
        elif row.startswith("file:"):
            out.append(row)
        else:
            out.append(re.sub(r"`([^`]*)`", lambda m: "`" + WORD.sub(lambda w: table.get(w.group(0), w.group(0)), m.group(1)) + "`", row))
    return "\n".join(out)


def fault(path: str) -> str | None:
    """Why an edit does not apply to the tree that it stands in."""
    with open(path, encoding="utf-8") as f:
        file, pairs = parsed(f.read())
    source = os.path.join(os.path.dirname(os.path.dirname(path)), file)
    if not os.path.exists(source):
        return f"{file} is not there"
    with open(source, encoding="utf-8") as f:
        now = f.read()
    for old, new in pairs:
        if now.count(old) != 1:
            return f"stands {now.count(old)} times in {file}: {old}"
        if old == new:
            return f"changes nothing: {old}"
        now = now.replace(old, new)
    for line in now.split("\n"):
        twice = [x for x, n in Counter(items(line)).items() if n > 1]
        if twice:
            return f"imports {', '.join(twice)} twice"
    return None


def check(root: str) -> int:
    all_, bad = edits(root), 0
    for path in all_:
        try:
            why = fault(path)
        except (Left, StopIteration) as e:
            why = str(e) or "it names no file"
        if why:
            bad += 1
            print(f"{os.path.relpath(path, root)}: {why}")
    print(f"{len(all_)} edits, {bad} do not apply")
    return 1 if bad else 0


def main(argv: list[str]) -> int:
    if argv[:1] == ["--check"]:
        return check(argv[1] if argv[1:] else ".")
    done, left = 0, 0
    for path in edits():
        path = os.path.relpath(path)
        with open(path, encoding="utf-8") as f:
            text = f.read()
        if text != at(LANDED, path) or parsed(text)[0].startswith("src/"):
            continue
        try:
            new = turn(path)
        except Left as e:
            left += 1
            print(f"{path}: {e}")
            continue
        if new != text:
            done += 1
            with open(path, "w", encoding="utf-8") as f:
                f.write(new)
    print(f"{done} edits turned, {left} left")
    return 1 if left else 0


if __name__ == "__main__":
    raise SystemExit(main(sys.argv[1:]))
