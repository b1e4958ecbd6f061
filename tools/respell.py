#!/usr/bin/env python3
"""Turns the repository's own definitions, fields and lemmas to today's spelling, after port.py has run.

usage: python3 tools/respell.py [--list]      at the top of the repository, with everything committed

Every name that an .antt file of crates/ declares in camel case from a small letter, or with dashes, becomes snake case: addOf is add_of,
wrong-trace-bound is wrong_trace_bound. A lemma that would then have a definition's or another lemma's name gets _lem behind it. Names of
functions of src/, types and modules keep theirs, and so do the goals that a Proof.antt answers, which Rattle names. Turned are the code of
.antt and .rt files, the edits in must-fail/, and, in comments, pages and the lists of tests/, code spans and words that stand nowhere in
prose. --list prints the table and writes nothing. A second run changes nothing.
"""
import collections
import os
import re
import sys

DECLARED = re.compile(
    r"^(\s*)((?:(?:unfoldable|irrelevant|opaque|abbrev|instance|private|pub|record|data|ruleset)\s+)*)"
    r"([^\s(){}.;,@\"«»:=]+(?:\s+[^\s(){}.;,@\"«»:=]+)*)\s:(?:\s|$)"
)
GOAL = re.compile(r":\s*tie\.Need-")
WORD = re.compile(r"[^\s(){}.;,@\"«»\[\]`:/|*…]+")
COMMENT = {".antt": re.compile(r"--[^\n]*"), ".rt": re.compile(r"//[^\n]*")}
# Words of prose that are also names here.
PROSE = {"whole-file", "same-named"}


def read(path):
    with open(path, encoding="utf-8", newline="") as f:
        return f.read()


def files(root, suffixes):
    for folder, dirs, names in os.walk(root):
        dirs[:] = sorted(d for d in dirs if d not in ("out", "target", ".git"))
        for name in sorted(names):
            if name.endswith(suffixes):
                yield os.path.join(folder, name)


def snake(name):
    name = name.replace("-", "_")
    return re.sub(r"(?<=[a-z0-9])([A-Z])", lambda m: "_" + m[1].lower(), name)


def is_odd(name):
    return name[0].islower() and ("-" in name or re.search(r"[a-z0-9][A-Z]", name)) and re.fullmatch(r"[\w'₀-₉-]+", name)


def table():
    top, inner, goals = collections.defaultdict(set), collections.defaultdict(set), set()
    for path in files("crates", (".antt",)):
        for line in read(path).split("\n"):
            if line.lstrip().startswith("--"):
                continue
            found = DECLARED.match(line)
            if not found:
                continue
            for name in found[3].split():
                if path.endswith("Proof.antt") and GOAL.search(line):
                    goals.add(name)
                else:
                    (inner if found[1] else top)[name].add(path)
    turned = {}
    owners = collections.defaultdict(set)
    for name in top:
        owners[snake(name)].add(name)
    for name in sorted(set(top) | set(inner)):
        if not is_odd(name):
            continue
        to = snake(name)
        # a definition, in camel case or already as it is to be, keeps the plain name before a lemma
        others = [o for o in owners[to] if o != name and "-" not in o]
        turned[name] = to + "_lem" if "-" in name and others else to
    for to, names in owners.items():
        # port.py has turned a lemma whose name a definition in camel case comes to
        if to in names and any("-" not in n and n != to for n in names):
            turned[to] = to + "_lem"
    return turned, top, inner, goals


def turn(text, turned, keep, prose):
    """The text with each word of the table turned but for those of keep; prose: only words with a capital or a code span."""

    def word(found):
        w = found[0]
        if w in keep or w not in turned:
            # a name with a mark of the language before it, as ¬f or ←e
            bare = w.lstrip("¬←(")
            return w[: len(w) - len(bare)] + turned[bare] if bare != w and bare in turned and bare not in keep else w
        return turned[w]

    if not prose:
        return WORD.sub(word, text)
    spans = re.split(r"(`[^`\n]*`)", text)
    return "".join(
        WORD.sub(word, part) if part.startswith("`") else WORD.sub(lambda m: m[0] if m[0] in PROSE else word(m), part)
        for part in spans
    )


def code_and_comments(path, text, turned, keep):
    comment = COMMENT[os.path.splitext(path)[1]]
    out, at = [], 0
    for found in comment.finditer(text):
        # a comment begins a line or stands behind a blank
        if found.start() and text[found.start() - 1] not in " \n\t":
            continue
        if found.start() < at:
            continue
        out.append(turn(text[at : found.start()], turned, keep, False))
        out.append(turn(found[0], turned, keep, True))
        at = found.end()
    out.append(turn(text[at:], turned, keep, False))
    return "".join(out)


def main():
    turned, top, inner, goals = table()
    if "--list" in sys.argv:
        for name in sorted(turned):
            print(name, turned[name], "field" if name not in top else "")
        return
    for path in sorted(set(files("crates", (".antt", ".rt", ".edit"))) | set(files("docs", (".md",))) | set(files("tests", (".txt", ".pl", ".pm"))) | {"README.md", "CHANGELOG.md"}):
        text = read(path)
        keep = set()
        if path.endswith("Proof.antt"):
            keep = {n for line in text.split("\n") if GOAL.search(line) for n in line.split(" : ")[0].split()}
        if path.endswith((".antt", ".rt")):
            new = code_and_comments(path, text, turned, keep)
        elif path.endswith(".edit"):
            new = "\n".join(turn(l, turned, keep, not re.match(r"(old|new|file):", l)) for l in text.split("\n"))
        else:
            new = turn(text, turned, keep, True)
        if new != text:
            with open(path, "w", encoding="utf-8", newline="") as f:
                f.write(new)
            print(path)


main()
