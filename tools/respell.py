#!/usr/bin/env python3
"""Respells the repository's own antt names: definitions, fields and lemmas in snake case; a dash joins two names of
definitions only. The names stand in respelled.txt beside this script, a line each, old and new.

usage: tools/respell.py          once, at the top of the repository, after the scripts of the toolchain: rewrites crates/ and docs
       tools/respell.py --list   prints the lines for respelled.txt, as the files stand now
"""
import collections
import os
import re
import sys

NAMES = os.path.join(os.path.dirname(os.path.realpath(__file__)), "respelled.txt")
TOKEN = re.compile(r"[^\s(){}\[\],;.«»⌜⌝`\"]+")
WORD = re.compile(r"[A-Za-z_][A-Za-z0-9_'²]*(?:[-+][A-Za-z0-9_'²]+)*")
DEFINED = re.compile(
    r"^(\s*)(?:abbrev |unfoldable |pub )*([^\s(){};:,.|=λ]+)(?: +:|:)(?= |$)"
)
TAKEN = re.compile(r"^(?:pub )?use (?!Rattle\.(?!std\b))[^{\n]*\{([^}]*)\}", re.M)
OPENED = re.compile(r"^(?:abbrev |unfoldable |pub )*(?:record|data) (\S+)")
# words of the library that lemmas are named by
WORDS = set(
    """append cons nil length take drop map set replicate zero one two suc add sub mul div mod pow neg not and or refl
    get_or getD reverse filter range min max sum elements degree size order leading""".split()
)


# names that would fall together
APART = {
    "in_field": "in_field_lem",
    "set_rest": "set_rest_lem",
    "step_by": "step_by_lem",
    "keys_below": "keys_below_lem",
    "is_x": "is_x_lem",
    "answer-told": "told_answer",
    "one-term-short": "short_by_one",
    "ratingOf": "rating_at",
    "degreeIn": "degree_from",
    "degreeOf": "degree_of",
}
LEMMAS = """changed-state common-within free-label kept-state massey-degree massey-first monic-over outcome-told
    rating-refused repeat-length""".split()


def files(root, ends):
    for folder, dirs, names in os.walk(root):
        dirs[:] = sorted(d for d in dirs if d not in ("out", ".git", "target"))
        for name in sorted(names):
            if name.endswith(ends):
                yield os.path.join(folder, name)


def walked(path):
    return os.path.basename(path) in ("Proof.antt", "Answers.antt", "Invariants.antt")


def read(path):
    with open(path, encoding="utf-8") as f:
        return f.read()


def snake(piece):
    return re.sub(r"(?<=[a-z0-9])([A-Z])(?=[a-z0-9]|$)", lambda m: "_" + m[1].lower(), piece)


def listed():
    words, members, types, generated, taken = set(), set(), set(), set(), set()
    for path in files("crates", ".antt"):
        deep = None
        text = read(path)
        for m in TAKEN.finditer(text):
            taken |= {w for part in m[1].split(",") for w in part.split()}
        for line in text.splitlines():
            if opened := OPENED.match(line):
                deep = 0
                types.add(opened[1])
                continue
            if line.strip() and not line.startswith((" ", "--")):
                deep = None
            m = DEFINED.match(line)
            if not m:
                continue
            name = m[2].rstrip(":")
            if walked(path):
                generated.add(name)
            elif deep is not None and m[1]:
                members.add(name)
            else:
                words.add(name)
    # a name of an answer is Rattle's; a name in camel case is ours wherever it stands
    known = {w for w in words if "-" not in w} | WORDS
    ours = {n for n in (words | members) - generated} | {n for n in generated if re.match(r"[a-z]+[A-Z]", n)}
    out = {}
    for name in sorted(ours - taken):
        if not re.match(r"[a-z]", name) or not re.search(r"[A-Z]|-", name):
            continue
        pieces = name.split("-")
        new = pieces[0] if pieces[0] in types else snake(pieces[0])
        for left, right in zip(pieces, pieces[1:]):
            named = name in words and left in known and right in known
            if not re.match(r"[a-z]", right) or not left:
                named = True
            if re.match(r"[a-z]+[A-Z]", right) and right not in known and right[0].upper() + right[1:] in types:
                new += "-" + right[0].upper() + right[1:]
            else:
                new += ("-" if named else "_") + snake(right)
        new = new.replace("getD", "get_or").replace("get_d", "get_or")
        if new != name:
            out[name] = new + "_lem" * (name in LEMMAS)
    return out | APART


def respelled(text, names, pattern):
    return pattern.sub(lambda m: names.get(m[0], m[0]), text)


def outside_strings(text, names):
    parts = re.split(r'(b?"(?:[^"\\]|\\.)*")', text)
    return "".join(p if i % 2 else respelled(p, names, WORD) for i, p in enumerate(parts))


def main():
    if sys.argv[1:] == ["--list"]:
        for old, new in listed().items():
            print(old, new)
        return
    names = dict(line.split() for line in read(NAMES).splitlines())
    changed = 0
    for path in list(files("crates", (".antt", ".rt"))) + list(files("docs", ".md")) + ["README.md"]:
        text = read(path)
        if path.endswith(".antt"):
            new = respelled(text, names, TOKEN)
        elif path.endswith(".rt"):
            new = outside_strings(text, names)
        else:
            new = re.sub(r"`[^`\n]+`", lambda m: respelled(m[0], names, WORD), text)
        if new != text:
            with open(path, "w", encoding="utf-8") as f:
                f.write(new)
            changed += 1
    print(f"respelled: {len(names)} names in {changed} files")


main()
