#!/usr/bin/env python3
"""Places of older forms in src/, by the points of docs/DESIGN-PASS.md, which has the counts.

  tools/places.py             the counts of all points
  tools/places.py 3           each place of a point, with its file and function
  tools/places.py all FOLDER  the same of a checkout elsewhere, for example of an earlier commit

It reads crates/*/src without comments. A function is what stands from `fn` to the end of its body, clauses and all. It looks
at words and brackets alone: what it finds is read, and it does not find all (docs/DESIGN-PASS.md counts in a second way)."""
import collections
import difflib
import itertools
import pathlib
import re
import sys

WORD = re.compile(r"""b?"(?:\\.|[^"\\])*"|b'[^']+'|'\w+|[^\W\d]\w*|\d\w*|==|=>|->|\.\.|[-+*/%&|^<>!]=|\s+|.""", re.DOTALL)
OPEN, CLOSE = "([{", ")]}"
REFUSING = {"Refused", "Nothing", "Bad"}
NUMBERED = re.compile(r"\b(?:kind|mode|stage|after|k|s|file\[\w+\]) (?:==|!=|<=|<) \d+(?=[^.]*\{)|\b\d+ < [ks] \{"
                      r"|\b\w+ == NO_\w+|\b(?:body_of|count_of|byte_of)\(file, \d+|\bNO_[A-Z]+: \w+ = \d+"
                      r"|\[\[u8; \d+\]; \d+\]|\bword: [12]\b")
NUMBERED_IN = ("route", "rate_file", "exports", "printing")
CONVERTS = re.compile(r"(?!\w*out_of_|power_of)(?:\w+_)?of(?:_\w+)?|\w+_told|named_by|\w+_rating|\w+_name"
                      r"|refusal_number|wide|status")
BY_HAND = re.compile(r"smaller|copy|zero|same|largest|is_known|next_at_most|put_\w+|big_endian|lay")
COUNTS = {"n", "m", "count", "size", "at", "from", "to", "x", "y", "e", "l", "k", "i", "step", "o", "a"}


def bare(text):
    """Without comments and what is said to the prover above an item."""
    return re.sub(r"//[^\n]*", "", re.sub(r"#!?\[tactic\([^]]*\]\n", "", text))


def closing(text, at):
    depth = 0
    for i in range(at, len(text)):
        depth += (text[i] in OPEN) - (text[i] in CLOSE)
        if depth == 0:
            return i
    return len(text) - 1


class Function:
    def __init__(self, file, text, at):
        self.file, self.at = file, at
        self.name = re.compile(r"fn (\w+)").match(text, at)[1]
        start = text.index("(", at)
        end = closing(text, start)
        head = re.compile(r"(?:requires|ensures)\b|\{").search(text, end)
        self.result = text[end + 1:head.start()].strip().removeprefix("->").strip()
        self.parameters = [tuple(" ".join(half.split()) for half in part.split(":", 1))
                           for part in split(text[start + 1:end]) if ":" in part]
        self.takes_self = bool(re.match(r"\s*(?:&\s*)?(?:mut )?self\b", text[start + 1:end]))
        self.requires, at = [], head.start()
        while clause := re.compile(r"\s*(requires|ensures)\s*(\w*)\s*\{").match(text, at):
            at = closing(text, clause.end() - 1) + 1
            if clause[1] == "requires":
                self.requires.append(" ".join(text[clause.end():at - 1].split()))
        brace = text.find("{", at)
        self.end = closing(text, brace)
        self.body, self.body_at = text[brace:self.end + 1], brace

    def __str__(self):
        return f"{self.file}: {self.name}"


def split(text):
    """The parts between the commas outside of brackets."""
    parts, depth, last = [], 0, 0
    for i, sign in enumerate(text):
        depth += (sign in OPEN + "<") - (sign in CLOSE + ">" and text[i - 1] != "-")
        if sign == "," and depth == 0:
            parts.append(text[last:i])
            last = i + 1
    return [part.strip() for part in parts + [text[last:]] if part.strip()]


def read(root):
    files = {}
    for path in sorted(root.glob("crates/*/src/**/*.rt")):
        name = str(path.relative_to(root / "crates")).replace("/src/", "/").removesuffix(".rt")
        files[name] = bare(path.read_text())
    functions = []
    for file, text in files.items():
        clean = re.sub(r"(?:ghost [^;{]*\{(?:[^{}]|\{[^{}]*\})*\}[;,]|ghost [^;]*;)", lambda m: " " * len(m[0]), text)
        for found in re.finditer(r"\bfn \w+", clean):
            after = clean[found.end():]
            body, end = after.find("{"), after.find(";")
            if body >= 0:
                functions.append(Function(file, clean, found.start()))
    return files, functions


def around(functions, file, at):
    inside = [f for f in functions if f.file == file and f.at <= at <= f.end]
    return inside[-1].name if inside else ""


def found_in(files, functions, pattern, crates=None):
    for file, text in files.items():
        if crates and file.split("/")[0] not in crates:
            continue
        for found in re.finditer(pattern, text):
            yield f"{file}: {around(functions, file, found.start())}: {' '.join(found[0].split())}"


def enums(files):
    for file, text in files.items():
        for found in re.finditer(r"\benum (\w+)[^{]*\{", text):
            body = text[found.end():closing(text, found.end() - 1)]
            yield file, found[1], [re.match(r"\w+", part)[0] for part in split(body)]


def first(files, functions):
    own = {name: f"{file}: {name}" for file, name, variants in enums(files) if REFUSING & set(variants)}
    yield "enums with a case for no value", list(own.values())
    beside = [f"{file}: {struct[1]}.{field[1]}" for file, text in files.items()
              for struct in re.finditer(r"\bstruct (\w+)[^{;]*\{([^}]*)\}", text)
              for field in re.finditer(r"(\w+):\s*(\w+)", struct[2]) if field[2] in own]
    yield "such an enum with a value beside it in a struct", beside
    yield "a refusal handed on by a match", list(found_in(files, functions, r"\b(?:Refused|Bad|Err)\(\w+\)\s*=>"))
    flags = [f"{f}" for f in functions if f.result == "bool" and any("&mut" in kind for _, kind in f.parameters)]
    yield "a flag beside what is written through a reference", flags
    yield "numbers for kinds, modes and stages", list(found_in(files, functions, NUMBERED, NUMBERED_IN))


def shape(function):
    words = [w for w in WORD.findall(function.body) if not w.isspace()]
    kept = {"match", "if", "else", "for", "in", "while", "let", "mut", "return", "loop", "break", "as", "true", "false"}
    return " ".join(w if w in kept or not re.match(r"\w", w) else "N" if w[0].isdigit() else "I" for w in words)


def second(files, functions):
    shapes = [(f, words) for f in functions if len(words := shape(f).split()) >= 20]
    pairs = []
    for (f, left), (g, right) in itertools.combinations(shapes, 2):
        least = 0.6 if f.name == g.name else 0.85
        match = difflib.SequenceMatcher(None, left, right, autojunk=False)
        if match.real_quick_ratio() >= least and match.quick_ratio() >= least and match.ratio() >= least:
            pairs.append(f"{f}, {g}: {match.ratio():.2f}")
    yield "pairs of functions that are much alike but for names and numbers", pairs


def third(files, functions):
    whiles, ranges = [], []
    for f in functions:
        for loop in re.finditer(r"\bwhile ([^{]*)\{", f.body):
            body = f.body[loop.end():closing(f.body, loop.end() - 1)]
            steps = [v for v in re.findall(r"[^\W\d][\w.]*", loop[1])
                     if re.search(rf"(?<![\w.\[]){v} (?:[-+]= |= {v} [-+] |= \w+\([^;]*\b{v}\))", body)]
            if steps:
                whiles.append(f"{f}: while {' '.join(loop[1].split())}")
        for loop in re.finditer(r"\bfor (\w+) in ([^{]*\.\.[^{]*)\{", f.body):
            body = f.body[loop.end():closing(f.body, loop.end() - 1)]
            if re.search(rf"\[[^\]]*\b{loop[1]}\b[^\]]*\]", body):
                ranges.append(f"{f}: for {loop[1]} in {' '.join(loop[2].split())}")
    yield "a `while` that moves its index by hand", whiles
    yield "a `for` over numbers that indexes by them", ranges


def fourth(files, functions):
    plain = [f for f in functions if not f.takes_self and CONVERTS.fullmatch(f.name) and 0 < len(f.parameters) < 4
             and not any("&" in kind for _, kind in f.parameters)]
    yield "a conversion as a function", [str(f) for f in plain]
    hand = [f for f in functions if BY_HAND.fullmatch(f.name)]
    yield "what the library has or a trait says, as a function", [str(f) for f in hand]
    yield "a copy by a loop", list(found_in(files, functions, r"[^\W\d]\w*\[[^]\n]*\] = [^\W\d]\w*(?:\[[^]\n]*\])?;"))


def fifth(files, functions):
    by_clause = collections.defaultdict(list)
    for f in functions:
        for clause in f.requires:
            for part in re.split(r" × (?![^(]*\))", clause):
                part = part.strip()
                while part.startswith("(") and closing(part, 0) == len(part) - 1:
                    part = part[1:-1]
                by_clause[part].append(f)
    often = [(clause, len(fs)) for clause, fs in by_clause.items() if len(fs) >= 3]
    yield "a fact in the contracts of three or more", [f"{c}: {n}" for c, n in sorted(often, key=lambda c: -c[1])]
    runs = collections.Counter()
    for f in functions:
        names = [name.removeprefix("mut ") for name, _ in f.parameters]
        runs.update({tuple(names[i:j]) for i in range(len(names)) for j in range(i + 2, len(names) + 1)})
    within = {(run[i:j], n) for run, n in runs.items() for i in range(len(run)) for j in range(i + 2, len(run) + 1)
              if j - i < len(run)}
    kept = [(run, n) for run, n in runs.items() if n >= 5 and (run, n) not in within]
    kept.sort(key=lambda run: -run[1])
    yield "parameters side by side in five functions or more", [f"({', '.join(run)}): {n}" for run, n in kept]


def sixth(files, functions):
    beside = []
    for f in functions:
        slices = [name for name, kind in f.parameters if "[" in kind]
        counts = [name for name, kind in f.parameters if kind == "usize" and name in COUNTS]
        if slices and counts:
            beside.append(f"{f}: {', '.join(slices)} with {', '.join(counts)}")
    yield "a slice with places or numbers beside it", beside
    lists = [f for f in functions if sum(kind in {"&[&[u8]]", "&[u64]", "&[u64; 9]"} for _, kind in f.parameters) > 1]
    yield "two lists side by side", [str(f) for f in lists]
    yield "lists of lengths", list(found_in(files, functions, r"\[0u64; \d+\]|\[u64; 9\]"))
    yield "tables", list(found_in(files, functions, r"\bconst \w+: \[.*? =(?=\s)"))


def seventh(files, functions):
    plain = {name for file, name, variants in enums(files)
             if any(re.search(rf"{name}::{v} =>\s*\w+\(", text) for text in files.values() for v in variants)}
    switches = [f"{f}: {kind}" for f in functions for _, kind in f.parameters if kind in plain]
    yield "a parameter that says which function is called", switches


def eighth(root, files):
    answers = sorted(root.glob("crates/*/proofs/**/Answers.antt"))
    texts = [path.read_text() for path in answers]
    yield "files of answers", [str(path.relative_to(root / "crates")) for path in answers]
    lines = [line for text in texts for line in text.splitlines() if line.strip()]
    yield "lines of answers", lines
    yield "answers with three or more `_` in a row", [line.strip() for line in lines if "_ _ _" in line]


POINTS = [first, second, third, fourth, fifth, sixth, seventh]


def main():
    wanted, *folder = sys.argv[1:] or ["all"]
    root = pathlib.Path(*folder) if folder else pathlib.Path(__file__).resolve().parents[1]
    files, functions = read(root)
    for number, point in enumerate(POINTS + [eighth], 1):
        if wanted not in {"all", str(number)}:
            continue
        for kind, places in point(root, files) if point is eighth else point(files, functions):
            print(f"{number}  {len(places):4}  {kind}")
            if wanted != "all" and kind != "lines of answers":
                print("".join(f"           {place}\n" for place in places), end="")


main()
