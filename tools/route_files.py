"""Route files: their records, a readable text for them, and the reading and writing of bytes, with the line
that says what is wrong. tools/route says what the statements of the text are."""
import os

MOST_BYTES = 16384
MODES = {"period": 1, "set": 2, "free": 3}
LENGTHS = {1: 4, 2: 1, 3: 1, 4: 35, 5: 64, 6: 1, 7: 8, 8: 0, 9: 2}
MOST_COEFFICIENTS = 32


class BadText(Exception):
    """What is wrong with a line, or with the whole text."""


class Lost(Exception):
    """What could not be read or written, and why."""


def number(word, below, what):
    digits = word.isascii() and word.isdigit() and len(word) <= 20
    if not digits or int(word) >= below:
        raise BadText(f"{what} is to be a number from 0 to {below - 1}, not '{word:.40}'")
    return int(word)


def one(words, what):
    if len(words) != 1:
        raise BadText(f"{what} takes one word, not {len(words)}")
    return words[0]


def hexadecimal(words):
    try:
        return bytes.fromhex(" ".join(words))
    except ValueError:
        raise BadText(f"'{' '.join(words)}' is not bytes in hexadecimal") from None


# From text to records: each function takes the words after the statement's name.


def write_box(words):
    return bytes([1]) + number(one(words, "box"), 2**32, "the box").to_bytes(4, "big")


def write_field(words):
    if not words or not words[0].startswith("2^"):
        return bytes([2, number(one(words, "field"), 256, "p")])
    if len(words) != 2:
        raise BadText("a field 2^n takes the low bits of its reducing polynomial as one number after it")
    return bytes([9, number(words[0][2:], 256, "n"), number(words[1], 256, "the number of the low bits")])


def write_mode(words):
    word = one(words, "mode")
    return bytes([3, MODES[word] if word in MODES else number(word, 256, "a mode that is not period, set or free")])


def write_factor(words):
    power, colon, coefficients = " ".join(words).partition(":")
    if not colon:
        raise BadText("a factor is its upper power, a colon and its coefficients")
    upper = number(power.strip(), 65536, "the upper power")
    values = [number(word, 256, "a coefficient") for word in coefficients.split()]
    if not values or values[-1] != 1:
        raise BadText("the last coefficient of a factor is its leading one, and is to be 1")
    degree = len(values) - 1
    if degree > MOST_COEFFICIENTS:
        raise BadText(f"a record has room for a factor of degree {MOST_COEFFICIENTS} at most, not {degree}")
    low = bytes(values[:-1])
    return bytes([4, degree]) + upper.to_bytes(2, "big") + low + bytes(MOST_COEFFICIENTS - degree)


def write_terms(words):
    if not words:
        raise BadText("terms are missing")
    values = bytes(number(word, 256, "a term") for word in words)
    whole = len(values) // 64 * 64
    blocks = (bytes([5]) + values[i : i + 64] for i in range(0, whole, 64))
    singles = (bytes([6, value]) for value in values[whole:])
    return b"".join(blocks) + b"".join(singles)


def write_stop(words):
    body = hexadecimal(words)
    if len(body) != LENGTHS[7]:
        raise BadText(f"a stop has {LENGTHS[7]} bytes, not {len(body)}")
    return bytes([7]) + body


def write_end(words):
    if words:
        raise BadText("nothing stands beside end")
    return bytes([8])


def write_record(words):
    if not words:
        raise BadText("the kind of the record is missing")
    return bytes([number(words[0], 256, "a kind")]) + hexadecimal(words[1:])


STATEMENTS = {
    "box": write_box,
    "field": write_field,
    "mode": write_mode,
    "factor": write_factor,
    "terms": write_terms,
    "stop": write_stop,
    "end": write_end,
    "record": write_record,
    "bytes": hexadecimal,
}


def written(text, name):
    """The route file of a text."""
    file = b""
    for at, line in enumerate(text.split("\n"), 1):
        words = line.partition("#")[0].split()
        if not words:
            continue
        try:
            if words[0] not in STATEMENTS:
                raise BadText(f"{words[0]!r} is none of {', '.join(STATEMENTS)}")
            file += STATEMENTS[words[0]](words[1:])
        except BadText as what:
            raise BadText(f"{name}:{at}: {what}") from None
    return file


# From records to text


def split(file):
    """The whole records at the front of a file, each a kind and a body, and the bytes that follow them."""
    found, at = [], 0
    while at < len(file) and file[at] in LENGTHS and at + 1 + LENGTHS[file[at]] <= len(file):
        after = at + 1 + LENGTHS[file[at]]
        found.append((file[at], file[at + 1 : after]))
        at = after
    return found, file[at:]


def spaced(values):
    return " ".join(str(value) for value in values)


def shown_factor(body):
    degree, low = body[0], body[3:]
    if degree > MOST_COEFFICIENTS or any(low[degree:]):
        return f"record 4 {body.hex(' ')}"
    return f"factor {int.from_bytes(body[1:3], 'big')}: {spaced([*low[:degree], 1])}"


def shown_mode(body):
    words = [word for word, mode in MODES.items() if mode == body[0]]
    return f"mode {words[0] if words else body[0]}"


SHOWN = {
    1: lambda body: f"box {int.from_bytes(body, 'big')}",
    2: lambda body: f"field {body[0]}",
    3: shown_mode,
    4: shown_factor,
    7: lambda body: f"stop {body.hex(' ')}",
    8: lambda body: "end",
    9: lambda body: f"field 2^{body[0]} {body[1]}",
}


def shown_terms(run):
    """A line for each part of a run of terms that `write` makes the same records of: blocks, then up to 63 single terms."""
    lines, at = [], 0
    while at < len(run):
        values, singles = b"", 0
        while at < len(run) and (singles == 0 if run[at][0] == 5 else singles < 63):
            values += run[at][1]
            singles += run[at][0] == 6
            at += 1
        lines.append(f"terms {spaced(values)}")
    return lines


def shown(file):
    """The text of a route file."""
    found, rest = split(file)
    lines, run = [], []
    for kind, body in found:
        if kind in (5, 6):
            run.append((kind, body))
            continue
        lines += shown_terms(run) + [SHOWN[kind](body)]
        run = []
    lines += shown_terms(run)
    if rest:
        lines += ["# no whole record:", f"bytes {rest.hex(' ')}"]
    return "".join(line + "\n" for line in lines)


def payload(file):
    """The field, the mode and the terms of an accepted file. The field is a degree and a number: 0 and p for GF(p), and for
    GF(2^n) n and the low bits of the reducing polynomial."""
    records, _ = split(file)
    first = {kind: body for kind, body in reversed(records)}
    field = tuple(first[9]) if 9 in first else (0, first[2][0])
    return field, first[3][0], b"".join(body for kind, body in records if kind in (5, 6))


def named(field):
    """The name of a field, as `payload` has it."""
    degree, number = field
    return f"GF(2^{degree}) by {number}" if degree else f"GF({number})"


# Bytes


def read(path, name, most=-1):
    """The bytes of a file, or of standard input where `path` is None; no more than `most`, where that is given."""
    try:
        with open(0 if path is None else path, "rb", closefd=path is not None) as file:
            return file.read(most)
    except OSError as what:
        raise Lost(f"{name}: {what.strerror}") from what


def put(made, path=None):
    """Writes bytes to a file, or to standard output where `path` is None."""
    try:
        with open(1 if path is None else path, "wb", closefd=path is not None) as out:
            out.write(made)
    except OSError as what:
        raise Lost(f"{'standard output' if path is None else path}: {what.strerror}") from what


def say(line):
    """Writes a line to standard error. If that is closed or full nobody is told."""
    try:
        os.write(2, f"{line}\n".encode(errors="surrogateescape"))
    except OSError:
        pass
