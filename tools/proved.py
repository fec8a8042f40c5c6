"""The proved program and library, as the tools call them: what a file is refused by, and the exported calls."""
import ctypes
import pathlib
import subprocess
import sys

from route_files import MOST_BYTES, say

ROOT = pathlib.Path(__file__).resolve().parent.parent
LIBRARY = ROOT / "target/staticlib/libgobashe.so"
MOST_TERMS = 4096
REASONS = {
    1: f"it has more than {MOST_BYTES:,} bytes",
    2: "the kind of a record is not 1 to 9",
    3: "it ends inside a record, or before the end record",
    4: "a record is out of place",
    5: "the mode is not 1, 2 or 3, or the factors do not suit it",
    6: "p is not a prime from 2 to 251",
    7: f"it has no terms, or more than {MOST_TERMS:,}",
    8: "a term is no element of the field: p or more, or 2^n or more",
    20: "n is not 2 to 8, or the reducing polynomial has a bit at or above n or is reducible",
}


class Field(ctypes.Structure):
    """A field as the calls take it: degree 0 and a prime, or n and the low bits of the polynomial that reduces GF(2^n)."""

    _fields_ = [("degree", ctypes.c_uint64), ("number", ctypes.c_uint64)]


class Entry(ctypes.Structure):
    """What the search of the catalogue returns."""

    _fields_ = [(name, ctypes.c_uint64) for name in ("status", "entry", "power")]


class Unmade(Exception):
    """What is wrong with the library that is there."""


def ended(ran):
    """Ends the program where the program or the library could not be made, which has said why, or was stopped."""
    if 0 < ran.returncode < 4:
        sys.exit(ran.returncode)
    if ran.returncode != 0:
        say(f"{ran.args[0].name}: ended with status {ran.returncode}")
        sys.exit(1)


def refusal(file):
    """The number by which the rating program turns a file down, and 0 where it does not. Ends where it could not be run."""
    ran = subprocess.run([ROOT / "rate"], input=file, stdout=subprocess.PIPE)
    ended(ran)
    result = ran.stdout.splitlines()[1].split()
    return int(result[2]) if result[1] == b"refused" else 0


def exported(name, result, *arguments):
    """An exported call with these types, from the library as a shared object, which is made first where something changed."""
    ended(subprocess.run([ROOT / "tools/library", "--shared", "exports"], stdin=subprocess.DEVNULL))
    try:
        call = getattr(ctypes.CDLL(str(LIBRARY)), name)
    except (OSError, AttributeError) as what:
        raise Unmade(what) from what
    call.argtypes = arguments
    call.restype = result
    return call
