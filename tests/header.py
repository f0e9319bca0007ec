"""What include/vizhuthamen.h states: its functions, its codes, the names that it defines."""
import re
from pathlib import Path

ROOT = Path(__file__).resolve().parent.parent
TEXT = (ROOT / "include" / "vizhuthamen.h").read_text()

# How a parameter is written, and its kind; memory is a pointer and, next, its length.
KINDS = {"const uint8_t *": "in", "uint8_t *": "out", "uint8_t ": "u8", "uint64_t ": "u64", "uint64_t *": "u64*",
         "uint32_t *": "u32*"}


def parameters(text):
    """The kind and the name of each parameter, without the lengths."""
    out, expected_length = [], None
    for each in text.split(","):
        each = " ".join(each.split())
        if expected_length:
            assert each == f"size_t {expected_length}_len", each
            expected_length = None
            continue
        written, name = re.fullmatch(r"(.*[ *])(\w+)", each).groups()
        out.append((KINDS[written], name))
        if KINDS[written] in ("in", "out"):
            expected_length = name
    assert expected_length is None, text
    return out


def routines():
    """The functions that answer a code: the kind and the name of each parameter."""
    return {name: parameters(text) for name, text in re.findall(r"^uint32_t (vz_\w+)\(([^)]*)\);", TEXT, re.MULTILINE)}


def functions():
    """The names of all functions."""
    return re.findall(r"^\w[\w ]*[ *](vz_\w+)\(", TEXT, re.MULTILINE)


def codes():
    """Number, name without VZ_, and meaning of every code."""
    return [(int(number), name, meaning)
            for number, name, meaning in re.findall(r'code\((\d+), VZ_(\w+), "(.*)"\)', TEXT)]


def defined(name):
    """What a name is defined as: a number, or a text."""
    value = re.search(rf"^#define {name} (?:UINT64_C\()?([^)\s]+)", TEXT, re.MULTILINE)[1]
    return value.strip('"') if value.startswith('"') else int(value)


LENGTHS = ("BOOKING_LINE", "CANCELLING_LINE", "MAX_DEAL", "MAX_RAW", "MAX_RECORD", "MAX_STREAM", "MAX_TABLE", "ROW",
           "ROWS", "STREAM_STATE")


def stated():
    """All of it, for programs in other languages."""
    return {"routines": routines(), "codes": codes(), "lengths": {name: defined(f"VZ_{name}") for name in LENGTHS},
            "version": defined("VZ_VERSION")}
