"""Replays vectors/vectors.json through the shared library. Run from anywhere, after make: python3 tests/vectors_test.py

Nothing is taken from the model: the file, the rules of vectors/README.md and include/vizhuthamen.h are all that another
program would have, too. Outputs are lent full of a pattern; what a case does not name among its outputs must stay as it
was lent.
"""
import ctypes
import hashlib
import json
import sys

from header import ROOT, routines

sys.path.insert(0, str(ROOT / "python"))
import vizhuthamen as vz  # noqa: E402
from vizhuthamen._library import call  # noqa: E402

# of outputs that no input lends
LENGTHS = {"digest": 32, "node": 32, "entry": 64, "commitment": 32, "left": 64, "right": 64}
PATTERN = 0xA5


def data(form):
    """The bytes of a form: hex, a rule, or a list of parts."""
    if isinstance(form, str):
        return bytes.fromhex(form)
    if isinstance(form, list):
        return b"".join(map(data, form))
    if "repeat" in form:
        return bytes.fromhex(form["repeat"]) * form["times"]
    return b"".join(node(form["seed"].encode() + i.to_bytes(8, "little")) for i in range(form["nodes"]))


def node(message):
    digest = bytearray(hashlib.sha256(message).digest())
    digest[31] &= 0x3F
    return bytes(digest)


def is_told(form, got):
    """Whether an output is the one that the file tells."""
    if isinstance(form, dict) and "sha256" in form:
        return (len(got), hashlib.sha256(got).hexdigest()) == (form["length"], form["sha256"])
    return data(form) == got


class Argument:
    """A parameter's value, and what has become of it after the call."""

    def __init__(self, kind, name, inputs):
        self.kind, self.name = kind, name
        if kind in ("u8", "u64"):
            self.value = int(inputs[name])
        elif kind == "in":
            self.value = data(inputs[name])
        elif kind == "out":
            self.before = data(inputs[name]) if name in inputs else bytes([PATTERN]) * LENGTHS[name]
            self.value = bytearray(self.before)
        else:
            self.value = (ctypes.c_uint32 if kind == "u32*" else ctypes.c_uint64)()
            self.before = self.value.value = PATTERN

    def is_right(self, outputs):
        if self.kind in ("in", "u8", "u64"):
            return self.name not in outputs
        if self.name not in outputs:
            return (self.value if self.kind == "out" else self.value.value) == self.before
        if self.kind == "out":
            return is_told(outputs[self.name], bytes(self.value))
        return str(self.value.value) == outputs[self.name]


def asked(case, parameters):
    """The code, and the names of what is not as the case tells."""
    known = {name for _, name in parameters}
    unknown = [name for name in (*case["inputs"], *case["outputs"]) if name not in known]
    arguments = [Argument(kind, name, case["inputs"]) for kind, name in parameters]
    code = call("vz_" + case["routine"], *(argument.value for argument in arguments))
    return code, unknown + [argument.name for argument in arguments if not argument.is_right(case["outputs"])]


def streamed(case):
    """The same for a stream: a new start, pieces of these lengths and then the rest, and the end."""
    rest, state, taken = data(case["inputs"]["data"]), bytearray(vz.STREAM_STATE), []
    call("vz_stream_new", state)
    for length in [*case["inputs"]["lengths"], len(rest)]:
        taken.append(call("vz_stream_take", state, rest[:length]))
        rest = rest[length:]
    ends = [Argument("out", "node", {}), Argument("u64*", "count", {})]
    code = call("vz_stream_end", state, *(end.value for end in ends))
    outputs = dict(case["outputs"])
    wrong = [] if outputs.pop("taken") == taken else ["taken"]
    return code, wrong + [end.name for end in ends if not end.is_right(outputs)]


def main():
    stated = routines()
    cases = json.loads((ROOT / "vectors" / "vectors.json").read_text())["cases"]
    asked_of = {case["routine"] for case in cases}
    missing = [name for name in stated if name[3:] not in asked_of and not name.startswith("vz_stream_")]
    if missing:
        sys.exit(f"vectors_test: no case asks {', '.join(missing)}")
    for case in cases:
        code, wrong = streamed(case) if case["routine"] == "stream" else asked(case, stated["vz_" + case["routine"]])
        if code != case["code"] or wrong:
            sys.exit(f"vectors_test: {case['name']} ({case['how']}): code {code}, expected {case['code']}; "
                     f"not as told: {', '.join(wrong)}")
    print(f"vectors_test: {len(cases)} cases of {len(asked_of)} routines, as the library answers")


if __name__ == "__main__":
    main()
