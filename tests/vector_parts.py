"""What the calls of vectors/vectors.json are made of: bytes in the forms that the file has for them, deals, and calls
with faults."""
from itertools import groupby

from model import area, index_numbers, le
from operations import MODEL

RUN = 24  # bytes of one value from here on are told by a rule
NUMBER = 0x0102030405060708  # the deal's, where nothing else is said


class Data(bytes):
    """Bytes with the form that they have in the file."""
    form = None


def made(data, form):
    data = Data(data)
    data.form = form
    return data


def repeat(part, times):
    return made(part * times, {"repeat": part.hex(), "times": times})


def zeros(n):
    return repeat(b"\0", n)


def nodes(seed, count):
    """Nodes without stray bits that nothing but the rule knows."""
    node = lambda i: MODEL.h.node(seed.encode() + le(i))
    return made(b"".join(map(node, range(count))), {"seed": seed, "nodes": count})


def joined(*parts):
    return made(b"".join(parts), [form(part) for part in parts])


def form(data):
    """Bytes as the file has them: hex, long runs of one byte by a rule."""
    if isinstance(data, Data):
        return data.form
    parts = []
    for byte, run in groupby(data):
        n = len(list(run))
        if n >= RUN:
            parts.append({"repeat": f"{byte:02x}", "times": n})
        elif parts and isinstance(parts[-1], str):
            parts[-1] += f"{byte:02x}" * n
        else:
            parts.append(f"{byte:02x}" * n)
    return parts[0] if len(parts) == 1 else parts or ""


def changed(data, at, value):
    """The bytes with other ones at a place."""
    return bytes(data[:at]) + value + bytes(data[at + len(value):])


def stray(data, at, bits=0x40):
    """The bytes with stray bits in the node that starts there."""
    return changed(data, at + 31, bytes([data[at + 31] | bits]))


# ---- deals

OTHER = bytes(nodes("other", 1))  # a commitment of nothing


def segment(byte, n=128):
    return repeat(bytes([byte]), n)


def deal_of(d, *segments):
    """An all-zero deal into which these were booked, by whatever house."""
    deal = bytes(d)
    for each in segments:
        code, _, _, deal = MODEL.put(deal, each)
        assert code == 0
    return deal


def with_entries(deal, *entries):
    """A deal whose first slots are these entries."""
    return changed(deal, index_numbers(len(deal))[2], b"".join(entries))


def own_entry(deal, offset, size):
    """The entry that keeps the bytes there."""
    return MODEL.entry(MODEL.tree(deal[offset : offset + area(size)])[-1][0], offset, size)


# ---- calls


def call(routine, name, how, **inputs):
    """A call: the routine is a function of include/vizhuthamen.h without its vz_, the inputs have the names of its
    parameters."""
    return routine, f"{routine}/{name}", how, inputs


def orders(routine, base, faults):
    """A call without a fault; with each fault alone; and with each and the next one in the order of the refusals."""
    yield call(routine, "no-fault", "nothing is refused", **base)
    names = list(faults)
    for chosen in [(name,) for name in names] + list(zip(names, names[1:])):
        inputs = dict(base)
        for name in reversed(chosen):
            inputs.update(faults[name](inputs))
        yield call(routine, "fault-" + "-and-".join(chosen), "faults in their order: " + ", ".join(chosen), **inputs)


# Faults of a house, a deal and a table, for `orders`.
NO_HOUSE = {"house": lambda i: {"house": 3}}
CUT_TABLE = {"table-length": lambda i: {"table": i["table"][:-1]}}
CUT_DEAL = {"deal-size": lambda i: {"deal": i["deal"][:-12]}}
STRAY_DEAL = {"stray-bits": lambda i: {"deal": stray(i["deal"], 0)}}
