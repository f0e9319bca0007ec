"""The vectors for other implementations: the calls of vector_deals.py, vector_logs.py and vector_records.py with the
answers of the model.

tests/vectors.py writes them to vectors/vectors.json, whose README says how to use them; tests/vectors_test.py replays
them through the library.
"""
import hashlib
import json

import header
import model
import vector_deals
import vector_logs
import vector_records
from model import index_numbers, pad, unpad
from operations import MODEL, ROWS, pieces
from vector_parts import Data, form, joined, zeros

LONG = 2048  # outputs from here on are told by their SHA-256


def given(value):
    """A number as text, bytes in their form, a list as it is."""
    if isinstance(value, int):
        return str(value)
    return value if isinstance(value, list) else form(value)


def told(value):
    """An output: as an input, but for long bytes without a form of their own, which are told by their SHA-256."""
    if isinstance(value, bytes) and len(value) >= LONG and not isinstance(value, Data):
        return {"sha256": hashlib.sha256(value).hexdigest(), "length": len(value)}
    return given(value)


# ---- what the model answers: the code, and every output that is written


def named(*names, written=(0,)):
    """An answer of the model whose values after the code have these names."""
    return lambda answer: (answer[0], dict(zip(names, answer[1:])) if answer[0] in written else {})


def built(deal, number, place, record, tree=None):
    code, out = MODEL.build(deal, number, place, tree)
    if code == 0 and len(record) < len(out):
        code = 12
    return (0, {"record": out + record[len(out):], "length": len(out)}) if code == 0 else (code, {})


def booked(*names):
    """An answer of a booking, whose memory afterwards has these names; with 15 the numbers alone are written."""
    def outputs(answer):
        code, offset, place, *memory = answer
        written = dict(zip(names, memory)) if code == 0 else {}
        return code, {"offset": offset, "place": place, **written} if code in (0, 15) else {}
    return outputs


def field(record, place):
    end = place + 3
    length = int.from_bytes(record[place + 1 : end], "little")
    if end > len(record) or end + length > len(record):
        return 3, {}
    return 0, {"tag": record[place], "start": end, "length": length, "next": end + length}


def streamed(data, lengths):
    """`lengths` are those of the pieces but the last; `taken` are the codes after each piece."""
    code, node, count, codes = MODEL.stream(pieces(data, lengths))
    return code, {"taken": codes, **({"node": node, "count": count} if code == 0 else {})}


def played_back(size, log, rows):
    """256 for a wrong line, which is no code."""
    if len(rows) != ROWS:
        return 12, {}
    (kind, number), ruling, held = MODEL.playback(size, log)
    if kind:
        return 256, {"line": number, **dict(zip(("code", "offset", "place"), ruling))}
    data = b"".join(row.to_bytes() for row in held)
    return number, {"count": len(held), "rows": joined(data, zeros(ROWS - len(data)))} if number == 0 else {}


strings = named("left", "right", written=(0, 17))
EXPECTED = {
    "sha256": lambda message: named("digest")(model.sha256(message)),
    "commitment": lambda run: named("node")(MODEL.commitment(run)),
    "stream": streamed,
    "fr32_pad": lambda raw, segment: named("length", "segment")(pad(raw, segment)),
    "fr32_unpad": lambda raw_length, segment, raw: named("length", "raw")(unpad(raw_length, segment, raw)),
    "index_numbers": lambda size: named("entries", "start")(index_numbers(size)),
    "make_entry": lambda commitment, offset, size: named("entry")(MODEL.make_entry(commitment, offset, size)),
    "read_entry": lambda entry: named("kind", "commitment", "offset", "size")(MODEL.read_entry(entry)),
    "audit": lambda deal, states: named("states")(MODEL.audit(deal, states)),
    "tally": lambda deal: named("blank", "damaged", "valid")(MODEL.tally(deal)),
    "find": lambda deal, commitment: named("offset", "size", "place")(MODEL.find(deal, commitment)),
    "book": lambda deal, table, house, segment: booked("deal", "table")(MODEL.book(deal, table, house, segment)),
    "book_with_tree": lambda deal, tree, table, house, segment: booked("deal", "tree", "table")(
        MODEL.book_with_tree(deal, tree, table, house, segment)),
    "cancel": lambda deal, table, house, place: named("deal", "table")(MODEL.cancel(deal, table, house, place)),
    "cancel_with_tree": lambda deal, tree, table, house, place: named("deal", "tree", "table")(
        MODEL.cancel_with_tree(deal, tree, table, house, place)),
    "collect": lambda deal, table, second, second_table: named("second", "second_table")(
        MODEL.collect(deal, table, second, second_table)),
    "collect_with_tree": lambda deal, table, second, tree, second_table: named("second", "tree", "second_table")(
        MODEL.collect_with_tree(deal, table, second, tree, second_table)),
    "playback": played_back,
    "build": built,
    "build_with_tree": lambda deal, tree, number, place, record: built(deal, number, place, record, tree),
    "check": lambda commitment, size, number, record: (MODEL.check(commitment, size, number, record), {}),
    "settle_records": lambda commitment, size, number, first, second: strings(
        MODEL.settle_records(commitment, size, number, first, second)),
    "settle_with_deal": lambda deal, number, record: strings(MODEL.settle_deal(deal, number, record)),
    "settle_with_tree": lambda deal, tree, number, record: strings(MODEL.settle_deal(deal, number, record, tree)),
    "tree_fill": lambda deal, tree: named("tree")(MODEL.fill(deal, tree)),
    "tree_row": lambda below, above: named("above")(MODEL.row(below, above)),
    "read_field": field,
}

HEAD = {
    "title": "Vizhuthamen: calls and answers, for whoever implements the rules",
    "version": header.defined("VZ_VERSION"),
    "made": "python3 tests/vectors.py, from the independent model tests/model.py; do not edit",
    "use": "vectors/README.md says what each part means",
}


def written():
    """The text of vectors/vectors.json, a case on each line."""
    cases = []
    calls = (call for group in vector_deals.GROUPS + vector_logs.GROUPS + vector_records.GROUPS for call in group())
    for routine, name, how, inputs in calls:
        code, outputs = EXPECTED[routine](**inputs)
        cases.append({"name": name, "routine": routine, "how": how,
                      "inputs": {each: given(value) for each, value in inputs.items()},
                      "code": code, "outputs": {each: told(value) for each, value in outputs.items()}})
    judge(cases)
    head = json.dumps(HEAD, indent=1)[:-2]
    return head + ',\n "cases": [\n  ' + ",\n  ".join(map(json.dumps, cases)) + "\n ]\n}\n"


def judge(cases):
    """No name stands twice; every code is met; and of two faults the first one's code is given."""
    codes = {case["name"]: case["code"] for case in cases}
    missing = {number for number, _, _ in header.codes()} - set(codes.values())
    wrong = [name for name, code in codes.items()
             if "/fault-" in name and code != (codes[name.split("-and-")[0]] or None)]
    wrong += [name for name, code in codes.items() if name.endswith("/no-fault") and code]
    if len(codes) < len(cases) or missing or wrong:
        raise ValueError(f"{len(cases)} cases, {len(codes)} names; codes that no case has: {sorted(missing)}; "
                         f"not as meant: {wrong}")
