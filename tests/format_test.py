"""Reads the examples of docs/FORMAT.md and compares them with the independent model and with the library, through the
Python package; the log also with the one that the command line writes (VIZHUTHAMEN names another binary).

Run from anywhere, after make: python3 tests/format_test.py. Every table of the document is read; one that is not known
ends the run.
"""
import hashlib
import json
import re
import subprocess
import sys
import tempfile
from pathlib import Path

import logs
import proofs
from cli_test import BINARY
from header import ROOT, defined
from model import BOOKING, CANCELLING, CONTENT, LOGGED, MAX_RAW, area, index_numbers, pad, segment_length, unpad
from operations import MODEL
from vectors_test import data, vz

TEXT = (ROOT / "docs" / "FORMAT.md").read_text()
PROSE = " ".join(TEXT.split())  # wherever its lines end
CHECKS = [case for case in json.loads((ROOT / "vectors" / "vectors.json").read_text())["cases"]
          if case["routine"] == "check"]
SEGMENTS = b"\x01" * 128, b"\x02" * 100  # as the document says of its example
SIZE, PLACE, NUMBER = 512, 320, 2026


def same(what, *values):
    """Ends the run where values that must be one are not."""
    if any(value != values[0] for value in values):
        shown = "\n".join(f"  {value.hex() if isinstance(value, bytes) else value}" for value in values)
        sys.exit(f"format_test: {what}: the document, then the others:\n{shown}")


def told(cell):
    """The bytes of a cell: parts in back quotes, each with a number of times or none."""
    parts = re.findall(r"`([0-9a-f]+)`(?: × (\d+))?", cell)
    return b"".join(bytes.fromhex(hexed) * int(times or 1) for hexed, times in parts)


def tables():
    """The tables of the document: the cells of the head, and those of each row."""
    for block in re.findall(r"(?:^\|.*\|\n)+", TEXT, re.MULTILINE):
        head, _, *rows = ([cell.strip() for cell in line.strip("|").split("|")] for line in block.splitlines())
        yield head, rows


def laid_out(rows):
    """The bytes of a table whose rows say where they start and how many they are; the numbers in its words are in its
    bytes."""
    whole = b""
    for at, length, what, cell in rows:
        part = told(cell)
        same(f"place of '{what}'", int(at), len(whole))
        same(f"length of '{what}'", int(length), len(part))
        for number in re.findall(r": (\d+)$", what):
            same(f"number of '{what}'", int(number), int.from_bytes(part, "little"))
        for tag, size in re.findall(r"^tag (\d), length (\d+)$", what):
            same(f"'{what}'", bytes([int(tag)]) + int(size).to_bytes(2, "little"), part)
        whole += part
    return whole


def housed():
    """The example's deal and its table, by the model and by the library."""
    deal, table = bytes(SIZE), bytes(4)
    lent, owners = bytearray(SIZE), bytearray(4)
    for house, segment in enumerate(SEGMENTS, 1):
        *_, deal, table = MODEL.book(deal, table, house, segment)
        vz.book(lent, owners, house, segment)
    return (deal, table), (bytes(lent), bytes(owners))


def booked():
    """The example's deal, by the model and by the library."""
    return [deal for deal, _ in housed()]


def ways(record):
    """The nodes on both ways up, with their positions: by the definition."""
    c, o, s, p, *paths, _ = MODEL.parse(record)
    starts = (c, o // area(s)), (MODEL.h.node(MODEL.entry(c, o, s)), p // 64)
    for (node, position), path in zip(starts, paths):
        way = [(node, position)]
        for sibling in path:
            node = MODEL.path_root(node, position, [sibling])
            position //= 2
            way.append((node, position))
        yield way


def commitments(rows):
    for cell, commitment in rows:
        same(f"commitment of {cell}", told(commitment), MODEL.commitment(told(cell))[1], vz.commitment(told(cell)))


def sizes(rows):
    for d, slots, start in rows:
        answer = vz.index_numbers(int(d))
        same(f"index of {d}", (int(slots), int(start)), index_numbers(int(d))[1:], (answer.entries, answer.start))


def deal_table(rows):
    same("the deal", laid_out(rows), *booked())
    root = bytes.fromhex(re.search(r"Its commitment is `([0-9a-f]{64})`", PROSE)[1])
    same("the deal's commitment", root, MODEL.commitment(booked()[0])[1], vz.commitment(booked()[1]))


def owners_table(rows):
    same("the table of owners", laid_out(rows), *(table for _, table in housed()))


def state_table(rows):
    """The numbers of the states, and their words."""
    same("the states", [(int(number), words) for number, words, _ in rows],
         [(state.value, state.words()) for state in vz.SlotState])


def states_table(rows):
    deal, lent = booked()
    same("the states of the example", laid_out(rows), MODEL.audit(deal, bytes(4))[1], bytes(vz.audit(lent)))


def entry_table(rows):
    entry, deal = laid_out(rows), booked()[0]
    _, _, c, o, s = MODEL.read_entry(entry)
    same("the entry", entry, deal[PLACE : PLACE + 64], MODEL.entry(c, o, s), vz.make_entry(c, o, s))
    same("the entry's fields", (c, o, s), (vz.commitment(SEGMENTS[1] + bytes(28)), 128, 100))


def record_table(rows):
    record, (deal, lent) = laid_out(rows), booked()
    same("the record", record, MODEL.build(deal, NUMBER, PLACE)[1], vz.build(lent, NUMBER, PLACE))
    same("the record's code", 0, MODEL.check(MODEL.commitment(deal)[1], SIZE, NUMBER, record))
    vz.check(vz.commitment(lent), SIZE, NUMBER, record)
    for _, _, what, cell in rows:
        for at in map(int, re.findall(r"^sibling.* at (\d+)$", what)):
            there = [level[at >> 5 + k] for k, level in enumerate(MODEL.tree(deal)) if at % (32 << k) == 0]
            same(f"'{what}' is a node of the deal there", told(cell) in there, True)


def field_table(rows):
    """The record's fields: tags and lengths, for the example's D and A."""
    record = vz.build(booked()[1], NUMBER, PLACE)
    lengths = {"32 × log2(D / A)": 32 * (SIZE // area(100)).bit_length() - 32,
               "32 × log2(D / 64)": 32 * (SIZE // 64).bit_length() - 32}
    stated = [(int(tag), lengths[length] if length in lengths else int(length)) for tag, _, length in rows]
    same("fields", stated, [(field.tag, len(field.content)) for field in vz.fields(record)])


def check_table(rows):
    """The codes of the check in their order, which the vectors show: each fault alone, and each with the next."""
    alone = [case["code"] for case in CHECKS if "/fault-" in case["name"] and "-and-" not in case["name"]]
    same("order of the check", [int(row[0]) for row in rows], alone)


def way_table(rows):
    segment, entry = ways(vz.build(booked()[1], NUMBER, PLACE))
    same("segment way", [(told(row[1]), int(row[0])) for row in rows if row[1]], segment)
    same("entry way", [(told(row[2]), int(row[3])) for row in rows], entry)


# The example's day: which house books which segment, or cancels which place.
DAY = (1, SEGMENTS[0]), (1, SEGMENTS[0]), (2, SEGMENTS[1]), (2, SEGMENTS[0]), (2, 256)


def day():
    """The lines of the example's day, by the model, and the deal and the table at its end."""
    deal, table, lines = bytes(SIZE), bytes(4), []
    for house, what in DAY:
        call = logs.cancel if isinstance(what, int) else logs.book
        _, deal, table, line = call(deal, table, house, what)
        lines.append(line)
    return lines, deal, table


def written_day():
    """The log that the command line writes on that day."""
    with tempfile.TemporaryDirectory(prefix="vizhuthamen-format-") as folder:
        run = lambda *words: subprocess.run([BINARY, *map(str, words)], cwd=folder, capture_output=True, timeout=60)
        run("new", "deal", SIZE)
        for house, what in DAY:
            (Path(folder) / "segment").write_bytes(b"" if isinstance(what, int) else what)
            words = ("cancel", "deal", what) if isinstance(what, int) else ("book", "deal", "segment")
            run(*words, "--house", house, "--log", "log")
        return (Path(folder) / "log").read_bytes()


def line_kinds(rows):
    """The two kinds of lines: tags, lengths, and the codes that get one."""
    stated = [(int(tag), int(length), tuple(map(int, codes.split(", ")))) for tag, _, length, codes in rows]
    same("the kinds of lines", stated, [(tag, CONTENT[tag], LOGGED[tag]) for tag in (BOOKING, CANCELLING)])
    same("the lengths of lines", [3 + length for _, length, _ in stated], [vz.BOOKING_LINE, vz.CANCELLING_LINE])


def booking_line(rows):
    same("a line of a booking", laid_out(rows), day()[0][2])


def cancelling_line(rows):
    same("a line of a cancellation", laid_out(rows), day()[0][4])


def log_table(rows):
    """The whole log: of the model's day, and of the command line's; each row's words say its line, its house and its
    code."""
    lines, deal, table = day()
    same("the log", laid_out(rows), b"".join(lines), written_day())
    same("the deal at the end of the day", (deal, table), housed()[1])
    for number, ((_, _, what, cell), line) in enumerate(zip(rows, lines), 1):
        code = line[44] if line[0] == BOOKING else line[12]
        same(f"'{what}'", re.fullmatch(r"line (\d), house (\d) .*, code (\d+)", what).groups(),
             (str(number), str(line[3]), str(code)))


def rows_table(rows):
    """The rows after the last line: by the model and the library, and as the deal's entries."""
    log = b"".join(day()[0])
    stated = [(*map(int, row[:4]), told(row[4]).hex()) for row in rows]
    (kind, code), _, played = MODEL.playback(SIZE, log)
    same("the model's playback", (kind, code), (0, 0))
    told_rows = lambda rows: [(row.place, row.house, row.offset, row.size, bytes(row.commitment).hex()) for row in rows]
    same("the rows", stated, told_rows(played), told_rows(vz.playback(SIZE, log).rows), logs.rows(*housed()[0]))


def raw_table(rows):
    for cell, segment in rows:
        raw = told(cell)
        same(f"segment of {cell}", told(segment), pad(raw, bytes(segment_length(len(raw))))[2], vz.pad(raw))


def cid_table(rows):
    zeros = laid_out(rows)
    same("the piece CID's bytes", zeros, proofs.HEAD + MODEL.commitment(bytes(128))[1],
         proofs.HEAD + vz.commitment(bytes(128)))


def zeros_table(rows):
    """The piece CIDs of zeros, whose commitments are hashed up from a node."""
    for power, cid in rows:
        node, lent = bytes(32), bytes(32)
        for _ in range(int(power.removeprefix("2^")) - 5):
            node, lent = MODEL.h.node(2 * node), vz.commitment(2 * lent)
        same(f"piece CID of {power} zeros", cid.strip("`"), proofs.cid(node), proofs.cid(lent))


def example_proof():
    """The plain file of the example's proof and the members, by the model."""
    file = told(re.search(r"whose segment is the second one above: ([^.]*)\.", PROSE)[1])
    return file, proofs.members(booked()[0], NUMBER, PLACE, file, "letter.txt")


def proof_table(rows):
    file, members = example_proof()
    same("the segment of the example's file", SEGMENTS[1], pad(file, bytes(100))[2], vz.pad(file))
    record = vz.build(booked()[1], NUMBER, PLACE).hex()
    stated = {name.strip("`"): record if cell == "the record above" else cell.strip("`") for name, _, cell in rows}
    same("the proof's members", tuple(stated), proofs.MEMBERS)
    for name, value in stated.items():
        same(f"member {name} of the proof", value, members[name])


def manifest_table(rows):
    """A line of a manifest: the second segment as that of a plain file."""
    deal, lent = booked()
    plain = unpad(99, SEGMENTS[1], bytes(99))[2]
    number = lambda at: int.from_bytes(deal[PLACE + at : PLACE + at + 8], "little")
    values = {"names": ["letter.txt"], "length": 99, "sha256": hashlib.sha256(plain).hexdigest(), "place": PLACE,
              "offset": number(32), "size": number(40), "commitment": deal[PLACE : PLACE + 32].hex()}
    same("the example's plain file", plain, vz.unpad(99, bytes(lent[128:228])))
    same("a line of the manifest", {name.strip("`"): json.loads(cell.strip("`")) for name, _, cell in rows}, values)
    same("the order of its members", [name.strip("`") for name, _, _ in rows], list(values))


TABLES = {
    ("member", "what it says of a file", "in the example"): manifest_table,
    ("bytes", "their commitment"): commitments,
    ("D", "slots", "start"): sizes,
    ("at", "bytes", "the deal", "in the example"): deal_table,
    ("at", "bytes", "the table of owners", "in the example"): owners_table,
    ("state", "in words", "the slot"): state_table,
    ("at", "bytes", "the states", "in the example"): states_table,
    ("at", "bytes", "the entry", f"in the example, at {PLACE}"): entry_table,
    ("tag", "content", "length"): field_table,
    ("at", "bytes", "the record", f"in the example, of place {PLACE} and number {NUMBER}"): record_table,
    ("code", "the check refuses with it where"): check_table,
    ("position", "segment path, from the commitment", "entry path, from the entry's node hash", "position"): way_table,
    ("tag", "a line of", "length", "codes that get one"): line_kinds,
    ("at", "bytes", "a line of a booking", "in the example, line 3"): booking_line,
    ("at", "bytes", "a line of a cancellation", "in the example, line 5"): cancelling_line,
    ("at", "bytes", "the log", "in the example"): log_table,
    ("place", "house", "offset", "size", "commitment of the row"): rows_table,
    ("raw bytes", "segment"): raw_table,
    ("at", "bytes", "the piece CID", "of 128 zero bytes"): cid_table,
    ("zero bytes", "their piece CID"): zeros_table,
    ("member", "what it says", "in the example"): proof_table,
}


def main():
    read = {tuple(head): rows for head, rows in tables()}
    same("the tables that are read", sorted(read), sorted(TABLES))
    for head, rows in read.items():
        TABLES[head](rows)
    shortest, longest = map(int, re.search(r"has (\d+) to (\d+) bytes\.", PROSE).groups())
    lengths = [len(data(case["inputs"]["record"])) for case in CHECKS if case["code"] == 0]
    same("the lengths of accepted records", (shortest, longest), (min(lengths), max(lengths)))
    same("the longest record", longest, vz.MAX_RECORD, defined("VZ_MAX_RECORD"))
    same("the longest raw archive", int(re.search(r"1 to (\d+) bytes becomes", PROSE)[1]), MAX_RAW, vz.MAX_RAW,
         defined("VZ_MAX_RAW"))
    print(f"format_test: {len(read)} tables of docs/FORMAT.md are those of the model and the library")


if __name__ == "__main__":
    main()
