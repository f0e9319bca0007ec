"""Writes the records that the program `show_record` shows, and the lines that it must print.

Run from the repository's root: python3 tests/show_record.py. It writes crates/show_record/stdin and
crates/show_record/stdout; with --check it compares them with what stands there. The record is document 02's of 245
bytes, from the input of check_record.
"""
import sys
from pathlib import Path

ROOT = Path(__file__).resolve().parent.parent
RECORD = (ROOT / "crates/check_record/stdin").read_bytes()[48:]


def records():
    """The record as it is; without the deal's number, as records were before there was one; damaged: cut, another tag,
    a length too great or too small, bytes after the end; paths of no nodes; the longest record that is shown, and one
    byte more."""
    yield RECORD
    for length in (0, 2, 3, 34, 35, 37, 234, 236, 244):
        yield RECORD[:length]
    yield bytes([8]) + RECORD[1:]
    yield RECORD[:1] + b"\xff\xff" + RECORD[3:]
    yield RECORD[:136] + b"\x61" + RECORD[137:]
    yield RECORD[:136] + b"\x5d" + RECORD[137:]
    yield RECORD[:235] + b"\x07" + RECORD[236:]
    yield RECORD[:235] + b"\x09" + RECORD[236:]
    yield RECORD + b"\x08\x00"
    yield RECORD + b"\x08\x00\x00"
    yield RECORD[:68] + b"\x05\x00\x00\x06\x00\x00" + RECORD[234:]
    yield RECORD + b"\x08\x08\x0f" + bytes(3848)
    yield RECORD + b"\x08\x09\x0f" + bytes(3849)
    yield RECORD


def lines(record):
    """The lines for one record (document 01, "The record": one tag byte, two length bytes, content)."""
    out, place = [f"record of {len(record)} bytes"], 0
    if len(record) > 4096:
        return out + ["refused: more than 4096 bytes"]
    while place + 3 <= len(record):
        length = int.from_bytes(record[place + 1:place + 3], "little")
        content = record[place + 3:place + 3 + length]
        if len(content) < length:
            break
        out.append(f"field {record[place]} length {length} content {content.hex()}")
        place += 3 + length
    return out + [f"end at {place}" if place == len(record) else f"no field at {place}"]


def main():
    stdin = (b"".join(len(r).to_bytes(8, "little") + r for r in records())
             + len(RECORD).to_bytes(8, "little") + RECORD[:-1])
    answers = [line for r in records() for line in lines(r)] + ["refused: the input ends within a record"]
    stdout = "".join(line + "\n" for line in answers).encode()
    folder = ROOT / "crates/show_record"
    if sys.argv[1:] == ["--check"]:
        sys.exit((folder / "stdin").read_bytes() != stdin or (folder / "stdout").read_bytes() != stdout)
    (folder / "stdin").write_bytes(stdin)
    (folder / "stdout").write_bytes(stdout)


main()
