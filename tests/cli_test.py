"""Drives the command line as a user does: python3 tests/cli_test.py (VIZHUTHAMEN names another binary).

The expected values are those of the independent model.
"""
import fcntl
import json
import os
import pty
import random
import re
import resource
import shutil
import signal
import stat
import subprocess
import tempfile
import time
import unittest
from pathlib import Path

import audit_cases
from cases import node
from model import MAX_RAW, MAX_RAW_STREAM, Model, area, filled, index_numbers, pad, segment_length, unpad

ROOT = Path(__file__).resolve().parent.parent
BINARY = Path(os.environ.get("VIZHUTHAMEN", ROOT / "rust" / "target" / "release" / "vizhuthamen"))
COMMANDS = ("new", "number", "owner", "commit", "stream", "pad", "unpad", "book", "pack", "extract", "close", "cancel",
            "collect", "list", "audit", "tally", "find", "build", "check", "settle", "settle-deal", "playback", "log",
            "show", "fsck", "repair", "salvage", "prove", "verify", "help", "completions")
MODEL = Model()
NUMBER = 0xfedcba9876543210  # of the deals here, and another one
OTHER = NUMBER + 1
GIVEN = "--number", NUMBER
USAGE, DATA, NOT_PROVED, IO, BUSY = 64, 65, 66, 74, 75
DONE = {"code": 0, "meaning": "done"}
STATES = "blank", "damaged", "not standing", "overlapping", "wrong commitment", "kept"  # of a slot, by their numbers
HOUSE = "VIZHUTHAMEN_HOUSE"
os.environ.pop(HOUSE, None)  # what a test does not name is not named


def told(number):
    """A number as JSON has it: beyond 2^53 - 1 the text of its digits."""
    return number if number < 1 << 53 else str(number)


def nobody():
    """Options of a call by a user whom permissions bind."""
    return {"user": "nobody", "group": "nogroup", "extra_groups": []} if os.getuid() == 0 else {}


def rows_of(table):
    """The rows of a table by their cells, which are two spaces or more apart."""
    return [re.split("  +", line.strip()) for line in table.splitlines()]


def all_of(terminal):
    """All that was written to a terminal whose other end is closed: one read may give a part of it, and an error says
    the end."""
    shown = b""
    while True:
        try:
            part = os.read(terminal, 4096)
        except OSError:
            return shown
        if not part:
            return shown
        shown += part


class Calls(unittest.TestCase):
    """A folder of its own for each test, and calls of the program in it."""

    def setUp(self):
        self.folder = Path(tempfile.mkdtemp(prefix="vizhuthamen-cli-"))
        self.folder.chmod(0o777)
        self.addCleanup(shutil.rmtree, self.folder)
        self.program = self.folder / "program"
        shutil.copy(BINARY, self.program)
        self.program.chmod(0o755)
        self.rng = random.Random(self.id())

    def path(self, name):
        return self.folder / name

    def put(self, name, data):
        self.path(name).write_bytes(data)
        return data

    def get(self, name):
        return self.path(name).read_bytes()

    def call(self, *words, status=0, stdin=b"", **options):
        """Runs the program; the exit status must be the expected one. Gives standard output and standard error."""
        ran = subprocess.run([self.program, *map(str, words)], input=stdin, capture_output=True, cwd=self.folder,
                             timeout=120, **options)
        self.assertEqual(ran.returncode, status, (words, ran.stdout[-300:], ran.stderr[-300:]))
        return ran.stdout.decode(), ran.stderr.decode()

    def answer(self, *words, **options):
        return self.call(*words, **options)[0]

    def refused(self, code, *words, **options):
        """A refusal: the code as the exit status and in the first line."""
        out = self.answer(*words, status=code, **options)
        self.assertTrue(out.startswith(f"code {code}: "), out)
        return out

    def failed(self, status, *words, **options):
        """A call without an answer: nothing on standard output but JSON where it is asked for, and one line on standard
        error. Gives that line."""
        out, err = self.call(*words, status=status, **options)
        self.assertRegex(err, r"\Avizhuthamen: [^\n]+\n\Z")
        if "--json" not in words:
            self.assertEqual(out, "")
            return err
        value = json.loads(out)
        self.assertEqual(set(value), {"code", "meaning", "command", "error", "hints"})
        self.assertEqual((value["code"], "; ".join([value["error"], *value["hints"]])),
                         (status, err[len("vizhuthamen: "):-1]))
        return err

    def object(self, *words, status=0, **options):
        """The object that a call prints with --json, without what is judged here: the command, and the hints, which are
        on standard error too or in the text."""
        out, err = self.call(*words, "--json", status=status, **options)
        self.assertEqual(out.count("\n"), 1)
        value = json.loads(out)
        self.assertEqual((value["code"], value.pop("command"), "error" in value), (status, words[0], False))
        self.assertTrue(value["meaning"])
        lines = [f"vizhuthamen: {hint}\n" for hint in value.pop("hints") if hint != value.get("hint")]
        self.assertEqual("".join(lines), err)
        return value

    def files(self):
        return sorted(p.name for p in self.folder.iterdir() if p.name != "program")

    def segment(self, size=128):
        return b"".join(node(self.rng) for _ in range(size // 32))

    def keeping(self, size, segments, houses=None):
        """A deal that keeps these segments: its bytes, its table, and the places of their entries. They are of the
        houses that are named, or of house 1 as long as it may book and then of house 2."""
        deal, table, places = bytes(size), bytes(index_numbers(size)[1]), []
        for i, segment in enumerate(segments):
            house = houses[i] if houses else 1 + (2 * i >= len(table))
            code, _, place, deal, table = MODEL.book(deal, table, house, segment)
            self.assertEqual(code, 0)
            places.append(place)
        return deal, table, places

    def booked(self, size=1024, sizes=(256, 128), houses=None):
        """A deal file `deal` that keeps segments of these sizes, with its table; the model's deal, and the records'
        places."""
        deal, table, places = self.keeping(size, [self.segment(s) for s in sizes], houses)
        self.put("deal.owners", table)
        return self.put("deal", deal), places

    def both(self, name="deal"):
        """A deal and its table, as they lie there."""
        return self.get(name), self.get(name + ".owners")


class MainJob(Calls):
    def test_from_a_new_deal_to_a_settled_record(self):
        a, b = self.put("a", self.segment(256)), self.put("b", self.segment(128))
        ca, cb = (MODEL.commitment(x)[1].hex() for x in (a, b))
        made = self.answer("new", "deal", 1024, *GIVEN)
        self.assertEqual(made, f"size 1024\nentries 4\nstart 768\nnumber {NUMBER}\n")
        self.assertEqual(self.both(), (bytes(1024), bytes(4)))
        self.assertEqual(self.answer("book", "deal", "a"), f"offset 0\nplace 768\nsize 256\ncommitment {ca}\nhouse 1\n")
        self.assertEqual(self.answer("book", "deal", "b", "--house", 2),
                         f"offset 256\nplace 832\nsize 128\ncommitment {cb}\nhouse 2\n")
        kept, table, _ = self.keeping(1024, (a, b), (1, 2))
        self.assertEqual(self.both(), (kept, table))
        again = self.refused(15, "book", "deal", "a", "--house", 1)
        self.assertEqual(again.splitlines()[1:], ["offset 0", "place 768", "size 256", f"commitment {ca}", "house 1"])
        self.assertEqual(self.both(), (kept, table))
        self.listed(ca, cb)
        self.found(ca, a)
        self.settled(kept)
        self.assertEqual(self.files(), ["a", "b", "deal", "deal.owners", "deal.vz", "found", "record", "record2"])

    def test_a_segment_whose_size_is_no_power_of_two(self):
        segment = self.put("segment", self.segment(128) + b"xy")
        code, offset, place, *after = MODEL.book(self.put("deal", b"0" * 768 + bytes(256)), bytes(4), 1, segment)
        self.assertEqual((code, after[0][:256]), (0, filled(segment)))
        commitment = after[0][place : place + 32].hex()
        told = ["offset 0", "place 768", "size 130", f"commitment {commitment}", "house 1"]
        self.assertEqual(self.answer("book", "deal", "segment").splitlines(), told)
        self.assertEqual(self.both(), tuple(after))
        self.assertEqual(self.refused(15, "book", "deal", "segment").splitlines()[1:], told)
        self.assertEqual(self.answer("find", "deal", commitment, "--output", "found"),
                         "offset 0\nsize 130\nplace 768\n")
        self.assertEqual(self.get("found"), segment)
        for size in (0, 513):
            self.put("none", bytes(size))
            self.assertIn("a segment here has 1 to 512 bytes", self.call("book", "deal", "none", status=4)[1])

    def listed(self, ca, cb):
        rows = [line.split() for line in self.answer("list", "deal").splitlines()]
        self.assertEqual(rows[0], ["slot", "place", "state", "owner", "offset", "size", "commitment"])
        self.assertEqual(rows[1:],
                         [["0", "768", "kept", "1", "0", "256", ca], ["1", "832", "kept", "2", "256", "128", cb],
                          ["2", "896", "blank", "-", "-", "-", "-"], ["3", "960", "blank", "-", "-", "-", "-"]])
        self.assertEqual(self.answer("tally", "deal"), "blank 2\ndamaged 0\nvalid 2\n")

    def found(self, ca, a):
        self.assertEqual(self.answer("find", "deal", ca), "offset 0\nsize 256\nplace 768\n")
        self.assertEqual(self.answer("find", "deal", ca.upper(), "--output", "found"),
                         "offset 0\nsize 256\nplace 768\n")
        self.assertEqual(self.get("found"), a)

    def settled(self, deal):
        record = MODEL.build(deal, NUMBER, 768)[1]
        root = MODEL.commitment(deal)[1].hex()
        self.assertEqual(self.answer("commit", "deal"), root + "\n")
        self.assertEqual(self.answer("build", "deal", 768), record.hex() + "\n")
        built = self.answer("build", "deal", 768, "--output", "record")
        self.assertEqual((built, self.get("record")), (f"length {len(record)}\nnumber {NUMBER}\n", record))
        for words, meaning in ((("check", root, 1024, "record", *GIVEN), "the record is accepted"),
                               (("settle", root, 1024, "record", "record", *GIVEN), "the two records are the same"),
                               (("settle-deal", "deal", "record"), "the record is the one that the deal gives")):
            self.assertEqual(self.answer(*words), f"code 0: {meaning}\n")
        self.answer("build", "deal", 832, "-o", "record2")
        self.refused(18, "settle", root, 1024, "record", "record2", *GIVEN)

    def test_the_largest_deal(self):
        self.answer("new", "deal", 1 << 24)
        segment = self.put("segment", self.segment(1 << 12) * (1 << 11))
        out = self.answer("book", "deal", "segment")
        self.assertTrue(out.startswith("offset 0\nplace 16769024\nsize 8388608\n"), out)
        self.assertEqual(self.get("deal")[: 1 << 23], segment)
        self.answer("build", "deal", 16769024, "-o", "record", *GIVEN)
        root = self.answer("commit", "deal").strip()
        self.answer("check", root, 1 << 24, "record", *GIVEN)
        self.answer("settle-deal", "deal", "record", *GIVEN)

    def test_the_state_of_a_standing_entry(self):
        deal = bytearray(self.booked(512, (128,))[0])
        deal[5] ^= 1
        self.put("deal", bytes(deal))
        self.assertEqual(rows_of(self.answer("list", "deal"))[1][:6], ["0", "256", "wrong commitment", "1", "0", "128"])

    def test_the_kinds_of_free_slots(self):
        deal = bytearray(self.booked(1024, (128, 128))[0])
        deal[832] ^= 1
        deal[896:960] = MODEL.entry(bytes(32), 64, 128)
        self.put("deal", bytes(deal))
        rows = [row[2:] for row in rows_of(self.answer("list", "deal"))[1:]]
        self.assertEqual([row[0] for row in rows], ["kept", "damaged", "not standing", "blank"])
        self.assertEqual(rows[1:], [["damaged", "-", "-", "-", "-"], ["not standing", "-", "64", "128", "00" * 32],
                                    ["blank", "-", "-", "-", "-"]])
        self.assertEqual(self.answer("tally", "deal"), "blank 1\ndamaged 1\nvalid 2\n")
        self.put("segment", self.segment())
        self.assertIn("place 832\n", self.answer("book", "deal", "segment", "--force"))
        self.assertEqual(self.answer("tally", "deal"), "blank 1\ndamaged 0\nvalid 3\n")


class Auditing(Calls):
    """The expected states are those that stand beside the calls of audit_cases.py, or the model's."""

    def audited(self, states, name="deal", **options):
        """An audit that shows these states, by their numbers, as text and as JSON; `list` shows the same table. Gives
        the rows and the object."""
        status = 0 if set(states) <= {0, 5} else DATA
        out, err = self.call("audit", name, status=status, **options)
        said = [] if status == 0 else ["code 65: some slots are neither blank nor kept"]
        counts = [f"{word.replace(' ', '_')} {states.count(number)}" for number, word in enumerate(STATES)]
        lines = out.splitlines()
        self.assertEqual((lines[: len(said)], lines[-6:]), (said, counts))
        table = lines[len(said) : -6]
        rows = rows_of("\n".join(table))[1:]
        self.assertEqual([row[2] for row in rows], [STATES[state] for state in states])
        self.assertEqual(("vizhuthamen fsck " in err, "vizhuthamen salvage " in err), (status != 0,) * 2)
        value = self.object("audit", name, status=status, **options)
        self.assertEqual([slot["state"] for slot in value["slots"]], [STATES[state] for state in states])
        self.assertEqual([f"{name} {value[name]}" for name in map(lambda word: word.replace(" ", "_"), STATES)], counts)
        self.assertEqual(self.answer("list", name, **options).splitlines(), table)
        return rows, value

    def test_a_deal_of_our_own(self):
        """Only blank and kept slots: after bookings, a cancellation and a collection."""
        self.answer("new", "deal", 1024)
        self.audited(bytes(4))
        for size, house in ((128, 1), (256, 2), (96, 1)):
            self.put("segment", self.segment(size))
            self.answer("book", "deal", "segment", "--house", house)
        rows, value = self.audited(b"\5\5\5\0")
        deal = self.get("deal")
        expected = [[str(i), str(768 + 64 * i), "kept", owner, *map(str, MODEL.standing(deal, i)[1:]),
                     deal[768 + 64 * i :][:32].hex()]
                    for i, owner in enumerate("121")]
        self.assertEqual(rows, [*expected, ["3", "960", "blank", "-", "-", "-", "-"]])
        self.assertEqual((value["meaning"], value["size"], value["start"], value["table"]),
                         ("every slot is blank or kept", 1024, 768, "whole"))
        self.answer("cancel", "deal", 832, "--house", 2)
        self.audited(b"\5\0\5\0")
        self.answer("collect", "deal", "new")
        self.audited(b"\5\5\0\0", "new")
        self.assertEqual(self.files(), ["deal", "deal.owners", "deal.vz", "new", "new.owners", "new.vz", "segment"])

    def test_deals_that_others_have_made(self):
        """Every state and every two of them; what is read is not changed."""
        cases = [(states, case.a) for code, states, case in audit_cases.judged(self.rng) if code == 0]
        seen = set()
        for states, deal in self.rng.sample(cases, 60):
            self.put("deal", deal)
            rows, value = self.audited(states)
            for i, slot in enumerate(value["slots"]):
                _, kind, commitment, offset, size = MODEL.read_entry(deal[slot["place"] :][:64])
                said = [told(offset), told(size), commitment.hex()] if kind == 2 else [None] * 3
                self.assertEqual([slot.get(name) for name in ("offset", "size", "commitment")], said)
                self.assertEqual(rows[i][4:], [str(x) if x is not None else "-" for x in said])
                self.assertEqual((rows[i][3], "overlaps" in slot), ("?" if states[i] >= 3 else "-", states[i] == 3))
            seen.update(states)
            self.assertEqual((self.get("deal"), self.files()), (deal, ["deal"]))
        self.assertEqual(seen, set(range(6)))

    def test_the_slot_that_is_overlapped(self):
        deal, _ = self.booked(2048, (256, 128))
        self.put("deal", deal[:1920] + MODEL.entry(bytes(32), 256, 128) + MODEL.entry(bytes(32), 0, 512))
        _, value = self.audited(b"\5\5\3\3")
        self.assertEqual([slot.get("overlaps") for slot in value["slots"]], [None, None, 1, 0])

    def test_128_slots(self):
        deal, states = audit_cases.long_deal(self.rng, 1 << 24)
        self.put("deal", deal)
        self.audited(states)

    def test_codes(self):
        deal, _ = self.booked()
        for at in (31, 1023):
            self.put("deal", deal[:at] + bytes([deal[at] | 0x80]) + deal[at + 1:])
            for command in ("audit", "list"):
                self.refused(11, command, "deal")
                out, err = self.call(command, "deal", status=11)
                self.assertEqual(err, "vizhuthamen: what is wrong, and where, is shown by: vizhuthamen fsck deal\n")
        self.assertIn(f"stray bits 0x80 at byte {at}", self.answer("fsck", "deal", status=DATA))
        self.assertEqual(self.call("audit", "-", status=11, stdin=self.get("deal"))[1],
                         "vizhuthamen: what is wrong, and where, is shown by: vizhuthamen fsck -\n")
        self.put("deal", deal)
        self.put("deal.vz", b"vizhuthamen deal 1\nsize 512\n")
        self.assertIn("has 1024 bytes", self.failed(DATA, "audit", "deal"))

    def test_what_is_kept_beside_the_deal(self):
        """Its number, that it is closed, owners, piece CIDs."""
        deal, places = self.booked(1024, (256, 128))
        self.put("deal.vz", f"vizhuthamen deal 1\nsize 1024\nnumber {NUMBER}\n".encode())
        commitment = MODEL.commitment(deal)[1].hex()
        self.answer("close", "deal")
        value = self.object("audit", "deal")
        self.assertEqual((value["number"], value["closed"], value["slots"][0]["owner"]), (str(NUMBER), commitment, 1))
        self.assertEqual(self.answer("audit", "deal").splitlines()[-1], f"closed {commitment}")
        self.put("deal.owners", b"\7\2\0\0")
        self.assertEqual([row[3] for row in rows_of(self.answer("audit", "deal"))[1:5]], ["nobody(7)", "2", "-", "-"])
        cid = self.object("audit", "deal", "--cid")["slots"][0]["cid"]
        self.assertIn(cid, self.answer("audit", "deal", "--cid"))

    def test_a_deal_that_others_work_on(self):
        deal, _ = self.booked()
        with open(self.path("deal"), "r+b") as file:
            fcntl.flock(file, fcntl.LOCK_EX)
            self.audited(b"\5\5\0\0")
        self.path("deal").chmod(0o444)
        self.path("deal.owners").chmod(0o444)
        self.folder.chmod(0o555)
        self.addCleanup(self.folder.chmod, 0o777)
        self.audited(b"\5\5\0\0", **nobody())

    def test_pipes(self):
        deal, _ = self.booked()
        shown = [["kept", "?"]] * 2 + [["blank", "-"]] * 2
        for name in ("-", "/dev/stdin"):
            self.assertEqual([row[2:4] for row in rows_of(self.answer("audit", name, stdin=deal))[1:5]], shown)
        os.mkfifo(self.path("pipe"))
        with subprocess.Popen([self.program, "audit", "pipe"], cwd=self.folder, stdout=subprocess.PIPE) as call:
            with open(self.path("pipe"), "wb", buffering=0) as pipe:
                pipe.write(deal[:600])
                pipe.write(deal[600:])
            self.assertEqual([row[2:4] for row in rows_of(call.stdout.read().decode())[1:5]], shown)
        self.assertEqual(call.returncode, 0)
        read, write = os.pipe()
        os.close(read)
        ran = subprocess.run([self.program, "audit", "deal"], cwd=self.folder, stdout=write, stderr=subprocess.PIPE)
        os.close(write)
        self.assertEqual((ran.returncode, b"Broken pipe" in ran.stderr), (IO, True))


class Cancelling(Calls):
    def test_an_entry_its_slot_and_its_bytes(self):
        deal, places = self.booked(1024, (256, 128))
        commitment = deal[places[1] : places[1] + 32].hex()
        out, err = self.call("cancel", "deal", places[1])
        self.assertEqual(out, f"offset 256\nplace {places[1]}\nsize 128\ncommitment {commitment}\nhouse 1\n")
        notes = err.splitlines()
        self.assertIn("the segment's bytes stay in deal", notes[0])
        self.assertIn("vizhuthamen collect deal NEW", notes[0])
        self.assertIn("deal has another commitment now; records that were built before belong to the old one", notes[1])
        cancelled = self.both()
        self.assertEqual(cancelled, (deal[: places[1]] + bytes(64) + deal[places[1] + 64:], b"\1\0\0\0"))
        self.assertEqual(self.answer("tally", "deal"), "blank 3\ndamaged 0\nvalid 1\n")
        self.assertEqual(self.files(), ["deal", "deal.owners", "deal.vz"])
        out, err = self.call("cancel", "deal", places[1], status=16)
        self.assertTrue(out.startswith("code 16: "), out)
        self.assertEqual(err, f"vizhuthamen: slot 1 (place {places[1]}) is blank; see: vizhuthamen list deal\n")
        self.assertEqual(self.both(), cancelled)
        segment = self.put("segment", self.segment())
        self.assertTrue(self.answer("book", "deal", "segment").startswith(f"offset 256\nplace {places[1]}\n"))
        self.assertEqual(self.both(), MODEL.book(*cancelled, 1, segment)[3:])

    def test_records_belong_to_the_old_commitment(self):
        deal, places = self.booked(1024, (256, 128))
        self.answer("build", "deal", places[0], "-o", "record", *GIVEN)
        old = self.answer("commit", "deal").strip()
        self.answer("cancel", "deal", places[1])
        new = self.answer("commit", "deal").strip()
        self.answer("check", old, 1024, "record", *GIVEN)
        self.refused(9, "check", new, 1024, "record", *GIVEN)
        self.refused(9, "settle-deal", "deal", "record", *GIVEN)
        self.answer("build", "deal", places[0], "-o", "record", "--force", *GIVEN)
        self.answer("check", new, 1024, "record", *GIVEN)

    def test_an_entry_that_stands_and_is_not_kept(self):
        deal, places = self.booked(512, (128,))
        spoilt = self.put("deal", bytes([deal[0] ^ 1]) + deal[1:])
        self.answer("cancel", "deal", places[0])
        self.assertEqual(self.both(), MODEL.cancel(spoilt, b"\1\0\0\0", 1, places[0])[1:])

    def test_refusals(self):
        deal, places = self.booked(1024, (128, 128))
        spoilt = bytearray(deal)
        spoilt[places[0]] ^= 1
        spoilt[places[1] : places[1] + 64] = MODEL.entry(bytes(32), 64, 128)
        self.put("deal", bytes(spoilt))
        for place, what in ((places[0], "is damaged; see: vizhuthamen fsck deal"),
                            (960, "is blank; see: vizhuthamen list deal"),
                            (places[1], "holds an entry that does not stand; see: vizhuthamen fsck deal")):
            out, err = self.call("cancel", "deal", place, status=16)
            self.assertTrue(out.startswith("code 16: "), out)
            self.assertIn(f"(place {place}) {what}\n", err)
        for place in (0, 704, 767, 769, 800, 1024, (1 << 64) - 64):
            out, err = self.call("cancel", "deal", place, status=6)
            self.assertTrue(out.startswith("code 6: "), out)
            self.assertIn("an entry place here is a multiple of 64 from 768 to 960 (slots 0 to 3); they are shown by: "
                          "vizhuthamen list deal\n", err)
        self.assertEqual(self.get("deal"), bytes(spoilt))
        self.put("deal", deal[:31] + b"\x40" + deal[32:])
        for place in (places[0], 960, 1):
            out, err = self.call("cancel", "deal", place, status=11)
            self.assertIn("vizhuthamen fsck deal", err)
        self.put("short", bytes(1000))
        self.assertIn("short has 1000 bytes", self.call("cancel", "short", 0, status=2)[1])
        self.assertIn("the deal must be a file", self.failed(USAGE, "cancel", "-", 256))
        self.failed(IO, "cancel", "missing", 256)
        self.assertEqual(self.files(), ["deal", "deal.owners", "short"])

    def test_the_entry_that_is_meant(self):
        deal, places = self.booked(1024, (128, 128))
        mine, other = (deal[p : p + 32].hex() for p in places)
        self.refused(1, "cancel", "deal", places[0], "--commitment", mine[:-2])
        error = self.failed(DATA, "cancel", "deal", places[0], "--commitment", other)
        self.assertIn(f"the entry at place {places[0]} has the commitment {mine}, which is not the given one; "
                      "nothing is changed", error)
        self.refused(16, "cancel", "deal", 960, "--commitment", other)
        self.assertEqual((self.get("deal"), self.files()), (deal, ["deal", "deal.owners"]))
        self.answer("cancel", "deal", places[0], "--commitment", mine.upper())
        self.assertEqual(self.both(), MODEL.cancel(deal, b"\1\1\0\0", 1, places[0])[1:])

    def test_a_cancelled_entry_is_brought_back(self):
        deal, places = self.booked(2048, (256, 128))
        table = self.get("deal.owners")
        self.put("segment", deal[256:384])
        self.answer("cancel", "deal", places[1])
        out = self.answer("repair", "deal", "--segment", "segment", "--place", places[1])
        self.assertIn(", owner nobody\n", out)
        self.assertEqual(self.both(), (deal, b"\1\0\0\0"))
        self.answer("owner", "deal", 1, places[1])
        self.assertEqual(self.both(), (deal, table))


class Collecting(Calls):
    def moved(self, old, table, new):
        """Where each standing entry of a deal stands in the new one, and whose it is, from the rules."""
        _, n, start = index_numbers(len(old))
        rows = [(MODEL.standing(old, i), start + 64 * i, table[i]) for i in range(n) if MODEL.standing(old, i)]
        rows.sort(key=lambda row: (-area(row[0][2]), row[0][1]))
        moved = []
        for i, ((commitment, offset, size), place, owner) in enumerate(rows):
            _, new_offset, _ = MODEL.standing(new, i)
            odd = {"owner_byte": owner} if owner > 2 else {}
            moved.append({"place": place, "new_place": start + 64 * i, "owner": 0 if odd else owner, **odd,
                          "offset": offset, "new_offset": new_offset, "size": size, "commitment": commitment.hex()})
        return moved

    def collected(self, deal, table):
        """A collected deal and its table, by the model."""
        return MODEL.collect(deal, table, bytes(len(deal)), bytes(len(table)))[1:]

    def shown(self, row):
        """A move as the text shows it."""
        owner = f"nobody({row['owner_byte']})" if "owner_byte" in row else row["owner"] or "nobody"
        return {k: str(v) for k, v in {**row, "owner": owner}.items() if k != "owner_byte"}

    def test_gaps_are_closed(self):
        self.booked(4096, (128, 512, 128, 256), (1, 2, 1, 2))
        self.answer("cancel", "deal", 3840, "--house", 1)
        deal = self.get("deal")
        self.path("deal.vz").unlink()
        for i, table in enumerate((self.get("deal.owners"), b"\1\7\0\2", b"\2\2\2\2", bytes(4), b"\xff" * 4)):
            self.put("deal.owners", table)
            name = f"new{i}"
            out, err = self.call("collect", "deal", name)
            new, owners = self.collected(deal, table)
            self.assertEqual((self.both(), self.both(name)), ((deal, table), (new, owners)))
            self.assertEqual(self.get(name + ".vz"), b"vizhuthamen deal 1\nsize 4096\n")
            rows = [line.split() for line in out.splitlines()]
            self.assertEqual(rows[0], ["place", "new_place", "owner", "offset", "new_offset", "size", "commitment"])
            self.assertEqual([dict(zip(rows[0], row)) for row in rows[1:]],
                             [self.shown(row) for row in self.moved(deal, table, new)])
        self.assertEqual(self.files(), sorted(["deal", "deal.owners",
                                               *(f"new{i}{e}" for i in range(5) for e in ("", ".owners", ".vz"))]))
        for end in ("", ".owners", ".vz"):
            self.path("new0" + end).rename(self.path("new" + end))
        err = err.replace("new4", "new")
        self.assertIn("records that were built from deal belong to its commitment; "
                      "those of new are built anew, at the new places", err)
        self.answer("fsck", "new")
        self.records(deal, new)

    def records(self, deal, new):
        """A record of the old deal is the old deal's alone; at the new places the new deal has others, which are
        accepted."""
        old_root, new_root = (MODEL.commitment(d)[1].hex() for d in (deal, new))
        for row in self.moved(deal, bytes(4), new):
            self.answer("build", "deal", row["place"], "-o", "old", "--force", *GIVEN)
            self.answer("build", "new", row["new_place"], "-o", "record", "--force", *GIVEN)
            self.answer("check", old_root, 4096, "old", *GIVEN)
            self.answer("check", new_root, 4096, "record", *GIVEN)
            self.refused(9, "check", new_root, 4096, "old", *GIVEN)
            found = {"offset": row["new_offset"], "size": row["size"], "place": row["new_place"]}
            self.assertEqual(self.answer("find", "new", row["commitment"]),
                             "".join(f"{k} {v}\n" for k, v in found.items()))

    def test_any_deal_that_can_be_collected(self):
        for i in range(25):
            deal = bytes(4096) if i % 2 else b"".join(node(self.rng) for _ in range(120)) + bytes(256)
            table = bytes(4)
            for _ in range(self.rng.randrange(9)):
                segment = self.segment(self.rng.choice((128, 256, 512, 1024)))[: self.rng.choice((1, 100, 130, 1024))]
                *_, deal, table = MODEL.book(deal, table, self.rng.choice((1, 2)), segment)
                place = 3840 + 64 * self.rng.randrange(5)
                if self.rng.randrange(3):
                    _, deal, table = MODEL.cancel(deal, table, self.rng.choice((1, 2)), place)
            deal, table = bytearray(deal), bytearray(table)
            # now and then a segment that is not kept: it is moved as it is
            deal[self.rng.randrange(1024)] ^= self.rng.randrange(2)
            if i % 3 == 0:
                table[self.rng.randrange(4)] = self.rng.randrange(256)
            self.put("deal", bytes(deal))
            self.put("deal.owners", bytes(table))
            out = self.object("collect", "deal", f"new{i}")
            new, owners = self.collected(bytes(deal), bytes(table))
            self.assertEqual((self.both(), self.both(f"new{i}")), ((deal, table), (new, owners)))
            self.assertEqual(out, {**DONE, "size": 4096, "moved": self.moved(deal, table, new), "left_out": []})

    def test_an_empty_deal_and_the_largest(self):
        self.put("deal", bytes(512))
        heading = "place  new_place  owner  offset  new_offset  size  commitment\n"
        self.assertEqual(self.answer("collect", "deal", "new"), heading)
        self.assertEqual(self.both("new"), (bytes(512), bytes(4)))
        self.answer("new", "large", 1 << 24)
        quarter, small = self.put("quarter", self.segment(1 << 12) * (1 << 10)), self.put("small", self.segment())
        for house, name in enumerate(("small", "quarter"), 1):
            self.answer("book", "large", name, "--house", house)
        self.answer("collect", "large", "packed")
        packed, table = self.both("packed")
        self.assertEqual((packed[: 1 << 22], packed[1 << 22 : (1 << 22) + 256]), (quarter, small + bytes(128)))
        self.assertEqual(table, b"\2\1" + bytes(126))
        self.answer("fsck", "packed")

    def test_a_deal_whose_owners_are_not_known(self):
        """Neither are those of the new one, which so has no table, and is not booked in until somebody says whose its
        entries are."""
        deal, places = self.booked(1024, (256, 128))
        self.path("deal.owners").unlink()
        new = self.collected(deal, bytes(4))[0]
        for words, stdin in ((("collect", "deal", "new"), b""), (("collect", "-", "piped"), deal)):
            name = words[2]
            out, err = self.call(*words, stdin=stdin)
            self.assertEqual({line.split()[2] for line in out.splitlines()[1:]}, {"?"})
            self.assertIn(f"so none is written for {name}; whose its entries are is said by: "
                          f"vizhuthamen owner {name} HOUSE", err)
            self.assertEqual(self.get(name), new)
            self.assertFalse(self.path(name + ".owners").exists())
            self.put("segment", self.segment())
            self.failed(DATA, "book", name, "segment")
        self.put("other.owners", bytes(4))
        self.assertIn("other.owners is there, and is not the table of the new deal",
                      self.failed(DATA, "collect", "deal", "other"))
        self.assertFalse(self.path("other").exists())

    def test_a_table_of_another_length(self):
        deal, _ = self.booked(1024, (256, 128))
        for length in (0, 3, 5, 128, 129, 100000):
            self.put("deal.owners", bytes(length))
            out = self.refused(23, "collect", "deal", "new")
            self.assertIn(f"deal.owners has {length} bytes, and deal has 4 slots, with a byte each; "
                          "bring back the right table", out)
            value = self.object("collect", "deal", "new", status=23)
            self.assertEqual((value["refused"], "vizhuthamen owner deal HOUSE" in value["hint"]), (["table"], True))
        self.assertEqual((self.get("deal"), self.files()), (deal, ["deal", "deal.owners"]))

    def test_no_file_is_overwritten(self):
        deal, _ = self.booked(1024, (128,))
        self.put("taken", b"precious")
        self.path("folder").mkdir()
        self.path("nowhere").symlink_to("missing")
        for name in ("taken", "folder", "nowhere"):
            self.assertIn("the file exists", self.failed(IO, "collect", "deal", name))
        self.path("link").symlink_to("deal")
        os.link(self.path("deal"), self.path("second"))
        for name in ("deal", "./deal", "folder/../deal", str(self.path("deal")), "link", "second"):
            self.assertIn("is the deal that is collected; NEW must be another file",
                          self.failed(USAGE, "collect", "deal", name))
            self.failed(USAGE, "collect", "link", name)
        self.failed(USAGE, "collect", "deal", "-")
        self.failed(IO, "collect", "deal", "no/such/folder")
        self.assertEqual((self.get("deal"), self.get("taken")), (deal, b"precious"))
        self.assertEqual(self.files(), ["deal", "deal.owners", "folder", "link", "nowhere", "second", "taken"])
        self.answer("collect", "second", "folder/new")  # a deal with several names is read as any other

    def test_from_standard_input(self):
        deal, _ = self.booked(1024, (256, 128))
        piped, read = self.answer("collect", "-", "new", stdin=deal), self.answer("collect", "deal", "other")
        self.assertEqual([line.split()[:2] + line.split()[3:] for line in piped.splitlines()],
                         [line.split()[:2] + line.split()[3:] for line in read.splitlines()])
        self.assertEqual(self.get("new"), self.get("other"))
        with open(self.path("deal"), "rb") as file:
            ran = subprocess.run([self.program, "collect", "-", "deal"], stdin=file, cwd=self.folder,
                                 capture_output=True)
        self.assertEqual((ran.returncode, self.get("deal")), (USAGE, deal))

    def test_refusals(self):
        self.put("short", bytes(1000))
        self.assertIn("short has 1000 bytes", self.call("collect", "short", "new", status=2)[1])
        self.put("long", bytes((1 << 24) + 1))
        self.assertIn("long has more than 16777216 bytes", self.call("collect", "long", "new", status=2)[1])
        deal, _ = self.booked(1024, (128,))
        self.put("deal", deal[:31] + b"\x80" + deal[32:])
        self.assertIn("vizhuthamen fsck deal", self.call("collect", "deal", "new", status=11)[1])
        self.failed(IO, "collect", "missing", "new")
        self.failed(IO, "collect", ".", "new")
        self.put("new.vz", b"vizhuthamen deal 1\nsize 512\n")
        self.put("deal", deal)
        self.assertIn("says that it has 512", self.failed(DATA, "collect", "deal", "new"))
        self.assertEqual(self.files(), ["deal", "deal.owners", "long", "new.vz", "short"])

    def test_overlapping_entries_are_named(self):
        deal, places = self.booked(2048, (256, 128))
        over = deal[:1920] + MODEL.entry(bytes(32), 128, 128) + MODEL.entry(bytes(32), 0, 512)
        self.put("deal", over)
        out, err = self.call("collect", "deal", "new", status=20)
        self.assertEqual(out.splitlines(),
                         ["code 20: two standing entries overlap", "slot 2 (place 1920) overlaps slot 0",
                          "slot 3 (place 1984) overlaps slot 0"])
        for part in ("vizhuthamen fsck deal", "vizhuthamen cancel deal PLACE"):
            self.assertIn(part, err)
        value = self.object("collect", "deal", "new", status=20)
        self.assertEqual([(w["slot"], w["place"], w["overlaps"]) for w in value["wrong"]], [(2, 1920, 0), (3, 1984, 0)])
        self.assertEqual((self.get("deal"), self.files()), (over, ["deal", "deal.owners"]))
        self.answer("owner", "deal", 2)  # until then the two are nobody's, and no house cancels them
        for place in (1920, 1984):
            self.answer("cancel", "deal", place, "--house", 2)
        self.answer("collect", "deal", "new")
        self.assertEqual(self.both("new"), self.collected(deal, b"\1\1\0\0"))

    def test_a_slot_that_is_not_sound_is_not_left_out_unasked(self):
        deal, places = self.booked(1024, (128, 128, 256))
        spoilt = bytearray(deal)
        spoilt[places[0]] ^= 1
        spoilt[960:] = MODEL.entry(bytes(32), 64, 128)
        self.put("deal", bytes(spoilt))
        error = self.failed(DATA, "collect", "deal", "new")
        for part in (f"slot 0 (place {places[0]}) is damaged, and the new deal would be without it",
                     "nothing is written", "vizhuthamen fsck deal", "vizhuthamen repair deal", "--force"):
            self.assertIn(part, error)
        self.assertEqual(self.files(), ["deal", "deal.owners"])
        out, err = self.call("collect", "deal", "new", "--force", "--json")
        self.assertEqual([(w["slot"], w["state"]) for w in json.loads(out)["left_out"]],
                         [(0, "damaged"), (3, "not standing")])
        self.assertIn(f"slot 0 (place {places[0]}) is damaged, and is left out\n", err)
        self.assertEqual(self.both("new"), self.collected(bytes(spoilt), self.get("deal.owners")))

    def test_permissions_of_the_new_deal(self):
        self.booked(1024, (128,))
        for mode, mask, expected in ((0o600, 0o022, 0o600), (0o640, 0o022, 0o640), (0o666, 0o022, 0o644),
                                     (0o444, 0o077, 0o600)):
            self.path("deal").chmod(mode)
            name = f"new-{mode:o}-{mask:o}"
            self.answer("collect", "deal", name, umask=mask)
            for made in (name, name + ".vz", name + ".owners"):
                self.assertEqual(stat.S_IMODE(self.path(made).stat().st_mode), expected, made)

    def test_a_journal_of_an_older_deal_is_not_ended_over_the_new_one(self):
        deal, _ = self.booked(1024, (128,))
        self.put(".new.vz-journal", b"vizhuthamen journal 1\n0 6e6577\n")
        self.put(".new.vz-new.0", b"dead")
        for words in (("collect", "deal", "new"), ("new", "new", 1024)):
            self.assertIn(".new.vz-journal was left by a change of an older deal of that name; remove it first",
                          self.failed(IO, *words))
        self.path(".new.vz-journal").unlink()
        self.answer("collect", "deal", "new")
        self.assertEqual(self.both("new"), self.collected(deal, self.get("deal.owners")))
        self.assertEqual(self.files(), ["deal", "deal.owners", "new", "new.owners", "new.vz"])


class Houses(Calls):
    """Two houses in one deal (document 02, request (x))."""

    def book(self, house, segment, status=0, **options):
        self.put("segment", segment)
        return self.answer("book", "deal", "segment", "--house", house, status=status, **options)

    def test_document_01s_runs_by_one_house_end_with_22(self):
        first, second, third = (self.segment() for _ in range(3))
        for size in (512, 1024):
            self.answer("new", "deal", size)
            self.assertTrue(self.book(1, first).startswith(f"offset 0\nplace {size - 256}\n"))
            self.assertEqual(self.book(1, first, 15).splitlines()[1:3], ["offset 0", f"place {size - 256}"])
            self.assertTrue(self.book(1, second).startswith(f"offset 128\nplace {size - 192}\n"))
            kept = self.both()
            self.assertEqual(kept[1], b"\1\1\0\0")
            out = self.book(1, third, 22)
            hint = ("house 1 holds 2 of the 4 slots of deal, and books while it holds fewer than half of them: "
                    "cancel an entry of house 1 first, or take another deal; they are shown by: vizhuthamen owner deal")
            self.assertEqual(out.splitlines()[1:], [hint])
            value = self.object("book", "deal", "segment", "--house", 1, status=22)
            del value["meaning"]
            self.assertEqual(value, {"code": 22, "house": 1, "held": 2, "hint": hint, "entries": 4, "free_slots": 2,
                                     "free_bytes": size - 512, "largest_segment": 0, "largest_raw": 0})
            self.book(1, first, 15)  # 15 comes before it
            self.assertEqual(self.both(), kept)
            for end in ("", ".owners", ".vz"):
                self.path("deal" + end).unlink()

    def test_13_with_nobodys_entries_and_14_with_two_houses(self):
        self.booked(512, (128, 128), (1, 2))
        third = self.segment()
        for house in (1, 2):
            self.book(house, third, 14)
        deal, _ = self.booked(1024, (128,) * 4)
        for house in (1, 2):
            self.book(house, third, 22)  # each holds half: a full index does not show as 13
        for table in (bytes(4), b"\7\0\xff\3", b"\1\0\0\0"):
            self.put("deal.owners", table)
            for house in (1, 2):
                self.book(house, third, 13)
        self.assertEqual(self.get("deal"), deal)

    def test_each_house_sees_its_own(self):
        segment = self.segment()
        self.answer("new", "deal", 1024)
        for house, place in ((1, 768), (2, 832)):
            self.assertIn(f"place {place}\n", self.book(house, segment))
            again = self.book(house, segment, 15).splitlines()
            self.assertEqual((again[2], again[5]), (f"place {place}", f"house {house}"))
        kept = self.both()
        self.assertEqual(kept[1], b"\1\2\0\0")
        for house, place, other in ((1, 832, 2), (2, 768, 1)):
            out, err = self.call("cancel", "deal", place, "--house", house, status=16)
            self.assertIn(f"(place {place}) holds an entry that stands and is house {other}'s; "
                          f"only house {other} cancels it\n", err)
            value = self.object("cancel", "deal", place, "--house", house, status=16)
            self.assertEqual((value["house"], value["owner"]), (house, other))
        self.put("deal.owners", b"\0\7\0\0")
        for place, told in ((768, {"owner": 0}), (832, {"owner": 0, "owner_byte": 7})):
            for house in (1, 2):
                out, err = self.call("cancel", "deal", place, "--house", house, "--json", status=16)
                self.assertIn("and is nobody's; no house cancels it until it has an owner: "
                              "vizhuthamen owner deal HOUSE", err)
                value = json.loads(out)
                self.assertEqual({k: v for k, v in value.items() if k.startswith("owner")}, told)
        self.put("deal.owners", kept[1])
        self.assertEqual(self.both(), kept)
        out = self.answer("cancel", "deal", 832, "--house", 2)
        self.assertTrue(out.endswith("\nhouse 2\n"), out)
        self.assertEqual(self.both(), MODEL.cancel(*kept, 2, 832)[1:])

    def test_calls_of_both_houses_answer_as_the_model(self):
        """Bookings and cancellations of any codes, over tables of any bytes, some of them changed by hand."""
        met = set()
        for i in range(12):
            state = bytes(1024), (bytes(4), self.rng.randbytes(4))[i % 2]
            self.put("deal", state[0])
            self.put("deal.owners", state[1])
            segments = [self.segment(s) for s in (128, 128, 128, 256)]
            for _ in range(12):
                house = self.rng.choice((1, 1, 1, 2, 2, 2, 0, 3))
                if self.rng.randrange(3):
                    segment = self.put("segment", self.rng.choice(segments))
                    code, offset, place, *state = MODEL.book(*state, house, segment)
                    out = self.answer("book", "deal", "segment", "--house", house, "--json", status=code)
                    value = json.loads(out)
                    if code in (0, 15):
                        self.assertEqual((value["offset"], value["place"]), (offset, place))
                else:
                    place = self.rng.choice((768, 832, 896, 960, 960, 700))
                    code, *state = MODEL.cancel(*state, house, place)
                    value = self.object("cancel", "deal", place, "--house", house, status=code)
                self.assertEqual((value["code"], value["house"], self.both()), (code, house, tuple(state)))
                met.add(code)
                if not self.rng.randrange(6):
                    table = bytearray(state[1])
                    table[self.rng.randrange(4)] = self.rng.choice((0, 1, 2, 7))
                    state = state[0], self.put("deal.owners", bytes(table))
        self.assertLessEqual({0, 6, 13, 15, 16, 22, 23}, met)

    def test_the_house_that_is_not_named(self):
        self.answer("new", "deal", 1 << 21)
        names = iter(range(20))

        def book(*words, status=0, variable=None):
            name = f"s{next(names)}"
            self.put(name, self.segment())
            env = {**os.environ, **({} if variable is None else {HOUSE: variable})}
            return self.call("book", "deal", name, *words, status=status, env=env)

        def house(*words, **options):
            return book(*words, **options)[0].splitlines()[-1]

        self.assertEqual(house(), "house 1")
        self.assertEqual(house(variable=""), "house 1")
        self.assertEqual(house(variable="1"), "house 1")
        self.assertEqual(house("--house", 1, variable="2"), "house 1")
        self.assertEqual(house("--house", "01", variable="nonsense"), "house 1")
        self.assertEqual(house(variable="2"), "house 2")
        before = self.both()
        for variable in (None, ""):
            err = book(status=USAGE, variable=variable)[1]
            self.assertIn("two houses book in deal; nothing is changed; "
                          f"say which with --house 1 or --house 2 (or {HOUSE})", err)
        env = {**os.environ, HOUSE: "2"}
        self.assertIn("say which with --house", self.failed(USAGE, "cancel", "deal", (1 << 21) - 704))
        self.assertEqual(self.both(), before)
        for variable in ("x", "-1", "1 ", "two", "1.0"):
            self.assertIn(f"{HOUSE} is no house: {variable}; give 1 or 2", book(status=USAGE, variable=variable)[1])
        self.assertIn(f"{HOUSE} says 7, which is no house: give 1 or 2", book(status=23, variable="7")[0])
        self.assertEqual(self.both(), before)
        self.assertTrue(self.answer("cancel", "deal", (1 << 21) - 704, env=env).endswith("house 2\n"))
        self.assertEqual(house(), "house 1")  # no entry of house 2 stands any more

    def test_numbers_that_are_no_house_get_23_before_all_else(self):
        self.booked(1024, (128,))
        self.put("segment", self.segment())
        self.put("short", bytes(1000))
        self.put("strange", self.get("deal"))  # without a table
        before = {name: self.get(name) for name in self.files()}
        for house in (0, 3, 255, 256, 257, 258, (1 << 32) + 1, (1 << 64) - 1):
            for words in (("book", "deal", "segment"), ("book", "deal", "short"), ("book", "short", "segment"),
                          ("cancel", "deal", 768), ("cancel", "deal", 1), ("cancel", "short", 1),
                          ("book", "strange", "segment"), ("cancel", "strange", 768)):
                out = self.refused(23, *words, "--house", house)
                self.assertEqual(out.splitlines()[1:], [f"--house says {house}, which is no house: give 1 or 2"])
            value = self.object("book", "deal", "segment", "--house", house, status=23)
            self.assertEqual((value["house"], value["refused"]), (told(house), ["house"]))
        self.assertEqual({name: self.get(name) for name in self.files()}, before)

    def test_a_table_of_another_length_gets_23_right_after_2(self):
        deal, _ = self.booked(1024, (128,))
        self.put("segment", self.segment())
        self.put("short", bytes(1000))
        for length in (0, 1, 3, 5, 8, 127, 128, 129, 130, 1 << 16):
            self.put("deal.owners", b"\1" * length)
            self.put("short.owners", b"\1" * length)
            for words in (("book", "deal", "segment"), ("book", "deal", "short"), ("cancel", "deal", 768),
                          ("cancel", "deal", 1)):
                for house in ((), ("--house", 1), ("--house", 2)):
                    hint = self.refused(23, *words, *house).splitlines()[1]
                    self.assertIn(f"deal.owners has {length} bytes, and deal has 4 slots, with a byte each; "
                                  "bring back the right table, or remove it and say whose the entries are: "
                                  "vizhuthamen owner deal HOUSE [PLACE...]", hint)
            value = self.object("cancel", "deal", 768, status=23)
            self.assertEqual((value["house"], value["refused"], value["hint"]), (1, ["table"], hint))
            self.refused(2, "book", "short", "segment")
            self.refused(2, "cancel", "short", 768)
            self.assertEqual(self.both(), (deal, b"\1" * length))
        self.assertEqual(self.files(), ["deal", "deal.owners", "segment", "short", "short.owners"])

    def test_a_deal_without_a_table(self):
        deal, _ = self.booked(1024, (128, 256))
        self.put("segment", self.segment())
        self.path("deal.owners").unlink()
        for words in (("book", "deal", "segment"), ("book", "deal", "segment", "--house", 2), ("cancel", "deal", 768)):
            error = self.failed(DATA, *words)
            for part in ("vizhuthamen: deal.owners is not there, and 2 entries stand in deal: whose is not known",
                         "copy that table too",
                         "vizhuthamen owner deal HOUSE [PLACE...] (0 for nobody)", "nothing is changed"):
                self.assertIn(part, error)
        self.assertEqual((self.get("deal"), self.files()), (deal, ["deal", "segment"]))
        out, err = self.call("list", "deal")
        self.assertEqual([line.split()[3] for line in out.splitlines()[1:]], ["?", "?", "-", "-"])
        self.assertIn("vizhuthamen: deal.owners is not there", err)
        # From another folder the whole name is told.
        for folder in ("/", "/usr"):
            elsewhere = subprocess.run([self.program, "list", self.path("deal")], cwd=folder, capture_output=True)
            self.assertIn(f"vizhuthamen: {self.path('deal.owners').resolve()} is not there", elsewhere.stderr.decode())
        self.assertEqual(self.object("list", "deal")["table"], "missing")
        # Where nothing stands, the first booking makes it.
        bare = bytearray(deal)
        bare[768:832] = bytes(64)
        bare[832:896] = MODEL.entry(bytes(32), 64, 128)  # valid, and stands not
        self.put("deal", bytes(bare))
        self.assertIn("house 2", self.answer("book", "deal", "segment", "--house", 2))
        self.assertEqual(self.both(), MODEL.book(bytes(bare), bytes(4), 2, self.get("segment"))[3:])

    def test_a_table_that_is_no_file(self):
        deal, _ = self.booked(1024, (128,))
        self.put("segment", self.segment())
        self.path("deal.owners").unlink()
        self.path("deal.owners").mkdir()
        self.cannot_be_read("deal.owners: it is not a regular file")
        self.assertEqual((self.get("deal"), self.files()), (deal, ["deal", "deal.owners", "out", "segment"]))

    @unittest.skipIf(os.getuid() != 0, "needs another user")
    def test_a_table_that_may_not_be_read(self):
        deal, _ = self.booked(1024, (128,))
        self.put("segment", self.segment())
        self.path("deal").chmod(0o666)
        self.path("deal.owners").chmod(0)
        self.cannot_be_read("deal.owners: Permission denied", **nobody())
        self.assertEqual(self.both(), (deal, b"\1\0\0\0"))

    def cannot_be_read(self, why, **options):
        """A table is there that cannot be read: nothing is changed, and what the deal holds is shown all the same."""
        for words in (("book", "deal", "segment"), ("cancel", "deal", 768), ("collect", "deal", "new"),
                      ("owner", "deal"), ("owner", "deal", 1)):
            self.assertIn(why, self.failed(IO, *words, **options))
        out, err = self.call("list", "deal", **options)
        self.assertEqual((out.splitlines()[1].split()[2:4], why in err), (["kept", "?"], True))
        for command in ("fsck", "repair"):
            self.assertIn(why, self.answer(command, "deal", status=DATA, **options))
        self.assertEqual(self.object("fsck", "deal", status=DATA, **options)["table"], "unreadable")
        self.assertIn(why, self.call("salvage", "deal", "out", **options)[1])

    def test_a_table_of_a_deal_that_is_gone(self):
        self.booked(1024, (128,))
        self.put("new.owners", b"\1\0\0\0")
        for words in (("new", "new", 1024), ("new", "new", 1 << 20)):
            error = self.failed(DATA, *words)
            self.assertIn("new.owners is there, and is not the table of the new deal; nothing is done; remove", error)
        self.answer("collect", "deal", "new")  # it is that of this one
        self.assertEqual(self.get("new.owners"), b"\1\0\0\0")
        self.put("other.owners", bytes(4))
        self.answer("new", "other", 512)
        self.assertEqual(self.both("other"), (bytes(512), bytes(4)))


class Owners(Calls):
    """Whose the entries are: shown, and said."""

    def shown(self, *words, **options):
        return self.object("owner", "deal", *words, **options)

    def owners(self):
        return self.get("deal.owners")

    def test_what_is_shown(self):
        deal, places = self.booked(1024, (256, 128, 128), (1, 2, 1))
        self.put("deal.owners", b"\1\2\7\1")
        rows = [line.split() for line in self.answer("owner", "deal").splitlines()]
        commitments = [deal[p : p + 32].hex() for p in places]
        self.assertEqual(rows[0], ["slot", "place", "owner", "size", "commitment"])
        self.assertEqual(rows[1:4],
                         [[str(i), str(p), owner, size, c] for i, p, owner, size, c in
                          zip(range(3), places, ("1", "2", "nobody(7)"), ("256", "128", "128"), commitments)])
        self.assertEqual(" ".join(rows[4]), "of 4 slots house 1 holds 1 and house 2 holds 1; 1 entries are nobody's")
        entry = lambda i, size, owner: {"slot": i, "place": places[i], **owner, "size": size,
                                        "commitment": commitments[i]}
        self.assertEqual(self.shown(), {**DONE, "entries": 4, "house_1": 1, "house_2": 1, "nobody": 1, "owners": [
            entry(0, 256, {"owner": 1}), entry(1, 128, {"owner": 2}), entry(2, 128, {"owner": 0, "owner_byte": 7})]})
        self.assertEqual(self.both(), (deal, b"\1\2\7\1"))
        self.path("deal.owners").unlink()
        self.assertIn("deal.owners is not there, and 3 entries stand in deal", self.failed(DATA, "owner", "deal"))
        self.put("deal", bytes(1024))
        self.assertEqual(self.shown(), {**DONE, "entries": 4, "house_1": 0, "house_2": 0, "nobody": 0, "owners": []})
        self.put("deal.owners", bytes(5))
        self.assertEqual(self.shown(status=23)["refused"], ["table"])

    def test_entries_that_are_nobodys(self):
        self.booked(1024, (256, 128, 128), (1, 2, 1))
        places = 768, 832, 896
        for table, words, after in ((bytes(4), (1,), b"\1\1\1\0"), (b"\0\2\7\7", (1,), b"\1\2\1\7"),
                                    (b"\1\2\7\7", (0,), b"\1\2\0\0"), (b"\1\2\7\1", (0,), b"\1\2\0\0"),
                                    (bytes(4), (2, 832, 768), b"\2\2\0\0"), (b"\7\2\0\0", (0, 768), b"\0\2\0\0"),
                                    (b"\1\2\0\0", (2, 896, 832, 896), b"\1\2\2\0"),
                                    (b"\1\2\2\0", (1,), b"\1\2\2\0"), (b"\1\2\2\0", (1, 768), b"\1\2\2\0")):
            self.put("deal.owners", table)
            value = self.shown(*words)
            self.assertEqual(self.owners(), after, (table, words))
            self.assertEqual([e["owner"] for e in value["owners"]], [b if b < 3 else 0 for b in after[:3]])
            self.assertEqual([e["place"] for e in value["owners"]], list(places))

    def test_a_table_is_made(self):
        deal, _ = self.booked(1024, (256, 128, 128), (1, 2, 1))
        for words, after in (((1,), b"\1\1\1\0"), ((2, 832), b"\0\2\0\0"), ((0,), bytes(4)), ((0, 768), bytes(4))):
            self.path("deal.owners").unlink()
            self.shown(*words)
            self.assertEqual(self.both(), (deal, after))
        self.assertEqual(self.files(), ["deal", "deal.owners"])
        self.answer("owner", "deal", 1, 768)
        self.put("segment", self.segment())
        self.assertIn("house 1", self.answer("book", "deal", "segment"))
        self.assertEqual(self.owners(), b"\1\0\0\1")

    def test_an_entry_of_the_other_house_is_taken_only_where_it_is_meant(self):
        self.booked(1024, (256, 128, 128), (1, 2, 1))
        before = self.put("deal.owners", b"\1\2\0\0")
        meant = "--instead-of", 1
        for words, whose, right in (((2, 768), "768 is house 1's", "2 768 --instead-of 1"),
                                    ((2, 896, 768), "768 is house 1's", "2 768 --instead-of 1"),
                                    ((0, 832), "832 is house 2's", "0 832 --instead-of 2"),
                                    ((1, 832, *meant), "832 is house 2's, and --instead-of says 1",
                                     "1 832 --instead-of 2"),
                                    ((2, 896, *meant), "896 is nobody's, and --instead-of says 1", "2 896")):
            error = self.failed(DATA, "owner", "deal", *words)
            right = f"nothing is changed; if that is right: vizhuthamen owner deal {right}\n"
            self.assertIn(f"the entry at place {whose}; {right}", error)
            self.assertEqual(self.owners(), before)
        for words, after in (((2, 768, "--instead-of", 1), b"\2\2\0\0"), ((2, 768, "--instead-of", 1), b"\2\2\0\0"),
                             ((1, "--instead-of", 2), b"\1\1\0\0"), ((1, "--instead-of", 0), b"\1\1\1\0"),
                             ((0, 832, 768, "--instead-of", 1), b"\0\0\1\0"), ((0, "--instead-of", 1), b"\0\0\0\0")):
            self.shown(*words)
            self.assertEqual(self.owners(), after, words)

    def test_refusals(self):
        deal, _ = self.booked(1024, (256, 128), (1, 2))
        for house in (3, 255, 256, 257, 1 << 40):
            value = self.shown(house, status=23)
            self.assertEqual((value["refused"], value["hint"]),
                             (["house"], f"{house} is no house: give 1 or 2, or 0 for nobody"))
        for place in (0, 769, 1024, 767):
            self.assertIn("an entry place here is a multiple of 64 from 768 to 960",
                          self.call("owner", "deal", 1, 768, place, status=6)[1])
        self.assertIn("slot 2 (place 896) is blank; see: vizhuthamen list deal",
                      self.call("owner", "deal", 1, 896, status=16)[1])
        self.assertEqual(self.both(), (deal, b"\1\2\0\0"))
        self.put("deal.owners", bytes(3))
        self.assertEqual(self.shown(1, status=23)["refused"], ["table"])
        self.assertEqual(self.both(), (deal, bytes(3)))

    def test_a_house_that_holds_half_or_more_is_told(self):
        self.booked(1024, (128,) * 4)
        note = "house 1 holds half the slots or more: it cannot book until it holds fewer"
        self.put("deal.owners", bytes(4))
        self.assertNotIn(note, self.call("owner", "deal", 1, 768)[1])
        self.assertIn(note, self.call("owner", "deal", 1)[1])
        self.put("segment", self.segment())
        self.assertIn("house 1 holds 4 of the 4 slots", self.answer("book", "deal", "segment", status=22))

    def test_owner_bytes_that_no_command_writes_are_named(self):
        deal, _ = self.booked(1024, (256, 128), (1, 2))
        self.answer("fsck", "deal")
        self.put("deal.owners", b"\7\2\1\xff")
        out = self.answer("fsck", "deal", status=DATA)
        for line in ("slot 0 (place 768) has the owner byte 7: its entry is nobody's",
                     "slot 2 (place 896) has the owner byte 1: the slot is blank",
                     "slot 3 (place 960) has the owner byte 255: no entry stands there"):
            self.assertIn(line + "; 0 is put there by: vizhuthamen owner deal 0\n", out)
        value = self.object("fsck", "deal", status=DATA)
        self.assertEqual((value["table"], [(w["slot"], w["state"], w["owner_byte"]) for w in value["owner_bytes"]]),
                         ("whole", [(0, "kept", 7), (2, "blank", 1), (3, "blank", 255)]))
        self.answer("owner", "deal", 0)
        self.assertEqual(self.both(), (deal, b"\0\2\0\0"))
        self.answer("fsck", "deal")
        # The byte of a damaged slot is that of the entry it held.
        self.put("deal.owners", b"\1\2\0\0")
        self.put("deal", deal[:768] + bytes([deal[768] ^ 1]) + deal[769:])
        value = self.object("fsck", "deal", status=DATA)
        self.assertEqual(value["owner_bytes"], [])
        self.answer("owner", "deal", 0)
        self.assertIn(", owner 1\n", self.answer("repair", "deal"))
        self.assertEqual(self.both(), (deal, b"\1\2\0\0"))

    def test_tables_that_are_missing_or_of_another_length_are_named(self):
        deal, _ = self.booked(1024, (256, 128), (1, 2))
        for length in (0, 3, 5, 1000):
            self.put("deal.owners", bytes(length))
            for command in ("fsck", "repair"):
                self.assertIn(f"deal.owners has {length} bytes, and deal has 4 slots",
                              self.answer(command, "deal", status=DATA))
            value = self.object("fsck", "deal", status=DATA)
            self.assertEqual((value["table"], value["table_bytes"]), ("wrong length", length))
        self.path("deal.owners").unlink()
        for command in ("fsck", "repair"):
            self.assertIn("deal.owners is not there, and 2 entries stand in deal",
                          self.answer(command, "deal", status=DATA))
        self.assertEqual(self.object("fsck", "deal", status=DATA)["table"], "missing")
        self.answer("fsck", "-", stdin=deal)  # nothing lies beside a pipe
        self.put("deal", bytes(1024))
        self.assertEqual(self.object("fsck", "deal")["table"], "missing")


class Numbers(Calls):
    def kept(self, name="deal"):
        return self.answer("number", name)

    def test_every_number(self):
        deal, places = self.booked()
        root = MODEL.commitment(deal)[1].hex()
        for number in (0, 1, 1 << 63, (1 << 64) - 1, self.rng.randrange(1 << 64)):
            record = MODEL.build(deal, number, places[0])[1]
            out = self.answer("build", "deal", places[0], "--number", number, "-o", "record", "--force")
            self.assertEqual((out, self.get("record")), (f"length {len(record)}\nnumber {number}\n", record))
            self.answer("check", root, 1024, "record", "--number", number)
            self.answer("settle", root, 1024, "record", "record", f"--number={number}")
            self.answer("settle-deal", "deal", "record", "--number", number)
            shown = self.answer("show", "record").splitlines()[-1]
            self.assertEqual(shown.split(), ["7", "deal", "number", "269", "8", str(number)])
            name = f"deal-{number}"
            self.assertTrue(self.answer("new", name, 512, "--number", number).endswith(f"\nnumber {number}\n"))
            self.assertEqual(self.get(name + ".vz"), f"vizhuthamen deal 1\nsize 512\nnumber {number}\n".encode())
            self.assertEqual(self.kept(name), f"number {number}\n")

    def test_a_kept_number_is_the_one_that_is_built_and_settled_with(self):
        deal, places = self.booked()
        record = MODEL.build(deal, NUMBER, places[0])[1]
        self.assertEqual(self.answer("number", "deal", NUMBER), f"number {NUMBER}\n")
        self.assertEqual((self.get("deal"), self.kept()), (deal, f"number {NUMBER}\n"))
        for given in ((), GIVEN):
            self.answer("build", "deal", places[0], "-o", "record", *given)
            self.assertEqual(self.get("record"), record)
            self.answer("settle-deal", "deal", "record", *given)
        for words in (("build", "deal", places[0], "-o", "record"), ("settle-deal", "deal", "record")):
            error = self.failed(DATA, *words, "--number", OTHER)
            for part in (f"deal has the number {NUMBER}, and --number says {OTHER}", "nothing is done",
                         f"vizhuthamen number deal {OTHER} --instead-of {NUMBER}"):
                self.assertIn(part, error)
        self.assertEqual(self.get("record"), record)
        # Bookings and cancellations leave it.
        self.put("segment", self.segment())
        self.answer("book", "deal", "segment", "--house", 2)
        self.answer("cancel", "deal", places[0], "--house", 1)
        self.assertEqual(self.kept(), f"number {NUMBER}\n")

    def test_a_number_that_is_not_known(self):
        deal, places = self.booked()
        self.put("record", MODEL.build(deal, NUMBER, places[0])[1])
        for words in (("build", "deal", places[0]), ("settle-deal", "deal", "record")):
            error = self.failed(DATA, *words)
            self.assertIn("the number of deal is not known; give --number N, or keep it beside the deal: "
                          "vizhuthamen number deal N\n", error)
            error = self.failed(DATA, *("-" if w == "deal" else w for w in words), stdin=deal)
            self.assertIn("the number of standard input is not known; give --number N\n", error)
        error = self.failed(DATA, "number", "deal")
        self.assertIn("no number of deal is kept; it is kept by: vizhuthamen number deal N\n", error)
        for words in (("check", "00" * 32, 512, "record"), ("settle", "00" * 32, 512, "record", "record")):
            self.assertIn("the deal's number is missing: give --number N", self.failed(USAGE, *words))
        self.assertEqual(self.files(), ["deal", "deal.owners", "record"])

    def test_a_number_is_changed_where_the_old_one_is_meant(self):
        self.booked()
        self.answer("number", "deal", NUMBER)
        self.answer("number", "deal", NUMBER)
        for words in ((OTHER,), (OTHER, "--instead-of", OTHER)):
            error = self.failed(DATA, "number", "deal", *words)
            self.assertIn(f"deal has the number {NUMBER}; nothing is changed; if {OTHER} is right: "
                          f"vizhuthamen number deal {OTHER} --instead-of {NUMBER}\n", error)
        self.assertEqual(self.kept(), f"number {NUMBER}\n")
        out, err = self.call("number", "deal", OTHER, "--instead-of", NUMBER)
        self.assertEqual((out, self.kept()), (f"number {OTHER}\n", f"number {OTHER}\n"))
        self.assertIn(f"records that were built with the number {NUMBER} name that number\n", err)
        # Done already, as after a call that was killed.
        self.assertEqual(self.call("number", "deal", OTHER, "--instead-of", NUMBER), (f"number {OTHER}\n", ""))
        self.path("deal.vz").unlink()
        error = self.failed(DATA, "number", "deal", NUMBER, "--instead-of", OTHER)
        self.assertIn(f"no number of deal is kept, and --instead-of says {OTHER}; nothing is changed", error)
        self.assertEqual(self.files(), ["deal", "deal.owners"])

    def test_a_record_of_another_deal_is_named(self):
        """The right record for the wrong deal, and its number: in the text and for programs."""
        deal, places = self.booked()
        root = MODEL.commitment(deal)[1].hex()
        self.put("mine", MODEL.build(deal, NUMBER, places[0])[1])
        self.put("other", MODEL.build(deal, OTHER, places[0])[1])
        hint = (f"other names deal number {OTHER}, and {NUMBER} is asked for: it is the record of another deal, or "
                f"{NUMBER} is not this deal's number")
        for words in (("check", root, 1024, "other", *GIVEN), ("settle-deal", "deal", "other", *GIVEN)):
            meaning, line = self.refused(21, *words).splitlines()
            self.assertEqual(line, hint)
            value = json.loads(self.answer(*words, "--json", status=21))
            self.assertEqual(value, {"code": 21, "meaning": meaning[len("code 21: "):], "command": words[0],
                                     "number": str(NUMBER), "record_number": str(OTHER), "hint": hint, "hints": [hint]})
        for records in (("other", "mine"), ("mine", "other")):
            value = self.object("settle", root, 1024, *records, *GIVEN, status=21)
            self.assertEqual((value["number"], value["record_number"]), (str(NUMBER), str(OTHER)))
            self.assertIn(f"record, {hint.replace('other names', 'other, is refused with code 21: it names')}",
                          value["hint"])
        # 1, 2 and 3 come before it; it comes before all else.
        spoilt = bytearray(self.get("other"))
        spoilt[49:57] = bytes(8)
        self.put("other", bytes(spoilt))
        self.refused(21, "check", root, 1024, "other", *GIVEN)
        self.refused(4, "check", root, 1024, "other", "--number", OTHER)
        self.refused(1, "check", root[:-2], 1024, "other", *GIVEN)
        self.refused(2, "check", root, 1000, "other", *GIVEN)
        self.put("other", bytes(spoilt[:-1]))
        self.refused(3, "check", root, 1024, "other", *GIVEN)

    def test_a_collected_deal_has_the_number_of_the_old_one(self):
        deal, places = self.booked()
        self.call("collect", "deal", "unknown")
        self.assertEqual(self.get("unknown.vz"), b"vizhuthamen deal 1\nsize 1024\n")
        self.answer("number", "deal", NUMBER)
        out, err = self.call("collect", "deal", "new")
        self.assertEqual(self.kept("new"), f"number {NUMBER}\n")
        self.assertIn(f"new has the number {NUMBER} of deal, whose place it takes; if it is another deal: "
                      f"vizhuthamen number new N --instead-of {NUMBER}\n", err)
        out, err = self.call("collect", "deal", "another", "--number", OTHER)
        self.assertEqual((self.kept("another"), self.kept()), (f"number {OTHER}\n", f"number {NUMBER}\n"))
        self.assertNotIn("whose place it takes", err)
        self.answer("collect", "-", "piped", stdin=deal)
        self.failed(DATA, "number", "piped")
        self.answer("build", "new", places[0], "-o", "record")
        self.answer("settle-deal", "new", "record")
        self.refused(21, "settle-deal", "another", "record")


class Streams(Calls):
    def test_as_commit(self):
        for size in (32, 64, 4096, 1 << 18, 1 << 22):
            data = self.put("file", self.segment(min(size, 4096)) * max(1, size // 4096))
            expected = self.answer("commit", "file")
            self.assertEqual(self.answer("stream", "file"), expected)
            self.assertEqual(self.answer("stream", "-", stdin=data), expected)

    def test_pieces_as_they_come(self):
        data = self.segment(256)
        call = subprocess.Popen([self.program, "stream", "-"], cwd=self.folder, stdin=subprocess.PIPE,
                                stdout=subprocess.PIPE)
        for i in range(0, 256, 30):
            call.stdin.write(data[i : i + 30])
            call.stdin.flush()
            time.sleep(0.01)
        out, _ = call.communicate(timeout=60)
        self.assertEqual((call.returncode, out.decode()), (0, MODEL.commitment(data)[1].hex() + "\n"))

    def test_more_bytes_than_may_be_held(self):
        size = 1 << 26
        with open(self.path("file"), "wb") as file:
            file.truncate(size)
        node = bytes(32)
        for _ in range(21):
            node = MODEL.h.node(node + node)
        bound = {"preexec_fn": lambda: resource.setrlimit(resource.RLIMIT_AS, (size // 2, size // 2))}
        self.assertEqual(self.answer("stream", "file", **bound), node.hex() + "\n")

    def test_refusals(self):
        hint = "and a raw archive of any size is padded and filled up to one by: vizhuthamen stream --raw"
        for size in (0, 1, 31, 33, 96, (1 << 20) + 32):
            self.put("file", bytes(size))
            for words, name, stdin in ((("stream", "file"), "file", b""),
                                       (("stream", "-"), "standard input", bytes(size))):
                out, err = self.call(*words, status=2, stdin=stdin)
                self.assertTrue(out.startswith("code 2: "), out)
                bounds = f"a stream has a power of two from 32 to {1 << 36} bytes"
                self.assertEqual(err, f"vizhuthamen: {name} has {size} bytes; {bounds}, {hint}\n")
        # Of bytes that arrive 11 stands before 2, and nothing after the node is read. Of a file the size is judged
        # first, as by `commit`.
        stray = self.put("file", bytes(31) + b"\x40\0")
        self.refused(11, "stream", "-", stdin=stray)
        for command in ("commit", "stream"):
            self.refused(2, command, "file")
        self.put("file", bytes(4095) + b"\x80")
        self.refused(11, "stream", "file")
        self.refused(11, "stream", "-", stdin=b"\xff" * 33)
        with open("/dev/zero", "rb") as zeros:
            endless = subprocess.Popen(["tr", "\\0", "\\377"], stdin=zeros, stdout=subprocess.PIPE)
            ran = subprocess.run([self.program, "stream", "-"], stdin=endless.stdout, capture_output=True, timeout=60)
            endless.stdout.close()
            endless.wait(timeout=60)
        self.assertEqual(ran.returncode, 11)

    def test_the_size_of_a_file_is_judged_before_its_bytes(self):
        for option, size in (((), (1 << 36) + 1), ((), (1 << 36) - 32), (("--raw",), MAX_RAW_STREAM + 1),
                             (("--raw",), 1 << 40)):
            with open(self.path("file"), "wb") as file:
                file.truncate(size)
            began = time.monotonic()
            out, err = self.call("stream", *option, "file", "--state", "state", status=2)
            self.assertLess(time.monotonic() - began, 5)
            self.assertTrue(out.startswith("code 2: "), out)
            self.assertIn("cut a longer one into several" if option else "vizhuthamen stream --raw", err)
        self.assertEqual(self.files(), ["file"])

    def test_a_file_that_changes_while_it_is_read(self):
        for option in ((), ("--raw",)):
            with open(self.path("file"), "wb") as file:
                file.truncate(1 << 27)
            call = subprocess.Popen([self.program, "stream", *option, "file"], cwd=self.folder, stdout=subprocess.PIPE,
                                    stderr=subprocess.PIPE)
            while self.place_read(call.pid) == 0:
                self.assertIsNone(call.poll())
                time.sleep(0.001)
            call.send_signal(signal.SIGSTOP)
            with open(self.path("file"), "ab") as file:
                file.write(b"more")
            call.send_signal(signal.SIGCONT)
            out, err = call.communicate(timeout=60)
            self.assertEqual((call.returncode, out), (DATA, b""))
            self.assertIn(b"file was changed while it was read", err)

    def place_read(self, pid):
        """How far a process has read the file."""
        for fd in Path(f"/proc/{pid}/fd").iterdir():
            try:
                if os.readlink(fd) == str(self.path("file")):
                    return int(Path(f"/proc/{pid}/fdinfo/{fd.name}").read_text().split()[1])
            except FileNotFoundError:
                pass
        return 0

    def test_progress_in_lines_where_it_is_asked_for(self):
        data = self.put("file", self.segment(1 << 12) * (1 << 9))
        line = r"vizhuthamen: hashing: 2 of 2 MiB, 100 %, \d+ MiB/s, 0 s left\n\Z"
        for option in ((), ("--raw",)):
            out, err = self.call("stream", *option, "file", "--progress")
            self.assertEqual(self.call("stream", *option, "file"), (out, ""))
            self.assertRegex(err, line)
            self.assertLess(err.count("\n"), 4)
        self.assertRegex(self.call("stream", "-", "--progress", stdin=data)[1],
                         r"\Avizhuthamen: hashing: \d MiB, \d+ MiB/s\n")


class RawStreams(Calls):
    """The commitment of a raw archive: that of its segment, padded and filled with zeros."""

    def committed(self, raw):
        """The same by `pad` in pieces, zeros written by hand, and `commit`."""
        segment = b""
        for i in range(0, len(raw), MAX_RAW):
            self.put("piece", raw[i : i + MAX_RAW])
            self.answer("pad", "piece", "-o", "padded", "--force")
            segment += self.get("padded")
        self.put("segment", segment)
        self.put("area", filled(segment))
        return self.answer("commit", "area"), len(segment)

    def test_small_archives_by_the_model(self):
        for n in (1, 2, 31, 32, 126, 127, 128, 254, 255, 508, 509, 1000, 5000):
            raw = self.put("raw", self.rng.randbytes(n))
            segment = pad(raw, bytes(segment_length(n)))[2]
            expected = MODEL.tree(filled(segment))[-1][0].hex()
            for words, stdin in ((("stream", "--raw", "raw"), b""), (("stream", "--raw=-"), raw)):
                self.assertEqual(self.answer(*words, stdin=stdin), expected + "\n")
            value = self.object("stream", "--raw", "raw")
            self.assertEqual(value, {**DONE, "commitment": expected, "raw_length": n, "size": len(segment),
                                     "area": len(filled(segment))})

    def test_as_pad_and_commit(self):
        part = 127 << 11
        data = self.rng.randbytes(2 * MAX_RAW)
        for n in (part - 1, part, part + 1, 2 * part, 2 * part + 1, MAX_RAW - 1, MAX_RAW, MAX_RAW + 1, 2 * MAX_RAW):
            raw = self.put("raw", data[:n])
            expected, size = self.committed(raw)
            self.assertEqual(self.answer("stream", "--raw", "raw"), expected, n)
            value = self.object("stream", "--raw", "-", stdin=raw)
            self.assertEqual((value["commitment"] + "\n", value["size"]), (expected, size))

    def test_the_commitment_that_booking_gives(self):
        self.answer("new", "deal", 1 << 21)
        for n in (1, 127, 128, 1000, 300000):
            self.put("raw", self.rng.randbytes(n))
            self.answer("pad", "raw", "-o", "segment", "--force")
            lines = dict(line.split() for line in self.answer("book", "deal", "segment").splitlines())
            value = self.object("stream", "--raw", "raw")
            self.assertEqual((lines["commitment"], int(lines["size"])), (value["commitment"], value["size"]))

    def test_pieces_as_they_come_and_the_end_of_a_pipe(self):
        raw = self.rng.randbytes(600000)
        os.mkfifo(self.path("pipe"))
        call = subprocess.Popen([self.program, "stream", "--raw", "pipe"], cwd=self.folder, stdout=subprocess.PIPE)
        with open(self.path("pipe"), "wb", buffering=0) as pipe:
            for i in range(0, len(raw), 99999):
                pipe.write(raw[i : i + 99999])
                time.sleep(0.005)
        out, _ = call.communicate(timeout=60)
        self.put("raw", raw)
        self.assertEqual((call.returncode, out.decode()), (0, self.answer("stream", "--raw", "raw")))

    def test_more_bytes_than_may_be_held(self):
        size, height = 1 << 26, 22
        with open(self.path("raw"), "wb") as file:
            file.truncate(size)
        node = bytes(32)
        for _ in range(height):
            node = MODEL.h.node(node + node)
        bound = {"preexec_fn": lambda: resource.setrlimit(resource.RLIMIT_DATA, (size // 2, size // 2))}
        value = json.loads(self.answer("stream", "--raw", "raw", "--json", **bound))
        self.assertEqual((value["commitment"], value["area"]), (node.hex(), 32 << height))

    def test_refusals(self):
        self.put("raw", b"")
        for words in (("stream", "--raw", "raw"), ("stream", "--raw", "-")):
            out, err = self.call(*words, status=2)
            self.assertTrue(out.startswith("code 2: "), out)
            self.assertIn(f"has 0 bytes; a raw archive has from 1 to {MAX_RAW_STREAM} bytes", err)
        self.failed(IO, "stream", "--raw", "missing")
        self.failed(IO, "stream", "--raw", ".")


class States(Calls):
    """A stream that keeps its state in a file. What kills and errors leave is tested in faults_test.py."""

    def killed(self, *words):
        """A run that is killed as soon as its state is there. Gives the state."""
        call = subprocess.Popen([self.program, *words, "--state", "state"], cwd=self.folder, stdout=subprocess.DEVNULL)
        while not self.path("state").exists():
            self.assertIsNone(call.poll())
            time.sleep(0.001)
        call.kill()
        self.assertEqual(call.wait(), -signal.SIGKILL)
        return self.get("state")

    def file(self, name="file", size=1 << 25):
        with open(self.path(name), "wb") as file:
            file.truncate(size)

    def test_a_state_that_is_not_needed_any_more(self):
        self.file(size=1 << 20)
        for words in (("stream", "file"), ("stream", "--raw", "file")):
            self.assertEqual(self.answer(*words, "--state", "state"), self.answer(*words))
            self.assertEqual(self.files(), ["file"])
        self.put("file", b"\xff" * 64)
        self.refused(11, "stream", "file", "--state", "state")  # a refusal is an answer too
        self.assertEqual(self.files(), ["file"])

    def test_a_killed_run_is_gone_on_with(self):
        self.file()
        for words in (("stream", "file"), ("stream", "--raw", "file")):
            expected = self.answer(*words)
            state = self.killed(*words)
            error = self.failed(DATA, *words, "--state", "state")
            self.assertIn("state is the state of a run that has not ended; "
                          "go on with --resume, or remove state to begin again", error)
            self.assertEqual(self.get("state"), state)
            self.assertEqual(self.call(*words, "--state", "state", "--resume"), (expected, ""))
            self.assertEqual(self.files(), ["file"])

    def test_an_answer_that_cannot_be_written_leaves_the_state(self):
        self.file(size=1 << 20)
        with open("/dev/full", "wb") as full:
            ran = subprocess.run([self.program, "stream", "--raw", "file", "--state", "state"], cwd=self.folder,
                                 stdout=full, stderr=subprocess.PIPE)
        self.assertEqual(ran.returncode, IO)
        self.assertEqual(self.answer("stream", "--raw", "file", "--state", "state", "--resume"),
                         self.answer("stream", "--raw", "file"))

    def test_damaged_and_foreign_states(self):
        self.file()
        words = ("stream", "--raw", "file", "--state", "state", "--resume")
        state = self.killed(*words[:3])
        damaged = [state[:-1], state[:1000], b"", state + b"\n", b"vizhuthamen deal 1\nsize 512\n", b"\xff" * 3000]
        for _ in range(60):
            at = self.rng.randrange(len(state))
            damaged.append(state[:at] + bytes([state[at] ^ 1 << self.rng.randrange(8)]) + state[at + 1:])
        for data in damaged:
            self.put("state", data)
            error = self.failed(DATA, *words)
            self.assertIn("state is not the state of a stream: it", error)
            self.assertIn("; remove state and begin again without --resume", error)
            self.assertEqual(self.get("state"), data)
        self.put("state", state.replace(b"stream 1", b"stream 2"))
        self.assertIn("of another version", self.failed(DATA, *words))
        self.put("state", state)
        self.assertIn("the state is that of a stream with --raw", self.failed(DATA, "stream", "file", *words[3:]))
        self.path("state").unlink()
        self.assertIn("without a state begin without --resume", self.failed(IO, *words))
        self.put("state", b"precious")
        self.assertIn("the file exists; give another name", self.failed(IO, *words[:-1]))
        self.assertEqual(self.get("state"), b"precious")

    def test_a_file_that_is_another_one_by_now(self):
        self.file()
        words = ("stream", "--raw", "file", "--state", "state", "--resume")
        state = self.killed(*words[:3])
        before = self.path("file").stat()
        with open(self.path("file"), "ab") as file:
            file.write(b"1")
        error = self.failed(DATA, *words)
        self.assertIn(f"file has {(1 << 25) + 1} bytes, and had {1 << 25} when the state was kept; "
                      "remove state and begin again", error)
        os.truncate(self.path("file"), 1 << 25)
        self.assertIn("file was changed after the state was kept", self.failed(DATA, *words))
        os.utime(self.path("file"), ns=(before.st_atime_ns, before.st_mtime_ns))
        shutil.copy2(self.path("file"), self.path("copy"))
        self.assertIn("copy is another file", self.failed(DATA, "stream", "--raw", "copy", *words[3:]))
        self.path("file").rename(self.path("moved"))  # the same file under another name
        self.answer("stream", "--raw", "moved", *words[3:])
        self.assertEqual(self.files(), ["copy", "moved"])

    def test_what_has_no_state(self):
        data = self.segment(64)
        self.assertIn("standard input is not a regular file",
                      self.failed(USAGE, "stream", "-", "--state", "state", stdin=data))
        self.failed(USAGE, "stream", "/dev/zero", "--state", "state")
        self.put("empty", b"")
        self.failed(USAGE, "stream", "empty", "--state", "state")
        self.put("file", data)
        self.failed(USAGE, "stream", "file", "--resume")
        self.failed(USAGE, "stream", "file", "--state", "-")
        self.failed(IO, "stream", "file", "--state", "no/such/folder")
        self.assertIn("the file exists; give another name", self.failed(IO, "stream", "file", "--state", "file"))
        self.assertEqual((self.get("file"), self.files()), (data, ["empty", "file"]))


class Archives(Calls):
    def test_raw_bytes_there_and_back(self):
        for n in (1, 2, 127, 128, 255, 1000, 5000):
            raw = self.put("raw", self.rng.randbytes(n))
            segment = pad(raw, bytes(segment_length(n)))[2]
            self.assertEqual(self.answer("pad", "raw"), segment.hex() + "\n")
            self.assertEqual(self.answer("pad", "-", stdin=raw), segment.hex() + "\n")
            self.assertEqual(self.answer("pad", "raw", "--output", "segment", "--force"), f"length {len(segment)}\n")
            self.assertEqual(self.get("segment"), segment)
            self.assertEqual(self.answer("unpad", n, "segment"), raw.hex() + "\n")
            self.assertEqual(self.answer("unpad", n, "segment", "--output", "back", "--force"), f"length {n}\n")
            self.assertEqual(self.get("back"), raw)

    def test_the_longest_archive(self):
        raw = self.put("raw", self.rng.randbytes(MAX_RAW))
        self.assertEqual(self.answer("pad", "raw", "-o", "segment"), f"length {1 << 23}\n")
        self.answer("commit", "segment")
        self.answer("new", "deal", 1 << 24)
        self.answer("book", "deal", "segment")
        self.assertEqual(self.answer("unpad", MAX_RAW, "segment", "-o", "back"), f"length {MAX_RAW}\n")
        self.assertEqual(self.get("back"), raw)

    def test_refusals(self):
        for size in (0, MAX_RAW + 1):
            self.put("raw", bytes(size))
            out, err = self.call("pad", "raw", status=2)
            self.assertTrue(out.startswith("code 2: "), out)
            self.assertIn(f"raw has {size} bytes; an archive has from 1 to {MAX_RAW} bytes, "
                          "and the commitment of a longer one", err)
        segment = self.put("segment", pad(b"\xff" * 128, bytes(130))[2])
        for n in (0, MAX_RAW + 1, (1 << 64) - 1):
            self.refused(2, "unpad", n, "segment")
        for n in (1, 127, 129):
            out, err = self.call("unpad", n, "segment", status=24)
            self.assertTrue(out.startswith("code 24: the segment has another length than the raw length gives\n"), out)
            self.assertIn(f"segment has 130 bytes; the segment of {n} raw bytes has {segment_length(n)}", err)
        for at, bits in ((31, 64), (127, 128), (129, 1), (129, 128)):
            self.put("spoilt", segment[:at] + bytes([segment[at] | bits]) + segment[at + 1:])
            self.refused(11, "unpad", 128, "spoilt", "-o", "back")
        self.put("raw", b"raw")
        self.failed(USAGE, "pad", "raw", "-o", "raw")
        self.failed(USAGE, "unpad", 128, "segment", "-o", "./segment")
        self.assertEqual(self.files(), ["raw", "segment", "spoilt"])


class Json(Calls):
    def test_every_command(self):
        deal, places = self.booked()
        record = self.put("record", MODEL.build(deal, NUMBER, places[0])[1])
        root, commitment = MODEL.commitment(deal)[1].hex(), deal[places[0] : places[0] + 32].hex()
        padded = self.object("pad", "record")
        self.assertEqual(padded["length"], segment_length(len(record)))
        self.put("padded", bytes.fromhex(padded["segment"]))
        raw = self.object("unpad", len(record), "padded")
        self.assertEqual((raw["length"], raw["raw"]), (len(record), record.hex()))
        self.assertEqual(self.object("new", "other", 512), {**DONE, "size": 512, "entries": 4, "start": 256})
        new = self.object("new", "numbered", 512, *GIVEN)
        self.assertEqual(new, {**DONE, "size": 512, "entries": 4, "start": 256, "number": str(NUMBER)})
        self.assertEqual(self.object("number", "deal", NUMBER), {**DONE, "number": str(NUMBER)})
        self.assertEqual(self.object("number", "deal"), {**DONE, "number": str(NUMBER)})
        for command in ("commit", "stream"):
            hashed = self.object(command, "deal")
            self.assertEqual((hashed["commitment"], hashed["size"]), (root, 1024))
        self.put("segment", deal[:256])
        again = self.object("book", "deal", "segment", status=15)
        self.assertEqual((again["offset"], again["place"], again["commitment"], again["house"]),
                         (0, places[0], commitment, 1))
        self.assertNotIn("number", self.object("list", "other"))
        listed = self.object("list", "deal")
        self.assertEqual((listed["size"], listed["number"], listed["start"]), (1024, str(NUMBER), 768))
        slots = listed["slots"]
        self.assertEqual([s["state"] for s in slots], ["kept", "kept", "blank", "blank"])
        self.assertEqual(slots[0], {"slot": 0, "place": places[0], "state": "kept", "owner": 1, "offset": 0,
                                    "size": 256, "commitment": commitment})
        self.assertEqual((listed["table"], "owner" in slots[2]), ("whole", False))
        tally = self.object("tally", "deal")
        self.assertEqual((tally["blank"], tally["damaged"], tally["valid"]), (2, 0, 2))
        found = self.object("find", "deal", commitment)
        self.assertEqual((found["offset"], found["size"], found["place"]), (0, 256, places[0]))
        built = self.object("build", "deal", places[0])
        self.assertEqual(built, {**DONE, "length": len(record), "number": str(NUMBER), "record": record.hex()})
        built = self.object("build", "deal", places[0], "-o", "record")
        self.assertEqual(built, {**DONE, "length": len(record), "number": str(NUMBER)})
        for words in (("check", root, 1024, "record", *GIVEN), ("settle", root, 1024, "record", "record", *GIVEN),
                      ("settle-deal", "deal", "record")):
            self.assertEqual(self.object(*words)["number"], str(NUMBER))
        collected = self.object("collect", "deal", "collected")
        self.assertEqual(([m["new_place"] for m in collected["moved"]], collected["number"]), (places, str(NUMBER)))
        cancelled = self.object("cancel", "deal", places[0])
        self.assertEqual(cancelled,
                         {**DONE, "offset": 0, "place": places[0], "size": 256, "commitment": commitment, "house": 1})
        self.assertEqual(self.object("cancel", "deal", places[0], status=16)["house"], 1)
        fields = self.object("show", "record")["fields"]
        self.assertEqual([f["tag"] for f in fields], [1, 2, 3, 4, 5, 6, 7])
        self.assertEqual([f.get("value") for f in fields], [None, 0, 256, places[0], None, None, str(NUMBER)])
        for f, nodes in zip(fields, (None, None, None, None, 2, 4, None)):
            self.assertEqual(len(f["nodes"]) if "nodes" in f else None, nodes)
            self.assertEqual("".join(f.get("nodes", [f["content"]])), f["content"])
        self.assertEqual((fields[6]["name"], fields[6]["content"]), ("deal number", NUMBER.to_bytes(8, "little").hex()))
        self.assertEqual(b"".join(bytes.fromhex(f["content"]) for f in fields)[:32], record[3:35])

    def test_refusals(self):
        self.booked()
        self.assertEqual(self.object("find", "deal", "00" * 31, status=1),
                         {"code": 1, "meaning": "a commitment is not 32 bytes long"})
        self.assertEqual(self.object("build", "deal", 960, *GIVEN, status=16)["code"], 16)
        self.put("record", b"\2\10\0" + b"\xff" * 8)
        shown = self.object("show", "record", status=3)
        self.assertEqual(shown["fields"][0]["value"], str((1 << 64) - 1))

    def test_numbers_that_no_reader_rounds(self):
        for number in (0, 1, (1 << 53) - 1, 1 << 53, (1 << 53) + 1, (1 << 64) - 1):
            self.answer("new", f"deal-{number}", 512, "--number", number)
            self.assertEqual(self.object("number", f"deal-{number}"), {**DONE, "number": told(number)})

    def test_failures(self):
        self.assertIn("cannot read missing: ", self.failed(IO, "--json", "list", "missing"))
        self.failed(USAGE, "--json", "list")


class Refusals(Calls):
    def changed(self, record, at, value):
        self.put("changed", record[:at] + bytes([value]) + record[at + 1:])

    def test_the_codes_of_the_check(self):
        deal, places = self.booked(512, (128,))
        record = self.put("record", MODEL.build(deal, NUMBER, places[0])[1])
        root = MODEL.commitment(deal)[1].hex()
        self.refused(1, "check", root[:-2], 512, "record", *GIVEN)
        self.refused(1, "check", "", 512, "record", *GIVEN)
        self.refused(2, "check", root, 513, "record", *GIVEN)
        self.refused(2, "check", root, 1 << 37, "record", *GIVEN)
        for length in (244, 234):  # cut, and without its number
            self.put("cut", record[:length])
            self.refused(3, "check", root, 512, "cut", *GIVEN)
        cases = ((4, 49, 0), (5, 38, 64), (6, 60, 1), (7, 50, 1), (8, 34, 255), (9, 72, record[72] ^ 1),
                 (10, 233, record[233] ^ 1),
                 (19, 102, 255), (19, 233, 64), (21, 237, record[237] ^ 1), (21, 244, record[244] ^ 128))
        for code, at, value in cases:
            self.changed(record, at, value)
            if code == 7:  # a segment of 256 bytes with the path of one of 128
                self.put("changed", record[:49] + b"\0\1" + record[51:])
            self.refused(code, "check", root, 512, "changed", *GIVEN)
            self.refused(code, "settle", root, 512, "record", "changed", *GIVEN)
            self.refused(code, "settle-deal", "deal", "changed", *GIVEN)

    def test_the_codes_of_deals(self):
        deal, places = self.booked(512, (128, 128), (1, 2))
        self.put("third", self.segment())
        one = "--house", 1
        self.refused(14, "book", "deal", "third", *one)
        self.put("stray", b"\xff" * 128)
        self.refused(11, "book", "deal", "stray", *one)
        self.refused(11, "commit", "stray")
        self.put("strayed", deal[:31] + b"\x40" + deal[32:])
        self.refused(11, "tally", "strayed")
        self.refused(4, "book", "deal", "deal", *one)
        self.refused(16, "find", "deal", "00" * 32)
        self.refused(16, "build", "deal", 384, *GIVEN)
        self.refused(6, "build", "deal", 300, *GIVEN)
        self.refused(6, "build", "deal", 512, *GIVEN)
        self.assertEqual(self.get("deal"), deal)
        self.booked(1024, (128,) * 4)
        self.put("deal.owners", bytes(4))
        self.refused(13, "book", "deal", "third")

    def test_wrong_sizes_are_named(self):
        self.put("short", bytes(1000))
        for words in (("list", "short"), ("audit", "short"), ("tally", "short"), ("book", "short", "short"),
                      ("find", "short", "00" * 32),
                      ("build", "short", 0, *GIVEN), ("commit", "short"), ("settle-deal", "short", "short", *GIVEN),
                      ("number", "short", 7), ("owner", "short"), ("owner", "short", 1)):
            out, err = self.call(*words, status=2)
            self.assertTrue(out.startswith("code 2: "))
            self.assertIn("short has 1000 bytes", err)
        with open(self.path("long"), "wb") as file:
            file.truncate(1 << 33)
        for words in (("list", "long"), ("audit", "long"), ("commit", "long")):
            self.assertIn("long has more than 16777216 bytes", self.call(*words, status=2)[1])
        for size in (0, 511, 513, 1 << 25, 1 << 37):
            self.refused(2, "new", "made", size)
        self.assertEqual(self.files(), ["long", "short"])

    def test_a_malformed_record_is_shown_as_far_as_it_goes(self):
        deal, places = self.booked()
        record = MODEL.build(deal, NUMBER, places[0])[1]
        self.put("cut", record[:70])
        lines = self.refused(3, "show", "cut").splitlines()
        self.assertEqual([line.split()[0] for line in lines], ["code", "tag", "1", "2", "3", "4", "unread"])
        self.put("old", record[:-11])  # as records were without a number
        self.assertNotIn("deal number", self.refused(3, "show", "old"))
        self.put("empty", b"")
        self.refused(3, "show", "empty")


class Usage(Calls):
    def test_help_and_version(self):
        overall = self.answer("--help")
        for command in COMMANDS:
            self.assertIn(f"\n  {command} ", overall)
            text = self.answer(command, "--help")
            self.assertTrue(text.startswith(f"Usage: vizhuthamen {command} "), text)
            self.assertEqual(text, self.answer("help", command))
        self.assertIn("DEAL is locked", self.answer("book", "--help"))
        for usage in ("number DEAL [N] [--no-wait] [--instead-of N]", "check COMMITMENT SIZE RECORD --number N",
                      "owner DEAL [HOUSE] [PLACE...|--slot N] [--no-wait] [--instead-of N]",
                      "build DEAL PLACE|--slot N [--output FILE] [--force] [--number N]",
                      "cancel DEAL PLACE|--slot N [OPTIONS]", "commit [--raw] FILE",
                      "book DEAL [--raw] SEGMENT [OPTIONS]",
                      "find DEAL COMMITMENT|--raw FILE [--output FILE] [--force]",
                      "prove DEAL [--segment] FILE --output FILE [OPTIONS]",
                      "verify PROOF FILE [--commitment COMMITMENT] [--number N] [--size SIZE]",
                      "pack FILE... --deal DEAL [OPTIONS]",
                      "extract DEAL [NAME...] [--force] [--no-wait] [--to FOLDER]",
                      "close DEAL [OPTIONS]", "playback SIZE LOG", "log LOG",
                      "stream [--raw] FILE [--state FILE] [--resume] [--progress]"):
            first = self.answer(usage.split()[0], "--help").splitlines()[0]
            self.assertEqual(first, f"Usage: vizhuthamen {usage} [--json]")
        self.assertRegex(self.answer("--version"), r"\Avizhuthamen \d+\.\d+\.\d+\n\Z")

    def test_wrong_usage(self):
        calls = ((), ("nothing",), ("new", "d"), ("new", "d", "0x200"), ("new", "d", "-1"), ("new", "d", "512", "512"),
                 ("find", "d", "xyz"), ("list", "--all", "d"), ("list", "d", "--output", "f"),
                 ("settle", "00", "512", "-", "-", *GIVEN), ("settle", "00", "512", "r", "r"),
                 ("check", "00", "512", "r"), ("check", "00", "512", "r", "--number", "0x1"),
                 ("check", "00", "512", "r", "--number", 1 << 64), ("number", "d", -1), ("number", "d", 1 << 64),
                 ("number", "-"), ("number", "-", 1), ("number", "d", "--instead-of", 1), ("owner", "-"),
                 ("owner", "-", 1), ("owner", "d", "--instead-of", 1), ("owner", "d", 1, "--instead-of", 3),
                 ("owner", "d", "x"), ("book", "d", "s", "--house", "x"), ("new", "d", "512", "--number", ""),
                 ("build", "d", str(1 << 64)), ("build", "d", "256", "-o", "-", "--json"), ("new", "-", "512"),
                 ("book", "-", "s"), ("list", ""), ("audit",), ("audit", "d", "e"), ("audit", "d", "--output", "f"),
                 ("audit", "d", "--no-wait"), ("playback", "l"), ("playback", "l", "512"), ("playback", "512", ""),
                 ("playback", "512", "l", "--log", "m"), ("log",),
                 ("log", "l", "m"), ("book", "d", "s", "--log", "-"), ("collect", "d", "n", "--log", "l"))
        for words in calls:
            self.failed(USAGE, *words)
        self.assertEqual(self.files(), [])

    def test_standard_input(self):
        deal, places = self.booked()
        segment = deal[:256]
        record = self.put("record", MODEL.build(deal, NUMBER, places[0])[1])
        root, commitment = MODEL.commitment(deal)[1].hex(), deal[places[0] : places[0] + 32].hex()
        self.assertEqual(self.answer("commit", "-", stdin=deal), root + "\n")
        self.refused(15, "book", "deal", "-", stdin=segment)
        for words in (("list", "deal"), ("audit", "deal"), ("tally", "deal"), ("find", "deal", commitment),
                      ("build", "deal", places[0], *GIVEN)):
            piped = ["-" if w == "deal" else w for w in words]
            read = self.answer(*words)
            if words[0] in ("list", "audit"):  # nothing lies beside a pipe
                read = read.replace("kept   1 ", "kept   ? ")
            self.assertEqual(self.answer(*piped, stdin=deal), read)
        self.answer("check", root, 1024, "-", *GIVEN, stdin=record)
        self.answer("settle", root, 1024, "record", "-", *GIVEN, stdin=record)
        self.answer("settle-deal", "-", "record", *GIVEN, stdin=deal)
        self.assertEqual(self.answer("show", "-", stdin=record), self.answer("show", "record"))

    def test_bytes_to_standard_output(self):
        deal, places = self.booked()
        for words, data in ((("build", "deal", places[0], *GIVEN), MODEL.build(deal, NUMBER, places[0])[1]),
                            (("pad", "deal"), pad(deal, bytes(segment_length(1024)))[2]),
                            (("unpad", 1016, "deal"), unpad(1016, deal, bytes(1016))[2]),
                            (("find", "deal", deal[places[0] : places[0] + 32].hex()), deal[:256])):
            ran = subprocess.run([self.program, *map(str, words), "-o", "-"], capture_output=True, cwd=self.folder)
            self.assertEqual((ran.returncode, ran.stdout, ran.stderr), (0, data, b""))

    def test_random_words_and_bytes_never_end_in_a_panic(self):
        deal, places = self.booked()
        self.put("record", MODEL.build(deal, NUMBER, places[0])[1])
        self.put("empty", b"")
        words = [*COMMANDS, "deal", "record", "empty", "missing", ".", "-", "--json", "--output", "made", "--", "0",
                 "512", "1024", "--force", "--no-wait", "--new-owner", "--segment", "--raw", "--commitment", "--place",
                 "--number", "--instead-of", "--house", "--state", "--resume", "--progress", "--slot", "--man", "bash",
                 "--cid", "--size", "--deal", "--records", "--to", "--reopen", "--log", "log",
                 str(places[0]), "00" * 32, "ff", "", "\udcff", "--help", MODEL.commitment(deal)[1].hex()]
        for _ in range(400):
            call = [self.rng.choice(COMMANDS), *self.rng.choices(words, k=self.rng.randrange(5))]
            self.put("noise", self.rng.randbytes(self.rng.randrange(400)))
            ran = subprocess.run([self.program, *call], input=self.rng.randbytes(300), capture_output=True,
                                 cwd=self.folder)
            self.assertIn(ran.returncode, (*range(25), USAGE, DATA, NOT_PROVED, IO), call)
            self.assertNotIn(b"panicked", ran.stderr, call)
            self.put("deal", deal)

    def test_random_bytes_as_files(self):
        for i in range(200):
            data = bytearray(self.rng.choice((self.rng.randbytes(self.rng.randrange(300)), self.booked()[0])))
            for _ in range(self.rng.randrange(4) if data else 0):
                data[self.rng.randrange(len(data))] = self.rng.randrange(256)
            self.put("file", bytes(data))
            if self.rng.randrange(2):
                self.put("file.owners", self.rng.randbytes(self.rng.choice((4, 4, 3, 0, 200))))
            raw_length = str(len(data) * 127 // 128)
            for words in (("show", "file"), ("list", "file"), ("audit", "file"), ("tally", "file"), ("commit", "file"),
                          ("stream", "file"),
                          ("stream", "--raw", "file"), ("settle-deal", "file", "file", "--number", "7"),
                          ("pad", "file"), ("unpad", raw_length, "file"), ("fsck", "file"),
                          ("owner", "file"), ("log", "file"), ("playback", "1024", "file"),
                          *((("collect", "file", "new"), ("salvage", "file", "out"), ("owner", "file", "1"),
                             ("cancel", "file", "832"), ("repair", "file")) if i % 8 == 0 else ())):
                ran = subprocess.run([self.program, *words], capture_output=True, cwd=self.folder)
                self.assertIn(ran.returncode, (*range(25), DATA), words)
                self.assertNotIn(b"panicked", ran.stderr, words)
            copies = (p.name for p in self.folder.glob("file.before-repair*"))
            for name in ("out", "new", "new.vz", "new.owners", "file.vz", "file.owners", *copies):
                shutil.rmtree(self.path(name)) if self.path(name).is_dir() else self.path(name).unlink(missing_ok=True)


class Failures(Calls):
    def test_files_that_cannot_be_read(self):
        self.booked()
        self.path("folder").mkdir()
        for words in (("commit", "missing"), ("commit", "folder"), ("stream", "missing"), ("stream", "folder"),
                      ("list", "missing"), ("pad", "missing"), ("pad", "folder"), ("unpad", 127, "missing"),
                      ("unpad", 127, "folder"), ("audit", "missing"), ("audit", "folder"), ("tally", "missing"),
                      ("list", "folder"), ("book", "missing", "deal"), ("book", "folder", "deal"),
                      ("book", "deal", "missing"), ("cancel", "missing", 768), ("cancel", "folder", 768),
                      ("collect", "missing", "new"), ("collect", "folder", "new"), ("show", "missing"),
                      ("settle-deal", "deal", "missing", *GIVEN), ("check", "00" * 32, 512, "missing", *GIVEN),
                      ("build", "missing", 0, *GIVEN), ("build", "missing", 0), ("find", "missing", "00" * 32),
                      ("number", "missing"), ("number", "folder"), ("number", "missing", 7), ("number", "folder", 7),
                      ("owner", "missing"), ("owner", "folder"), ("owner", "missing", 1), ("owner", "folder", 1)):
            self.assertIn("missing" if "missing" in words else "folder", self.failed(IO, *words))
        self.path("deal").chmod(0)
        self.failed(IO, "list", "deal", **nobody())

    def test_a_new_deal_never_overwrites(self):
        self.put("deal", b"precious")
        self.assertIn("exists", self.failed(IO, "new", "deal", 512))
        self.assertEqual(self.get("deal"), b"precious")
        self.failed(IO, "new", "no/such/folder", 512)

    def limited(self, size, ignore):
        """Options of a call whose writes to files fail after some bytes, by an error or by a signal that kills."""
        def limit():
            resource.setrlimit(resource.RLIMIT_FSIZE, (size, size))
            signal.signal(signal.SIGXFSZ, signal.SIG_IGN if ignore else signal.SIG_DFL)
        return {"preexec_fn": limit, "restore_signals": False}

    def test_a_booking_that_cannot_write_leaves_the_old_deal(self):
        deal, _ = self.booked()
        self.put("segment", self.segment())
        before = self.both()
        for size in (0, 3, 100, 1023):
            self.assertIn("File too large",
                          self.failed(IO, "book", "deal", "segment", "--house", 2, **self.limited(size, True)))
            self.assertEqual((self.both(), self.files()), (before, ["deal", "deal.owners", "segment"]))
        self.answer("book", "deal", "segment", "--house", 2, **self.limited(1024, True))

    def test_a_cancellation_or_a_collection_that_cannot_write_leaves_all_as_it_was(self):
        deal, places = self.booked()
        before = self.both()
        for words in (("cancel", "deal", places[0]), ("collect", "deal", "new")):
            for size in (0, 3, 100, 1023):
                self.assertIn("File too large", self.failed(IO, *words, **self.limited(size, True)))
                self.call(*words, status=-signal.SIGXFSZ, **self.limited(size, False))
                self.assertEqual((self.both(), self.files()), (before, ["deal", "deal.owners"]))
        self.answer("collect", "deal", "new", **self.limited(1024, True))
        self.answer("cancel", "deal", places[0], **self.limited(1024, True))

    def test_a_booking_that_is_killed_while_writing_leaves_the_old_deal(self):
        self.booked()
        before, segment = self.both(), self.put("segment", self.segment())
        self.call("book", "deal", "segment", "--house", 2, status=-signal.SIGXFSZ, **self.limited(500, False))
        self.assertEqual(self.both(), before)
        self.answer("book", "deal", "segment", "--house", 2)
        self.assertEqual(self.both(), MODEL.book(*before, 2, segment)[3:])

    def test_a_booking_that_is_killed_at_any_moment_leaves_a_whole_deal(self):
        old = self.put("deal", bytes(1 << 20)), self.put("deal.owners", bytes(8))
        segment = self.put("segment", self.segment(1 << 12) * (1 << 7))
        new = MODEL.book(*old, 1, segment)[3:]
        began = time.monotonic()
        self.answer("book", "deal", "segment")
        span = time.monotonic() - began
        for i in range(40):
            self.put("deal", old[0])
            self.put("deal.owners", old[1])
            call = subprocess.Popen([self.program, "book", "deal", "segment"], cwd=self.folder,
                                    stdout=subprocess.DEVNULL)
            time.sleep(span * i / 32)
            call.kill()
            call.wait()
            self.assertIn(self.get("deal"), (old[0], new[0]))
            self.answer("fsck", "deal")  # ends what was begun
            self.assertIn(self.both(), (old, new))

    def test_a_folder_or_a_deal_that_may_not_be_written(self):
        self.booked()
        before = self.both()
        self.put("segment", self.segment())
        book = "book", "deal", "segment", "--house", 2
        self.path("deal").chmod(0o444)
        self.failed(IO, *book, **nobody())
        self.path("deal").chmod(0o666)
        self.folder.chmod(0o555)
        self.failed(IO, *book, **nobody())
        self.failed(IO, "cancel", "deal", 768, **nobody())
        self.failed(IO, "collect", "deal", "new", **nobody())
        self.failed(IO, "build", "deal", 768, "-o", "record", *GIVEN, **nobody())
        self.failed(IO, "number", "deal", 7, **nobody())
        self.failed(IO, "owner", "deal", 2, 768, "--instead-of", 1, **nobody())
        self.folder.chmod(0o777)
        if os.getuid() == 0:
            for words in (book, ("cancel", "deal", 768), ("owner", "deal", 2, 768, "--instead-of", 1)):
                options = () if words[0] == "owner" else ("--new-owner",)
                self.assertIn("deal.owners: Permission denied", self.failed(IO, *words, *options, **nobody()))
        self.assertEqual((self.both(), self.files()), (before, ["deal", "deal.owners", "segment"]))
        self.path("deal.owners").chmod(0o666)
        self.answer(*book, "--new-owner", **nobody())

    def test_permissions_and_links_are_kept(self):
        self.booked()
        self.put("segment", self.segment())
        self.path("deal").chmod(0o640)
        self.path("deal.owners").chmod(0o660)
        self.path("link").symlink_to("deal")
        owner = (1234, 1235) if os.getuid() == 0 else (os.getuid(), os.getgid())
        for name in ("deal", "deal.owners"):
            os.chown(self.path(name), *owner)
        self.answer("book", "link", "segment", "--house", 2)
        for name, mode in (("deal", 0o640), ("deal.owners", 0o660)):
            info = self.path(name).stat()
            self.assertEqual((stat.S_IMODE(info.st_mode), info.st_uid, info.st_gid), (mode, *owner))
        self.assertTrue(self.path("link").is_symlink())
        self.assertIn(self.segment_at(2), self.get("segment"))
        # A table that is made has the permissions of the deal.
        self.path("deal.owners").unlink()
        self.answer("owner", "deal", 0)
        info = self.path("deal.owners").stat()
        self.assertEqual((stat.S_IMODE(info.st_mode), info.st_uid, info.st_gid), (0o640, *owner))

    def segment_at(self, slot):
        row = self.answer("list", "deal").splitlines()[1 + slot].split()
        offset, size = int(row[4]), int(row[5])
        return self.get("deal")[offset : offset + size]

    def test_outputs(self):
        deal, places = self.booked()
        for name in ("deal", "./deal", str(self.path("deal"))):
            self.failed(USAGE, "build", "deal", places[0], "-o", name, *GIVEN)
        self.assertEqual(self.get("deal"), deal)
        self.put("record", b"an old and longer file" * 100)
        self.answer("build", "deal", places[0], "-o", "record", "--force", *GIVEN)
        self.assertEqual(self.get("record"), MODEL.build(deal, NUMBER, places[0])[1])
        self.path("folder").mkdir()
        self.failed(IO, "build", "deal", places[0], "-o", "folder", *GIVEN)
        self.failed(IO, "build", "deal", places[0], "-o", "no/such/file", *GIVEN)
        self.answer("build", "deal", places[0], "-o", "/dev/null", *GIVEN)
        self.assertTrue(stat.S_ISCHR(os.stat("/dev/null").st_mode))
        self.failed(IO, "build", "deal", places[0], "-o", "/dev/full", *GIVEN)
        self.assertEqual(self.files(), ["deal", "deal.owners", "folder", "record"])

    def test_a_full_or_closed_standard_output(self):
        self.booked()
        with open("/dev/full", "wb") as full:
            ran = subprocess.run([self.program, "list", "deal"], cwd=self.folder, stdout=full, stderr=subprocess.PIPE)
        self.assertEqual(ran.returncode, IO)
        self.assertIn(b"No space left", ran.stderr)
        read, write = os.pipe()
        os.close(read)
        ran = subprocess.run([self.program, "list", "deal"], cwd=self.folder, stdout=write, stderr=subprocess.PIPE)
        os.close(write)
        self.assertEqual(ran.returncode, IO)
        self.assertIn(b"Broken pipe", ran.stderr)

    def test_progress_is_for_terminals_alone(self):
        self.put("file", bytes(1 << 23))
        for command in ("commit", "stream"):
            out, err = self.call(command, "file")
            self.assertEqual(err, "")
            parent, child = pty.openpty()
            ran = subprocess.run([self.program, command, "file"], cwd=self.folder, stdout=subprocess.PIPE, stderr=child)
            os.close(child)
            shown = all_of(parent)
            os.close(parent)
            self.assertEqual((ran.returncode, ran.stdout.decode()), (0, out))
            self.assertIn(b"hashing: 8 MiB" if command == "commit" else b"hashing: 8 of 8 MiB, 100 %, ", shown)


if __name__ == "__main__":
    if not BINARY.is_file():
        raise SystemExit(f"cli_test: {BINARY} is not there; run: "
                         "cargo build --release --offline --manifest-path rust/Cargo.toml")
    unittest.main()
