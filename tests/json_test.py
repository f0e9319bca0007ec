"""Every command with every kind of failure, by --json: python3 tests/json_test.py (VIZHUTHAMEN names another binary).

Whatever comes of a call is one JSON object of the form that docs/JSON.md tells: its tables are read, an object with a
member that they do not have ends the run, and so does a member that no call shows. Standard error is as without --json.
"""
import fcntl
import hashlib
import json
import re
import subprocess
import unittest

import logs
import proofs
from cli_test import BINARY, BUSY, COMMANDS, DATA, IO, MODEL, NOT_PROVED, ROOT, USAGE, Calls
from faults_test import entry, manifest
from model import pad, segment_length, unpad

TEXT = (ROOT / "docs" / "JSON.md").read_text()
NUMBER = 5801
ZEROS = "00" * 32
MET = {}  # members that objects of a command, or of a list, were seen to have
KINDS = {}  # the kind of each member that has been met, and where that was first


def table(head):
    """The rows of the document's table with this head: the first cell's word, and the words of the other that stand in
    back quotes."""
    rows = re.search(rf"^\| {head} \|.*\n\|---\|---\|\n((?:\|.*\n)+)", TEXT, re.MULTILINE).group(1)
    cells = [line.strip("|").split("|") for line in rows.splitlines()]
    return {first.strip().strip("`"): set(re.findall(r"`([a-z][a-z0-9_]*)`", second)) for first, second in cells}


ALWAYS = {"code", "meaning", "command", "hints"}
ANSWERS, LISTS = table("command"), table("list")
STATUSES = {int(first): second.strip() for first, second in re.findall(r"^\| (\d\d) \| (.*) \|$", TEXT, re.MULTILINE)}


def exact(pairs):
    """An object, no member of which stands twice, and no number of which a reader would round."""
    value = dict(pairs)
    assert len(value) == len(pairs), pairs
    assert all(abs(x) < 1 << 53 for x in value.values() if isinstance(x, int)), pairs
    return value


class Outcomes(Calls):
    """Calls in a folder with a deal, its segments and records, and what is wrong in some way."""

    first = False

    def setUp(self):
        super().setUp()
        self.deal, self.places = deal, _ = self.booked(1024, (256, 128))
        self.table = self.get("deal.owners")
        self.root = MODEL.commitment(deal)[1].hex()
        self.commitment = deal[self.places[0] : self.places[0] + 32].hex()
        self.put("deal.vz", f"vizhuthamen deal 1\nsize 1024\nnumber {NUMBER}\n".encode())
        record = self.put("record", MODEL.build(deal, NUMBER, self.places[0])[1])
        self.put("second", MODEL.build(deal, NUMBER, self.places[1])[1])
        self.put("other", MODEL.build(deal, NUMBER + 1, self.places[0])[1])
        self.put("cut", record[:70])
        self.put("kept", deal[:256])
        proof = proofs.members(deal, NUMBER, self.places[0], deal[:256], "kept", "none")
        self.put("proof", proofs.text(proof).encode())
        self.put("lie", proofs.text(proofs.sealed({**proof, "offset": "128"})).encode())
        self.put("segment", self.segment())
        commitments = [deal[place : place + 32] for place in self.places]
        log = self.put("log", logs.booking(1, commitments[0], 256, 0, 0, 768)
                       + logs.booking(1, commitments[1], 128, 0, 256, 832))
        self.put("cut-log", log[:-1])
        self.put("wrong-log", log + log[:61])
        self.put("raw", b"raw" * 50)
        self.put("padded", pad(b"raw" * 50, bytes(segment_length(150)))[2])
        self.put("short", bytes(1000))
        self.put("empty", b"")
        self.put("stray", b"\xff" * 1024)
        self.put("damaged", deal[:832] + bytes([deal[832] ^ 1]) + deal[833:])
        self.put("damaged.owners", self.table)
        self.put("cut-deal", deal[:512])
        self.put("cut-deal.vz", b"vizhuthamen deal 1\nsize 1024\n")
        self.path("folder").mkdir()
        first = unpad(254, deal[:256], bytes(254))[2]
        line = {"names": ["first"], "length": 254, "sha256": hashlib.sha256(first).hexdigest(),
                **entry(deal, self.places[0])}
        self.listed = self.put("deal.manifest.json", manifest([line]))

    def outcome(self, status, *words, **options):
        """The object of a call, which must be of the documented form, and whose exit status must be the expected
        one."""
        # Before and after a word that is wrong.
        self.first = not self.first
        call = ("--json", *words) if self.first else (*words, "--json")
        out, err = self.call(*call, status=status, **options)
        self.assertEqual((out.count("\n"), out[-1:]), (1, "\n"), (words, out))
        value = json.loads(out, object_pairs_hook=exact)
        command = words[0] if words and words[0] in COMMANDS else None
        self.assertEqual((value["code"], value["command"]), (status, command), words)
        self.assertTrue(value["meaning"] and isinstance(value["meaning"], str))
        self.assertTrue(isinstance(value["hints"], list)
                        and all(isinstance(hint, str) and hint for hint in value["hints"]), value)
        self.members(words, value, err)
        self.assertNotIn("panicked", err)
        return value

    def members(self, words, value, err):
        """The members of an object and of those in its lists; what people are told on standard error is in it."""
        lines = [line.removeprefix("vizhuthamen: ") for line in err.splitlines()]
        own = set(value) - ALWAYS
        if "error" in value:
            self.assertEqual((own, value["meaning"]), ({"error"}, STATUSES[value["code"]]))
            self.assertEqual(lines, ["; ".join([value["error"], *value["hints"]])])
            return
        self.assertIn(value["code"], (*range(25), DATA, NOT_PROVED))
        if "--cid" in words:
            own -= self.cids(value)
        self.assertEqual(lines, [hint for hint in value["hints"] if hint != value.get("hint")])
        if own == {"text"}:  # --help and --version, of whatever command
            return
        self.kinds(words[0], value)
        self.seen(words[0], own, ANSWERS)
        for name, items in value.items():
            for item in items if isinstance(items, list) else ():
                if isinstance(item, dict):
                    self.seen(name, set(item) - (self.cids(item) if "--cid" in words else set()), LISTS)

    def cids(self, value):
        """The members of an object that are piece CIDs: of every commitment in it, and no other."""
        commitment = lambda name: (name.endswith("commitment") and isinstance(value[name], str)
                                   and len(value[name]) == 64)
        named = {name: name.replace("commitment", "cid") for name in filter(commitment, value)}
        named.update({name: "closed_cid" for name in value if name == "closed"})
        self.assertEqual({value[cid] for cid in named.values()},
                         {proofs.cid(bytes.fromhex(value[name])) for name in named})
        self.assertEqual({name for name in value if name.endswith("cid")}, set(named.values()))
        return set(named.values())

    def kinds(self, where, value):
        """A member of one name has one kind, wherever it stands. A name that is no UTF-8 is an object, and a large
        number a text."""
        for name, item in value.items():
            digits = isinstance(item, str) and item.isdecimal() and int(item) >= 1 << 53
            kind = ("number" if digits
                    else {int: "number", str: "text", dict: "text", list: "list", type(None): "text"}[type(item)])
            first, at = KINDS.setdefault(name, (kind, where))
            self.assertEqual(kind, first, f"{name} in {where} is a {kind}, and in {at} a {first}")
            for each in item if isinstance(item, list) else ():
                if isinstance(each, dict):
                    self.kinds(name, each)

    def seen(self, name, members, documented):
        self.assertLessEqual(members, documented[name], f"{name}: docs/JSON.md does not have all of these")
        MET.setdefault(name, set()).update(members)

    def calls(self):
        """A call of each command that is answered with 0."""
        place, number = self.places[0], ("--number", NUMBER)
        return {"new": ("made", 512), "number": ("deal",), "commit": ("deal",), "stream": ("deal",), "pad": ("raw",),
                "unpad": (150, "padded"), "owner": ("deal",), "book": ("deal", "segment", "--house", 2),
                "cancel": ("deal", place, "--house", 1), "collect": ("deal", "new"), "list": ("deal",),
                "audit": ("deal",), "tally": ("deal",), "find": ("deal", self.commitment), "build": ("deal", place),
                "check": (self.root, 1024, "record", *number), "settle": (self.root, 1024, "record", "record", *number),
                "settle-deal": ("deal", "record"), "show": ("record",), "playback": (1024, "log"), "log": ("log",),
                "prove": ("deal", "--segment", "kept", "--output", "proved"), "verify": ("proof", "kept"),
                "fsck": ("deal",), "repair": ("deal",), "salvage": ("deal", "out"), "help": ("book",),
                "completions": ("bash",), "extract": ("deal", "--to", "extracted"),
                "pack": ("raw", "--deal", "deal", "--house", 2), "close": ("deal",)}


class Answers(Outcomes):
    def test_every_command_is_answered(self):
        self.assertEqual(set(self.calls()), set(COMMANDS))
        for command, words in self.calls().items():
            self.put("deal", self.deal)
            self.put("deal.owners", self.table)
            self.put("deal.manifest.json", self.listed)
            self.outcome(0, command, *words)

    def test_piece_cids(self):
        for command, words in self.calls().items():
            self.put("deal", self.deal)
            self.put("deal.owners", self.table)
            if command not in ("help", "completions"):
                self.outcome(0, command, *words, "--cid")

    def test_the_examples_of_the_document(self):
        self.put("deal", bytes(1024))
        self.put("deal.owners", bytes(4))
        # as in docs/EXAMPLES.md
        self.put("segment", b"".join(b"%-31.31s\n" % f"archive-a, line {i}".encode() for i in range(1, 9)))
        examples = re.findall(r"^    \$ vizhuthamen (.*)\n    (\{.*\})$", TEXT, re.MULTILINE)
        self.assertEqual(len(examples), 3)
        for words, expected in examples:
            status = json.loads(expected)["code"]
            self.assertEqual(self.answer(*words.split(), status=status), expected + "\n")

    def test_every_way_of_a_command(self):
        place = self.places[0]
        self.outcome(0, "new", "numbered", 512, "--number", (1 << 64) - 1)
        self.outcome(0, "number", "numbered")
        self.outcome(0, "number", "numbered", 1 << 53, "--instead-of", (1 << 64) - 1)
        self.outcome(0, "collect", "numbered", "again")
        self.outcome(0, "list", "again")
        self.outcome(0, "audit", "again")
        self.outcome(0, "stream", "--raw", "raw")
        self.outcome(0, "commit", "--raw", "raw")
        self.put("two", bytes(1024))
        self.put("two.owners", bytes(4))
        self.outcome(0, "book", "two", "--raw", "raw")
        self.outcome(0, "find", "two", "--raw", "raw")
        self.outcome(0, "prove", "two", "raw", "--slot", 0, "--output", "two.proof", "--number", 7)
        self.assertEqual(self.outcome(0, "verify", "two.proof", "raw")["verdict"], "yes")
        self.assertEqual(self.outcome(0, "verify", "proof", "kept", "--commitment", self.root, "--size", 1024,
                                      "--number", NUMBER)["from_proof"], [])
        for words in (("pad", "raw"), ("unpad", 150, "padded"), ("find", "deal", self.commitment),
                      ("build", "deal", place)):
            self.assertLess(len(self.outcome(0, *words, "--output", words[0])),
                            len(self.outcome(0, *words)) + (words[0] == "find"))
        self.outcome(0, "build", "deal", "--slot", 0)
        self.outcome(0, "cancel", "deal", "--slot", 1)
        for command in COMMANDS:
            self.assertTrue(self.outcome(0, command, "--help")["text"].startswith(f"Usage: vizhuthamen {command} "))
        self.logs()
        for words in ((), ("help",)):
            self.outcome(0, *words, "--help")
        self.assertEqual(list(self.outcome(0, "--version")), ["code", "meaning", "command", "text", "hints"])
        self.outcome(0, "help", "--man")

    def logs(self):
        """Calls that add lines, in a deal of their own; what playback says of them, and of wrong lines of both
        kinds."""
        self.outcome(0, "new", "logged", 512)
        log = "--log", "logged.log"
        self.put("letter", b"letter")
        words = [(0, "book", "logged", "segment", "--house", 1), (15, "book", "logged", "segment", "--house", 1),
                 (0, "pack", "letter", "--deal", "logged", "--house", 2),
                 (14, "book", "logged", "--raw", "raw", "--house", 2), (16, "cancel", "logged", 320, "--house", 1),
                 (0, "cancel", "logged", 320, "--house", 2)]
        for lines, call in enumerate(words, 1):
            told = self.outcome(*call, *log)
            self.assertEqual((told["log"], told["lines"]), ("logged.log", lines))
        self.assertEqual(self.outcome(0, "playback", 512, "logged.log")["lines"], 6)
        self.outcome(0, "log", "logged.log", "--cid")
        wrong = self.outcome(DATA, "playback", 1024, "wrong-log", "--cid")
        self.assertEqual((wrong["line"], wrong["answers"][1]["code"]), (3, 15))
        self.put("wrong-log", logs.cancelling(1, 768, 0))
        self.outcome(DATA, "playback", 1024, "wrong-log")

    def test_what_is_wrong_with_deals(self):
        for name in ("damaged", "cut-deal"):
            self.outcome(DATA, "fsck", name)
        self.outcome(DATA, "salvage", "cut-deal", "out")
        self.outcome(0, "repair", "damaged")
        deal = self.deal
        self.put("damaged", deal[:31] + bytes([deal[31] | 64]) + deal[32:1023] + b"\x80")
        self.outcome(DATA, "fsck", "damaged")
        self.outcome(0, "repair", "damaged")
        self.put("damaged", bytes([deal[0] ^ 1]) + deal[1:])
        self.outcome(DATA, "fsck", "damaged")
        self.outcome(DATA, "salvage", "damaged", "out2")
        self.outcome(0, "repair", "damaged", "--segment", "kept")

    def test_owners(self):
        """Of a house, of nobody, and by bytes that are neither, wherever entries are shown."""
        deal = self.deal
        damaged = bytes([deal[0] ^ 1]) + deal[1:]
        overlapping = deal[:896] + MODEL.entry(bytes(32), 0, 256) + deal[960:]
        for i, table in enumerate((b"\1\2\0\0", b"\7\7\7\1")):
            for name, content in (("deal", deal), ("damaged", damaged), ("overlapping", overlapping)):
                self.put(name, content)
                self.put(name + ".owners", table)
            owner = self.outcome(0, "owner", "deal")
            self.assertEqual([o["owner"] for o in owner["owners"]], [b if b < 3 else 0 for b in table[:2]])
            self.outcome(0, "list", "deal")
            self.outcome(0, "audit", "deal")
            self.outcome(DATA if i else 0, "fsck", "deal")
            self.outcome(0, "collect", "deal", f"collected{i}")
            self.outcome(0, "salvage", "deal", f"out{i}")
            self.outcome(DATA, "fsck", "damaged")
            self.outcome(DATA, "salvage", "damaged", f"out-damaged{i}")
            self.outcome(DATA if i else 0, "repair", "damaged", "--segment", "kept")
            self.outcome(20, "collect", "overlapping", "new")
            self.outcome(16, "cancel", "deal", "--slot", 0, "--house", 2)
        self.outcome(0, "owner", "deal", 1, 768)
        self.outcome(0, "owner", "deal", 2, "--slot", 0, "--instead-of", 1)
        self.assertEqual(self.get("deal.owners"), b"\2\7\7\1")
        self.outcome(DATA, "owner", "deal", 1, 768)
        self.outcome(USAGE, "cancel", "deal", 768)

    def test_tables_that_are_not_whole(self):
        self.put("deal.owners", bytes(3))
        for command in ("list", "audit", "fsck", "repair"):
            value = self.outcome(0 if command in ("list", "audit") else DATA, command, "deal")
            self.assertEqual((value["table"], value["table_bytes"]), ("wrong length", 3))
        for words in (("owner", "deal"), ("owner", "deal", 1), ("book", "deal", "segment"), ("cancel", "deal", 768),
                      ("collect", "deal", "new"), ("pack", "raw", "--deal", "deal")):
            self.assertEqual(self.outcome(23, *words)["refused"], ["table"])
        self.path("deal.owners").unlink()
        self.assertEqual(self.outcome(0, "list", "deal")["table"], "missing")
        for words in (("owner", "deal"), ("book", "deal", "segment"), ("cancel", "deal", 768),
                      ("pack", "raw", "--deal", "deal")):
            hints = self.outcome(DATA, *words)["hints"]
            self.assertEqual(hints[0], "if deal is a copy, copy that table too")
        self.outcome(0, "collect", "deal", "new")
        self.put("made.owners", b"\1\1\0\0")
        self.assertIn("remove ", self.outcome(DATA, "new", "made", 512)["hints"][0])
        self.path("deal.owners").mkdir()
        self.outcome(IO, "owner", "deal")
        self.assertEqual(self.outcome(DATA, "fsck", "deal")["table"], "unreadable")

    def test_entries_that_overlap_or_do_not_stand(self):
        deal = bytearray(self.deal)
        deal[960:] = MODEL.entry(bytes(32), 0, 128)
        deal[896:960] = MODEL.entry(bytes(32), (1 << 64) - 128, (1 << 64) - 1)
        self.put("overlapping", bytes(deal))
        listed = self.outcome(0, "list", "overlapping")
        self.assertEqual([listed["slots"][2][name] for name in ("offset", "size")],
                         [str((1 << 64) - 128), str((1 << 64) - 1)])
        self.assertEqual([slot["state"] for slot in listed["slots"]], ["kept", "kept", "not standing", "overlapping"])
        audited = self.outcome(DATA, "audit", "overlapping")
        self.assertEqual(audited["slots"], listed["slots"])
        self.assertEqual([audited[name]
                          for name in ("blank", "damaged", "not_standing", "overlapping", "wrong_commitment", "kept")],
                         [0, 0, 1, 1, 0, 2])
        self.outcome(DATA, "fsck", "overlapping")
        self.outcome(20, "collect", "overlapping", "new")
        deal[960:] = bytes(64)
        self.put("valid", bytes(deal))
        self.outcome(DATA, "collect", "valid", "new")
        self.outcome(0, "collect", "valid", "new", "--force")


class Refusals(Outcomes):
    def test_codes_of_every_command(self):
        given = "--number", NUMBER
        codes = [(2, "new", "made", 513), (2, "number", "short", 7), (2, "commit", "short"), (11, "commit", "stray"),
                 (2, "stream", "short"), (11, "stream", "stray"), (2, "stream", "--raw", "empty"), (2, "pad", "empty"),
                 (24, "unpad", 7, "padded"), (2, "unpad", 0, "padded"), (2, "owner", "short"),
                 (6, "owner", "deal", 1, 7), (16, "owner", "deal", 1, 960), (23, "owner", "deal", 3),
                 (22, "book", "deal", "segment"), (23, "book", "deal", "segment", "--house", (1 << 64) - 1),
                 (23, "cancel", "deal", 768, "--house", 0), (2, "book", "short", "segment"),
                 (4, "book", "deal", "empty"), (4, "book", "deal", "stray"), (15, "book", "deal", "kept"),
                 (2, "cancel", "short", 0), (6, "cancel", "deal", 1), (16, "cancel", "deal", 960),
                 (6, "cancel", "deal", "--slot", 4), (1, "cancel", "deal", 768, "--commitment", "00"),
                 (2, "collect", "short", "new"), (11, "collect", "stray", "new"),
                 (2, "list", "short"), (11, "list", "stray"), (2, "audit", "short"), (11, "audit", "stray"),
                 (2, "tally", "short"), (11, "tally", "stray"), (1, "find", "deal", "00"), (2, "find", "short", ZEROS),
                 (16, "find", "deal", ZEROS), (2, "build", "short", 0, *given), (6, "build", "deal", 7),
                 (16, "build", "deal", 960), (6, "build", "deal", "--slot", (1 << 64) - 1),
                 (1, "check", "00", 1024, "record", *given),
                 (2, "check", self.root, 1000, "record", *given), (3, "check", self.root, 1024, "cut", *given),
                 (9, "check", ZEROS, 1024, "record", *given), (21, "check", self.root, 1024, "other", *given),
                 (3, "settle", self.root, 1024, "record", "cut", *given),
                 (18, "settle", self.root, 1024, "record", "second", *given),
                 (21, "settle", self.root, 1024, "record", "other", *given),
                 (2, "settle-deal", "short", "record", *given), (3, "settle-deal", "deal", "cut"),
                 (21, "settle-deal", "deal", "other"), (3, "show", "cut"), (2, "fsck", "short"),
                 (1, "settle", "00", 1024, "record", "cut", *given),
                 (2, "settle", self.root, 1000, "record", "cut", *given),
                 (9, "settle-deal", "damaged", "record", *given), (2, "prove", "deal", "empty", "-o", "p"),
                 (16, "prove", "deal", "raw", "-o", "p"), (11, "prove", "deal", "--segment", "stray", "-o", "p"),
                 (16, "find", "deal", "--raw", "raw"), (NOT_PROVED, "verify", "proof", "segment"),
                 (NOT_PROVED, "verify", "lie", "kept"), (21, "verify", "proof", "kept", "--number", 7),
                 (2, "verify", "proof", "kept", "--size", 7),
                 (2, "repair", "short"), (1, "repair", "deal", "--commitment", "00"), (2, "salvage", "short", "out"),
                 (2, "pack", "raw", "--deal", "short"), (2, "pack", "raw", "--deal", "made", "--size", 1000),
                 (2, "close", "short"),
                 (22, "pack", "raw", "--deal", "deal"), (23, "pack", "raw", "--deal", "deal", "--house", 3),
                 (23, "pack", "raw", "--deal", "made", "--house", 0), (2, "playback", 1000, "log"),
                 (3, "playback", 1024, "cut-log"), (3, "log", "cut-log"), (DATA, "playback", 1024, "wrong-log"),
                 (23, "pack", "raw", "--deal", "short", "--house", 3), (11, "pack", "raw", "--deal", "stray"),
                 (11, "close", "stray"), (2, "extract", "short")]
        self.put("short.manifest.json", manifest([]))
        for words in codes:
            self.outcome(*words)
        self.assertEqual({words[1] for words in codes} | {"help", "completions"}, set(COMMANDS))

    def test_a_full_deal_says_what_would_be_booked(self):
        names = "entries", "free_slots", "free_bytes", "largest_segment", "largest_raw"
        self.put("large", self.segment(512))
        told = self.outcome(14, "book", "deal", "large", "--house", 2)
        self.assertEqual([told[name] for name in names], [4, 2, 384, 256, 254])
        told = self.outcome(22, "book", "deal", "large", "--house", 1)
        self.assertEqual([told[name] for name in ("house", "held", *names)], [1, 2, 4, 2, 384, 0, 0])
        for _ in range(2):
            self.put("segment", self.segment())
            self.outcome(0, "book", "deal", "segment", "--house", 2)
        self.put("deal.owners", b"\1\0\2\2")
        told = self.outcome(13, "book", "deal", "large", "--house", 1)
        self.assertEqual([told[name] for name in names], [4, 0, 128, 0, 0])


class Packed(Outcomes):
    def test_every_way_of_packing(self):
        self.put("folder/raw", b"raw" * 50)
        self.put("folder/none", b"")
        self.outcome(0, "pack", "folder", "--deal", "deal", "--records", "records", "--house", 2)
        self.outcome(0, "pack", "folder/raw", "--deal", "packed", "--number", 7)
        for code, length in ((22, 1), (14, 300), (4, 600)):
            for i in range(5):
                self.put(f"folder/{i}", bytes([i + 1]) * (length if i < 3 or code == 22 else 1))
            self.outcome(code, "pack", *(f"folder/{i}" for i in range(5 if code == 22 else 2)), "--deal", "full",
                         "--size", 1024)
        for i in range(257):
            self.put(f"folder/many-{i}", bytes(i + 1))
        self.outcome(22, "pack", *(f"folder/many-{i}" for i in range(257)), "--deal", "full")
        self.outcome(0, "close", "deal", "--records", "records", "--proofs", "proofs")
        for command in ("list", "audit", "fsck"):
            self.outcome(0, command, "deal")
            self.outcome(0, command, "deal", "--cid")
        for words in (("book", "deal", "segment"), ("cancel", "deal", self.places[0]),
                      ("pack", "raw", "--deal", "deal")):
            self.outcome(DATA, *words)
        self.outcome(0, "cancel", "deal", self.places[0], "--reopen", "--house", 1)
        self.put("deal.manifest.json", self.get("deal.manifest.json").replace(b'"length":150', b'"length":149'))
        self.outcome(DATA, "extract", "deal", "--to", "out")
        self.outcome(DATA, "close", "deal", "--proofs", "again")
        self.put("deal", self.deal)
        self.outcome(DATA, "fsck", "deal")
        self.outcome(DATA, "extract", "deal", "nothing")


class Failures(Outcomes):
    def test_unknown_options(self):
        for command, words in self.calls().items():
            value = self.outcome(USAGE, command, *words, "--nothing")
            self.assertEqual((value["error"], value["hints"][-1]),
                             ("no such option: --nothing", f"see: vizhuthamen {command} --help"))
            self.assertEqual(self.outcome(USAGE, command, *words, "--jso")["hints"][0], "did you mean: --json")

    def test_wrong_words(self):
        for command in COMMANDS:
            if command != "help":
                self.assertEqual(self.outcome(USAGE, command)["error"].split(":")[0], "wrong number of words")
            if command != "extract":  # which takes any number of names
                self.outcome(USAGE, command, *["word"] * 7)
        self.outcome(USAGE)
        self.assertEqual(self.outcome(USAGE, "bok")["hints"][0], "did you mean: book")
        self.outcome(USAGE, "nothing-like-it")
        self.outcome(USAGE, "new", "made", "x")
        self.outcome(USAGE, "find", "deal", "xyz")
        self.outcome(USAGE, "list", "")
        self.outcome(USAGE, "list", "\udcff\x1b[2J", "x\n")
        for command in ("pad", "unpad", "find", "build"):
            self.outcome(USAGE, command, *self.calls()[command], "--output", "-")
        self.outcome(USAGE, "prove", "deal", "raw", "--output", "-")
        self.outcome(USAGE, "prove", "deal", "raw")
        self.assertIn("vizhuthamen find deal --raw raw", self.outcome(USAGE, "find", "deal", "raw")["hints"][0])

    def test_missing_files_and_folders(self):
        files = {"deal", "segment", "raw", "padded", "record", "log"}
        for command, words in self.calls().items():
            for i, word in enumerate(words):
                if word in files and command != "pack":
                    for other in ("missing", "folder", "mis\nsing\udcff"):
                        value = self.outcome(IO, command, *words[:i], other, *words[i + 1:])
                        self.assertIn("cannot ", value["error"])
        for words in (("missing", "--deal", "deal"), ("raw", "--deal", "folder"), ("raw", "--deal", "no/such/folder")):
            self.outcome(IO, "pack", *words)
        self.outcome(USAGE, "pack", "folder", "--deal", "deal")
        self.outcome(IO, "new", "no/such/folder", 512)
        self.outcome(IO, "collect", "deal", "no/such/folder")
        self.outcome(IO, "salvage", "deal", "no/such/folder")

    def test_outputs_that_cannot_be_written(self):
        for command in ("pad", "unpad", "find", "build"):
            for name in ("/dev/full", "folder", "no/such/file", "empty"):
                value = self.outcome(IO, command, *self.calls()[command], "-o", name)
                self.assertIn(f"cannot write {name}", value["error"])
            self.outcome(USAGE, command, *self.calls()[command], "-o",
                         {"pad": "raw", "unpad": "padded"}.get(command, "deal"))
        for name in ("/dev/full", "folder", "no/such/file", "empty"):
            self.assertIn(f"cannot write {name}",
                          self.outcome(IO, "prove", "deal", "--segment", "kept", "-o", name)["error"])
        for name in ("deal", "kept"):
            self.outcome(USAGE, "prove", "deal", "--segment", "kept", "-o", name)
        for name in ("/dev/full", "folder", "no/such/file"):
            self.assertIn(f"cannot add a line to {name}",
                          self.outcome(IO, "book", "deal", "segment", "--house", 2, "--log", name)["error"])
        self.outcome(USAGE, "book", "deal", "segment", "--house", 2, "--log", "deal.owners")
        for words in (("new", "deal", 1024, "--number", NUMBER), ("collect", "deal", "raw"),
                      ("stream", "deal", "--state", "raw")):
            self.assertEqual(self.outcome(IO, *words)["hints"], ["give another name"])

    def test_what_is_not_as_it_is_known(self):
        for command, words in self.calls().items():
            if "deal" in words and command not in ("fsck", "salvage"):
                self.outcome(DATA, command, *("cut-deal" if word == "deal" else word for word in words))
        self.outcome(DATA, "verify", "record", "kept")
        self.assertEqual(self.outcome(DATA, "verify", "kept", "proof")["hints"],
                         ["proof is one: the proof comes first, and then the file"])
        for log in ("cut-log", "wrong-log", "new-log", "record"):
            self.outcome(DATA, "book", "deal", "segment", "--house", 2, "--log", log)
        self.outcome(DATA, "number", "short")
        self.outcome(DATA, "number", "deal", 7)
        self.outcome(DATA, "build", "deal", 768, "--number", 7)
        self.outcome(DATA, "cancel", "deal", 768, "--commitment", ZEROS)
        self.outcome(DATA, "book", "damaged", "segment")
        self.outcome(DATA, "collect", "damaged", "new")
        self.outcome(DATA, "stream", "deal", "--state", "deal.vz", "--resume")

    def test_a_deal_in_use(self):
        with open(self.path("deal"), "rb") as file:
            fcntl.flock(file, fcntl.LOCK_EX)
            for command in ("book", "cancel", "collect", "fsck", "repair", "salvage", "pack", "extract", "close"):
                self.outcome(BUSY, command, *self.calls()[command], "--no-wait")
            self.outcome(BUSY, "number", "deal", 7, "--no-wait")
            self.outcome(BUSY, "owner", "deal", 1, "--no-wait")
        with open(self.path("log"), "rb") as file:
            fcntl.flock(file, fcntl.LOCK_EX)
            self.outcome(BUSY, "book", "deal", "segment", "--house", 2, "--log", "log", "--no-wait")

    def test_a_full_or_closed_standard_output(self):
        """Nothing can be read there: the exit status and standard error say so, of answers and of failures."""
        for command, words in self.calls().items():
            for wrong in ((), ("--nothing",)):
                call = [self.program, command, *map(str, words), *wrong, "--json"]
                status = USAGE if wrong else IO
                with open("/dev/full", "wb") as full:
                    ran = subprocess.run(call, cwd=self.folder, stdout=full, stderr=subprocess.PIPE)
                self.assertEqual(ran.returncode, status, (call, ran.stderr))
                self.assertIn(b"cannot write to standard output: No space left on device", ran.stderr)
                closed = subprocess.run(["sh", "-c", '"$0" "$@" >&-', *call], cwd=self.folder, capture_output=True)
                self.assertEqual((closed.returncode, closed.stdout), (status, b""), call)
                self.assertRegex(closed.stderr, rb"\Avizhuthamen: [^\n]+\n\Z")
            for name in ("made", "new"):
                for end in ("", ".vz", ".owners", ".manifest.json"):
                    self.path(name + end).unlink(missing_ok=True)


class Documented(unittest.TestCase):
    """Runs last, by its name: what the other tests have seen is what the document has."""

    def test_every_member_was_seen(self):
        unseen = {"settle": {"left", "right"}, "settle-deal": {"left", "right"}}  # these need a collision of SHA-256
        answers = {name: members - unseen.get(name, set()) for name, members in ANSWERS.items()}
        for name, members in {**LISTS, **answers}.items():
            self.assertEqual(MET.get(name, set()) | ({"text"} & members), members, name)
        self.assertEqual(set(ANSWERS), set(COMMANDS))


if __name__ == "__main__":
    if not BINARY.is_file():
        raise SystemExit(f"json_test: {BINARY} is not there; run: "
                         "cargo build --release --offline --manifest-path rust/Cargo.toml")
    order = [unittest.defaultTestLoader.loadTestsFromTestCase(case)
             for case in (Answers, Refusals, Packed, Failures, Documented)]
    raise SystemExit(not unittest.TextTestRunner().run(unittest.TestSuite(order)).wasSuccessful())
