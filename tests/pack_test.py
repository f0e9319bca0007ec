"""From files to a deal and back at the command line: python3 tests/pack_test.py (VIZHUTHAMEN names another binary).

`pack`, `extract` and `close`, the manifest beside a deal, and what the other commands do to it. What `pack` writes is
compared with what `pad`, `book` and `build` write one by one, and each record with the model's check. At every system
call of a `pack` the process is killed: deal, table of owners and manifest agree afterwards, and the same call again
ends it.
"""
import fcntl
import hashlib
import json
import os
import pty
import re
import resource
import shutil
import subprocess
import tempfile
import time
import unittest
from pathlib import Path

from cli_test import BINARY, BUSY, DATA, IO, MODEL, USAGE, Calls, all_of, nobody, rows_of
from faults_test import compile_shim
from model import MAX_RAW, area, segment_length

SHIM = Path(tempfile.mkdtemp(prefix="vizhuthamen-pack-")) / "faults.so"
PLACE = (1 << 20) - 512  # of the first slot in a deal of 1 MiB, which has eight
ODD = ["plain.pdf", "with space", "new\nline", "quote\"'", "back\\slash", "-dash", "ünïcödé", ".hidden", "sub/same",
       "sub/deep/er/same",
       "tab\there", "x" * 255, os.fsdecode(b"latin-\xe9"), "sub/...", "%s%n", "*", "~", "a.record", "b;rm"]


def setUpModule():
    compile_shim(SHIM)


def tearDownModule():
    shutil.rmtree(SHIM.parent)


def processors():
    """The time of processors that calls have taken, in seconds."""
    used = resource.getrusage(resource.RUSAGE_CHILDREN)
    return used.ru_utime + used.ru_stime


class Packs(Calls):
    def tree(self, files, folder="in"):
        """Files in a folder: bytes by name."""
        for name, data in files.items():
            path = self.path(folder) / name
            path.parent.mkdir(parents=True, exist_ok=True)
            path.write_bytes(data)
        return files

    def some(self, count, least=1, most=3000, folder="in"):
        """So many files of odd names and sizes."""
        names = [*ODD, *(f"file-{i}" for i in range(count))][:count]
        return self.tree({n: self.rng.randbytes(self.rng.randrange(least, most)) for n in names}, folder)

    def found(self, folder="out"):
        """All files below a folder: bytes by name."""
        top = os.fsencode(self.path(folder))
        files = {}
        for at, _, names in os.walk(top):
            for name in names:
                path = os.path.join(at, name)
                with open(path, "rb") as file:
                    files[os.fsdecode(os.path.relpath(path, top))] = file.read()
        return files

    def manifest(self, name="deal"):
        value = json.loads(self.get(name + ".manifest.json"))
        self.assertEqual((value["form"], value["version"], sorted(value)),
                         ("vizhuthamen manifest", 1, ["files", "form", "version"]))
        return value["files"]

    def names(self, name="deal"):
        """The names of the manifest, with the lines that have them."""
        return {os.fsdecode(bytes.fromhex(n["hex"]) if isinstance(n, dict) else n.encode()): line
                for line in self.manifest(name) for n in line["names"]}

    def agree(self, files, deal="deal"):
        """Every file is in the manifest, as it is and where the deal keeps it, and no other is; so says the deal
        itself."""
        names, data = self.names(deal), self.get(deal)
        self.assertEqual(sorted(names), sorted(files))
        slots = {slot["place"]: slot for slot in self.object("list", deal)["slots"]}
        for name, raw in files.items():
            line = names[name]
            self.assertEqual((line["length"], line["sha256"]), (len(raw), hashlib.sha256(raw).hexdigest()))
            slot = slots[line["place"]]
            self.assertEqual({k: slot[k] for k in ("offset", "size", "commitment", "state")},
                             {**{k: line[k] for k in ("offset", "size", "commitment")}, "state": "kept"})
            self.assertEqual((line["size"], slot["names"]), (segment_length(len(raw)), line["names"]))
        self.assertEqual(len(self.manifest(deal)), len(set(files.values())))
        return data

    def told(self, words):
        """What a table and lines of an answer say: the values by their names."""
        return dict(line.split(" ", 1) for line in words.splitlines() if line.count(" ") == 1)


class Story(Packs):
    def test_forty_files_from_a_folder_to_records_and_back(self):
        files = self.some(39, 1, 60000)
        files.update(self.tree({"sub/the same bytes": files["plain.pdf"]}))
        began, worked = time.monotonic(), processors()
        answer = self.object("pack", "in", "--deal", "deal", "--number", 5801, "--records", "records")
        packing = time.monotonic() - began, processors() - worked
        self.assertEqual((answer["booked"], answer["kept_already"], answer["number"], answer["size"]),
                         (39, 0, 5801, 1 << 24))
        self.assertEqual(answer["commitment"], self.answer("commit", "deal").strip())
        self.assertEqual((answer["manifest"], answer["records"], answer["skipped"]),
                         ("deal.manifest.json", "records", []))
        states = [line.pop("state") for line in answer["files"]]
        self.assertEqual((set(states), answer["files"]), ({"booked"}, self.manifest()))
        deal = self.agree(files)
        self.assertEqual(sorted(self.names()[n]["place"] for n in ("plain.pdf", "sub/the same bytes"))[0],
                         self.names()["plain.pdf"]["place"])
        self.one_by_one(files, deal, packing)
        # Names to bytes.
        self.answer("extract", "deal", "--to", "out")
        self.assertEqual(self.found(), files)
        # As a customer checks: the commitment that is printed at closing, and a record by the file's name.
        closed = self.told(self.answer("close", "deal", "--records", "records"))
        check = "check", closed["commitment"], closed["size"], "records/with space.record", "--number", closed["number"]
        self.assertEqual((self.answer(*check), closed["entries"]), ("code 0: the record is accepted\n", "39"))
        self.assertIn("deal is closed", self.failed(DATA, "pack", "in", "--deal", "deal"))
        self.put("deal.vz", b"vizhuthamen deal 1\nsize 16777216\nnumber 5801\n")
        # Once more: nothing is booked, and all records are as they are.
        before = self.found(".")
        answer = self.object("pack", "in", "--deal", "deal", "--records", "records")
        self.assertEqual((answer["booked"], answer["kept_already"], self.found(".")), (0, 39, before))

    def one_by_one(self, files, deal, packing):
        """By falling area and then by name, padded, booked and built by a call each: the same deal and the same
        records."""
        began, worked = time.monotonic(), processors()
        self.answer("new", "single", 1 << 24, "--number", 5801)
        order = sorted(files, key=lambda n: (-area(segment_length(len(files[n]))), os.fsencode(n)))
        booked = [n for n in order if n != "sub/the same bytes"]
        padding = 0
        for name in booked:
            self.put("raw", files[name])
            start = time.monotonic()
            self.answer("pad", "raw", "-o", "segment", "--force")
            padding += time.monotonic() - start
            self.answer("book", "single", "segment")
        booking = time.monotonic() - began - padding
        names, records = self.names(), self.found("records")
        began = time.monotonic()
        for name in booked:
            self.answer("build", "single", names[name]["place"], "-o", "record", "--force")
            last = name.rsplit("/")[-1]
            mine = name + ".record" if len(os.fsencode(last)) <= 248 else f"place-{names[name]['place']}.record"
            self.assertEqual(self.get("record"), records[mine], name)
        building, worked = time.monotonic() - began, processors() - worked
        self.assertEqual((self.get("single"), records["sub/the same bytes.record"]),
                         (deal, records["plain.pdf.record"]))
        self.assertEqual(self.get("single.owners"), self.get("deal.owners"))
        self.assertEqual(len(records), 40)
        root = MODEL.commitment(deal)[1]
        for record in records.values():
            self.assertEqual(MODEL.check(root, len(deal), 5801, record), 0)
        single = padding + booking + building
        print(f"pack: 40 files with records in {packing[0]:.2f} s; one by one {single:.2f} s (padding {padding:.2f}, "
              f"booking {booking:.2f}, building {building:.2f}): {packing[0] / single:.3f} of it; "
              f"of the processors {packing[1]:.2f} s and {worked:.2f} s: {packing[1] / worked:.3f}")
        # The aim, by the time of processors, which other work on the machine hardly changes: some 0.05.
        self.assertLess(packing[1], 0.1 * worked)

    def test_what_is_printed(self):
        self.tree({"b": b"b" * 100, "sub/c": b"b" * 100, "long": b"x" * 1000, "none": b""})
        os.symlink("b", self.path("in") / "link")
        out, err = self.call("pack", "in", "--deal", "deal")
        commitment = self.answer("commit", "deal").strip()
        self.assertEqual((out, err), (f"""\
state   place  offset  size  length  name
booked   1792       0  1008    1000  long
booked   1856    1024   101     100  b, sub/c
skipped link: it is a symbolic link
skipped none: it is empty, and no deal keeps an empty file
booked 2
kept_already 0
house 1
size 2048
commitment {commitment}
manifest deal.manifest.json
""", "vizhuthamen: no number of deal is kept, and records and proofs need one: vizhuthamen number deal N\n"))
        self.assertEqual(self.call("pack", "in/long", "--deal", "deal", "--number", 7)[1], "")
        self.assertEqual(self.answer("extract", "deal", "--to", "out"),
                         "out/b (100 bytes)\nout/long (1000 bytes)\nout/sub/c (100 bytes)\n")

    def test_progress_with_a_total_and_an_estimate_on_a_terminal(self):
        self.some(12)
        controller, terminal = pty.openpty()
        environment = {**os.environ, "LD_PRELOAD": str(SHIM), "FAULT_CLOCK": "1"}
        ran = subprocess.run([self.program, "pack", "in", "--deal", "deal", "--number", "7", "--records", "r"],
                             cwd=self.folder, stdout=subprocess.DEVNULL, stderr=terminal, env=environment)
        os.close(terminal)
        shown = all_of(controller).decode()
        self.assertEqual(ran.returncode, 0, shown)
        for what in ("reading", "booking", "building records"):
            self.assertRegex(shown, rf"{what}: \d+ of 12 files, \d+ %, \d+ (s|min \d+ s) left")


class Batches(Packs):
    def test_files_and_folders_by_their_names(self):
        self.tree({"a": b"1", "sub/b": b"2"})
        self.tree({"c": b"3"}, "other")
        self.put("plain", b"4")
        os.symlink("plain", self.path("link"))
        self.answer("pack", "in", "other/c", "./plain", "link", "in/sub", "--deal", "deal")
        self.agree({"a": b"1", "sub/b": b"2", "c": b"3", "plain": b"4", "link": b"4", "b": b"2"})

    def test_a_second_pack_adds_to_the_manifest(self):
        first = self.tree({"a": b"1" * 500, "b": b"2" * 500})
        self.answer("pack", "in", "--deal", "deal", "--size", 1 << 20)
        second = self.tree({"c": b"3" * 200, "again": b"1" * 500}, "more")
        answer = self.object("pack", "more", "--deal", "deal")
        self.assertEqual([(f["state"], f["names"]) for f in answer["files"]], [("kept", ["again"]), ("booked", ["c"])])
        self.agree({**first, **second})
        self.assertEqual(self.names()["a"]["names"], ["a", "again"])
        # A segment that was booked without a name gets one.
        self.put("raw", b"5" * 99)
        self.answer("pad", "raw", "-o", "segment")
        self.answer("book", "deal", "segment")
        self.answer("pack", "raw", "--deal", "deal")
        self.agree({**first, **second, "raw": b"5" * 99})

    def test_one_name_and_other_bytes(self):
        self.tree({"a": b"1"})
        self.tree({"a": b"2"}, "other")
        self.assertIn("two files have the name a and different bytes",
                      self.failed(DATA, "pack", "in", "other", "--deal", "deal"))
        self.assertEqual(self.files(), ["in", "other"])
        self.answer("pack", "in", "in/a", "--deal", "deal")
        before = self.found(".")
        self.assertIn("a was packed before with other bytes, at place 256",
                      self.failed(DATA, "pack", "other", "--deal", "deal"))
        self.tree({"a/b": b"3"}, "third")
        self.assertIn("a is the name of a file and that of a folder",
                      self.failed(DATA, "pack", "third", "--deal", "deal"))
        self.assertEqual({n: d for n, d in self.found(".").items() if "third" not in n}, before)
        # Trailing zeros alone are other bytes.
        self.tree({"zero": b"1\0", "zeros": b"1\0\0"}, "zeros")
        self.assertEqual(self.object("pack", "zeros", "--deal", "new", "--size", 1024)["booked"], 2)
        self.agree({"zero": b"1\0", "zeros": b"1\0\0"}, "new")

    def test_what_is_not_packed(self):
        files = self.tree({"a": b"1"})
        self.tree({"empty": b"", "sub/e": b""})
        os.symlink("a", self.path("in/link"))
        os.symlink("/etc", self.path("in/folder"))
        os.mkfifo(self.path("in/pipe"))
        answer = self.object("pack", "in", "--deal", "in/deal", "--number", 1, "--records", "in/records")
        skipped = {s["name"]: s["why"] for s in answer["skipped"]}
        self.assertEqual(sorted(skipped), ["empty", "folder", "link", "pipe", "sub/e"])
        self.assertEqual(skipped["pipe"], "it is not a regular file")
        # The files of the deal itself are not packed into it, by whatever name it has.
        os.symlink("in/deal", self.path("alias"))
        for deal in ("in/deal", "alias", "in/../in/deal"):
            answer = self.object("pack", "in", "--deal", deal, "--records", "in/records")
            skipped = {s["name"]: s["why"] for s in answer["skipped"]}
            own = ["deal", "deal.manifest.json", "deal.owners", "deal.vz", "records"]
            self.assertEqual((answer["booked"], sorted(skipped)),
                             (0, sorted([*own, "empty", "folder", "link", "pipe", "sub/e"])))
        self.agree(files, "in/deal")
        for word in ("in/empty", "in/pipe", "in/deal", "in/deal.vz", "in/deal.owners", "/dev/null"):
            self.assertIn("cannot be packed", self.failed(USAGE, "pack", "in/a", word, "--deal", "in/deal"))
        self.assertIn("no file to pack", self.failed(USAGE, "pack", "in/sub", "--deal", "new"))
        self.failed(IO, "pack", "nowhere", "--deal", "new")
        self.failed(USAGE, "pack", "in", "--deal", "-")
        self.assertNotIn("new", self.files())

    def test_what_does_not_fit(self):
        self.tree({f"f{i}": bytes([i + 1]) * 100 for i in range(4)})
        self.tree({"copy of f3": bytes([4]) * 100})
        self.assertEqual(self.call("pack", "in", "--deal", "deal", "--size", 1024, status=22), ("""\
code 22: the house holds half the slots or more
f1: the house has no slot left for it
f2: the house has no slot left for it
house 1 may hold 2 of the 4 slots of deal, half of them, and holds 0: it books 2 more
""", """\
vizhuthamen: 2 of 5 files do not fit; nothing is written
vizhuthamen: a deal of 1024 bytes has 4 slots, and 768 bytes before its index
vizhuthamen: a deal of 1048576 bytes holds all 5: give --size 1048576, or no --size
vizhuthamen: or let the other house book them here, as far as it may: --house 2
"""))
        self.assertEqual(self.files(), ["in"])
        self.tree({"a": b"a" * 400, "b": b"b" * 300, "c": b"c"}, "other")
        answer = self.object("pack", "other", "--deal", "deal", "--size", 1024, status=14)
        self.assertEqual(([f["names"] for f in answer["unfit"]], answer["largest_segment"]), ([["b"]], 512))
        self.assertEqual((answer["given"], answer["fitting"]), (3, 2))
        self.refused(4, "pack", "other", "--deal", "deal", "--size", 512)
        self.answer("pack", "other/a", "other/c", "--deal", "deal", "--size", 1024)
        before = self.found(".")
        answer = self.object("pack", "other", "--deal", "deal", "--house", 2, status=14)
        self.assertEqual((answer["unfit"], answer["free_slots"]), ([{"names": [n], "code": 14} for n in "ab"], 2))
        self.tree({"huge": bytes(MAX_RAW + 1), "small": b"1"}, "large")
        answer = self.object("pack", "large", "--deal", "new", status=2)
        self.assertEqual([f["names"] for f in answer["unfit"]], [["huge"]])
        self.tree({"x": self.rng.randbytes(MAX_RAW), "y": self.rng.randbytes(MAX_RAW), "z": b"1"}, "larger")
        answer = self.object("pack", "larger", "--deal", "new", status=14)
        self.assertEqual([f["names"] for f in answer["unfit"]], [["y"]])
        for size in (0, 511, 1000, 1 << 25):
            self.refused(2, "pack", "other", "--deal", "new", "--size", size)
        self.failed(DATA, "pack", "other/c", "--deal", "deal", "--size", 512)
        self.assertEqual({n: d for n, d in self.found(".").items() if not n.startswith("larg")}, before)

    def test_more_than_a_house_packs_into_any_deal(self):
        """65 files of a house: the one that does not fit goes into a second deal, or to the other house."""
        files = self.tree({f"f{i}": b"%d" % i for i in range(65)})
        out, err = self.call("pack", "in", "--deal", "deal", "--number", 1, status=22)
        self.assertEqual(out.splitlines()[1:],
                         ["f9: the house has no slot left for it",
                          "house 1 may hold 64 of the 128 slots of deal, half of them, and holds 0: it books 64 more"])
        self.assertIn("no deal holds all 65 for one house: pack those that are named into further ones", err)
        self.assertIn("or let the other house book them here, as far as it may: --house 2", err)
        self.assertEqual(self.files(), ["in"])
        self.path("in/f9").rename(self.path("f9"))
        self.answer("pack", "in", "--deal", "deal", "--number", 1)
        err = self.call("pack", "f9", "--deal", "deal", status=22)[1]
        self.assertIn("a new deal of 512 bytes holds all 1: give another --deal, with a --number of its own", err)
        self.assertIn("deal: 64 of 128 slots and", err)
        self.answer("pack", "f9", "--deal", "second", "--number", 2)
        self.answer("pack", "f9", "--deal", "deal", "--house", 2)
        self.agree(files)

    def test_far_too_many_files_are_not_read(self):
        """By their lengths alone where these tell, and else no more of them than two deals would have."""
        self.tree({f"f{i}": b"x" * (i + 1) for i in range(300)})
        self.path("in/f7").chmod(0)  # nobody can read it
        out, err = self.call("pack", "in", "--deal", "deal", status=22, **nobody())
        self.assertIn("300 files are given, at least 300 of them different, which take up", out)
        self.assertTrue(out.endswith("bytes; a deal has at most 64 files of a house, and 16769024 bytes for them: "
                                     "they need 5 deals or more\n"))
        self.assertEqual(err,
                         "vizhuthamen: no file was read; nothing is written\n"
                         "vizhuthamen: pack them in parts, each into a deal of its own (--deal, with its --number)\n")
        self.tree({f"s{i}": b"%03d" % i for i in range(300)}, "same")
        answer = self.object("pack", "same", "--deal", "deal", status=22)
        self.assertEqual((answer["given"], answer["different"]), (300, 257))
        self.tree({f"l{i}": bytes([i]) * 4000000 for i in range(12)}, "large")
        answer = self.object("pack", "large", "--deal", "deal", status=14)
        self.assertEqual((answer["given"], answer["different"]), (12, 9))
        self.assertIn("they need 3 deals or more", answer["hint"])
        # Many names of few files are few files.
        self.tree({f"n{i}": b"%d" % (i % 3) for i in range(300)}, "names")
        answer = self.object("pack", "names", "--deal", "deal")
        self.assertEqual((answer["booked"], sum(len(f["names"]) for f in answer["files"])), (3, 300))

    def test_the_smallest_deal_and_a_deal_that_is_full(self):
        for lengths, size in (((1,), 512), ((127, 127), 512), ((127, 127, 1), 1 << 20), ((128,), 512), ((300,), 1024),
                              ((1,) * 4, 1 << 20), ((1,) * 5, 1 << 21)):
            shutil.rmtree(self.path("in"), ignore_errors=True)
            files = self.tree({f"f{i}": self.rng.randbytes(n) for i, n in enumerate(lengths)})
            if len(set(files.values())) == len(lengths):
                self.answer("pack", "in", "--deal", f"deal-{size}-{lengths}")
                self.assertEqual(len(self.get(f"deal-{size}-{lengths}")), size)
        # Whatever fits in some order fits: areas of all sizes fill a deal to its index.
        sizes = [1 << n for n in range(7, 19)]
        self.answer("new", "deal", 1 << 22)
        files = self.tree({f"f{s}": self.rng.randbytes(s // 128 * 127) for s in sizes}, "full")
        self.answer("pack", "full", "--deal", "deal")
        self.agree(files)

    def test_the_number(self):
        files = self.tree({"a": b"1"})
        self.assertIn("the number of deal is not known",
                      self.failed(DATA, "pack", "in", "--deal", "deal", "--records", "r"))
        self.answer("pack", "in", "--deal", "deal")
        self.failed(DATA, "number", "deal")
        self.answer("pack", "in", "--deal", "deal", "--number", 7)
        self.assertEqual(self.answer("number", "deal"), "number 7\n")
        self.assertIn("has the number 7, and --number says 8",
                      self.failed(DATA, "pack", "in", "--deal", "deal", "--number", 8))
        answer = self.object("pack", "in", "--deal", "deal", "--records", "r")
        self.assertEqual(self.answer("check", answer["commitment"], 512, "r/a.record", "--number", 7),
                         "code 0: the record is accepted\n")
        self.agree(files)

    def test_records_that_are_there(self):
        self.tree({"a": b"1", "sub/b": b"2"})
        pack = "pack", "in", "--deal", "deal", "--number", 7, "--records", "r"
        self.answer(*pack, "--size", 1 << 20)
        old = self.found("r")
        self.tree({"c": b"3"})
        before = self.found(".")
        self.assertIn("r/a.record: the file exists, with other bytes", self.failed(IO, *pack))
        self.assertEqual(self.found("."), before)
        self.answer(*pack, "--force")
        new = self.found("r")
        self.assertEqual((sorted(new), [n for n in old if old[n] == new[n]]),
                         (["a.record", "c.record", "sub/b.record"], []))
        self.tree({"a.record/x": b"4"}, "more")
        more = "pack", "more", "--deal", "deal", "--force", "--records"
        self.assertIn("r/a.record is no folder", self.failed(IO, *more, "r"))
        self.assertIn("a folder of new/a.record/x.record would be a file", self.failed(DATA, *more, "new"))
        self.assertEqual((self.found("r"), "a.record/x" in self.names(), self.path("new").exists()),
                         (new, False, False))
        shutil.rmtree(self.path("r/sub"))
        os.symlink("/tmp", self.path("r/sub"))
        self.assertIn("r/sub is no folder", self.failed(IO, *pack))

    def test_a_slot_that_is_not_sound_is_not_overwritten(self):
        self.tree({"a": b"1" * 100})
        self.answer("pack", "in", "--deal", "deal", "--size", 1024)
        deal = bytearray(self.get("deal"))
        deal[768 + 40] ^= 1
        self.put("deal", bytes(deal))
        self.tree({"b": b"2" * 100}, "more")
        before = self.found(".")
        self.assertIn("slot 0 (place 768) is damaged", self.failed(DATA, "pack", "more", "--deal", "deal"))
        deal[31] = 0xff
        self.put("deal", bytes(deal))
        self.refused(11, "pack", "more", "--deal", "deal")
        self.assertEqual(self.get("deal.manifest.json"), before["deal.manifest.json"])


class Manifests(Packs):
    def packed(self):
        files = self.tree({"a": b"1" * 300, "sub/b": b"2" * 100, "c": b"3" * 100})
        self.answer("pack", "in", "--deal", "deal", "--size", 1 << 20, "--number", 7)
        return files

    def test_other_commands_keep_it_up_to_date(self):
        files = self.packed()
        place = self.names()["a"]["place"]
        self.answer("cancel", "deal", place)
        del files["a"]
        self.agree(files)
        self.assertEqual(self.answer("fsck", "deal").splitlines()[-1], "2 of 8 slots kept, 6 blank")
        self.answer("collect", "deal", "new")
        self.assertNotEqual([f["place"] for f in self.manifest()], [f["place"] for f in self.manifest("new")])
        self.agree(files, "new")
        before = self.get("deal.manifest.json")
        self.put("segment", self.segment(128))
        self.answer("book", "deal", "segment")
        self.assertEqual(self.get("deal.manifest.json"), before)
        self.answer("fsck", "deal")
        self.answer("extract", "new", "--to", "out")
        self.assertEqual(self.found(), files)

    def shown(self, command="list", deal="deal", **options):
        """The last cells of the rows that a table of slots has, its heading first: the names."""
        rows = rows_of(self.answer(command, deal, **options))
        return [row[-1] for row in rows if row[0].isdecimal() or row[0] == "slot"]

    def test_its_names_in_a_table_of_slots(self):
        self.packed()
        self.tree({"sub/copy of a": b"1" * 300})
        self.answer("pack", "in/sub", "--deal", "deal")
        names = ["name", "a, copy of a", "c", "sub/b, b"]
        for command in ("list", "audit"):
            self.assertEqual(self.shown(command), [*names, *["-"] * 5])
        slots = self.object("audit", "deal")["slots"]
        self.assertEqual([slot.get("names") for slot in slots],
                         [["a", "copy of a"], ["c"], ["sub/b", "b"], *[None] * 5])
        # What the other house has booked of it has the name too, and so has a slot that was damaged.
        self.answer("pack", "in/c", "--deal", "deal", "--house", 2)
        self.assertEqual(self.shown()[4:6], ["c", "-"])
        deal = bytearray(self.get("deal"))
        deal[self.names()["a"]["place"]] ^= 1
        self.put("deal", bytes(deal))
        self.assertEqual(self.shown("audit", status=DATA)[1], "a, copy of a")
        self.assertEqual(self.object("list", "deal")["slots"][0],
                         {"slot": 0, "place": PLACE, "state": "damaged", "names": ["a", "copy of a"]})
        # A segment that was booked by hand has none, and a deal without a manifest no such column.
        self.put("segment", self.segment(128))
        self.answer("book", "deal", "segment", "--force", "--house", 1)
        self.assertEqual(self.shown()[1], "-")
        self.put("other", self.get("deal"))
        self.assertEqual(self.shown(deal="other")[0], "commitment")

    def test_names_of_any_bytes_in_a_table_of_slots(self):
        files = self.some(20, 1, 100)
        self.answer("pack", "in", "--deal", "deal")
        listed = [slot["names"] for slot in self.object("list", "deal")["slots"] if "names" in slot]
        self.assertEqual(listed, [line["names"] for line in self.manifest()])
        self.assertEqual(len(self.answer("list", "deal").splitlines()), 1 + len(self.object("list", "deal")["slots"]))
        self.agree(files)

    def test_one_that_does_not_agree(self):
        files = self.packed()
        listed = self.get("deal.manifest.json")
        self.answer("cancel", "deal", self.names()["c"]["place"])
        self.put("deal.manifest.json", listed)
        out, _ = self.call("fsck", "deal", status=DATA)
        self.assertIn("the manifest: c is no longer in the deal\n", out)
        _, err = self.call("extract", "deal", "--to", "out")
        self.assertIn("the manifest: c is no longer in the deal", err)
        del files["c"]
        self.assertEqual((self.found(), self.get("deal.manifest.json")), (files, listed))
        self.answer("repair", "deal")
        self.agree(files)
        self.answer("fsck", "deal")
        # Places that are not where the entries are.
        text = self.get("deal.manifest.json")
        self.put("deal.manifest.json", text.replace(b"\"offset\":0,", b"\"offset\":512,"))
        self.assertIn("not where its line says", self.call("fsck", "deal", status=DATA)[0])
        self.tree({"d": b"4"})
        _, err = self.call("pack", "in", "--deal", "deal")
        self.assertIn("the manifest: a is at place", err)
        self.agree({**files, "c": b"3" * 100, "d": b"4"})
        # A slot that is damaged keeps its line, until it is mended.
        names, deal = self.names(), bytearray(self.get("deal"))
        deal[names["a"]["place"] + 50] ^= 1
        self.put("deal", bytes(deal))
        out = self.answer("extract", "deal", "--to", "second", status=DATA)
        self.assertIn("a: not written: its entry is not kept", out)
        self.assertEqual(sorted(self.found("second")), ["c", "d", "sub/b"])
        self.answer("repair", "deal")
        self.agree({**files, "c": b"3" * 100, "d": b"4"})

    def test_one_that_cannot_be_understood(self):
        files = self.packed()
        listed = self.get("deal.manifest.json")
        for text in (b"", b"{", listed[:-3], listed.replace(b"\"version\":1", b"\"version\":2"), b"\xff", b"[]",
                     b"[" * 10000, listed.replace(b"\"sub/b\"", b"\"a\""), listed.replace(b"\"length\"", b"\"len\"")):
            self.put("deal.manifest.json", text)
            before = self.found(".")
            for words in (("pack", "in", "--deal", "deal"), ("extract", "deal")):
                self.assertIn("deal.manifest.json cannot be understood", self.failed(DATA, *words))
            self.assertIn("cannot be understood", self.call("fsck", "deal", status=DATA)[0])
            for command in ("list", "audit"):
                out, err = self.call(command, "deal")
                self.assertEqual(rows_of(out)[0][-1], "commitment")
                self.assertIn("deal.manifest.json cannot be understood", err)
            self.assertEqual(self.found("."), before)
        self.assertIn("cannot be understood", self.call("repair", "deal", status=DATA)[1])
        _, err = self.call("cancel", "deal", PLACE)
        self.assertIn("cannot be understood", err)
        self.assertEqual(self.get("deal.manifest.json"), text)
        _, err = self.call("collect", "deal", "new")
        self.assertIn("new gets none", err)
        self.assertEqual([n for n in self.files() if n.startswith("new")], ["new", "new.owners", "new.vz"])
        self.path("deal.manifest.json").unlink()
        self.assertIn("deal has no manifest", self.failed(DATA, "extract", "deal"))
        self.answer("pack", "in", "--deal", "deal")
        self.agree(files)

    def test_one_that_cannot_be_read(self):
        self.packed()
        self.path("deal.manifest.json").unlink()
        self.path("deal.manifest.json").mkdir()
        for command in ("list", "audit"):
            out, err = self.call(command, "deal")
            self.assertEqual((rows_of(out)[0][-1], rows_of(out)[1][2]), ("commitment", "kept"))
            self.assertIn("deal.manifest.json: Is a directory", err)

    def test_one_of_an_older_deal(self):
        self.packed()
        self.path("deal").unlink()
        self.path("deal.owners").unlink()
        for words in (("new", "deal", 1 << 20, "--number", 7),
                      ("pack", "in", "--deal", "deal", "--size", 1 << 20, "--number", 7)):
            self.assertIn("deal.manifest.json is there, of an older deal", self.failed(DATA, *words))
        self.assertEqual([n for n in self.files() if n.startswith(".") or n.endswith(".owners")], [])

    def test_in_the_way_of_a_change(self):
        files = self.packed()
        os.link(self.path("deal.manifest.json"), self.path("second"))
        before = self.get("deal")
        self.tree({"d": b"4"})
        self.failed(IO, "pack", "in", "--deal", "deal")
        self.failed(IO, "cancel", "deal", PLACE)
        self.assertEqual(self.get("deal"), before)
        self.path("second").unlink()
        self.path("deal").chmod(0o640)
        self.answer("pack", "in", "--deal", "deal")
        self.assertEqual(oct(self.path("deal.manifest.json").stat().st_mode & 0o777), "0o640")
        self.agree({**files, "d": b"4"})


class Extracts(Packs):
    def packed(self):
        files = self.tree({"a": b"1" * 300, "sub/b": b"2" * 100, "sub/c": b"3" * 100, "subs": b"4"})
        self.answer("pack", "in", "--deal", "deal", "--size", 1 << 20)
        return files

    def test_names_and_folders(self):
        files = self.packed()
        for words, names in ((["a"], ["a"]), (["sub"], ["sub/b", "sub/c"]), (["sub/c", "subs"], ["sub/c", "subs"]),
                             ([], list(files))):
            self.answer("extract", "deal", *words, "--to", "out")
            self.assertEqual(self.found(), {n: files[n] for n in names})
            shutil.rmtree(self.path("out"))
        for name in ("b", "sub/", "su", "", "/", "../a", "sub/d"):
            self.assertIn("nothing is written", self.failed(DATA, "extract", "deal", "a", name, "--to", "out"))
        for name, near in (("b", "sub/b"), ("sbu/b", "sub/b"), ("SUBS", None), ("sub/d", "sub/b, sub/c"),
                           ("sus", "subs")):
            self.assertEqual(re.findall("did you mean: ([^;]*);", self.failed(DATA, "extract", "deal", name)),
                             [near] if near else [])
        self.assertNotIn("out", self.files())
        self.path("here").mkdir()
        subprocess.run([self.program, "extract", "../deal", "a"], cwd=self.path("here"), check=True,
                       capture_output=True)
        self.assertEqual(self.found("here"), {"a": files["a"]})
        self.assertEqual(self.answer("extract", "deal", "a"), "a (300 bytes)\n")
        self.assertEqual(self.object("extract", "deal", "a")["folder"], ".")

    def test_files_that_are_there(self):
        files = self.packed()
        self.tree({"sub/c": b"other", "a": files["a"], "mine": b"mine"}, "out")
        before = self.found()
        self.assertIn("out/sub/c: the file exists, with other bytes", self.failed(IO, "extract", "deal", "--to", "out"))
        self.assertEqual(self.found(), before)
        self.answer("extract", "deal", "--to", "out", "--force")
        self.assertEqual(self.found(), {**files, "mine": b"mine"})
        self.answer("extract", "deal", "--to", "out")

    def test_names_that_lead_out_of_the_folder(self):
        self.packed()
        text = self.get("deal.manifest.json")
        for name in ("/tmp/leaked", "../leaked", "sub/../../leaked", "..", ".", "", "sub//x", "sub/./x", "x/", "a\0b"):
            self.put("deal.manifest.json", text.replace(b"\"a\"", json.dumps(name).encode()))
            self.assertIn("leads out of the folder", self.failed(DATA, "extract", "deal", "--to", "out"))
            self.put("deal.manifest.json", text.replace(b"\"a\"", b'{"hex":"%s"}' % name.encode().hex().encode()))
            self.failed(DATA, "extract", "deal", "--to", "out")
        self.assertNotIn("out", self.files())
        self.put("deal.manifest.json", text)
        self.path("out").mkdir()
        self.path("elsewhere").mkdir()
        os.symlink("../elsewhere", self.path("out/sub"))
        self.assertIn("out/sub is no folder", self.failed(IO, "extract", "deal", "--to", "out", "--force"))
        self.path("out/sub").unlink()
        self.put("outside", b"outside")
        os.symlink("../outside", self.path("out/a"))
        for force in ((), ("--force",)):
            self.assertIn("is no regular file", self.failed(IO, "extract", "deal", "--to", "out", *force))
        self.assertEqual((self.found("elsewhere"), self.get("outside"), sorted(self.found())), ({}, b"outside", ["a"]))

    def test_bytes_that_are_not_those_that_were_packed(self):
        files = self.packed()
        deal, names, text = self.get("deal"), self.names(), self.get("deal.manifest.json")
        spoilt = bytearray(deal)
        spoilt[names["sub/b"]["offset"] + 7] ^= 1
        self.put("deal", bytes(spoilt))
        value = self.object("extract", "deal", "--to", "out", status=DATA)
        self.assertEqual([(left["name"], left["why"].split(":")[0]) for left in value["not_extracted"]],
                         [("sub/b", "its entry is not kept")])
        self.assertEqual(self.found(), {n: d for n, d in files.items() if n != "sub/b"})
        self.put("deal", deal)
        changes = ((names["a"]["sha256"].encode(), b"0" * 64), (b"\"length\":300", b"\"length\":299"),
                   (b"\"length\":300", b"\"length\":0"))
        for old, new in changes:
            self.put("deal.manifest.json", text.replace(old, new))
            shutil.rmtree(self.path("out"))
            self.answer("extract", "deal", "--to", "out", status=DATA)
            self.assertEqual(self.found(), {n: d for n, d in files.items() if n != "a"})


class Houses(Packs):
    def owners(self, deal="deal"):
        """Which house has which file, by the places of the manifest."""
        owner = {slot["place"]: slot.get("owner") for slot in self.object("list", deal)["slots"]}
        return {name: owner[line["place"]] for name, line in self.names(deal).items()}

    def test_two_houses_pack_into_one_deal(self):
        first = self.tree({"a": b"1" * 100, "b": b"2" * 50})
        second = self.tree({"c": b"3" * 90, "again": b"1" * 100}, "more")
        self.answer("pack", "in", "--deal", "deal", "--size", 1024, "--number", 7)
        self.assertEqual(self.get("deal.owners"), b"\1\1\0\0")
        # The first house has its half of the slots; the second books for itself what the first has too.
        before = self.found(".")
        answer = self.object("pack", "more/c", "--deal", "deal", status=22)
        self.assertEqual((answer["house"], answer["held"], answer["unfit"], answer["largest_segment"]),
                         (1, 2, [{"names": ["c"], "code": 22}], 0))
        self.assertEqual(self.found("."), before)
        answer = self.object("pack", "more", "--deal", "deal", "--house", 2)
        self.assertEqual((answer["house"], answer["booked"], answer["kept_already"]), (2, 2, 0))
        self.assertEqual((self.get("deal.owners"), self.owners()), (b"\1\1\2\2", {"a": 1, "again": 1, "b": 1, "c": 2}))
        self.agree({**first, **second})
        for house in (1, 2):
            self.assertEqual(self.object("pack", "in/a", "--deal", "deal", "--house", house)["kept_already"], 1)
        # Two houses are in the deal: which one packs must be said, by the option or by the environment.
        self.assertIn("say which with --house", self.failed(USAGE, "pack", "in", "--deal", "deal"))
        self.assertEqual(self.object("pack", "in", "--deal", "deal",
                                     env={**os.environ, "VIZHUTHAMEN_HOUSE": "1"})["house"], 1)
        # Each cancels its own: the name stays as long as one of them has the segment.
        place = self.names()["a"]["place"]
        self.answer("cancel", "deal", place, "--house", 2, status=16)
        self.answer("cancel", "deal", place, "--house", 1)
        self.assertEqual((self.owners(), self.get("deal.owners")), ({"a": 2, "again": 2, "b": 1, "c": 2}, b"\0\1\2\2"))
        self.answer("collect", "deal", "new")
        self.assertEqual(self.owners("new"), self.owners())
        self.answer("extract", "new", "--to", "out")
        self.assertEqual(self.found(), {**first, **second})
        self.answer("cancel", "deal", self.names()["a"]["place"], "--house", 2)
        self.assertEqual(self.owners(), {"b": 1, "c": 2})

    def test_no_house_and_no_table(self):
        files = self.tree({"a": b"1", "b": b"2"})
        for there in (["in"], ["deal", "deal.manifest.json", "deal.owners", "deal.vz", "in"]):
            answer = self.object("pack", "in", "--deal", "deal", "--house", 3, status=23)
            self.assertEqual((answer["house"], answer["refused"], [f["names"] for f in answer["unfit"]]),
                             (3, ["house"], [["a"], ["b"]]))
            self.assertEqual(self.files(), there)
            self.answer("pack", "in", "--deal", "deal", "--size", 1024)
        self.put("deal.owners", b"\1\1\0")
        before = self.found(".")
        answer = self.object("pack", "in", "--deal", "deal", status=23)
        self.assertEqual((answer["refused"], len(answer["unfit"])), (["table"], 2))
        self.path("deal.owners").unlink()
        self.assertIn("whose is not known", self.failed(DATA, "pack", "in", "--deal", "deal"))
        self.put("deal.owners", b"\1\1\0")
        self.assertEqual(self.found("."), before)
        self.put("deal.owners", b"\1\1\0\0")
        self.agree(files)

    def test_commitments_as_piece_cids(self):
        self.tree({"a": b"1"})
        packed = self.object("pack", "in", "--deal", "deal", "--cid")
        cid = self.answer("commit", "deal", "--cid").strip()
        self.assertEqual((packed["cid"], self.answer("close", "deal", "--cid").splitlines()[0]),
                         (cid, f"commitment {cid}"))
        self.assertEqual(self.object("list", "deal", "--cid")["closed_cid"], cid)


class Closing(Packs):
    def test_proofs_of_all_files(self):
        """NAME.proof for each name, as `prove` writes it, and `verify` says yes with what closing has printed."""
        files = self.tree({"a": b"1" * 300, "sub/b": b"2", "sub/same": b"1" * 300, os.fsdecode(b"odd-\xff"): b"3" * 99,
                           "x" * 252: b"4"})
        self.answer("pack", "in", "--deal", "deal", "--number", 7)
        out, err = self.call("close", "deal", "--proofs", "p", "--records", "r")
        self.assertEqual(err,
                         "vizhuthamen: deal is closed: records and proofs are built from now on, for this commitment; "
                         "book, cancel and pack refuse it without --reopen\n")
        closed, written = self.told(out), self.found("p")
        self.assertEqual((closed["proofs"], closed["records"], len(self.found("r"))), ("p", "r", 5))
        place = self.names()["x" * 252]["place"]
        self.assertEqual(sorted(written),
                         sorted([f"place-{place}.proof", *(f"{name}.proof" for name in files if len(name) < 200)]))
        known = "--commitment", closed["commitment"], "--size", closed["size"], "--number", closed["number"]
        for name in files:
            proof = f"p/{name}.proof" if len(name) < 200 else f"p/place-{place}.proof"
            self.answer("prove", "deal", f"in/{name}", "-o", "one", "--force")
            self.assertEqual(self.get("one"), self.get(proof))
            self.assertTrue(self.answer("verify", proof, f"in/{name}", *known).startswith("yes: "))
        self.assertEqual(self.object("close", "deal", "--proofs", "p")["proofs"], "p")
        self.put("p/a.proof", b"other")
        self.assertIn("p/a.proof: the file exists, with other bytes", self.failed(IO, "close", "deal", "--proofs", "p"))
        self.answer("close", "deal", "--proofs", "p", "--force")
        self.assertEqual(self.found("p"), written)

    def test_proofs_of_files_that_are_not_as_they_were(self):
        self.tree({"a": b"1" * 300, "b": b"2" * 100, "c": b"3" * 100})
        self.answer("pack", "in", "--deal", "deal", "--size", 1 << 20, "--number", 7)
        self.put("segment", self.segment(128))
        self.answer("book", "deal", "segment")
        spoilt = bytearray(self.get("deal"))
        spoilt[self.names()["b"]["offset"]] ^= 1
        self.put("deal", bytes(spoilt))
        listed = self.get("deal.manifest.json")
        self.put("deal.manifest.json", listed.replace(self.names()["c"]["sha256"].encode(), b"0" * 64))
        out, err = self.call("close", "deal", "--proofs", "p", "--records", "r", status=DATA)
        self.assertEqual(out.splitlines()[0], "code 65: the deal is closed, and some files have no record or no proof")
        self.assertEqual([line.split(":")[:2] for line in out.splitlines()[-3:]],
                         [["b", " no record"], ["b", " no proof"], ["c", " no proof"]])
        self.assertIn("the manifest of deal has no names for 1 of its entries, and nothing is written for these", err)
        self.assertEqual((sorted(self.found("p")), sorted(self.found("r"))), (["a.proof"], ["a.record", "c.record"]))
        answer = self.object("close", "deal", "--proofs", "p", status=DATA)
        self.assertEqual([left["name"] for left in answer["not_written"]], ["b", "c"])
        self.answer("new", "second", 512)
        self.assertIn("no number of second is kept", self.failed(DATA, "close", "second", "--proofs", "q"))

    def test_a_closed_deal_is_changed_by_those_who_mean_it(self):
        files = self.tree({"a": b"1" * 300, "b": b"2"})
        self.answer("pack", "in", "--deal", "deal", "--size", 1 << 20, "--number", 7)
        commitment = self.answer("commit", "deal").strip()
        self.assertEqual(self.answer("close", "deal", "--records", "r"),
                         f"commitment {commitment}\nsize 1048576\nnumber 7\nentries 2\nrecords r\n")
        self.assertEqual(sorted(self.found("r")), ["a.record", "b.record"])
        self.assertEqual(self.get("deal.vz"),
                         f"vizhuthamen deal 1\nsize 1048576\nnumber 7\nclosed {commitment}\n".encode())
        for words in (("list",), ("fsck",)):
            self.assertTrue(self.answer(*words, "deal").endswith(f"\nclosed {commitment}\n"))
            self.assertEqual(self.object(*words, "deal")["closed"], commitment)
        self.put("segment", self.segment(128))
        self.tree({"c": b"3"})
        before = self.found(".")
        calls = ("book", "deal", "segment"), ("cancel", "deal", PLACE), ("pack", "in", "--deal", "deal")
        for words in calls:
            err = self.failed(DATA, *words)
            self.assertIn(f"deal is closed: records and proofs are built for its commitment {commitment}", err)
            self.assertIn("--reopen", err)
            self.failed(DATA, *words, "--json")
        self.assertEqual(self.found("."), before)
        self.assertEqual(self.answer("close", "deal"), f"commitment {commitment}\nsize 1048576\nnumber 7\nentries 2\n")
        self.answer("number", "deal", 8, "--instead-of", 7)
        self.answer("number", "deal", 7, "--instead-of", 8)
        for words in calls:
            self.answer("close", "deal")
            self.answer(*words, "--reopen")
            self.assertNotIn("closed", self.object("list", "deal"))
        self.agree({**files, "c": b"3"})
        self.answer("close", "deal")
        self.answer("collect", "deal", "new")
        self.assertNotIn("closed", self.object("list", "new"))
        # What says that an older deal is closed is not taken for a new one.
        for name in ("deal", "deal.owners", "deal.manifest.json"):
            self.path(name).unlink()
        for words in (("new", "deal", 1 << 20, "--number", 7),
                      ("pack", "in", "--deal", "deal", "--size", 1 << 20, "--number", 7)):
            self.assertIn("deal.vz is there and says that the deal is closed", self.failed(DATA, *words))

    def test_a_deal_that_is_another_one_than_was_closed(self):
        self.tree({"a": b"1" * 300})
        self.answer("pack", "in", "--deal", "deal", "--size", 2048)
        out, err = self.call("close", "deal")
        self.assertIn("no number of deal is kept", err)
        self.assertIn("no number of deal is kept", self.failed(DATA, "close", "deal", "--records", "r"))
        deal = bytearray(self.get("deal"))
        deal[1500] ^= 1
        self.put("deal", bytes(deal))
        self.assertIn("it was closed with the commitment", self.call("fsck", "deal", status=DATA)[0])
        self.assertIn("was closed with the commitment", self.failed(DATA, "close", "deal"))
        self.assertIn("it was closed with the commitment", self.call("repair", "deal", status=DATA)[1])
        self.failed(USAGE, "close", "-")
        self.put("short", b"1")
        self.refused(2, "close", "short")
        self.assertNotIn("short.vz", self.files())

    def test_closing_waits_for_others(self):
        self.answer("new", "deal", 512)
        with open(self.path("deal"), "rb") as held:
            fcntl.flock(held, fcntl.LOCK_EX)
            for words in (("close", "deal"), ("extract", "deal"), ("pack", "program", "--deal", "deal")):
                self.failed(BUSY, *words, "--no-wait")


class Kills(Packs):
    def run_with(self, words, fault):
        environment = {**os.environ, "LD_PRELOAD": str(SHIM), **fault}
        return subprocess.run([self.program, *map(str, words)], cwd=self.folder, env=environment, capture_output=True)

    def calls(self, words):
        log = self.path("log")
        self.run_with(words, {"FAULT_LOG": str(log)})
        names = log.read_text().split()
        log.unlink()
        return names

    def clear(self):
        for name in self.files():
            if name not in ("in", "more"):
                path = self.path(name)
                shutil.rmtree(path) if path.is_dir() else path.unlink()

    def state(self):
        return {n: d for n, d in self.found(".").items() if not n.startswith(("in/", "more/", "program"))}

    def three(self, state):
        """A deal, the table of its owners and its manifest."""
        return state["deal"], state["deal.owners"], state.get("deal.manifest.json")

    def killed_everywhere(self, words, start, ends, what, step):
        """Killed before every so many-th call. Then deal, table and manifest are all the old ones or all the new ones;
        the same call ends it."""
        start()
        calls = self.calls(words)
        after = self.state()
        begun = 0
        for plain in ("0", "1"):
            for at in range(1 + self.rng.randrange(step), len(calls) + 1, step):
                self.clear()
                start()
                ran = self.run_with(words, {"FAULT_AT": str(at), "FAULT_DO": "kill 9", "FAULT_PLAIN": plain})
                self.assertIn(ran.returncode, (-9, 0))
                begun += ran.returncode == -9
                if self.path("deal").exists():
                    self.answer("fsck", "deal")
                    self.assertIn(self.three(self.state()), ends(after))
                self.answer(*words)
                self.assertEqual(self.state(), after, (at, calls[at - 1]))
        print(f"pack: {what}: {begun} kills at {len(calls)} calls")

    def test_a_new_deal(self):
        self.tree({"a": b"1" * 300, "sub/b": b"2" * 100})
        words = "pack", "in", "--deal", "deal", "--number", 7, "--records", "records"
        self.killed_everywhere(words, lambda: None, lambda after: ((bytes(1024), bytes(4), None), self.three(after)),
                               "a new deal", 4)

    def test_a_second_pack(self):
        self.tree({"a": b"1" * 300, "sub/b": b"2" * 100})
        self.tree({"c": b"3" * 100, "again": b"1" * 300}, "more")
        self.answer("pack", "in", "--deal", "deal", "--size", 2048, "--number", 7, "--house", 2)
        old = self.state()

        def start():
            for name, data in old.items():
                self.put(name, data)

        ends = lambda after: (self.three(old), self.three(after))
        self.killed_everywhere(("pack", "more", "--deal", "deal", "--house", 1), start, ends, "a second pack", 2)

    def test_errors(self):
        """A call fails: all is done, or it is said that it is not, and the same call again ends it."""
        self.tree({"a": b"1" * 300, "sub/b": b"2" * 100})
        words = "pack", "in", "--deal", "deal", "--number", 7, "--records", "records"
        calls = self.calls(words)
        after = self.state()
        for at, name in enumerate(calls, 1):
            if name == "fcntl":
                continue
            self.clear()
            ran = self.run_with(words, {"FAULT_AT": str(at), "FAULT_DO": f"error {28 if at % 2 else 5}"})
            here = at, name, ran.stderr
            self.assertIn(ran.returncode, (0, IO), here)
            self.assertEqual(ran.returncode == IO, ran.stdout == b"", here)
            if ran.returncode == 0:
                self.assertEqual(self.state(), after, here)
            self.answer(*words)
            self.assertEqual(self.state(), after, here)

    def test_several_at_once(self):
        """Packs of folders that share files into one deal, which none of them finds, some of them killed: nothing is
        lost."""
        for turn in range(6):
            self.clear()
            folders = {f"in/{i}": self.tree({f"{i}/own": self.rng.randbytes(300 + i),
                                             f"{i}/sub/x": self.rng.randbytes(50), "shared": b"s" * 200}, f"in/{i}")
                       for i in range(3)}
            pack = lambda folder: [self.program, "pack", folder, "--deal", "deal", "--size", str(1 << 21),
                                   "--number", "7"]
            run = lambda words: subprocess.Popen(words, cwd=self.folder, stdout=subprocess.PIPE, stderr=subprocess.PIPE)
            running = [run(pack(folder)) for folder in folders]
            if turn % 2:
                time.sleep(self.rng.random() * 0.02)
                running[0].kill()
            for call in running:
                out, err = call.communicate(timeout=60)
                self.assertIn(call.returncode, (0, -9), err)
                self.assertTrue(turn % 2 or call.returncode == 0, err)
            for folder in folders:
                self.answer(*pack(folder)[1:])
            everything = {n: d for files in folders.values() for n, d in files.items()}
            self.agree(everything)
            self.assertEqual(len(self.manifest()), 7)
            self.answer("extract", "deal", "--to", "out")
            self.assertEqual(self.found(), everything)
            self.assertEqual([n for n in self.files() if n.startswith(".")], [])


if __name__ == "__main__":
    if not BINARY.is_file():
        raise SystemExit(f"{BINARY} is not there; run: cargo build --release --offline --manifest-path rust/Cargo.toml")
    unittest.main()
