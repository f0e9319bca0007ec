"""Logs: lines that calls add (--log), playback, and what logs are refused: python3 tests/log_test.py
(VIZHUTHAMEN names another binary).

The answers and the lines are those of the independent model. Wherever a call has added a line, playback confirms the
log, and its rows are the entries of the deal.
"""
import fcntl
import json
import os
import shutil
import stat
import subprocess
import tempfile
import unittest
from pathlib import Path

import logs
from cli_test import BINARY, BUSY, DATA, IO, MODEL, USAGE, Calls, nobody, rows_of
from model import index_numbers, pad, segment_length
from proofs import cid

MALFORMED, SIZE = 3, 2
WHO = "place", "house", "offset", "size", "commitment"


class Days(Calls):
    """A deal with a log, and calls of both houses, each of which the model answers too."""

    def setUp(self):
        super().setUp()
        self.log = b""

    def new(self, size=1024, name="deal"):
        self.answer("new", name, size)
        self.log = b""

    def booked(self, segment, house=1, log="log", deal="deal"):
        """Books with a log. The exit status, the line and all files are as the model says; gives the code."""
        self.put("segment", segment)
        code, *after, line = logs.book(*self.both(deal), house, segment)
        return self.called((code, after, line), deal, log, "book", deal, "segment", "--house", house)

    def cancelled(self, place, house=1, log="log", deal="deal"):
        code, *after, line = logs.cancel(*self.both(deal), house, place)
        return self.called((code, after, line), deal, log, "cancel", deal, place, "--house", house)

    def called(self, expected, deal, log, *words):
        code, after, line = expected
        value = self.object(*words, "--log", log, status=code)
        self.log += line
        self.assertEqual(self.both(deal), tuple(after))
        self.assertEqual(self.get(log) if self.log else b"", self.log)
        told = {"log": log, "lines": len(logs.lines(self.log))} if line else {}
        self.assertEqual({name: value[name] for name in ("log", "lines") if name in value}, told)
        if line:
            self.confirmed(deal, log)
        return code

    def confirmed(self, deal="deal", log="log"):
        """Playback confirms the log, and its rows are the deal's entries."""
        value = self.object("playback", len(self.get(deal)), log)
        self.assertEqual([tuple(row[name] for name in WHO) for row in value["rows"]], logs.rows(*self.both(deal)))
        self.assertEqual((value["verdict"], value["lines"], value["size"]),
                         ("confirmed", len(logs.lines(self.get(log))), len(self.get(deal))))
        return value

    def state(self):
        return {name: self.get(name) for name in self.files() if self.path(name).is_file()}

    def unchanged(self, status, *words, **options):
        """A call that is refused before anything is changed. Gives its message."""
        before = self.state()
        message = self.failed(status, *words, **options)
        self.assertEqual(self.state(), before)
        self.assertIn("nothing is changed", message)
        return message


class Keeping(Days):
    def test_a_day_of_two_houses(self):
        """Random calls of both houses in deals of several sizes: every code that gets a line, and its line."""
        met = set()
        for size, calls in ((512, 30), (1024, 40), (4096, 40), (1 << 20, 30)):
            self.path("log").unlink(missing_ok=True)
            for name in ("deal", "deal.vz", "deal.owners"):
                self.path(name).unlink(missing_ok=True)
            self.new(size)
            _, slots, start = index_numbers(size)
            segments = [self.segment(256)[: self.rng.choice((1, 100, 128, 130, 256))] for _ in range(6)]
            for _ in range(calls):
                house = self.rng.choice((1, 2))
                if self.rng.random() < 0.65:
                    met.add(("book", self.booked(self.rng.choice(segments), house)))
                else:
                    met.add(("cancel", self.cancelled(start + 64 * self.rng.randrange(min(slots, 5)), house)))
        self.assertLessEqual({("book", code) for code in (0, 14, 15, 22)} | {("cancel", 0), ("cancel", 16)}, met)
        self.assertEqual(self.files(), ["deal", "deal.owners", "deal.vz", "log", "segment"])

    def test_codes_without_a_line(self):
        """What is refused before it is a booking or a cancellation by the rules gets none, and makes no log."""
        self.new()
        for code, segment, house in ((4, b"", 1), (4, bytes(513), 1), (11, b"\xff" * 32, 1), (23, bytes(128), 3),
                                     (23, bytes(128), 0)):
            self.assertEqual(self.booked(segment, house), code)
        for code, place, house in ((6, 1, 1), (6, 1024, 1), (6, 704, 2), (23, 768, 0)):
            self.assertEqual(self.cancelled(place, house), code)
        self.assertEqual(self.files(), ["deal", "deal.owners", "deal.vz", "segment"])
        self.put("empty", b"")
        self.refused(2, "book", "deal", "--raw", "empty", "--log", "log")
        self.refused(1, "cancel", "deal", 768, "--commitment", "00", "--log", "log")
        self.booked(self.segment())
        message = self.unchanged(DATA, "cancel", "deal", 768, "--commitment", "00" * 32, "--log", "log")
        self.assertIn("which is not the given one", message)
        self.assertEqual(self.booked(bytes(513)), 4)
        self.answer("number", "deal", 7)
        self.answer("close", "deal")
        self.unchanged(DATA, "book", "deal", "segment", "--log", "log")
        self.assertEqual(self.answer("book", "deal", "segment", "--log", "log", "--reopen", status=4)[:6], "code 4")

    def test_what_is_told(self):
        self.new()
        self.put("segment", self.segment())
        told = lambda *words, status=0: self.answer(*words, "--log", "log", status=status).splitlines()[-2:]
        self.assertEqual(told("book", "deal", "segment"), ["log log", "lines 1"])
        self.assertEqual(told("book", "deal", "segment", status=15), ["log log", "lines 2"])
        out, err = self.call("cancel", "deal", 768, "--log", "log")
        self.assertEqual(out.splitlines()[-2:], ["log log", "lines 3"])
        self.assertEqual(err.splitlines()[1], "vizhuthamen: a collection ends the log log: the new deal has none")
        self.assertEqual(told("cancel", "deal", 768, status=16), ["log log", "lines 4"])
        self.assertNotIn("log", self.answer("book", "deal", "segment"))

    def test_no_place_speaks_of_the_end_of_the_log(self):
        self.new(2048)
        for size in (128, 128, 512):
            self.booked(self.segment(size), 1 if size == 128 else 2)
        self.cancelled(1792 + 64)
        self.put("segment", self.segment(1024))
        _, err = self.call("book", "deal", "segment", "--house", 2, "--log", "log", status=14)
        self.assertEqual(err.splitlines()[-1], "vizhuthamen: a collection ends the log log: the new deal has none")
        self.confirmed()

    def test_plain_files(self):
        self.new()
        raw = self.put("raw", self.rng.randbytes(200))
        self.answer("book", "deal", "--raw", "raw", "--log", "log")
        segment = pad(raw, bytes(segment_length(200)))[2]
        self.assertEqual(self.get("log"), logs.booking(1, logs.commitment(segment), len(segment), 0, 0, 768))
        self.confirmed()

    def test_where_a_log_lies(self):
        """In another folder, by a link, by a name that is no UTF-8; a log that is made has the permissions of a new
        file."""
        self.new()
        self.path("folder").mkdir()
        for name in ("folder/log", "./folder/../folder/log", str(self.path("folder/log"))):
            self.booked(self.segment(), 1 if name == "folder/log" else 2, log=name)
        self.assertEqual(stat.S_IMODE(self.path("folder/log").stat().st_mode), 0o644)
        self.path("link").symlink_to("folder/log")
        self.cancelled(768, log="link")
        self.assertTrue(self.path("link").is_symlink())
        os.link(self.path("folder/log"), self.path("second"))
        self.cancelled(768, log="second")
        self.path("folder/log").chmod(0o640)
        self.booked(self.segment(), log="second")
        self.assertEqual(stat.S_IMODE(self.path("second").stat().st_mode), 0o640)
        odd = "l\nog\udcff"
        shutil.copy(self.path("second"), self.path(odd))
        self.answer("cancel", "deal", 768, "--house", 1, "--log", odd)
        self.answer("playback", 1024, odd)

    def test_on_another_file_system(self):
        others = [Path(name) for name in ("/dev/shm", "/tmp", "/var/tmp") if os.access(name, os.W_OK)]
        others = [other for other in others if other.stat().st_dev != self.folder.stat().st_dev]
        if not others:
            self.skipTest("there is one file system only")
        with tempfile.TemporaryDirectory(dir=others[0]) as folder:
            self.new()
            self.booked(self.segment(), log=f"{folder}/log")
            self.cancelled(832, log=f"{folder}/log")
            self.assertEqual((os.listdir(folder), self.files()),
                             (["log"], ["deal", "deal.owners", "deal.vz", "segment"]))

    def test_a_deal_without_a_table_or_with_bytes_that_stand_for_nothing(self):
        self.put("deal", bytes([1]) * 768 + bytes(256))
        segment = self.put("segment", self.segment())
        self.answer("book", "deal", "segment", "--log", "log")
        self.assertEqual(self.get("log"), logs.booking(1, logs.commitment(segment), 128, 0, 0, 768))
        self.confirmed()

    def test_calls_without_a_log_that_leave_nothing_behind(self):
        """A booking that is taken back without the log leaves the deal that its log tells of."""
        self.new()
        self.booked(self.segment(), 2)
        self.put("other", self.segment())
        self.answer("book", "deal", "other", "--house", 1)
        message = self.unchanged(DATA, "book", "deal", "other", "--house", 1, "--log", "log")
        self.assertIn("log is not the log of deal: it has no line for the entry that stands at place 832", message)
        self.answer("cancel", "deal", 832, "--house", 1)
        self.assertEqual(self.booked(self.get("other"), 1), 0)

    def test_a_log_that_is_booked_itself(self):
        self.new(4096)
        self.booked(self.segment(), 2)
        archived = self.get("log")
        self.answer("book", "deal", "--raw", "log", "--house", 1, "--log", "log")
        self.answer("find", "deal", "--raw", "log", status=16)
        self.confirmed()
        self.answer("extract", "deal", status=DATA)
        length = segment_length(len(archived))
        self.assertEqual(self.get("deal")[128 : 128 + length], pad(archived, bytes(length))[2])


class Packing(Days):
    def packed(self, house, *files, status=0, lines=()):
        value = self.object("pack", *files, "--deal", "deal", "--house", house, "--log", "log", status=status)
        self.log += b"".join(lines)
        self.assertEqual(self.get("log") if self.log else b"", self.log)
        self.assertEqual(value.get("lines"), len(logs.lines(self.log)) if lines else None)
        if self.log:
            self.confirmed()
        return value

    def line(self, house, raw, code, offset, place):
        segment = pad(raw, bytes(segment_length(len(raw))))[2]
        return logs.booking(house, logs.commitment(segment), len(segment), code, offset, place)

    def test_a_line_for_every_file(self):
        """In the order in which they are booked; a pack that finds its files kept adds lines alone."""
        self.new(4096)
        a, b, c = (self.put(name, self.rng.randbytes(length)) for name, length in (("a", 100), ("b", 1000), ("c", 150)))
        self.packed(1, "a", "b", lines=[self.line(1, b, 0, 0, 3840), self.line(1, a, 0, 1024, 3904)])
        self.packed(1, "a", lines=[self.line(1, a, 15, 1024, 3904)])
        self.packed(2, "a", "c", lines=[self.line(2, c, 0, 1280, 3968), self.line(2, a, 0, 1152, 4032)])
        self.assertEqual(self.packed(1, "c", status=22)["code"], 22)
        self.put("large", bytes(3000))
        self.assertEqual(self.packed(2, "a", "large", status=4)["code"], 4)

    def test_a_deal_that_is_made(self):
        a = self.put("a", b"letter")
        self.answer("pack", "a", "--deal", "deal", "--size", 1024, "--number", 7, "--log", "log")
        self.log = self.line(1, a, 0, 0, 768)
        self.assertEqual(self.get("log"), self.log)
        self.confirmed()
        self.cancelled(768)
        self.assertEqual(json.loads(self.get("deal.manifest.json"))["files"], [])

    def test_a_folder_with_the_log_in_it(self):
        self.path("folder").mkdir()
        self.put("folder/a", b"letter")
        for lines in (1, 2):
            value = self.object("pack", "folder", "--deal", "folder/deal", "--log", "folder/log")
            self.assertEqual((value["lines"], len(value["files"])), (lines, 1))
        skipped = {one["name"]: one["why"] for one in value["skipped"]}
        self.assertEqual(skipped["log"], "it is the deal, or belongs to it")
        self.assertIn("it is the deal, or belongs to it",
                      self.failed(USAGE, "pack", "folder/log", "--deal", "folder/deal", "--log", "folder/log"))

    def test_nothing_is_packed_with_a_log_that_is_not_the_deals(self):
        self.new()
        self.put("a", b"letter")
        self.put("log", logs.cancelling(1, 768, 0))
        self.assertIn("line 1", self.unchanged(DATA, "pack", "a", "--deal", "deal", "--log", "log"))
        # Nor is a deal made for it.
        self.put("log", logs.booking(1, bytes(32), 1, 0, 0, 768))
        self.put("text", b"no log")
        for log, status in (("log", DATA), ("text", DATA), ("new", USAGE), ("new.owners", USAGE), ("/dev/null", IO)):
            self.unchanged(status, "pack", "a", "--deal", "new", "--size", 1024, "--log", log)
        self.put("log", logs.cancelling(1, 768, 16))
        self.assertEqual(self.object("pack", "a", "--deal", "new", "--size", 1024, "--log", "log")["lines"], 2)


class NoLogs(Days):
    """Logs that are refused, before anything is changed."""

    def setUp(self):
        super().setUp()
        self.new()
        self.booked(self.segment(256), 2)
        self.booked(self.put("kept", self.segment()))
        self.put("other", self.segment())

    def calls(self, log):
        """Calls that would each add a line: booked, refused, cancelled, nothing to cancel, packed."""
        return (("book", "deal", "other", "--house", 1, "--log", log),
                ("book", "deal", "kept", "--house", 1, "--log", log),
                ("cancel", "deal", 768, "--house", 2, "--log", log),
                ("cancel", "deal", 960, "--house", 1, "--log", log),
                ("pack", "other", "--deal", "deal", "--house", 1, "--log", log))

    def refused_by_all(self, status, log, *parts, calls=5, **options):
        for words in self.calls(log)[:calls]:
            for form in ((), ("--json",)):
                message = self.unchanged(status, *words, *form, **options)
                for part in parts:
                    self.assertIn(part, message)
        return message

    def test_what_is_no_file(self):
        os.mkfifo(self.path("pipe"))
        self.path("folder").mkdir()
        for name in ("pipe", "folder", "/dev/null", "/dev/full"):
            self.refused_by_all(IO, name, f"cannot add a line to {name}: it is not a regular file",
                                "give --log a plain file")
        self.path("nowhere").symlink_to("missing")
        self.refused_by_all(IO, "nowhere", "it is a link that leads nowhere", "give --log the file itself")
        self.refused_by_all(IO, "no/such/log", "make its folder first")
        self.refused_by_all(IO, "log/log", "cannot add a line to log/log")
        self.refused_by_all(IO, "..", "cannot add a line to ..")
        for words in self.calls("-"):
            self.assertIn("--log must be a file", self.failed(USAGE, *words))

    def test_files_of_the_deal(self):
        for name in ("deal", "deal.owners", "deal.vz", "deal.manifest.json", ".deal.vz-journal", "deal.before-repair",
                     ".deal.vz-new.3"):
            message = self.refused_by_all(USAGE, name, "a file of the deal's own", "give a file of its own for the log")
        self.assertIn(".deal.vz-new.3", message)
        self.path("link").symlink_to("deal.owners")
        self.refused_by_all(USAGE, "link", "a file of the deal's own")

    @unittest.skipIf(os.getuid() != 0, "needs another user")
    def test_a_log_that_may_not_be_written(self):
        for name in ("deal", "deal.owners", "deal.vz"):
            self.path(name).chmod(0o666)
        self.path("log").chmod(0o444)
        self.refused_by_all(IO, "log", "Permission denied", "give --log a file that you may write", **nobody())
        self.path("own").mkdir(0o755)
        before = self.state()
        message = self.failed(DATA, *self.calls("own/log")[0], "--new-owner", **nobody())
        self.assertEqual(self.state(), before)
        self.assertIn("it has no line, and entries stand in deal", message)

    def test_a_folder_in_which_no_log_can_be_made(self):
        """The line comes before the deal: what cannot be written is taken back."""
        if os.getuid() != 0:
            self.skipTest("needs another user")
        self.path("own").mkdir(0o755)
        self.put("new", bytes(1024))
        self.put("new.owners", bytes(4))
        for name in ("new", "new.owners", "deal"):
            self.path(name).chmod(0o666)
        message = self.unchanged(IO, "book", "new", "other", "--log", "own/log", "--new-owner", **nobody())
        self.assertIn("a line could not be added to own/log: Permission denied", message)
        self.assertEqual(list(self.path("own").iterdir()), [])

    def test_a_torn_log(self):
        """Cut at every byte, with bytes after it, and other bytes: said with the place, and playback shows it."""
        whole = self.get("log")
        for cut in range(1, len(whole)):
            torn = self.put("log", whole[:cut])
            if cut == 61:
                continue  # one whole line
            message = self.unchanged(DATA, *self.calls("log")[cut % 5])
            line, at = (1, 0) if cut < 61 else (2, 61)
            self.assertIn(f"log is no log of a deal of 1024 bytes: line {line}, which begins at byte {at}: "
                          f"the log ends at byte {cut}", message)
            self.assertIn("where it breaks is shown by: vizhuthamen playback 1024 log", message)
            self.assertEqual(self.object("playback", 1024, "log", status=MALFORMED)["byte"], len(torn))
        for end in (b"\0", b"\1", b"\2\12", b"\3", b"line\n", bytes(61)):
            self.put("log", whole + end)
            self.refused_by_all(DATA, "log", "line 3, which begins at byte 122")
        self.put("log", b"a text, and no log\n")
        self.refused_by_all(DATA, "log", "line 1, which begins at byte 0: byte 0 is 97, and a line begins with 1")

    def test_a_log_that_is_wrong_by_itself(self):
        self.put("log", self.get("log")[:-8] + bytes(8))
        self.refused_by_all(DATA, "log", "the rules do not give what line 2 of log says",
                            "vizhuthamen playback 1024 log")

    def test_a_log_of_another_deal(self):
        """Of another size, of another deal of this size, of two deals in turn; and of a copy, whose log it is until one
        goes on."""
        self.new(4096, "large")
        self.booked(self.segment(1024), log="large.log", deal="large")
        self.refused_by_all(DATA, "large.log", "large.log is no log of a deal of 1024 bytes",
                            "a segment of 1024 bytes, and a segment here has 1 to 512 bytes")
        self.new(1024, "second")
        for words in (("book", "second", "other"), ("cancel", "second", 960)):
            message = self.unchanged(DATA, *words, "--house", 1, "--log", "log")
            self.assertIn("log is not the log of second: by its lines an entry stands at place 768, and none does",
                          message)
            self.assertIn("compare: vizhuthamen playback 1024 log, vizhuthamen list second", message)
        self.assertEqual(self.get("second"), bytes(1024))
        for end in ("", ".owners", ".vz"):
            shutil.copy(self.path("deal" + end), self.path("copy" + end))
        self.log = self.get("log")
        self.assertEqual(self.booked(self.segment(), 2, deal="copy"), 0)
        self.refused_by_all(DATA, "log",
                            "log is not the log of deal: by its lines an entry stands at place 896, and none does")

    def test_what_was_done_without_the_log(self):
        self.answer("book", "deal", "other", "--house", 2)
        self.refused_by_all(DATA, "log", "it has no line for the entry that stands at place 896",
                            "what was booked without --log is cancelled without it, and booked again with it")
        self.answer("cancel", "deal", 896, "--house", 2)
        self.confirmed()
        self.assertEqual(self.booked(self.get("other"), 2), 0)

    def test_other_changes_end_a_log(self):
        self.answer("owner", "deal", 1, 768, "--instead-of", 2)
        self.refused_by_all(DATA, "log", "by its lines another entry stands at place 768",
                            "collect, owner and repair end a log: leave --log out from then on", calls=4)
        self.answer("owner", "deal", 2, 768, "--instead-of", 1)
        self.confirmed()
        self.answer("owner", "deal", 0, 832, "--instead-of", 1)
        for words in (("cancel", "deal", 832, "--house", 1), ("book", "deal", "other", "--house", 2)):
            self.assertIn("by its lines another entry stands at place 832",
                          self.unchanged(DATA, *words, "--log", "log"))
        self.answer("owner", "deal", 1, 832)
        self.confirmed()
        deal = self.get("deal")
        self.put("deal", deal[:768] + bytes([deal[768] ^ 1]) + deal[769:])
        self.refused_by_all(DATA, "log", "by its lines an entry stands at place 768, and none does")
        self.put("deal", deal)
        self.answer("cancel", "deal", 768, "--house", 2, "--log", "log")
        err = self.call("collect", "deal", "new")[1]
        self.assertIn("a log of deal ends here, and new has none", err)
        for log in ("log", "new.log"):
            message = self.unchanged(DATA, "book", "new", "other", "--house", 2, "--log", log)
        self.assertIn("a collection ends a log, and the deal that it makes has none", message)

    def test_a_log_that_begins_late(self):
        self.refused_by_all(DATA, "new.log",
                            "new.log is not the log of deal: it has no line, and entries stand in deal",
                            "a log begins with a deal in which no entry stands, and cannot begin later: "
                            "leave --log out")
        self.assertNotIn("new.log", self.files())
        self.put("new.log", b"")
        self.refused_by_all(DATA, "new.log", "it has no line, and entries stand in deal")

    def test_13_is_not_met_with_a_log(self):
        """Entries that are nobody's fill the slots: no run from an empty deal ends so, and no log is one of it."""
        deal, _, _ = self.keeping(2048, [self.segment() for _ in range(4)])
        self.put("full", deal)
        self.put("full.owners", bytes(4))
        self.refused(13, "book", "full", "other", "--house", 1)
        self.assertIn("entries stand in full",
                      self.unchanged(DATA, "book", "full", "other", "--house", 1, "--log", "full.log"))
        log = self.put("log", logs.booking(1, logs.commitment(self.get("other")), 128, 13))
        value = self.object("playback", 2048, "log", status=DATA)
        self.assertEqual([one["code"] for one in value["answers"]], [13, 0])

    def test_bytes_of_the_deal_that_other_hands_have_changed(self):
        """The entry stands and is not kept: the deal books the segment again, and by the log it is kept already."""
        deal = self.get("deal")
        segment = self.get("segment")
        self.put("deal", deal[:256] + bytes([deal[256] ^ 1]) + deal[257:])
        message = self.unchanged(DATA, "book", "deal", "segment", "--house", 1, "--log", "log")
        self.assertIn("by its lines the rules give another answer than deal, whose bytes other hands have changed",
                      message)
        self.assertIn("what is wrong with deal is shown by: vizhuthamen fsck deal", message)
        self.answer("repair", "deal", "--segment", "segment")
        self.assertEqual(self.get("deal")[:768], deal[:768])
        self.assertEqual(self.booked(segment), 15)

    def test_a_log_that_is_too_long(self):
        with open(self.path("log"), "r+b") as file:
            file.truncate((1 << 28) + 1)
        message = self.failed(DATA, *self.calls("log")[0])
        self.assertIn("log has more than 268435456 bytes", message)
        self.assertIn("log has more than 268435456 bytes", self.failed(DATA, "playback", 1024, "log"))

    def test_a_log_in_use(self):
        with open(self.path("log"), "rb") as file:
            for mode in (fcntl.LOCK_EX, fcntl.LOCK_SH):
                fcntl.flock(file, mode)
                for words in self.calls("log"):
                    self.assertIn("log is in use by another process", self.unchanged(BUSY, *words, "--no-wait"))
            self.object("playback", 1024, "log")
            fcntl.flock(file, fcntl.LOCK_EX)
            call = subprocess.Popen([self.program, *map(str, self.calls("log")[1])], cwd=self.folder,
                                    stdout=subprocess.PIPE, stderr=subprocess.PIPE)
            self.assertEqual(call.stderr.readline(),
                             b"vizhuthamen: waiting for another process to end its work on log\n")
        out, _ = call.communicate(timeout=30)
        self.assertEqual((call.returncode, out.splitlines()[-1]), (15, b"lines 3"))

    def test_readers_wait_for_whoever_adds_lines(self):
        for words in (("playback", "1024", "log"), ("log", "log")):
            with open(self.path("log"), "rb") as file:
                fcntl.flock(file, fcntl.LOCK_EX)
                call = subprocess.Popen([self.program, *words], cwd=self.folder, stdout=subprocess.PIPE,
                                        stderr=subprocess.PIPE)
                self.assertEqual(call.stderr.readline(),
                                 b"vizhuthamen: waiting for another process to end its work on log\n")
                self.assertIsNone(call.poll())
            out, _ = call.communicate(timeout=30)
            self.assertEqual((call.returncode, out.decode()), (0, self.answer(*words)))

    @unittest.skipIf(os.getuid() != 0 or not shutil.which("unshare"), "needs a mount of its own")
    def test_a_full_disk_of_the_log(self):
        """Neither the deal nor the log is changed, whether the log is there or to be made."""
        self.path("mount").mkdir()
        self.put("empty", bytes(1024))
        self.put("empty.owners", bytes(4))
        fill = "cat /dev/zero > mount/zeros 2> /dev/null"
        script = ('mount -t tmpfs -o size=16k none mount && cp log mount/log && head -c 3974 /dev/zero > mount/pad && '
                  f'{fill}; "$0" book deal other --house 1 --log mount/log; echo $?; cmp log mount/log; '
                  '"$0" book empty other --house 1 --log mount/new; echo $?; ls mount')
        # Lines up to the end of the page, so that the next one needs another.
        self.path("log").unlink()
        self.log = b""
        for name in ("deal", "deal.owners", "deal.vz"):
            self.path(name).unlink()
        self.new()
        self.booked(self.segment(), 2)
        while len(self.log) + 61 <= 4096:
            self.log += logs.cancelling(1, 960, 16)
        self.put("log", self.log)
        before = self.state()
        ran = subprocess.run(["unshare", "-m", "sh", "-c", script, self.program], cwd=self.folder, capture_output=True,
                             text=True)
        if "mount:" in ran.stderr or "unshare:" in ran.stderr:
            self.skipTest("no mounts here")
        self.assertEqual(ran.stdout, "74\n74\nlog\npad\nzeros\n", ran.stderr)
        self.assertEqual(ran.stderr.count("could not be added to mount/"), 2, ran.stderr)
        self.assertEqual(ran.stderr.count("No space left on device (os error 28); nothing is changed"), 2, ran.stderr)
        self.assertEqual(self.state(), before)

    @unittest.skipIf(os.getuid() != 0 or not shutil.which("chattr"), "needs files that can only grow")
    def test_a_log_that_can_only_grow(self):
        log = Path(tempfile.mkdtemp(prefix="vizhuthamen-log-", dir=BINARY.parent)) / "log"
        self.addCleanup(shutil.rmtree, log.parent)
        shutil.copy(self.path("log"), log)
        if subprocess.run(["chattr", "+a", log], capture_output=True).returncode:
            self.skipTest("no such files here")
        self.addCleanup(subprocess.run, ["chattr", "-a", log])
        self.log = log.read_bytes()
        self.assertEqual(self.booked(self.get("other"), 1, log=str(log)), 0)
        self.assertEqual(self.cancelled(960, 1, log=str(log)), 16)


class Unfinished(Days):
    """Changes that were decided and not ended, for the log of which something is in the way."""

    def setUp(self):
        super().setUp()
        self.new()
        self.booked(self.segment(), 2)
        self.line = logs.cancelling(1, 960, 16)

    def decided(self, log="log"):
        text = f"vizhuthamen journal 1\nlog {len(self.log)} {os.fsencode(log).hex()} {self.line.hex()}\n"
        self.put(".deal.vz-journal", text.encode())

    def test_a_line_is_added_by_whoever_comes_next(self):
        for words in (("list", "deal"), ("fsck", "deal"), ("cancel", "deal", 960, "--house", 1), ("audit", "deal"),
                      ("collect", "deal", "new")):
            self.decided()
            self.answer(*words, status=16 if words[0] == "cancel" else 0)
            self.log += self.line
            self.assertEqual((self.get("log"), ".deal.vz-journal" in self.files()), (self.log, False))
            self.confirmed()

    def test_a_line_that_is_there_already(self):
        """Whole, also where other lines stand behind it: nothing is added, and nothing is taken away."""
        self.decided()
        for end in (b"", self.line, logs.booking(2, bytes(32), 1, 14)):
            log = self.put("log", self.log + self.line + end)
            self.decided()
            self.answer("list", "deal")
            self.assertEqual((self.get("log"), ".deal.vz-journal" in self.files()), (log, False))

    def test_names_of_logs(self):
        """From the deal's folder on, wherever that has gone in the meantime, and else from the root on."""
        self.decided()
        self.path("moved").mkdir()
        for name in ("deal", "deal.owners", "deal.vz", "log", ".deal.vz-journal"):
            self.path(name).rename(self.path("moved") / name)
        self.answer("fsck", "moved/deal")
        self.assertEqual(self.get("moved/log"), self.log + self.line)
        self.log += self.line
        self.path("moved/log").rename(self.path("log"))
        for name in ("deal", "deal.owners", "deal.vz"):
            self.path("moved/" + name).rename(self.path(name))
        self.decided(str(self.path("log")))
        self.answer("list", "deal")
        self.assertEqual(self.get("log"), self.log + self.line)

    def test_a_log_that_is_lost(self):
        """The change waits for the log; without the journal's line on it, it is ended without."""
        self.decided()
        log = self.get("log")
        self.path("log").unlink()
        for words in (("list", "deal"), ("fsck", "deal"), ("book", "deal", "segment"), ("salvage", "deal", "out")):
            message = self.failed(IO, *words)
            self.assertIn("an unfinished change of it cannot be ended (.deal.vz-journal): "
                          "it has a line for the log log, which is not there", message)
            self.assertIn("bring the log back; or, if it is lost for good, "
                          "take the line that begins with `log` out of .deal.vz-journal", message)
        self.put("log", log[:60])
        message = self.failed(IO, "list", "deal")
        self.assertIn("it has a line for the log log, at byte 61, and another program has changed the log", message)
        self.assertIn("bring the log back with the 61 bytes that it had", message)
        self.put(".deal.vz-journal", b"vizhuthamen journal 1\n")
        self.answer("list", "deal")
        self.assertNotIn(".deal.vz-journal", self.files())

    def test_a_log_that_is_none(self):
        self.decided()
        self.path("log").unlink()
        for make in (os.mkdir, os.mkfifo):
            make(self.path("log"))
            self.assertIn("its log log is not a regular file", self.failed(IO, "list", "deal"))
            os.rmdir(self.path("log")) if make == os.mkdir else self.path("log").unlink()
        self.path("log").symlink_to("nowhere")
        self.assertIn("which is not there", self.failed(IO, "list", "deal"))

    def test_no_wait(self):
        self.decided()
        with open(self.path("log"), "rb") as file:
            fcntl.flock(file, fcntl.LOCK_EX)
            self.assertIn("log is in use by another process", self.failed(BUSY, "fsck", "deal", "--no-wait"))
        self.answer("fsck", "deal", "--no-wait")

    @unittest.skipIf(os.getuid() != 0, "needs other users")
    def test_a_journal_of_another_user(self):
        """It is obeyed only where he could have written the log himself: a log may lie outside of the folder that
        others may write."""
        user = os.stat(self.path("deal")).st_uid + 65534
        self.decided()
        os.chown(self.path(".deal.vz-journal"), user, -1)
        message = self.failed(IO, "list", "deal")
        self.assertIn(f"it was begun by user {user}, and the log log is neither his nor yours", message)
        self.assertIn(f"let user {user} call any command on the deal; "
                      "or, if you trust it, make .deal.vz-journal your own (chown)", message)
        self.assertEqual(self.get("log"), self.log)
        os.chown(self.path("log"), user, -1)
        self.answer("list", "deal")
        self.log += self.line
        self.assertEqual(self.get("log"), self.log)
        # One that is to be made is his who makes it, wherever that is.
        self.path("log").unlink()
        self.log = b""
        self.decided()
        os.chown(self.path(".deal.vz-journal"), user, -1)
        self.assertIn("neither his nor yours", self.failed(IO, "list", "deal"))
        self.assertNotIn("log", self.files())
        # Of a journal that root has written anybody may end the change.
        os.chown(self.path(".deal.vz-journal"), 0, -1)
        for name in self.files():
            self.path(name).chmod(0o666)
        self.answer("list", "deal", **nobody())
        self.assertEqual(self.get("log"), self.line)

    def test_journals_that_are_none(self):
        """Only lines of a log are added to a log."""
        for growth in (b"", b"text", self.line[:12], self.line + b"\0", self.line[:3] + b"\3" + self.line[4:]):
            text = f"vizhuthamen journal 1\nlog {len(self.log)} {b'log'.hex()} {growth.hex()}\n"
            self.put(".deal.vz-journal", text.encode())
            self.assertIn("is no journal of this program", self.failed(IO, "list", "deal"))
            self.assertEqual(self.get("log"), self.log)


class Playing(Days):
    """What playback says of logs, whoever has written them."""

    def setUp(self):
        super().setUp()
        self.commitments = [self.segment(32) for _ in range(6)]

    def line(self, code, offset=0, place=0, house=1, which=0, size=128):
        return logs.booking(house, self.commitments[which], size, code, offset, place)

    def wrong(self, line, says, gives, *log, size=1024, **asked):
        """The last line is the first wrong one: in words, and as JSON."""
        self.put("log", b"".join(log))
        number, at = len(log), sum(map(len, log[:-1]))
        out, err = self.call("playback", size, "log", status=DATA)
        text = lambda answer: f"{answer[0]}, {answer[1]}"
        sentence = f"line {number} of log, in which {line}, says {text(says)}; the rules give {text(gives)}"
        self.assertEqual(out, f"not confirmed: {sentence}\ncode 65: a line says what the rules do not give\n")
        self.assertIn("all are shown by: vizhuthamen log log", err.splitlines()[0])
        self.assertEqual(err.splitlines()[1], "vizhuthamen: what the deal holds is shown by: vizhuthamen list DEAL")
        value = self.object("playback", size, "log", status=DATA)
        self.assertEqual([value[name] for name in ("verdict", "sentence", "lines", "line", "at", "size")],
                         ["not confirmed", sentence, number, number, at, size])
        self.assertEqual([one["by"] for one in value["answers"]], ["line", "rules"])
        self.assertEqual([one["code"] for one in value["answers"]], [says[0], gives[0]])
        self.assertNotIn("rows", value)
        return value, err

    def test_every_two_answers(self):
        a, b, c, d = (self.line(0, 128 * i, 768 + 64 * i, 1 + i // 2, i) for i in range(4))
        house = lambda house, which, size=128: (f"house {house} books a segment of {size} bytes "
                                                f"with the commitment {self.commitments[which].hex()}")
        booked = lambda offset, place: (0, f"booked at offset {offset}, entry place {place}")
        kept = lambda offset, place: (15, f"already kept at offset {offset}, entry place {place}")
        no_slot, no_place, quota = ((13, "no slot is free"), (14, "no free place"),
                                    (22, "the house holds half the slots or more"))
        self.wrong(house(1, 0), booked(0, 960), booked(0, 768), self.line(0, 0, 960))
        value, err = self.wrong(house(1, 0), booked(0, 448), kept(0, 768), a, self.line(0, 0, 448))
        self.assertEqual(value["answers"][1],
                         {"by": "rules", "code": 15, "answer": "already kept", "offset": 0, "place": 768})
        self.assertIn("every line before it is confirmed; no line after it is judged", err)
        self.assertIn("448 is no entry place of a deal of 1024 bytes: give the size of the log's own deal", err)
        self.wrong(house(1, 0), no_slot, booked(0, 768), self.line(13))
        self.wrong(house(1, 0), no_slot, kept(0, 768), a, self.line(13))
        self.wrong(house(1, 0), no_place, booked(0, 768), self.line(14))
        self.wrong(house(1, 0), quota, booked(0, 768), self.line(22))
        self.wrong(house(1, 0), kept(0, 768), booked(0, 768), self.line(15, 0, 768))
        self.wrong(house(1, 1), kept(0, 768), booked(128, 832), a, self.line(15, 0, 768, which=1))
        self.wrong(house(2, 0), kept(0, 768), booked(128, 832), a, self.line(15, 0, 768, 2))
        self.wrong(house(1, 0, 127), kept(0, 768), booked(128, 832), a, self.line(15, 0, 768, size=127))
        self.wrong(house(1, 2), booked(256, 896), quota, a, b, self.line(0, 256, 896, which=2))
        self.wrong(house(2, 4), no_slot, quota, a, b, c, d, self.line(13, house=2, which=4))
        self.wrong(house(2, 4, 512), booked(0, 832), no_place, a, self.line(0, 0, 832, 2, 4, 512))
        self.wrong(house(2, 4, 512), quota, no_place, a, self.line(22, house=2, which=4, size=512))
        with_numbers = lambda offset, place: (14, f"no free place, with offset {offset} and entry place {place}")
        self.wrong(house(2, 4, 512), with_numbers(0, 832), with_numbers(0, 0), a, self.line(14, 0, 832, 2, 4, 512))
        self.wrong(house(2, 4, 512), with_numbers(128, 0), with_numbers(0, 0), a, self.line(14, 128, 0, 2, 4, 512))
        self.wrong(house(1, 0), (22, "the house holds half the slots or more, with offset 1 and entry place 2"),
                   booked(0, 768), self.line(22, 1, 2))
        cancels = lambda house, place: f"house {house} cancels at entry place {place}"
        done, nothing, outside = ((0, "cancelled"), (16, "nothing of the house to cancel there"),
                                  (6, "the place is not in the index"))
        value, _ = self.wrong(cancels(1, 768), done, nothing, logs.cancelling(1, 768, 0))
        self.assertEqual((value["call"], value["house"], value["place"]), ("cancel", 1, 768))
        self.assertEqual(value["answers"], [{"by": "line", "code": 0, "answer": "cancelled"},
                                            {"by": "rules", "code": 16, "answer": "nothing to cancel"}])
        self.wrong(cancels(2, 768), done, nothing, a, logs.cancelling(2, 768, 0))
        self.wrong(cancels(1, 768), nothing, done, a, logs.cancelling(1, 768, 16))
        for place in (0, 767, 769, 1024, (1 << 64) - 64):
            self.wrong(cancels(1, place), nothing, outside, a, logs.cancelling(1, place, 16))
            value, _ = self.wrong(cancels(1, place), done, outside, a, logs.cancelling(1, place, 0))
            self.assertEqual(value["answers"][1]["answer"], "place not in the index")

    def test_the_first_wrong_line_and_malformed_lines(self):
        """A malformed last line is told before a wrong first one, and a size that is not allowed before both."""
        wrong = self.line(0, 0, 960)
        self.put("log", wrong + wrong)
        self.assertEqual(self.object("playback", 1024, "log", status=DATA)["line"], 1)
        self.put("log", wrong + b"\1")
        self.assertEqual(self.object("playback", 1024, "log", status=MALFORMED)["line"], 2)
        for size in (0, 1, 511, 513, 1000, 1 << 25, (1 << 64) - 1):
            out, err = self.call("playback", size, "log", status=SIZE)
            self.assertEqual((out[:7], err),
                             ("code 2:", "vizhuthamen: a deal has a power of two from 512 to 16777216 bytes\n"))
            self.assertEqual(self.object("playback", size, "log", status=SIZE).get("lines"), None)

    def malformed(self, log, line, at, byte, why, size=1024):
        self.put("log", log)
        out, err = self.call("playback", size, "log", status=MALFORMED)
        sentence = f"log, line {line}, which begins at byte {at}: {why}"
        self.assertEqual(out.splitlines()[0], f"malformed: {sentence}")
        self.assertTrue(out.splitlines()[1].startswith("code 3: "), out)
        value = self.object("playback", size, "log", status=MALFORMED)
        self.assertEqual([value[name] for name in ("verdict", "sentence", "line", "at", "byte")],
                         ["malformed", sentence, line, at, byte])
        self.assertEqual("vizhuthamen log log" in err, line > 1)
        return err

    def test_where_the_form_breaks(self):
        a, cancel = self.line(0, 0, 768), logs.cancelling(1, 768, 16)
        begins = "and a line begins with 1 (of a booking) or 2 (of a cancellation)"
        for tag in (0, 3, 97, 255):
            self.malformed(a + bytes([tag]) + a, 2, 61, 61, f"byte 61 is {tag}, {begins}")
        for length in (0, 10, 57, 59, 58 + 256):
            self.malformed(b"\1" + length.to_bytes(2, "little") + a[3:], 1, 0, 1,
                           f"bytes 1 and 2 say {length}, and the content of a booking's line has 58 bytes")
        self.malformed(a + b"\2\13\0" + cancel[3:], 2, 61, 62,
                       "bytes 62 and 63 say 11, and the content of a cancellation's line has 10 bytes")
        for house in (0, 3, 255):
            self.malformed(a[:3] + bytes([house]) + a[4:], 1, 0, 3, f"byte 3 says house {house}, and a house is 1 or 2")
            self.malformed(cancel[:3] + bytes([house]) + cancel[4:], 1, 0, 3,
                           f"byte 3 says house {house}, and a house is 1 or 2")
        for size in (0, 513, (1 << 64) - 1):
            self.malformed(self.line(0, 0, 768, size=size), 1, 0, 36,
                           f"the 8 bytes from byte 36 on say a segment of {size} bytes, "
                           "and a segment here has 1 to 512 bytes")
        for code in (1, 12, 16, 23, 255):
            self.malformed(self.line(code), 1, 0, 44,
                           f"byte 44 says code {code}, and a booking's line has 0, 13, 14, 15 or 22")
        for code in (6, 15, 22):
            self.malformed(a + logs.cancelling(1, 768, code), 2, 61, 73,
                           f"byte 73 says code {code}, and a cancellation's line has 0 or 16")
        for cut in range(1, 61):
            err = self.malformed(a + a[:cut], 2, 61, 61 + cut,
                                 f"the log ends at byte {61 + cut}, after {cut} of the 61 bytes of a booking's line")
        self.assertIn("a line that a call was cut short in is completed by the next command on its deal: "
                      "vizhuthamen fsck DEAL", err)
        for cut in range(1, 13):
            self.malformed(cancel[:cut], 1, 0, cut,
                           f"the log ends at byte {cut}, after {cut} of the 13 bytes of a cancellation's line")

    def test_an_empty_log(self):
        self.put("log", b"")
        self.assertEqual(self.answer("playback", 512, "log"),
                         "confirmed: log has no line, and no segment is booked by it\n")
        value = self.object("playback", 512, "log")
        self.assertEqual((value["lines"], value["rows"]), (0, []))

    def test_from_a_pipe_and_as_piece_cids(self):
        log = self.line(0, 0, 768) + self.line(0, 128, 832, 2)
        shown = self.answer("playback", 1024, "-", stdin=log)
        self.assertEqual(shown.splitlines()[0],
                         "confirmed: the rules give the answers of all 2 lines of standard input, "
                         "in a deal of 1024 bytes")
        self.assertEqual(rows_of("\n".join(shown.splitlines()[1:])),
                         [["place", "house", "offset", "size", "commitment"],
                          ["768", "1", "0", "128", self.commitments[0].hex()],
                          ["832", "2", "128", "128", self.commitments[0].hex()]])
        self.assertIn(cid(self.commitments[0]), self.answer("playback", 1024, "-", "--cid", stdin=log))
        self.assertIn("the one line of", self.answer("playback", 1024, "-", stdin=log[:61]))
        self.assertIn("vizhuthamen log -", self.call("playback", 1024, "-", stdin=log[:61] + log[:61], status=DATA)[1])
        os.mkfifo(self.path("pipe"))
        with subprocess.Popen([self.program, "playback", "1024", "pipe"], cwd=self.folder,
                              stdout=subprocess.PIPE) as call:
            with open(self.path("pipe"), "wb", buffering=0) as pipe:
                pipe.write(log[:70])
                pipe.write(log[70:])
            self.assertEqual(call.stdout.read().decode().splitlines()[1:], shown.splitlines()[1:])

    def test_128_rows(self):
        """The largest deal, with every slot booked; and one line more, which gets 22."""
        size, start = 1 << 24, (1 << 24) - 128 * 64
        log = b"".join(logs.booking(1 + i % 2, i.to_bytes(32, "little"), 128, 0, 128 * i, start + 64 * i)
                       for i in range(128))
        self.put("log", log + logs.booking(1, bytes([9]) * 32, 128, 22))
        rows = self.object("playback", size, "log")["rows"]
        self.assertEqual([row["place"] for row in rows], [start + 64 * i for i in range(128)])
        self.assertEqual([row["offset"] for row in rows], [128 * i for i in range(128)])

    def test_any_line_changed(self):
        """A day's log with one bit changed, in each of its bytes: what is said is what the model says."""
        self.new()
        for i in range(3):
            self.booked(self.segment(), 1 + i % 2)
        self.booked(self.segment(512), 1)
        self.cancelled(832, 2)
        self.cancelled(832, 2)
        log = self.get("log")
        statuses = set()
        for at in range(len(log)):
            changed = bytearray(log)
            changed[at] ^= 1 << self.rng.randrange(8)
            self.put("log", bytes(changed))
            ran = subprocess.run([self.program, "playback", "1024", "log", "--json"], cwd=self.folder,
                                 capture_output=True)
            value = json.loads(ran.stdout)
            (kind, said), ruling, rows = MODEL.playback(1024, bytes(changed))
            self.assertEqual((ran.returncode, value.get("line", 0) * kind), (DATA, said) if kind else (said, 0))
            statuses.add(ran.returncode)
            if kind:
                gives = value["answers"][1]
                self.assertEqual((gives["code"], gives.get("offset", 0), gives.get("place", 0)), ruling)
            if ran.returncode:
                self.assertEqual(value["at"], sum(len(line) for line in logs.lines(log)[: value["line"] - 1]))
            else:
                self.assertEqual([tuple(row[name] for name in WHO) for row in value["rows"]],
                                 [(r.place, r.house, r.offset, r.size, r.commitment.hex()) for r in rows])
        self.assertEqual(statuses, {0, MALFORMED, DATA})


class Listing(Days):
    def test_the_lines_of_a_log(self):
        self.new()
        first, second = self.segment(256), self.segment()
        for segment, house in ((first, 1), (first, 1), (second, 2), (self.segment(512), 2)):
            self.booked(segment, house)
        self.cancelled(768, 2)
        self.cancelled(768, 1)
        head, *rows = rows_of(self.answer("log", "log"))
        self.assertEqual(head, ["line", "byte", "call", "house", "answer", "offset", "place", "size", "commitment"])
        a, b = logs.commitment(first).hex(), logs.commitment(second).hex()
        self.assertEqual(rows[:3], [["1", "0", "book", "1", "0, booked", "0", "768", "256", a],
                                    ["2", "61", "book", "1", "15, already kept", "0", "768", "256", a],
                                    ["3", "122", "book", "2", "0, booked", "256", "832", "128", b]])
        self.assertEqual(rows[3][:8], ["4", "183", "book", "2", "14, no place", "-", "-", "512"])
        self.assertEqual(rows[4:], [["5", "244", "cancel", "2", "16, nothing to cancel", "-", "768", "-", "-"],
                                    ["6", "257", "cancel", "1", "0, cancelled", "-", "768", "-", "-"]])
        value = self.object("log", "log")
        self.assertEqual((value["lines"], [call["at"] for call in value["calls"]]), (6, [0, 61, 122, 183, 244, 257]))
        self.assertEqual(value["calls"][0],
                         {"line": 1, "at": 0, "call": "book", "house": 1, "code": 0, "answer": "booked", "offset": 0,
                          "place": 768, "size": 256, "commitment": a})
        self.assertEqual(value["calls"][5], {"line": 6, "at": 257, "call": "cancel", "house": 1, "code": 0,
                                             "answer": "cancelled", "place": 768})
        self.assertEqual(rows_of(self.answer("log", "-", stdin=self.log)), [head, *rows])

    def test_a_malformed_log_is_shown_as_far_as_it_goes(self):
        line = logs.booking(1, bytes(32), 1 << 40, 13, 5, 7)
        self.put("log", line + b"\1")
        out = self.answer("log", "log", status=MALFORMED)
        self.assertEqual(out.splitlines()[0],
                         "malformed: log, line 2, which begins at byte 61: "
                         "the log ends at byte 62, after 1 of the 61 bytes of a booking's line")
        self.assertEqual(rows_of("\n".join(out.splitlines()[2:]))[1][:8],
                         ["1", "0", "book", "1", "13, no slot", "5", "7", str(1 << 40)])
        value = self.object("log", "log", status=MALFORMED)
        self.assertEqual([value[name] for name in ("lines", "line", "at", "byte")], [1, 2, 61, 62])
        self.put("log", logs.booking(1, bytes(32), 0, 0))
        self.assertIn("say a segment of 0 bytes, and a segment has 1 byte or more, and at most half of its deal's",
                      self.answer("log", "log", status=MALFORMED))

    def test_an_empty_log(self):
        self.put("log", b"")
        self.assertEqual(rows_of(self.answer("log", "log"))[1:], [])
        self.assertEqual(self.object("log", "log"),
                         {"code": 0, "meaning": "the log is well formed", "lines": 0, "calls": []})


class Races(Days):
    """Clerks of both houses at once, on one deal with one log."""

    def at_once(self, calls, statuses):
        """Starts calls at once; their exit statuses, which must be among these."""
        started = [subprocess.Popen([self.program, *map(str, call)], cwd=self.folder, stdout=subprocess.PIPE,
                                    stderr=subprocess.PIPE) for call in calls]
        ended = []
        for call, process in zip(calls, started):
            _, err = process.communicate(timeout=120)
            self.assertIn(process.returncode, statuses, (call, err))
            ended.append(process.returncode)
        return ended

    def test_two_to_eight_clerks(self):
        """Every call that is answered has its line, and the log is the deal's, whatever the order was."""
        for clerks in range(2, 9):
            for name in ("deal", "deal.owners", "deal.vz", "log"):
                self.path(name).unlink(missing_ok=True)
            self.new(2048)
            segments = [f"s{i}" for i in range(5)]
            for name in segments:
                self.put(name, self.segment(self.rng.choice((128, 256, 512))))
            lines = 0
            for _ in range(4):
                calls = []
                for clerk in range(clerks):
                    house, log = 1 + clerk % 2, ("--log", "log")
                    which = self.rng.random()
                    if which < 0.6:
                        calls.append(("book", "deal", self.rng.choice(segments), "--house", house, *log))
                    elif which < 0.8:
                        calls.append(("cancel", "deal", 1792 + 64 * self.rng.randrange(4), "--house", house, *log))
                    else:
                        calls.append(("pack", self.rng.choice(segments), "--deal", "deal", "--house", house, *log))
                statuses = self.at_once(calls, (0, 14, 15, 16, 22))
                lines += sum(status in (0, 15) or call[0] != "pack" for call, status in zip(calls, statuses))
                self.assertEqual(len(logs.lines(self.get("log"))), lines)
                self.confirmed()
            names = ["deal", "deal.owners", "deal.vz", "log", *segments]
            self.assertEqual([name for name in self.files() if name != "deal.manifest.json"], names)
            self.path("deal.manifest.json").unlink(missing_ok=True)

    def test_one_booking_by_many(self):
        """One is answered with 0 and the others with 15; the log says so in the order of the answers."""
        self.new()
        self.put("segment", self.segment())
        statuses = self.at_once([("book", "deal", "segment", "--house", 1, "--log", "log")] * 8, (0, 15))
        self.assertEqual(sorted(statuses), [0] + [15] * 7)
        self.assertEqual([line[44] for line in logs.lines(self.get("log"))], [0] + [15] * 7)
        self.confirmed()

    def test_two_deals_with_one_log(self):
        """The log is that of one of them: of the other no call is made."""
        for _ in range(5):
            for name in self.files():
                self.path(name).unlink()
            segment = {name: self.segment() for name in ("a", "b")}
            for name, data in segment.items():
                self.new(1024, name)
                self.put(name + ".segment", data)
            statuses = self.at_once([("book", name, name + ".segment", "--log", "log") for name in segment],
                                    (0, DATA, IO))
            self.assertEqual(sorted(statuses)[0], 0)
            self.assertNotEqual(sorted(statuses)[1], 0)
            booked, other = ("a", "b") if statuses[0] == 0 else ("b", "a")
            self.confirmed(booked)
            self.assertEqual(self.both(other), (bytes(1024), bytes(4)))
            self.assertEqual(self.files(), sorted(["log", *(f"{name}{end}" for name in "ab"
                                                            for end in ("", ".owners", ".vz", ".segment"))]))

    def test_readers_meanwhile(self):
        """Playback beside bookings: the log is whole and confirmed whenever it is read."""
        self.new(1 << 20)
        segments = [f"s{i}" for i in range(8)]
        for name in segments:
            self.put(name, self.segment())
        calls = [("book", "deal", name, "--house", 1 + i % 2, "--log", "log") for i, name in enumerate(segments)]
        self.put("log", b"")
        self.at_once([call for pair in zip(calls, [("playback", 1 << 20, "log")] * 8) for call in pair], (0,))
        self.confirmed()
        self.assertEqual(len(logs.lines(self.get("log"))), 8)


if __name__ == "__main__":
    if not BINARY.is_file():
        raise SystemExit(f"log_test: {BINARY} is not there; run: "
                         "cargo build --release --offline --manifest-path rust/Cargo.toml")
    unittest.main()
