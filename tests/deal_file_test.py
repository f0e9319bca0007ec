"""The command line on deal files that several hands use, or that are damaged: python3 tests/deal_file_test.py."""
import fcntl
import json
import os
import re
import resource
import select
import shutil
import signal
import stat
import subprocess
import threading
import time
import unittest
from concurrent.futures import ThreadPoolExecutor

from cli_test import BINARY, BUSY, DATA, GIVEN, IO, MODEL, NUMBER, OTHER, Calls, nobody, rows_of
from model import area, filled, index_numbers, pad, segment_length

MIB = 1 << 20


class Deals(Calls):
    """Deals of the test's own, and what is beside them."""

    def deal_of(self, size, sizes, name="deal", houses=None):
        """A deal file that keeps segments of these sizes, with its table: its bytes, the segments, and their entries'
        places."""
        segments = [self.segment(s + 32)[:s] for s in sizes]
        deal, table, places = self.keeping(size, segments, houses)
        self.put_both(deal, table, name)
        return deal, segments, places

    def put_both(self, deal, table, name="deal"):
        """A deal with its table. A name may be too long for the table's."""
        self.put(name, deal)
        if len(name) <= 220:
            self.put(name + ".owners", table)

    def booked_by(self, house, segment, state=None):
        """The deal and the table after a booking that is answered with 0."""
        code, _, _, *after = MODEL.book(*(state or self.both()), house, segment)
        self.assertEqual(code, 0)
        return tuple(after)

    def changed(self, deal, *changes):
        """The file `deal` with bytes changed: pairs of a place and a value."""
        deal = bytearray(deal)
        for at, value in changes:
            deal[at] = value
        return self.put("deal", bytes(deal))


class Locks(Deals):
    def held(self, name="deal", mode=fcntl.LOCK_EX):
        """A lock of a file, as another process would hold it."""
        file = open(self.path(name), "rb")
        fcntl.flock(file, mode)
        self.addCleanup(file.close)
        return file

    def test_no_wait_is_refused_by_every_command_that_locks(self):
        self.deal_of(1024, (128,))
        self.put("segment", self.segment())
        before = self.get("deal")
        held = self.held()
        for words in (("book", "deal", "segment"), ("cancel", "deal", 768), ("collect", "deal", "new"),
                      ("repair", "deal"),
                      ("fsck", "deal"), ("salvage", "deal", "out"), ("number", "deal", 7), ("owner", "deal", 2)):
            self.assertIn("in use by another process", self.failed(BUSY, *words, "--no-wait"))
        self.assertEqual((self.get("deal"), self.files()), (before, ["deal", "deal.owners", "segment"]))
        held.close()
        self.answer("book", "deal", "segment", "--no-wait")

    def test_readers_share_the_lock_and_keep_writers_out(self):
        self.deal_of(1024, (128,))
        self.put("segment", self.segment())
        held = self.held(mode=fcntl.LOCK_SH)
        self.answer("fsck", "deal", "--no-wait")
        self.answer("salvage", "deal", "out", "--no-wait")
        self.answer("collect", "deal", "new", "--no-wait")
        self.failed(BUSY, "book", "deal", "segment", "--no-wait")
        self.failed(BUSY, "cancel", "deal", 768, "--no-wait")
        self.failed(BUSY, "number", "deal", 7, "--no-wait")
        self.failed(BUSY, "owner", "deal", 2, "--no-wait")
        held.close()
        self.answer("book", "deal", "segment", "--no-wait")

    def test_plain_reading_needs_no_lock(self):
        deal, _, places = self.deal_of(1024, (128,))
        self.answer("number", "deal", NUMBER)
        self.held()
        for words in (("list", "deal"), ("audit", "deal"), ("tally", "deal"), ("commit", "deal"),
                      ("build", "deal", places[0]),
                      ("number", "deal"), ("owner", "deal"), ("find", "deal", deal[places[0] : places[0] + 32].hex())):
            self.answer(*words)

    def waiting(self, *words):
        return subprocess.Popen([self.program, *words], cwd=self.folder, stdout=subprocess.PIPE, stderr=subprocess.PIPE)

    def waiting_booking(self):
        """A lock of a deal, and a booking that waits until it ends."""
        self.deal_of(1024, (128,))
        self.put("segment", self.segment())
        held = self.held()
        return held, self.waiting("book", "deal", "segment", "--house", "1")

    def test_a_booking_waits_and_says_so_after_a_second(self):
        self.deal_of(1024, (128,))
        self.put("segment", self.segment())
        held = self.held()
        began = time.monotonic()
        call = self.waiting("book", "deal", "segment")
        self.assertTrue(select.select([call.stderr], [], [], 30)[0])
        self.assertGreater(time.monotonic() - began, 0.99)
        self.assertEqual(call.stderr.readline(), b"vizhuthamen: waiting for another process to end its work on deal\n")
        self.assertIsNone(call.poll())
        held.close()
        out, _ = call.communicate(timeout=10)
        self.assertEqual((call.returncode, out[:9]), (0, b"offset 12"))

    def test_a_short_wait_is_not_told(self):
        held, call = self.waiting_booking()
        time.sleep(0.05)
        held.close()
        _, err = call.communicate(timeout=10)
        self.assertEqual((call.returncode, err), (0, b""))

    def test_the_lock_holds_over_a_replacement(self):
        """A waiter that gets the lock of a file that is no longer the deal goes on to the new one."""
        held, call = self.waiting_booking()
        time.sleep(0.2)
        other = self.booked_by(1, self.segment())
        self.put("new", other[0])
        second = self.held("new")
        self.put("deal.owners", b"\1\2\0\0")  # by another hand: the table is read once the lock is held
        self.path("new").rename(self.path("deal"))
        held.close()
        time.sleep(0.2)
        self.assertIsNone(call.poll())
        second.close()
        call.communicate(timeout=10)
        expected = self.booked_by(1, self.get("segment"), (other[0], b"\1\2\0\0"))
        self.assertEqual((call.returncode, self.both()), (0, expected))

    def test_the_lock_is_one_under_every_name(self):
        self.deal_of(1024, (128,))
        self.put("segment", self.segment())
        self.path("folder").mkdir()
        self.path("folder/link").symlink_to("../deal")
        held = self.held()
        self.failed(BUSY, "book", "folder/link", "segment", "--no-wait")
        held.close()
        self.answer("book", "folder/link", "segment", "--no-wait")
        self.assertTrue(self.path("folder/link").is_symlink())
        self.assertEqual(self.files(), ["deal", "deal.owners", "deal.vz", "folder", "segment"])
        self.assertEqual(sorted(p.name for p in self.path("folder").iterdir()), ["link"])

    def test_the_lock_ends_with_its_process(self):
        held, call = self.waiting_booking()
        time.sleep(0.1)
        call.kill()
        call.communicate()
        held.close()
        self.answer("book", "deal", "segment", "--no-wait")

    def test_a_waiter_ends_by_a_signal(self):
        deal, *_ = self.deal_of(1024, (128,))
        self.put("segment", self.segment())
        self.held()
        for number in (signal.SIGINT, signal.SIGTERM, signal.SIGHUP):
            # a test that runs in the background may have been told to ignore them, and calls inherit that
            self.addCleanup(signal.signal, number, signal.signal(number, signal.SIG_DFL))
            call = self.waiting("book", "deal", "segment")
            time.sleep(0.1)
            call.send_signal(number)
            call.communicate(timeout=10)
            self.assertEqual(call.returncode, -number)
        self.assertEqual((self.get("deal"), self.files()), (deal, ["deal", "deal.owners", "segment"]))


class Races(Deals):
    """Calls at once, by both houses. Their answers, and deal and table afterwards, must be those of the same calls one
    after the other, in some order."""

    def outcome(self, state, call):
        """Exit status, what is made or told, and deal and table afterwards, by the rules."""
        name, what, *house = call
        if name == "book":
            code, offset, place, *after = MODEL.book(*state, *house, self.get(what))
            return code, (offset, place) if code in (0, 15) else None, tuple(after)
        if name == "cancel":
            code, *after = MODEL.cancel(*state, *house, what)
            return code, None, tuple(after)
        code, *new = MODEL.collect(*state, bytes(len(state[0])), bytes(len(state[1])))
        return code, tuple(new), state

    def ordered(self, state, answers, end):
        """Whether some order of the calls gives these answers and ends with this deal and this table."""
        if not answers:
            return state == end
        for call, answer in answers.items():
            code, told, after = self.outcome(state, call)
            if (code, told) == answer and self.ordered(after, {c: a for c, a in answers.items() if c != call}, end):
                return True
        return False

    def told(self, call, out, status):
        name, what = call[:2]
        if name == "collect":
            return self.both(what)
        if name == "book" and status in (0, 15):
            lines = dict(line.split() for line in out.decode().splitlines() if not line.startswith("code"))
            self.assertEqual(int(lines["house"]), call[2])
            return int(lines["offset"]), int(lines["place"])
        return None

    def start(self, name, what, *house):
        options = [option for number in house for option in ("--house", str(number))]
        return subprocess.Popen([self.program, name, "deal", str(what), *options], cwd=self.folder,
                                stdout=subprocess.PIPE, stderr=subprocess.PIPE)

    def at_once(self, calls):
        """Starts calls at once on a deal. Gives their answers: the exit status, and what was made or told."""
        answers = {}
        for call, process in zip(calls, [self.start(*call) for call in calls]):
            out, err = process.communicate(timeout=60)
            self.assertIn(process.returncode, range(23), (call, err))
            answers[call] = (process.returncode, self.told(call, out, process.returncode))
        return answers

    def test_calls_at_once_are_calls_in_some_order(self):
        sizes = (1, 100, 128, 200, 256)
        met = set()
        for i in range(16):
            count = self.rng.randrange(1, 4)
            _, _, places = self.deal_of(1024, self.rng.sample(sizes, count),
                                        houses=self.rng.sample((1, 1, 2, 2), count))
            for s in range(2):
                self.put(f"s{s}", self.segment(256)[: self.rng.choice(sizes)])
            house = lambda: self.rng.choice((1, 2))
            calls = [("book", "s0", 1), ("book", "s0", 2), ("book", "s1", house()), ("collect", f"new{i}"),
                     *(("cancel", p, house()) for p in places)]
            self.rng.shuffle(calls)
            before = self.both()
            answers = self.at_once(calls)
            self.assertTrue(self.ordered(before, answers, self.both()), answers)
            met.update(status for status, _ in answers.values())
        self.assertLessEqual({0, 16}, met)
        made = [f"new{i}{e}" for i in range(16) for e in ("", ".owners", ".vz")]
        self.assertEqual(self.files(), sorted(["deal", "deal.owners", "deal.vz", "s0", "s1", *made]))

    def test_no_booking_of_two_houses_is_lost(self):
        """Processes of both houses book different segments, and all of the same ones: each house keeps each once, and
        the table says so."""
        for processes in (2, 4, 8):
            self.put_both(bytes(MIB * 2), bytes(16))
            segments = [self.put(f"s{i}", self.segment(self.rng.choice((128, 256, 512)))) for i in range(4)]
            calls = [("book", f"s{i}", house) for i in range(4) for house in (1, 2)]
            self.rng.shuffle(calls)
            answers = {}
            for at in range(0, len(calls), processes):
                answers.update(self.at_once(calls[at : at + processes]))
            deal, table = self.both()
            self.assertEqual({status for status, _ in answers.values()}, {0})
            self.assertEqual(len({told for _, told in answers.values()}), len(calls))
            start = index_numbers(len(deal))[2]
            for (_, name, house), (_, (offset, place)) in answers.items():
                slot = (place - start) // 64
                segment = self.get(name)
                self.assertEqual(MODEL.standing(deal, slot), (MODEL.tree(filled(segment))[-1][0], offset, len(segment)))
                self.assertEqual((table[slot], deal[offset : offset + len(segment)]), (house, segment))
            self.assertEqual(sum(byte != 0 for byte in table), len(calls))
            self.answer("fsck", "deal")

    def test_the_quota_is_not_passed_by_calls_at_once(self):
        """Eight bookings of one house in a deal of four slots: two are answered with 0, whoever is first."""
        for house in (1, 2):
            self.put_both(bytes(4096), bytes(4))
            segments = {f"s{i}": self.put(f"s{i}", self.segment()) for i in range(8)}
            answers = self.at_once([("book", name, house) for name in segments])
            self.assertEqual(sorted(status for status, _ in answers.values()), [0, 0] + [22] * 6)
            self.assertEqual(self.get("deal.owners"), bytes([house, house, 0, 0]))

    def test_one_of_several_cancellations_is_answered_with_0(self):
        for processes in range(2, 9):
            self.deal_of(1024, (128, 256), houses=(2, 1))
            before = self.both()
            calls = [self.start("cancel", 768, 2) for _ in range(processes)]
            statuses = sorted((call.communicate(timeout=60), call.returncode)[1] for call in calls)
            self.assertEqual(statuses, [0] + [16] * (processes - 1))
            self.assertEqual(self.both(), MODEL.cancel(*before, 2, 768)[1:])

    def test_a_collection_is_of_one_state_of_a_deal_that_others_change(self):
        """One process after the other books and cancels, for both houses, while others collect and list."""
        self.put_both(bytes(MIB), bytes(8))
        states, steps = [self.both()], []
        for i in range(12):
            segment, house = self.put(f"s{i}", self.segment(self.rng.choice((128, 512, 4096)))), 1 + i // 2 % 2
            code, _, place, *after = MODEL.book(*states[-1], house, segment)
            self.assertEqual(code, 0)
            steps.append(("book", "deal", f"s{i}", "--house", house))
            states.append(tuple(after))
            if i % 2:
                steps.append(("cancel", "deal", place, "--house", house))
                states.append(MODEL.cancel(*after, house, place)[1:])
        ends = [MODEL.collect(*state, bytes(MIB), bytes(8))[1:] for state in states]
        lists = [self.listed(state) for state in states]
        done, met = threading.Event(), set()

        def collecting(name):
            number = 0
            while not done.is_set():
                self.answer("collect", "deal", f"{name}{number}")
                new = self.both(f"{name}{number}")
                self.assertIn(new, ends)
                met.add(ends.index(new))
                for end in ("", ".owners"):
                    self.path(f"{name}{number}{end}").unlink()
                number += 1

        def listing():
            while not done.is_set():
                self.assertIn([line.split()[2:4] for line in self.answer("list", "deal").splitlines()[1:]], lists)

        with ThreadPoolExecutor(3) as pool:
            others = [*(pool.submit(collecting, name) for name in ("a", "b")), pool.submit(listing)]
            for step in steps:
                self.answer(*step)
            done.set()
            for other in others:
                other.result()
        self.assertEqual(self.both(), states[-1])
        self.assertGreater(len(met), 3)

    def listed(self, state):
        """State and owner of every slot, as they are listed."""
        deal, table = state
        return [["kept", str(owner)] if MODEL.standing(deal, i) else ["blank", "-"] for i, owner in enumerate(table)]

    def test_owners_and_bookings_at_once(self):
        """What is nobody's is given to a house while others book: neither is lost."""
        for i in range(12):
            self.deal_of(1024, (128, 256), houses=(1, 2))
            self.put("deal.owners", bytes(4))
            self.put("s0", self.segment())
            calls = [("book", "deal", "s0", "--house", "1"), ("owner", "deal", "2")]
            started = [subprocess.Popen([self.program, *call], cwd=self.folder, stdout=subprocess.DEVNULL,
                                        stderr=subprocess.DEVNULL)
                       for call in calls]
            self.assertEqual([call.wait(timeout=60) for call in started], [0, 0])
            self.assertEqual(self.get("deal.owners"), b"\2\2\1\0")

    def test_one_of_several_numbers_is_kept(self):
        for processes in range(2, 9):
            self.deal_of(1024, (128,))
            self.path("deal.vz").unlink(missing_ok=True)
            calls = [subprocess.Popen([self.program, "number", "deal", str(n)], cwd=self.folder, stdout=subprocess.PIPE,
                                      stderr=subprocess.PIPE) for n in range(processes)]
            answers = [(call.communicate(timeout=60), call.returncode)[1] for call in calls]
            self.assertEqual(sorted(answers), [0] + [DATA] * (processes - 1))
            self.assertEqual(self.answer("number", "deal"), f"number {answers.index(0)}\n")

    def test_numbers_and_bookings_at_once(self):
        """A booking puts the size beside a deal of which nothing is known. The number is not lost, whoever is first."""
        for i in range(12):
            self.deal_of(1024, (128,))
            before = self.both()
            self.path("deal.vz").unlink(missing_ok=True)
            segments = [(self.put(f"s{s}", self.segment()), 1 + s) for s in range(2)]
            calls = [("book", "deal", "s0", "--house", "1"), ("number", "deal", str(i)),
                     ("book", "deal", "s1", "--house", "2")]
            started = [subprocess.Popen([self.program, *call], cwd=self.folder, stdout=subprocess.DEVNULL)
                       for call in calls]
            self.assertEqual([call.wait(timeout=60) for call in started], [0, 0, 0])
            self.assertEqual(self.get("deal.vz"), f"vizhuthamen deal 1\nsize 1024\nnumber {i}\n".encode())
            ends = [self.booked_by(k, b, self.booked_by(h, a, before)) for (a, h), (b, k) in (segments, segments[::-1])]
            self.assertIn(self.both(), ends)
        self.assertEqual(self.files(), ["deal", "deal.owners", "deal.vz", "s0", "s1"])

    def test_a_record_has_a_number_that_was_kept(self):
        """One process after the other changes the number, while others build."""
        deal, _, places = self.deal_of(1024, (128,))
        self.answer("number", "deal", 0)
        records = [MODEL.build(deal, n, places[0])[1].hex() for n in range(40)]
        done, met = threading.Event(), set()

        def building():
            while not done.is_set():
                out = self.answer("build", "deal", places[0]).strip()
                self.assertIn(out, records)
                met.add(records.index(out))

        with ThreadPoolExecutor(2) as pool:
            others = [pool.submit(building) for _ in range(2)]
            for n in range(1, 40):
                self.answer("number", "deal", n, "--instead-of", n - 1)
            done.set()
            for other in others:
                other.result()
        self.assertGreater(len(met), 3)

    def test_a_place_that_was_booked_again_meanwhile(self):
        deal, _, places = self.deal_of(1024, (128, 256))
        commitment = deal[places[0] : places[0] + 32].hex()
        self.put("segment", self.segment())
        self.answer("cancel", "deal", places[0])
        self.answer("book", "deal", "segment")
        booked = self.get("deal")
        self.failed(DATA, "cancel", "deal", places[0], "--commitment", commitment)
        self.assertEqual(self.get("deal"), booked)


class FreeSlots(Deals):
    def test_a_damaged_slot_is_not_booked_over(self):
        deal, _, places = self.deal_of(1024, (128, 128))
        spoilt = self.changed(deal, (places[0], deal[places[0]] ^ 1))
        segment = self.put("segment", self.segment())
        error = self.failed(DATA, "book", "deal", "segment")
        for part in ("slot 0 (place 768) is damaged", "nothing is changed", "vizhuthamen repair deal", "--force"):
            self.assertIn(part, error)
        self.assertEqual(self.get("deal"), spoilt)
        self.answer("repair", "deal")
        self.answer("book", "deal", "segment", "--house", 2)
        self.assertEqual(self.both(), self.booked_by(2, segment, (deal, b"\1\1\0\0")))

    def test_a_valid_entry_that_does_not_stand_is_not_booked_over(self):
        deal = self.put("deal", bytes(768) + MODEL.entry(bytes(32), 64, 128) + bytes(192))
        segment = self.put("segment", self.segment())
        self.assertIn("slot 0 (place 768) holds an entry that does not stand",
                      self.failed(DATA, "book", "deal", "segment"))
        self.assertEqual(self.get("deal"), deal)
        self.answer("book", "deal", "segment", "--force")
        self.assertEqual(self.both(), self.booked_by(1, segment, (deal, bytes(4))))

    def test_bytes_that_may_be_a_damaged_slots_are_not_booked_over(self):
        """Slot 0 is blank and slot 1 damaged: its segment lies where the booking would go."""
        deal, segments, places = self.deal_of(1024, (128, 128))
        deal = bytearray(deal)
        deal[places[0] : places[0] + 64] = bytes(64)
        deal[:128], deal[128:256] = segments[1], bytes(128)
        deal[places[1] : places[1] + 64] = MODEL.entry(MODEL.commitment(segments[1])[1], 0, 128)
        deal[places[1]] ^= 1
        self.put("deal", bytes(deal))
        self.put("segment", self.segment())
        self.assertIn("slot 1 (place 832) is damaged", self.failed(DATA, "book", "deal", "segment"))
        self.assertEqual(self.get("deal"), bytes(deal))
        deal[:128] = bytes(128)
        self.put("deal", bytes(deal))
        self.answer("book", "deal", "segment")

    def test_a_segment_that_is_kept_is_said_so_all_the_same(self):
        deal, segments, places = self.deal_of(1024, (128, 128))
        self.changed(deal, (places[0], deal[places[0]] ^ 1))
        self.put("segment", segments[1])
        self.refused(15, "book", "deal", "segment")


class ByteStreams(Deals):
    def piped(self, *words, stdin=b""):
        return subprocess.run([self.program, *map(str, words)], input=stdin, capture_output=True, cwd=self.folder)

    def test_refusals_do_not_become_data(self):
        deal, _, places = self.deal_of(1024, (128,))
        self.put("empty", b"")
        for code, words in ((16, ("find", "deal", "00" * 32)), (16, ("build", "deal", 960, *GIVEN)),
                            (6, ("build", "deal", 1, *GIVEN)), (2, ("pad", "empty")),
                            (24, ("unpad", 127, "empty")), (2, ("unpad", 0, "empty")), (2, ("find", "empty", "00"))):
            code = 1 if words[-1] == "00" else code
            ran = self.piped(*words, "-o", "-")
            self.assertEqual((ran.returncode, ran.stdout), (code, b""), words)
            self.assertIn(f"code {code}: ".encode(), ran.stderr)
        found = self.piped("find", "deal", "00" * 32, "-o", "-")
        padded = self.piped("pad", "-", "-o", "-", stdin=found.stdout)
        booked = self.piped("book", "deal", "-", stdin=padded.stdout)
        self.assertEqual((padded.returncode, padded.stdout, booked.returncode), (2, b"", 4))
        self.assertEqual(self.get("deal"), deal)

    def test_a_failed_output_leaves_no_file(self):
        self.deal_of(1024, (128,))
        self.refused(16, "find", "deal", "00" * 32, "-o", "found")
        self.assertEqual(self.files(), ["deal", "deal.owners"])

    def test_a_closed_standard_output_is_an_error_before_anything_is_changed(self):
        deal, *_ = self.deal_of(1024, (128,))
        self.put("segment", self.segment())
        for words in (("list", "deal"), ("audit", "deal"), ("book", "deal", "segment"), ("cancel", "deal", "768"),
                      ("collect", "deal", "other"),
                      ("new", "other", "512"), ("pad", "segment", "-o", "-"), ("--help",)):
            ran = subprocess.run(["sh", "-c", '"$0" "$@" >&-', self.program, *words], cwd=self.folder,
                                 capture_output=True)
            self.assertEqual((ran.returncode, ran.stderr),
                             (IO, b"vizhuthamen: standard output is closed; nothing is done\n"))
        self.assertEqual((self.get("deal"), self.files()), (deal, ["deal", "deal.owners", "segment"]))
        ran = subprocess.run([self.program, "list", "deal"], cwd=self.folder, stdout=subprocess.DEVNULL)
        self.assertEqual(ran.returncode, 0)

    def test_what_cannot_be_told_is_said_to_be_done(self):
        self.deal_of(1024, (128,))
        self.put("segment", self.segment())
        for words in (("book", "deal", "segment"), ("cancel", "deal", "768"), ("collect", "deal", "new")):
            with open("/dev/full", "wb") as full:
                ran = subprocess.run([self.program, *words], cwd=self.folder, stdout=full, stderr=subprocess.PIPE)
            self.assertEqual(ran.returncode, IO)
            self.assertRegex(ran.stderr, rb"\Avizhuthamen: [^\n]+; what was asked is done\n\Z")
        self.refused(15, "book", "deal", "segment")
        self.refused(16, "cancel", "deal", 768)
        self.assertEqual(self.both("new"), MODEL.collect(*self.both(), bytes(1024), bytes(4))[1:])


class Sidecar(Deals):
    def test_a_cut_deal_is_not_a_smaller_one(self):
        self.answer("new", "deal", 2 * MIB)
        self.assertEqual(self.get("deal.vz"), f"vizhuthamen deal 1\nsize {2 * MIB}\n".encode())
        self.put("segment", self.segment())
        self.answer("book", "deal", "segment")
        os.truncate(self.path("deal"), MIB)
        cut = self.both()
        for words in (("book", "deal", "segment"), ("cancel", "deal", MIB - 64), ("collect", "deal", "new"),
                      ("repair", "deal"), ("list", "deal"), ("audit", "deal"), ("tally", "deal"), ("commit", "deal"),
                      ("stream", "deal"), ("build", "deal", 0),
                      ("build", "deal", 0, *GIVEN), ("find", "deal", "00" * 32), ("settle-deal", "deal", "segment"),
                      ("number", "deal"), ("number", "deal", 7), ("owner", "deal"), ("owner", "deal", 1)):
            error = self.failed(DATA, *words)
            self.assertIn(f"has {MIB} bytes, and", error)
            self.assertIn(f"says that it has {2 * MIB}", error)
        self.assertIn("disagrees", self.object("fsck", "deal", status=DATA))
        self.assertIn("disagrees", self.object("salvage", "deal", "out", status=DATA))
        self.assertEqual(self.both(), cut)
        self.path("deal.vz").unlink()
        self.refused(23, "book", "deal", "segment")  # the table is that of the larger one
        self.path("deal.owners").unlink()
        self.answer("book", "deal", "segment")
        self.assertEqual(self.get("deal.vz"), f"vizhuthamen deal 1\nsize {MIB}\n".encode())

    def test_a_sidecar_that_cannot_be_understood(self):
        deal, *_ = self.deal_of(1024, (128,))
        self.put("segment", self.segment())
        for text in (b"", b"\xff", b"vizhuthamen deal 2\nsize 1024\n", b"vizhuthamen deal 1\n",
                     b"vizhuthamen deal 1\nsize 1024\nsize 512\n"):
            self.put("deal.vz", text)
            self.assertIn("deal.vz cannot be understood", self.failed(DATA, "book", "deal", "segment"))
        for number in (b"", b"x", b"-1", b"0x7", b"%d" % (1 << 64), b"7\nnumber 7"):
            self.put("deal.vz", b"vizhuthamen deal 1\nsize 1024\nnumber %s\n" % number)
            for words in (("book", "deal", "segment"), ("build", "deal", 768), ("build", "deal", 768, *GIVEN),
                          ("number", "deal"), ("number", "deal", 7), ("collect", "deal", "new")):
                self.assertIn("deal.vz cannot be understood", self.failed(DATA, *words))
            self.assertIn("cannot be understood", self.object("fsck", "deal", status=DATA)["disagrees"])
        self.assertEqual((self.get("deal"), self.files()), (deal, ["deal", "deal.owners", "deal.vz", "segment"]))

    def test_words_that_are_not_known_stay(self):
        self.deal_of(1024, (128,))
        self.put("segment", self.segment())
        known = self.put("deal.vz", b"vizhuthamen deal 1\nlater word\nsize 1024\n")
        self.answer("book", "deal", "segment")
        self.assertEqual(self.get("deal.vz"), known)
        for number, old in ((7, ()), (8, ("--instead-of", 7))):
            self.answer("number", "deal", number, *old)
            self.assertEqual(self.get("deal.vz"), known + b"number %d\n" % number)
        self.path("deal.vz").unlink()
        self.answer("number", "deal", 9)
        self.assertEqual(self.get("deal.vz"), b"vizhuthamen deal 1\nsize 1024\nnumber 9\n")

    def test_what_is_kept_has_the_attributes_of_the_old_file_or_of_the_deal(self):
        self.deal_of(1024, (128,))
        owner = (1234, 1235) if os.getuid() == 0 else (os.getuid(), os.getgid())
        self.path("deal").chmod(0o640)
        os.chown(self.path("deal"), *owner)
        for number, mode, old in ((7, 0o640, ()), (8, 0o604, ("--instead-of", 7))):
            self.answer("number", "deal", number, *old)
            info = self.path("deal.vz").stat()
            self.assertEqual((stat.S_IMODE(info.st_mode), info.st_uid, info.st_gid), (mode, *owner))
            self.path("deal.vz").chmod(0o604)

    def test_links_are_not_replaced(self):
        self.deal_of(1024, (128,))
        self.path("folder").mkdir()
        self.path("folder/link").symlink_to("../deal")
        self.answer("number", "folder/link", 7)
        self.assertEqual(self.answer("number", "deal"), "number 7\n")
        os.link(self.path("deal.vz"), self.path("second"))
        self.assertIn("cannot replace", self.failed(IO, "number", "deal", 8, "--instead-of", 7))
        self.path("deal.vz").unlink()
        self.path("deal.vz").symlink_to("second")
        self.assertIn("cannot replace", self.failed(IO, "number", "deal", 8, "--instead-of", 7))
        self.assertEqual(self.answer("number", "deal"), "number 7\n")
        self.assertEqual(sorted(p.name for p in self.path("folder").iterdir()), ["link"])

    def test_a_number_beside_a_deal_that_is_gone_is_not_the_new_deals(self):
        self.answer("new", "deal", 1024, *GIVEN)
        known = self.get("deal.vz")
        for name in ("deal", "deal.owners"):
            self.path(name).unlink()
        self.deal_of(1024, (128,), "source")
        for number in ((), ("--number", OTHER)):
            for words in (("new", "deal", 1024), ("collect", "source", "deal")):
                error = self.failed(DATA, *words, *number)
                self.assertIn(f"deal.vz is there and says the number {NUMBER}, and deal is to have", error)
                self.assertIn("remove", error)
        self.assertEqual((self.get("deal.vz"), self.files()), (known, ["deal.vz", "source", "source.owners"]))
        self.answer("new", "deal", 1024, *GIVEN)
        self.put("other.vz", b"vizhuthamen deal 1\nsize 1024\n")
        self.assertIn("says no number", self.failed(DATA, "new", "other", 1024, *GIVEN))

    @unittest.skipIf(os.getuid() != 0, "needs another user")
    def test_a_number_that_may_not_be_read_is_given(self):
        deal, _, places = self.deal_of(1024, (128,))
        self.answer("number", "deal", NUMBER)
        self.path("deal.vz").chmod(0)
        self.assertIn("is not known; give --number N", self.failed(DATA, "build", "deal", places[0], **nobody()))
        out = self.answer("build", "deal", places[0], *GIVEN, **nobody())
        self.assertEqual(out, MODEL.build(deal, NUMBER, places[0])[1].hex() + "\n")
        self.assertIn("cannot read", self.failed(IO, "collect", "deal", "new", **nobody()))

    def test_nothing_is_known_of_a_pipe(self):
        self.deal_of(1024, (128,))
        expected = self.answer("list", "deal").replace("kept   1 ", "kept   ? ")
        for command in ("list", "audit", "fsck", "commit", "stream"):
            ran = subprocess.run(["bash", "-c", f'"$0" {command} <(cat deal)', self.program], cwd=self.folder,
                                 capture_output=True)
            self.assertEqual(ran.returncode, 0, ran.stderr)
            self.assertTrue(command != "list" or ran.stdout.decode() == expected)

    def test_new_beside_what_is_known_of_another_deal(self):
        self.put("deal.vz", b"vizhuthamen deal 1\nsize 1024\n")
        self.failed(DATA, "new", "deal", 512)
        self.assertEqual(self.files(), ["deal.vz"])
        self.answer("new", "deal", 1024)


class Fsck(Deals):
    def test_a_sound_deal(self):
        self.deal_of(1024, (128, 200))
        self.assertEqual(self.answer("fsck", "deal"), "2 of 4 slots kept, 2 blank\n")
        value = self.object("fsck", "deal")
        self.assertEqual((value["kept"], value["blank"], value["stray"], value["wrong"]), (2, 2, [], []))

    def test_every_fault_is_named(self):
        deal, _, places = self.deal_of(2 * MIB, (128, 200, 4096, 128, 128))
        entry = lambda i: deal[places[i] : places[i] + 64]
        number = lambda data: int.from_bytes(data, "little")
        offsets = [number(entry(i)[32:40]) for i in range(5)]
        spoilt = bytearray(deal)
        spoilt[offsets[0] + 31] |= 0x80  # slot 0: stray bits in its area
        spoilt[places[1] + 50] ^= 4  # slot 1: damaged
        spoilt[offsets[2] + 100] ^= 4  # slot 2: not kept
        spoilt[places[3] : places[3] + 64] = MODEL.entry(bytes(32), 64, 128)  # slot 3: not standing
        # slot 4: over slot 2, and not kept
        spoilt[places[4] : places[4] + 64] = MODEL.entry(bytes(32), offsets[2], 128)
        spoilt[MIB + 63] |= 0xc0  # in no entry's area
        spoilt[2 * MIB - 33] |= 0x40  # in the last slot
        self.put("deal", bytes(spoilt))
        value = self.object("fsck", "deal", status=DATA)
        self.assertEqual(value["stray"], [
            {"offset": offsets[0] + 31, "bits": 0x80, "node": offsets[0] // 32, "slots": [0]},
            {"offset": MIB + 63, "bits": 0xc0, "node": MIB // 32 + 1, "slots": []},
            {"offset": 2 * MIB - 33, "bits": 0x40, "node": 2 * MIB // 32 - 2, "slots": [], "index_slot": 15}])
        wrong = [(w["slot"], w["state"], w.get("overlaps")) for w in value["wrong"]]
        self.assertEqual(wrong,
                         [(0, "not kept", None), (1, "damaged", None), (2, "not kept", None), (3, "not standing", None),
                          (4, "overlapping", 2), (4, "not kept", 2), (15, "damaged", None)])
        out = self.answer("fsck", "deal", status=DATA)
        for line in (f"stray bits 0xc0 at byte {MIB + 63}, node {MIB // 32 + 1}, in no entry's area",
                     f"stray bits 0x80 at byte {offsets[0] + 31}, node {offsets[0] // 32}, in the area of slot 0",
                     f"stray bits 0x40 at byte {2 * MIB - 33}, node {2 * MIB // 32 - 2}, in slot 15 of the index",
                     f"slot 1 (place {places[1]}) is damaged: its checksum is wrong"):
            self.assertIn(line + "\n", out)
        self.assertEqual(self.get("deal"), bytes(spoilt))

    def test_wrong_sizes(self):
        for size in (0, 100, 513):
            self.put("deal", bytes(size))
            self.refused(2, "fsck", "deal")
            self.refused(2, "repair", "deal")
            self.refused(2, "salvage", "deal", "out")
        self.assertEqual(self.files(), ["deal"])

    def test_from_standard_input(self):
        deal, *_ = self.deal_of(1024, (128,))
        self.answer("fsck", "-", stdin=deal)
        self.answer("fsck", "-", stdin=deal[:31] + b"\xff" + deal[32:], status=DATA)
        self.answer("salvage", "-", "out", stdin=deal)

    def test_a_hostile_deal_is_hashed_once(self):
        """128 entries that each stand for half or a quarter of the deal, and are not kept."""
        deal = bytearray(1 << 24)
        _, n, start = index_numbers(1 << 24)
        for i in range(n):
            size = 1 << (23 - i % 3)
            deal[start + 64 * i : start + 64 * i + 64] = MODEL.entry(
                bytes(31) + b"\1", i % 2 * size if i % 3 else 0, size)
        self.put_both(bytes(deal), bytes(n))
        once, _ = self.worked("commit", "deal")
        listed, out = self.worked("list", "deal")
        checked, _ = self.worked("fsck", "deal", status=DATA)
        self.assertLess(max(listed, checked), 8 * once)  # 64 times, where each entry's area is hashed for itself
        self.assertEqual([row[2] for row in rows_of(out)[1:]], ["wrong commitment"] + ["overlapping"] * 127)

    def worked(self, *words, **options):
        """The processor's time that a call takes, and its answer."""
        used = lambda: resource.getrusage(resource.RUSAGE_CHILDREN).ru_utime
        before = used()
        out = self.answer(*words, **options)
        return used() - before, out


class Repair(Deals):
    def test_a_copy_is_always_beside_it(self):
        deal, _, places = self.deal_of(1024, (128, 130))
        names = ["deal", "deal.owners", "deal.vz"]
        for i in range(3):
            spoilt = self.changed(deal, (places[1] + i, deal[places[1] + i] ^ 16))
            out = self.answer("repair", "deal")
            self.assertIn("made the entry of slot 1 (place 832) anew: offset 256, size 130, commitment", out)
            name = f"deal.before-repair.{i}" if i else "deal.before-repair"
            self.assertIn(f"\ncopy {name}\n", out)
            self.assertEqual((self.get("deal"), self.get(name)), (deal, spoilt))
            names.append(name)
            self.assertEqual(self.files(), sorted(names))
        # What was copied before is not copied again.
        self.put("deal", spoilt)
        self.assertIn("copy deal.before-repair.2\n", self.answer("repair", "deal"))
        self.assertEqual(self.files(), sorted(names))

    def test_a_sound_deal_stays(self):
        deal, *_ = self.deal_of(1024, (128, 130))
        value = self.object("repair", "deal")
        self.assertEqual((value["meaning"], value["mended"]), ("nothing is wrong with the deal", []))
        self.assertEqual((self.get("deal"), self.files()), (deal, ["deal", "deal.owners"]))

    def test_stray_bits(self):
        deal, *_ = self.deal_of(1024, (128, 130))
        self.changed(deal, (31, deal[31] | 0x80), (700 // 32 * 32 + 31, 0xc0), (1023, 0x40), (799, deal[799] | 0x40))
        self.refused(11, "list", "deal")
        out = self.answer("repair", "deal")
        self.assertEqual(out.count("cleared stray bits"), 4)
        self.assertEqual(self.get("deal"), deal)
        self.answer("fsck", "deal")

    def test_what_cannot_be_told_is_left_and_mended_with_the_segment_in_hand(self):
        deal, segments, places = self.deal_of(4096, (700, 130, 65))
        spoilt = self.changed(deal, *((places[0] + i, 0x11) for i in range(64)))
        self.answer("repair", "deal", status=DATA)
        self.assertEqual((self.get("deal"), self.files()), (spoilt, ["deal", "deal.owners"]))
        self.put("other", segments[1])
        self.answer("repair", "deal", "--segment", "other", status=DATA)
        self.put("segment", segments[0])
        self.answer("repair", "deal", "--segment", "segment")
        self.assertEqual(self.get("deal"), deal)

    def test_the_raw_archive_in_hand(self):
        raw = self.put("raw", self.rng.randbytes(900))
        segment = pad(raw, bytes(segment_length(900)))[2]
        deal, table, (place,) = self.keeping(4096, (segment,))
        self.put_both(deal[:place] + b"\7" * 64 + deal[place + 64:], table)
        self.answer("repair", "deal", "--raw", "raw")
        self.assertEqual(self.get("deal"), deal)
        # A slot that was zeroed is named.
        self.put_both(deal[:place] + bytes(64) + deal[place + 64:], bytes(4))
        self.answer("repair", "deal", "--raw", "raw", "--place", place)
        self.assertEqual(self.get("deal"), deal)
        self.refused(6, "repair", "deal", "--raw", "raw", "--place", place + 1)

    def test_the_commitment_in_hand(self):
        deal, _, places = self.deal_of(4096, (700, 130))
        self.changed(deal, *((places[0] + i, 0x11) for i in range(40)))
        self.refused(1, "repair", "deal", "--commitment", "00")
        self.answer("repair", "deal", "--commitment", "00" * 32, status=DATA)
        self.answer("repair", "deal", "--commitment", deal[places[0] : places[0] + 32].hex())
        self.assertEqual(self.get("deal"), deal)

    def test_the_bytes_of_a_segment_that_is_not_kept(self):
        deal, segments, places = self.deal_of(4096, (700, 130))
        self.changed(deal, (5, deal[5] ^ 1), (31, deal[31] | 0x40))
        self.answer("repair", "deal", status=DATA)
        self.put("segment", segments[0])
        out = self.answer("repair", "deal", "--segment", "segment")
        self.assertIn("wrote the segment of slot 0", out)
        self.assertEqual(self.get("deal"), deal)

    def test_random_damage_is_mended_or_left(self):
        deal, segments, places = self.deal_of(4096, (128, 300, 65, 512))
        kept = set(places)
        mended = 0
        for _ in range(60):
            spoilt = bytearray(deal)
            for _ in range(self.rng.choice((1, 1, 1, 2, 5))):
                spoilt[self.rng.randrange(len(deal))] ^= 1 << self.rng.randrange(8)
            self.put("deal", bytes(spoilt))
            before = self.object("fsck", "deal", status=0 if spoilt == deal else self.fsck_status())["kept"]
            ran = subprocess.run([self.program, "repair", "deal", "--json"], cwd=self.folder, capture_output=True)
            self.assertIn(ran.returncode, (0, DATA), ran.stderr)
            value = json.loads(ran.stdout)
            self.assertGreaterEqual(value["kept"], before)
            after = self.get("deal")
            for p in kept:
                if after[p : p + 64] != deal[p : p + 64]:
                    self.assertEqual(MODEL.read_entry(after[p : p + 64])[1], 1)  # damaged, never another entry
                else:
                    mended += 1
            for name in self.files():
                if name not in ("deal", "deal.owners"):
                    self.path(name).unlink()
        self.assertGreater(mended, 200)

    def fsck_status(self):
        return subprocess.run([self.program, "fsck", "deal"], cwd=self.folder, capture_output=True).returncode


class Salvage(Deals):
    def test_every_segment_that_is_whole(self):
        deal, segments, places = self.deal_of(2 * MIB, (128, 300, 5000, 77, 4096))
        offset = int.from_bytes(deal[places[2] + 32 : places[2] + 40], "little")
        spoilt = self.changed(deal, (31, deal[31] | 0x80), (offset + 40, deal[offset + 40] ^ 1),
                              (places[3] + 9, deal[places[3] + 9] ^ 2), (MIB + 31, 0xff))
        value = self.object("salvage", "deal", "out", status=DATA)
        self.assertEqual([w["slot"] for w in value["written"]], [0, 1, 3, 4])
        self.assertEqual([w["slot"] for w in value["left_out"]], [2])
        for w in value["written"]:
            self.assertEqual(self.get(w["file"]), segments[w["slot"]])
        self.assertEqual([w["owner"] for w in value["written"]], [1] * 4)
        self.assertEqual(self.get("deal"), spoilt)
        self.assertEqual(self.files(), ["deal", "deal.owners", "out"])
        # Again into the same folder: files that are there must have the same bytes.
        self.answer("salvage", "deal", "out", status=DATA)
        self.put(value["written"][0]["file"], b"other")
        self.assertIn("has other bytes", self.call("salvage", "deal", "out", status=IO)[1])
        self.assertEqual(self.get(value["written"][0]["file"]), b"other")

    def test_folders_that_cannot_be_made(self):
        self.deal_of(1024, (128,))
        self.failed(IO, "salvage", "deal", "no/such/folder")
        self.failed(IO, "salvage", "deal", "deal")


class Replacing(Deals):
    def test_hard_links_are_refused(self):
        deal, *_ = self.deal_of(1024, (128,))
        self.put("segment", self.segment())
        os.link(self.path("deal"), self.path("second"))
        for words in (("book", "deal", "segment"), ("cancel", "deal", 768), ("repair", "deal")):
            self.assertIn("several names (hard links)", self.failed(IO, *words))
        self.assertEqual((self.get("deal"), self.get("second")), (deal, deal))
        self.assertTrue(self.path("deal").samefile(self.path("second")))
        self.assertIn("several names", self.failed(IO, "pad", "segment", "-o", "second", "--force"))
        self.path("second").unlink()
        self.answer("book", "deal", "segment")

    def test_extended_attributes_are_kept(self):
        self.deal_of(1024, (128,))
        self.put("segment", self.segment())
        try:
            os.setxattr(self.path("deal"), "user.owner", b"the house")
            os.setxattr(self.path("deal"), "user.empty", b"")
        except OSError as error:
            self.skipTest(f"no extended attributes here: {error}")
        self.answer("book", "deal", "segment")
        names = os.listxattr(self.path("deal"))
        self.assertEqual({n: os.getxattr(self.path("deal"), n) for n in names if n.startswith("user.")},
                         {"user.owner": b"the house", "user.empty": b""})

    def test_access_lists_are_kept(self):
        self.deal_of(1024, (128,))
        self.put("segment", self.segment())
        # Owner rw, user 1234 rw, group r, mask rw, others none.
        entries = ((1, 6, 0xffffffff), (2, 6, 1234), (4, 4, 0xffffffff), (16, 6, 0xffffffff), (32, 0, 0xffffffff))
        acl = (2).to_bytes(4, "little") + b"".join(
            t.to_bytes(2, "little") + p.to_bytes(2, "little") + i.to_bytes(4, "little") for t, p, i in entries)
        try:
            os.setxattr(self.path("deal"), "system.posix_acl_access", acl)
        except OSError as error:
            self.skipTest(f"no access lists here: {error}")
        mode = self.path("deal").stat().st_mode
        self.answer("book", "deal", "segment")
        self.assertEqual(os.getxattr(self.path("deal"), "system.posix_acl_access"), acl)
        self.assertEqual(self.path("deal").stat().st_mode, mode)

    @unittest.skipIf(os.getuid() != 0, "needs another user")
    def test_an_owner_that_cannot_be_kept(self):
        deal, *_ = self.deal_of(1024, (128,))
        self.put("segment", self.segment())
        for name in ("deal", "deal.owners"):
            self.path(name).chmod(0o666)
        self.assertIn("it belongs to user 0", self.failed(IO, "book", "deal", "segment", **nobody()))
        self.assertIn("it belongs to user 0", self.failed(IO, "cancel", "deal", 768, **nobody()))
        self.assertEqual((self.get("deal"), self.files()), (deal, ["deal", "deal.owners", "segment"]))
        self.answer("collect", "deal", "new", **nobody())
        self.assertEqual(self.path("new").owner(), "nobody")
        self.answer("cancel", "deal", 768, "--new-owner", **nobody())
        self.assertEqual(self.path("deal.owners").owner(), "nobody")
        info = self.path("deal").stat()
        self.assertEqual((stat.S_IMODE(info.st_mode), info.st_uid != 0), (0o666, True))

    def test_read_only_folders_are_named(self):
        self.deal_of(1024, (128,))
        self.put("segment", self.segment())
        for name in ("deal", "deal.owners"):
            self.path(name).chmod(0o666)
        self.folder.chmod(0o555)
        self.addCleanup(self.folder.chmod, 0o777)
        error = self.failed(IO, "book", "deal", "segment", "--new-owner", **nobody())
        self.assertIn(f"no file may be made in the folder {self.folder}", error)
        self.assertIn("no file may be made in the folder .", self.failed(IO, "new", "other", 512, **nobody()))

    @unittest.skipIf(os.getuid() != 0 or not shutil.which("unshare"), "needs a mount of its own")
    def test_a_deal_that_is_mounted_by_itself(self):
        deal, *_ = self.deal_of(1024, (128,))
        self.put("segment", self.segment())
        self.put("point", b"")
        book = 'cp deal.owners point.owners && "$0" book point segment; status=$?; rm point.owners; exit $status'
        script = f"mount --bind deal point && {{ {book}; }}"
        ran = subprocess.run(["unshare", "-m", "sh", "-c", script, self.program], cwd=self.folder, capture_output=True)
        if b"mount" in ran.stderr and ran.returncode != IO:
            self.skipTest("no mounts here")
        self.assertEqual(ran.returncode, IO, ran.stderr)
        self.assertIn(b"mount its folder", ran.stderr)
        self.assertEqual((self.get("deal"), self.files()), (deal, ["deal", "deal.owners", "point", "segment"]))

    def mounted(self, options, script):
        """Runs a script of the shell in a mount of its own; the test is left out where there can be none."""
        self.path("mount").mkdir()
        whole = f'mount -t tmpfs {options} none mount && cp deal deal.owners segment mount && cd mount && {script}'
        ran = subprocess.run(["unshare", "-m", "sh", "-c", whole, self.program], cwd=self.folder, capture_output=True,
                             text=True)
        if "mount:" in ran.stderr or "unshare:" in ran.stderr:
            self.skipTest("no mounts here")
        return ran

    @unittest.skipIf(os.getuid() != 0 or not shutil.which("unshare"), "needs a mount of its own")
    def test_a_full_disk(self):
        self.deal_of(1 << 16, (128,))
        self.put("segment", self.segment())
        calls = '"book deal segment" "cancel deal 65280" "collect deal new"'
        same = "cmp deal ../deal && cmp deal.owners ../deal.owners"
        ran = self.mounted("-o size=128k", f'for call in {calls}; do "$0" $call; echo $?; done; {same} && ls -A')
        self.assertEqual(ran.stdout, "74\n74\n74\ndeal\ndeal.owners\nsegment\n", ran.stderr)
        self.assertEqual(len(re.findall("No space left on device.*nothing is changed", ran.stderr)), 2, ran.stderr)
        self.assertIn("cannot make new: No space left on device", ran.stderr)

    @unittest.skipIf(os.getuid() != 0 or not shutil.which("unshare"), "needs a mount of its own")
    def test_a_read_only_disk(self):
        self.deal_of(1024, (128,))
        self.put("segment", self.segment())
        self.path("deal").chmod(0o666)
        calls = ("book deal segment", "cancel deal 768", "new other 512", "collect deal other", "pad segment -o out",
                 "list deal")
        ran = self.mounted("", "mount -o remount,ro none . && { %s; }" % "; ".join(f'"$0" {call}' for call in calls))
        self.assertEqual(ran.stderr.count("Read-only file system"), 5, ran.stderr)
        self.assertEqual(ran.stderr.count("is read-only"), 3, ran.stderr)
        self.assertIn("kept", ran.stdout)

    def test_names_in_messages_stay_on_one_line(self):
        name = "a\nb\x1b[31m\u202e"
        error = self.failed(IO, "list", name)
        self.assertIn(r"a\nb\u{1b}[31m\u{202e}", error)
        self.assertIn(r"\xff", self.failed(IO, "list", b"\xff".decode("utf-8", "surrogateescape")))
        self.deal_of(1024, (128,), name)
        self.put("segment", self.segment())
        self.answer("book", name, "segment")
        self.answer("fsck", name)

    def test_long_names(self):
        name = "n" * 255
        self.deal_of(1024, (128,), name)
        self.put("segment", self.segment())
        self.failed(DATA, "book", name, "segment")  # the names beside it are short, and the table is not there
        self.answer("owner", name, 1)
        self.answer("book", name, "segment")
        self.assertEqual(len(self.files()), 4)

    def test_other_hands_are_noticed(self):
        """The deal is replaced by another program while a booking waits for its segment: the booking sees the new
        one."""
        self.deal_of(1024, (128,))
        call = subprocess.Popen([self.program, "book", "deal", "-"], cwd=self.folder, stdin=subprocess.PIPE,
                                stdout=subprocess.PIPE)
        time.sleep(0.1)
        other, table, _ = self.keeping(1024, (self.segment(256),))
        self.put("other", other)
        self.path("other").rename(self.path("deal"))
        segment = self.segment()
        call.communicate(segment, timeout=10)
        self.assertEqual((call.returncode, self.both()), (0, self.booked_by(1, segment, (other, table))))


if __name__ == "__main__":
    if not BINARY.is_file():
        raise SystemExit(f"deal_file_test: {BINARY} is not there; run: "
                         "cargo build --release --offline --manifest-path rust/Cargo.toml")
    unittest.main()
