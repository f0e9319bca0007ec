"""How calls are made and told: outputs that are there, terminals, slots by number, words that are near others, full
deals.

python3 tests/calls_test.py (VIZHUTHAMEN names another binary). The expected values are those of the independent model.
"""
import os
import pty
import re
import stat
import subprocess
import unittest

from cli_test import BINARY, GIVEN, IO, MODEL, NUMBER, USAGE, Calls, all_of
from model import area, pad, segment_length


class OutputFiles(Calls):
    """An output that is there is replaced by --force alone."""

    def calls(self):
        """Calls that write an output, with the bytes that it gets."""
        deal, places = self.booked()
        segment = self.put("padded", pad(b"raw" * 50, bytes(segment_length(150)))[2])
        raw = self.put("raw", b"raw" * 50)
        return {("build", "deal", places[0], *GIVEN): MODEL.build(deal, NUMBER, places[0])[1], ("pad", "raw"): segment,
                ("unpad", 150, "padded"): raw, ("find", "deal", deal[places[0] : places[0] + 32].hex()): deal[:256]}

    def test_other_bytes_stay_without_force(self):
        for words, data in self.calls().items():
            for old in (b"", b"precious", data + b"\n", data[:-1], bytes([data[0] ^ 1]) + data[1:]):
                self.put("out", old)
                error = self.failed(IO, *words, "-o", "out")
                self.assertIn("cannot write out: the file exists, with other bytes; "
                              "give another name, or --force to replace it\n", error)
                self.assertEqual(self.get("out"), old)
                self.answer(*words, "-o", "out", "--force")
                self.assertEqual(self.get("out"), data)

    def test_a_repeated_call_ends_well_and_writes_nothing(self):
        for words, data in self.calls().items():
            first = self.answer(*words, "-o", "out")
            before = self.path("out").stat()
            self.assertEqual(self.answer(*words, "-o", "out"), first)
            after = self.path("out").stat()
            self.assertEqual((self.get("out"), before.st_ino, before.st_mtime_ns),
                             (data, after.st_ino, after.st_mtime_ns))
            self.path("out").unlink()
        self.assertEqual(self.files(), ["deal", "deal.owners", "padded", "raw"])

    def test_links_and_files_that_cannot_be_compared(self):
        words, data = list(self.calls().items())[1]
        self.put("target", b"precious")
        self.path("link").symlink_to("target")
        self.path("dangling").symlink_to("nowhere")
        self.failed(IO, *words, "-o", "link")
        self.failed(IO, *words, "-o", "dangling")
        self.assertEqual(self.get("target"), b"precious")
        self.answer(*words, "-o", "link", "--force")
        self.assertEqual((self.get("target"), self.path("link").is_symlink()), (data, True))
        # Devices and pipes are written as they are.
        self.answer(*words, "-o", "/dev/null")
        self.assertTrue(stat.S_ISCHR(os.stat("/dev/null").st_mode))

    def test_what_was_read_is_not_replaced_by_force_either(self):
        for words in self.calls():
            name = next(word for word in words if word in ("deal", "raw", "padded"))
            before = self.get(name)
            self.assertIn(f"--output would replace {name}, which was read",
                          self.failed(USAGE, *words, "-o", name, "--force"))
            self.assertEqual(self.get(name), before)


class Terminals(Calls):
    """Bytes are not written to a terminal, nor their hex digits."""

    def on_terminal(self, *words):
        """The exit status, what a terminal shows as standard output, and standard error."""
        parent, child = pty.openpty()
        ran = subprocess.run([self.program, *map(str, words)], cwd=self.folder, stdout=child, stderr=subprocess.PIPE,
                             timeout=60)
        os.close(child)
        shown = all_of(parent)
        os.close(parent)
        return ran.returncode, shown.decode().replace("\r\n", "\n"), ran.stderr.decode()

    def test_bytes(self):
        deal, places = self.booked()
        self.put("padded", pad(b"raw" * 50, bytes(segment_length(150)))[2])
        commitment = deal[places[0] : places[0] + 32].hex()
        told = ("vizhuthamen: standard output is a terminal, and bytes are not printed on one; give --output FILE; "
                "into a pipe they are printed in hex, and with --output - as they are; see: vizhuthamen {} --help\n")
        hexed = ("build", "deal", places[0], *GIVEN), ("pad", "padded"), ("unpad", 150, "padded")
        for words in (*hexed, *((*call, "-o", "-") for call in (*hexed, ("find", "deal", commitment)))):
            self.assertEqual(self.on_terminal(*words), (USAGE, "", told.format(words[0])), words)
        # Before anything is read.
        self.assertEqual(self.on_terminal("pad", "missing")[0], USAGE)
        for call in hexed:
            status, shown, _ = self.on_terminal(*call, "-o", call[0])
            self.assertEqual((status, shown[:7]), (0, "length "))
            self.assertEqual(self.on_terminal(*call, "--json"), (0, self.answer(*call, "--json"), ""))
        # A proof is a text.
        self.put("kept", deal[:256])
        prove = "prove", "deal", "--segment", "kept", "-o", "-", *GIVEN
        for words in (("find", "deal", commitment), ("list", "deal"), ("commit", "deal"), ("show", "build"), prove):
            self.assertEqual(self.on_terminal(*words), (0, self.answer(*words), ""))


class Slots(Calls):
    """A slot is named by its place or by its number."""

    def test_by_number_as_by_place(self):
        deal, places = self.booked(2048, (256, 128, 128, 100))
        table = self.get("deal.owners")
        self.assertEqual(table, b"\1\1\2\2")
        for number, place in enumerate(places):
            self.assertEqual(self.answer("build", "deal", "--slot", number, *GIVEN),
                             self.answer("build", "deal", place, *GIVEN))
        for number in (2, 0, 3):
            self.put("deal", deal)
            self.put("deal.owners", table)
            house = table[number]
            self.assertIn(f"place {places[number]}\n",
                          self.answer("cancel", "deal", f"--slot={number}", "--house", house))
            self.assertEqual(self.both(), MODEL.cancel(deal, table, house, places[number])[1:])
        # Brought back by its number too, and given to its house again.
        self.put("segment", deal[256:384])
        _, cancelled, without = MODEL.cancel(deal, table, 1, places[1])
        self.put("deal", cancelled)
        self.put("deal.owners", without)
        self.answer("repair", "deal", "--segment", "segment", "--slot", 1)
        self.assertEqual(self.both(), (deal, without))
        self.answer("owner", "deal", 1, "--slot", 1)
        self.assertEqual(self.both(), (deal, table))

    def test_numbers_that_no_slot_has(self):
        deal, _ = self.booked()
        for number in (4, 5, 1 << 32, 1 << 58, (1 << 58) + 12, (1 << 64) - 1):
            for words in (("build", "deal", "--slot", number, *GIVEN), ("cancel", "deal", "--slot", number),
                          ("owner", "deal", 1, "--slot", number)):
                out, err = self.call(*words, status=6)
                self.assertTrue(out.startswith("code 6: "), out)
                self.assertIn("a multiple of 64 from 768 to 960 (slots 0 to 3)", err)
        self.put("short", bytes(1000))
        for words in (("build", "short", "--slot", 0, *GIVEN), ("cancel", "short", "--slot", 0),
                      ("owner", "short", 1, "--slot", 0)):
            self.refused(2, *words)
        for words in (("build", "deal", "--slot", 3, *GIVEN), ("cancel", "deal", "--slot", 3),
                      ("owner", "deal", 1, "--slot", 3)):
            self.refused(16, *words)
        for words in (("build", "deal"), ("build", "deal", 768, "--slot", 0), ("cancel", "deal"),
                      ("cancel", "deal", "--slot", "x"), ("repair", "deal", "--place", 768, "--slot", 0),
                      ("owner", "deal", "--slot", 0), ("owner", "deal", 1, 768, "--slot", 0)):
            self.failed(USAGE, *words)
        self.assertEqual(self.get("deal"), deal)


class Meant(Calls):
    """A word that is no command or option is never taken for one, and those that are near are named."""

    def test_nothing_is_guessed(self):
        self.booked()
        self.put("segment", self.segment())
        before = self.get("deal")
        for words, meant in ((("bok", "deal", "segment"), "book"), (("cancle", "deal", 768), "cancel"),
                             (("boo", "deal", "segment"), "book"), (("cancel", "deal", 768, "--no-wai"), "--no-wait"),
                             (("book", "deal", "segment", "--forec"), "--force"), (("help", "salvge"), "salvage"),
                             (("completions", "bsah"), "bash"), (("sho", "deal"), "show")):
            error = self.failed(USAGE, *words)
            self.assertRegex(error,
                             rf"no (such (command|option)|completions for): \S+; did you mean: {re.escape(meant)};")
        for words in (("remove", "deal"), ("list", "deal", "--verbose"), ("list", "deal", "-l"),
                      ("list", "deal", "--forec")):
            self.assertNotIn("did you mean", self.failed(USAGE, *words))
        self.assertEqual((self.get("deal"), self.files()), (before, ["deal", "deal.owners", "segment"]))


class Room(Calls):
    """Codes 13, 14 and 22 say how full the deal is, and what would be booked."""

    def told(self, code, size, house=1):
        """What is told to a booking of a segment of this size: free slots, free bytes, the largest size."""
        self.put("segment", self.segment(area(size))[:size])
        before = self.both()
        out, err = self.call("book", "deal", "segment", "--house", house, status=code)
        self.assertEqual((self.both(), out.count("\n")), (before, 2 if code == 22 else 1))
        full = re.match(r"vizhuthamen: deal: (\d+) of (\d+) slots and (\d+) of (\d+) bytes before the index are free; "
                        r"([^\n]*)\n", err)
        fits = re.search(r"booked now has (\d+) bytes \(that of a raw archive of (\d+) bytes\)", full.group(5))
        of = f" of house {house}" if code == 22 else ""
        self.assertEqual(fits is None, f"no segment{of} would be booked now, of whatever size" in err)
        largest, raw = map(int, fits.groups()) if fits else (0, 0)
        self.assertEqual(segment_length(raw) if raw else 0, largest)
        return [int(x) for x in full.groups()[:4]], largest, err

    def test_a_full_deal(self):
        self.booked(1024, (256, 128))
        self.assertEqual(self.told(14, 257, 2)[:2], ([2, 4, 384, 768], 256))
        numbers, largest, err = self.told(22, 257)
        self.assertEqual((numbers, largest, err.count("\n")), ([2, 4, 384, 768], 0, 1))
        self.booked(512, (128, 100), (1, 2))
        self.assertEqual(self.told(14, 1)[:2], ([2, 4, 0, 256], 0))
        self.booked(1024, (128,) * 4)
        for house in (1, 2):
            self.assertEqual(self.told(22, 1, house)[:2], ([0, 4, 256, 768], 0))
        self.put("deal.owners", b"\1\0\2\2")
        numbers, largest, err = self.told(13, 1)
        self.assertEqual((numbers, largest), ([0, 4, 256, 768], 0))
        self.assertIn("a slot is freed by: vizhuthamen cancel deal PLACE, and one that is nobody's after: "
                      "vizhuthamen owner deal HOUSE", err)

    def test_the_size_that_is_told_is_booked(self):
        met = set()
        for _ in range(48):
            size = 1 << self.rng.choice((10, 11, 12, 13))
            deal, table = self.put("deal", bytes(size)), bytes(4)
            for _ in range(40):
                t, house = self.rng.choice((2, 100, size // 16, size // 8, size // 4)), self.rng.choice((1, 2))
                code, _, _, deal, table = MODEL.book(deal, table, house, self.segment(area(t))[:t])
                if code or self.rng.randrange(3) == 0:
                    _, deal, table = MODEL.cancel(deal, table, house, size - 256 + 64 * self.rng.randrange(4))
            table = self.rng.choice((table, bytes(4)))  # or of all entries nobody knows the owner
            self.put("deal", deal)
            self.put("deal.owners", table)
            for house in (1, 2):
                code = MODEL.book(deal, table, house, self.segment(size // 2))[0]
                if code:
                    _, largest, _ = self.told(code, size // 2, house)
                    book = lambda t: MODEL.book(deal, table, house, b"\x01" * t)[0]
                    self.assertEqual(book(largest + 1), code)
                    self.assertEqual(book(largest), 0 if largest else 4)
                    met.add((code, largest > 0))
        self.assertLessEqual({(13, False), (14, True), (22, False)}, met)

    def test_gaps_that_a_collection_would_close(self):
        deal = bytearray(2048)
        for i, offset in enumerate((0, 512, 1024)):
            deal[1792 + 64 * i : 1856 + 64 * i] = MODEL.entry(MODEL.commitment(bytes(128))[1], offset, 128)
        self.put("deal", bytes(deal))
        self.put("deal.owners", b"\1\2\2\0")
        numbers, largest, err = self.told(14, 512)
        self.assertEqual((numbers, largest), ([1, 4, 1408, 1792], 256))
        self.assertIn("vizhuthamen: without the gaps the largest would have 512 bytes: vizhuthamen collect deal NEW\n",
                      err)
        self.answer("collect", "deal", "new")
        self.answer("book", "new", "segment", "--house", 1)


if __name__ == "__main__":
    if not BINARY.is_file():
        raise SystemExit(f"calls_test: {BINARY} is not there; run: "
                         "cargo build --release --offline --manifest-path rust/Cargo.toml")
    unittest.main()
