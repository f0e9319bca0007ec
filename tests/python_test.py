"""Tests what the differential test and the vectors do not reach of the Python package: that it is the header's and the
Rust crate's image, and what it does with memory and numbers that the library must not be handed.

Run from anywhere, after make: python3 tests/python_test.py
"""
import inspect
import os
import pickle
import re
import subprocess
import sys
import unittest

import header
from header import ROOT

sys.path.insert(0, str(ROOT / "python"))
import vizhuthamen as vz  # noqa: E402
from vizhuthamen import _library  # noqa: E402

# What the Rust crate has besides: types that are bytes or texts here, iterators, how many threads may work, and a raw
# archive by parts, which is no call of one function.
RUST_ALONE = {"Node", "NotANode", "Fields", "Lines", "Fault", "commitment_with_threads", "tree_fill_with_threads",
              "MAX_RAW_STREAM", "RAW_PART", "RawStreamed", "RawStreaming"}


class Image(unittest.TestCase):
    def test_functions_are_the_headers(self):
        stated = {name: " ".join(kind for kind, _ in parameters) for name, parameters in header.routines().items()}
        self.assertEqual(_library.FUNCTIONS, stated)
        self.assertEqual(set(header.functions()) - set(stated), {"vz_meaning", "vz_version"})

    def test_codes_are_the_headers(self):
        here = {name: value for name, value in vars(vz.Refusal).items() if name.isupper()}
        self.assertEqual(here | {"OK": 0}, {name: number for number, name, _ in header.codes()})

    def test_meanings_are_the_headers(self):
        stated = {number: meaning for number, _, meaning in header.codes()}
        self.assertGreater(len(stated), 20)
        for number in (*range(300), (1 << 32) - 1, 1 << 32, -1):
            self.assertEqual(vz.meaning(number), stated.get(number, "unknown code"))

    def test_states_are_the_headers(self):
        stated = re.findall(r"^  VZ_SLOT_(\w+) = (\d+)", header.TEXT, re.MULTILINE)
        self.assertEqual([(state.name, str(state.value)) for state in vz.SlotState], stated)

    def test_states_are_the_rust_crates(self):
        rust = re.findall(r'SlotState::\w+ => "([a-z ]+)"', (ROOT / "rust/src/audit.rs").read_text())
        self.assertEqual([state.words() for state in vz.SlotState], rust)

    def test_lengths_and_version_are_the_headers(self):
        for name in (*header.LENGTHS, "WRONG_LINE"):
            self.assertEqual(getattr(vz, name), header.defined(f"VZ_{name}"), name)
        self.assertEqual(vz.version(), header.defined("VZ_VERSION"))
        self.assertEqual(_library.NAME, "libvizhuthamen.so." + vz.version().rsplit(".", 1)[0])

    def test_names_are_the_rust_crates(self):
        uses = re.findall(r"^pub use \w+::(?:\{([^}]*)\}|(\w+));", (ROOT / "rust/src/lib.rs").read_text(), re.MULTILINE)
        names = {name.strip() for use in uses for name in ",".join(use).split(",") if name.strip()}
        self.assertGreater(len(names), 40)
        self.assertEqual(names - RUST_ALONE - set(vz.__all__), set())
        for name in vz.__all__:
            self.assertTrue(hasattr(vz, name), name)

    def test_everything_is_typed(self):
        for name in vz.__all__:
            for function in methods(getattr(vz, name)):
                signature = inspect.signature(function)
                untyped = [each.name for each in signature.parameters.values()
                           if each.annotation is each.empty and each.name != "self"]
                self.assertEqual(untyped, [], function)
                self.assertIsNot(signature.return_annotation, signature.empty, function)


def methods(value):
    """A function; of a class, the methods that are written here."""
    if inspect.isfunction(value):
        return [value]
    own = inspect.isclass(value) and not hasattr(value, "__dataclass_fields__")
    written = lambda each: inspect.isfunction(each) and each.__module__.startswith("vizhuthamen.")
    return [each for each in vars(value).values() if written(each)] if own else []


class Memory(unittest.TestCase):
    def setUp(self):
        self.deal, self.table = bytearray(512), bytearray(4)
        vz.book(self.deal, self.table, 1, b"\1" * 128)

    def test_written_memory_overlaps_nothing(self):
        deal, table, view = self.deal, self.table, memoryview(self.deal)
        before = bytes(deal)
        tree, other = bytearray(480), bytearray(512)
        for refused in (lambda: vz.collect(deal, table, deal, bytearray(4)),
                        lambda: vz.collect(deal, table, view, bytearray(4)),
                        lambda: vz.collect(deal, table, other, table),
                        lambda: vz.collect(deal, table, other, view[508:]),
                        lambda: vz.collect(deal, view[:4], deal, bytearray(4)),
                        lambda: vz.collect(deal, table, other, memoryview(other)[:4]),
                        lambda: vz.book(deal, table, 1, view[:128]), lambda: vz.book(deal, table, 1, view[384:]),
                        lambda: vz.book(deal, view[:4], 1, b"\2"),
                        lambda: vz.book(deal, table, 1, memoryview(table)[3:]),
                        lambda: vz.cancel(deal, view[508:], 1, 256),
                        lambda: vz.cancel(deal, memoryview(tree)[:4], 1, 256, tree=tree),
                        lambda: vz.tree_fill(deal, view[32:]), lambda: vz.book(deal, table, 1, b"\2", tree=view[32:]),
                        lambda: vz.book(deal, table, 1, memoryview(tree)[:100], tree=tree),
                        lambda: vz.build_into(deal, 9, 256, deal),
                        lambda: vz.audit_into(deal, deal), lambda: vz.audit_into(deal, view[508:]),
                        lambda: vz.pad_into(view[:100], view[50:300]), lambda: vz.tree_row(view[:128], view[127:191])):
            self.assertRaises(ValueError, refused)
        self.assertEqual((bytes(deal), bytes(table), bytes(tree), bytes(other)),
                         (before, b"\1\0\0\0", bytes(480), bytes(512)))

    def test_memory_that_is_beside_or_empty_may_be_lent(self):
        view = memoryview(bytearray(192))
        vz.tree_row(view[:128], view[128:])
        self.assertEqual(view[128:], vz.commitment(bytes(64)) * 2)
        vz.tree_row(bytearray(), bytearray())
        self.assertEqual(vz.sha256(memoryview(b"")), vz.sha256(bytearray()))
        twice = vz.build(self.deal, 9, 256)
        self.assertEqual(vz.settle_records(vz.commitment(self.deal), 512, 9, twice, twice), vz.Same())

    def test_every_kind_of_memory_is_read_alike(self):
        whole = bytes(self.deal)
        for lent in (whole, self.deal, memoryview(whole), memoryview(self.deal), memoryview(self.deal).cast("Q"),
                     memoryview(whole).cast("B", (2, 256)), memoryview(b"x" + whole)[1:]):
            self.assertEqual(vz.commitment(lent), vz.commitment(whole))
            self.assertEqual(vz.find(lent, whole[256:288]).segment, whole[:128])

    def test_memory_that_cannot_be_lent(self):
        for refused in (lambda: vz.book(bytes(512), bytearray(4), 1, b"\1"),
                        lambda: vz.book(bytearray(512), bytes(4), 1, b"\1"),
                        lambda: vz.book(memoryview(bytes(512)), bytearray(4), 1, b"\1"),
                        lambda: vz.cancel(self.deal, bytes(self.table), 1, 256),
                        lambda: vz.collect(self.deal, self.table, bytearray(512), bytes(4)),
                        lambda: vz.audit_into(self.deal, bytes(4)),
                        lambda: vz.sha256(memoryview(self.deal)[::2]), lambda: vz.sha256("text"), lambda: vz.sha256(7)):
            self.assertRaises(TypeError, refused)

    def test_what_is_found_is_a_part_of_the_deal(self):
        found = vz.find(self.deal, self.deal[256:288])
        self.deal[0] = 9
        self.assertEqual(found.segment[0], 9)

    def test_lent_memory_is_free_again(self):
        vz.commitment(self.deal)
        self.deal.append(0)  # not allowed while a view is held
        self.assertEqual(len(self.deal), 513)


class Answers(unittest.TestCase):
    def test_numbers_have_64_bits(self):
        for refused in (-1, 1 << 64):
            self.assertRaises(OverflowError, vz.index_numbers, refused)
            self.assertRaises(OverflowError, vz.build, bytes(512), 9, refused)
            self.assertRaises(OverflowError, vz.check, bytes(32), 512, refused, b"")
            self.assertRaises(OverflowError, vz.unpad, refused, b"")
            self.assertRaises(OverflowError, vz.cancel, bytearray(512), bytearray(4), 1, refused)
        self.assertRaises(vz.Refusal, vz.index_numbers, (1 << 64) - 1)

    def test_a_house_has_8_bits(self):
        deal, table = bytearray(512), bytearray(4)
        for refused in (-1, 256, 257, 1 << 64):
            self.assertRaises(OverflowError, vz.book, deal, table, refused, b"x")
            self.assertRaises(OverflowError, vz.cancel, deal, table, refused, 256)
        for house in (0, 3, 255):
            with self.assertRaises(vz.Refusal) as caught:
                vz.book(deal, table, house, b"x")
            self.assertEqual(caught.exception.code, vz.Refusal.HOUSE)
        self.assertEqual((deal, table), (bytes(512), bytes(4)))

    def test_two_houses(self):
        deal, table = bytearray(1024), bytearray(vz.table_length(1024))
        for house, segment, place in ((1, b"x", 768), (2, b"x", 832), (1, b"y", 896)):
            self.assertEqual(vz.book(deal, table, house, segment).position.place, place)
        self.assertIsInstance(vz.book(deal, table, 2, b"x"), vz.AlreadyKept)
        self.assertEqual(self.code(lambda: vz.book(deal, table, 1, b"z")), vz.Refusal.QUOTA)
        self.assertEqual(self.code(lambda: vz.cancel(deal, table, 2, 768)), vz.Refusal.NOT_KEPT)
        vz.cancel(deal, table, 1, 768)
        self.assertEqual(table, bytes((0, 2, 1, 0)))
        second, owners = bytearray(1024), bytearray(4)
        self.assertEqual(self.code(lambda: vz.collect(deal, table, second, bytearray(3))), vz.Refusal.HOUSE)
        vz.collect(deal, table, second, owners)
        self.assertEqual(owners, bytes((2, 1, 0, 0)))

    def test_an_audit(self):
        deal, states = bytearray(1024), vz.SlotState
        vz.book(deal, bytearray(4), 1, b"\1" * 128)
        self.assertEqual(vz.audit(deal), [states.KEPT, states.BLANK, states.BLANK, states.BLANK])
        self.assertTrue(all(state.is_sound() for state in vz.audit(deal)))
        commitment = bytes(deal[768:800])
        deal[832:896] = vz.make_entry(commitment, 0, 100)
        deal[896:960] = vz.make_entry(commitment, 128, 128)
        deal[960:] = vz.make_entry(commitment, 64, 128)
        self.assertEqual(vz.audit(deal),
                         [states.KEPT, states.OVERLAPPING, states.WRONG_COMMITMENT, states.NOT_STANDING])
        deal[768] ^= 1
        self.assertEqual([state.words() for state in vz.audit(deal)],
                         ["damaged", "kept", "wrong commitment", "not standing"])
        self.assertEqual([state.is_sound() for state in vz.audit(deal)], [False, True, False, False])
        lent = bytearray(b"\xa5" * 6)
        vz.audit_into(deal, lent)
        self.assertEqual(lent, b"\1\5\4\2\xa5\xa5")
        self.assertEqual(self.code(lambda: vz.audit_into(deal, memoryview(lent)[:3])), vz.Refusal.OUTPUT)
        deal[31] |= 0x40
        self.assertEqual(self.code(lambda: vz.audit(deal)), vz.Refusal.STRAY_BITS)
        self.assertEqual(self.code(lambda: vz.audit(deal[1:])), vz.Refusal.SIZE)
        self.assertEqual(lent, b"\1\5\4\2\xa5\xa5")

    def code(self, call):
        with self.assertRaises(vz.Refusal) as caught:
            call()
        return caught.exception.code

    def test_a_table_has_a_byte_for_each_slot(self):
        for size in (1 << k for k in range(9, 25)):
            self.assertEqual(vz.table_length(size), vz.index_numbers(size).entries)
        self.assertEqual(vz.table_length(vz.MAX_DEAL), vz.MAX_TABLE)

    def test_a_refusal_says_its_code(self):
        with self.assertRaises(vz.Refusal) as caught:
            vz.check(bytes(31), 512, 9, b"")
        refusal = caught.exception
        self.assertEqual((refusal.code, refusal.meaning),
                         (vz.Refusal.COMMITMENT_LENGTH, "a commitment is not 32 bytes long"))
        self.assertEqual(str(refusal), "code 1: a commitment is not 32 bytes long")
        self.assertEqual(str(pickle.loads(pickle.dumps(refusal))), str(refusal))

    def test_outputs_that_are_made_here(self):
        deal, table = bytearray(1024), bytearray(4)
        self.assertEqual(vz.book(deal, table, 2, b"x"), vz.Booked(vz.Position(0, 768)))
        self.assertEqual(vz.book(deal, table, 2, b"x"), vz.AlreadyKept(vz.Position(0, 768)))
        tree = vz.filled_tree(deal)
        self.assertEqual(vz.build(deal, 9, 768, tree=tree), vz.build(deal, 9, 768))
        self.assertEqual(tree[-32:], vz.commitment(deal))
        for n in (1, 127, 128, 1000):
            raw = os.urandom(n)
            self.assertEqual(len(vz.pad(raw)), vz.segment_length(n))
            self.assertEqual(vz.unpad(n, vz.pad(raw)), raw)
        self.assertEqual([vz.segment_length(n) for n in (-1, 0, vz.MAX_RAW, vz.MAX_RAW + 1)],
                         [None, None, 1 << 23, None])
        self.assertRaises(vz.Refusal, vz.pad, b"")
        self.assertRaises(vz.Refusal, vz.unpad, vz.MAX_RAW + 1, b"")
        self.assertRaises(vz.Refusal, vz.filled_tree, b"")

    def test_a_stream_goes_on_from_its_state(self):
        stream = vz.Streaming()
        stream.take(b"\1" * 50)
        later = vz.Streaming(bytes(stream))
        later.take(b"\1" * 78)
        self.assertEqual(later.end(), vz.Streamed(vz.commitment(b"\1" * 128), 128))
        with self.assertRaises(vz.Refusal) as caught:
            vz.Streaming(bytes(1071))
        self.assertEqual(caught.exception.code, vz.Refusal.OUTPUT)

    def test_the_log_of_a_day(self):
        deal, table, log = bytearray(512), bytearray(4), []
        for house, segment in ((1, b"\1" * 128), (1, b"\1" * 128), (2, b"\1" * 100), (1, b"\2"), (3, b"\2"), (1, b"")):
            answer, commitment = (self.answer(vz.book, deal, table, house, segment),
                                  vz.commitment(segment.ljust(128, b"\0")))
            log.append(vz.BookingLine.of(house, commitment, len(segment), answer))
        for house, place in ((2, 256), (1, 256), (1, 300), (0, 256)):
            log.append(vz.CancellingLine.of(house, place, self.answer(vz.cancel, deal, table, house, place)))
        self.assertEqual([line and line.code for line in log], [0, 15, 0, 14, None, None, 16, 0, None, None])
        data = b"".join(bytes(line) for line in log if line)
        self.assertEqual(list(vz.lines(512, data)), [line for line in log if line])
        row = vz.LedgerRow(2, bytes(deal[320:352]), 100, 128, 320)
        for lent in (data, bytearray(data), memoryview(data)):
            self.assertEqual(vz.playback(512, lent), vz.Confirmed([row]))
        self.assertEqual(vz.playback(512, data[: 61 * 3] + bytes(log[2])), vz.WrongLine(4, vz.Answers(15, 128, 320)))
        self.assertEqual(vz.playback(512, data + bytes(vz.CancellingLine(1, 300, 16))),
                         vz.WrongLine(7, vz.Answers(6, 0, 0)))
        self.assertEqual([line.answers() for line in (log[1], log[3], log[6])],
                         [vz.Answers(15, 0, 256), vz.Answers(14, 0, 0), vz.Answers(16, 0, 0)])
        self.assertEqual(vz.playback(1 << 24, b""), vz.Confirmed([]))
        self.assertEqual(self.code(lambda: vz.playback(512, data[1:])), vz.Refusal.FORM)
        self.assertEqual(self.code(lambda: vz.playback(511, data[1:])), vz.Refusal.SIZE)
        self.assertRaises(OverflowError, vz.playback, 1 << 64, data)

    def answer(self, call, *arguments):
        """What the call answers, or raises."""
        try:
            return call(*arguments)
        except vz.Refusal as refusal:
            return refusal

    def test_where_a_log_is_malformed(self):
        """In the words of the Rust crate, whose tests have them too."""
        rust = (ROOT / "rust/src/log.rs").read_text()
        first, second = bytes(vz.CancellingLine(2, 1792, 16)), bytes(vz.BookingLine(1, b"\7" * 32, 300, 0, 512, 1792))
        changed = lambda at, data: first + second[:at] + data + second[at + len(data):] + first
        for log, words in ((changed(0, b"\3"), "line 2, at byte 13: tag 3 is neither 1 nor 2"),
                           (changed(0, b"\2"), "line 2, at byte 13: 58 bytes are not the length of its tag"),
                           (changed(2, b"\1"), "line 2, at byte 13: 314 bytes are not the length of its tag"),
                           (changed(3, b"\0"), "line 2, at byte 13: house 0 is neither 1 nor 2"),
                           (changed(36, b"\1\10"),
                            "line 2, at byte 13: segment size 2049 is not allowed for the deal's"),
                           (changed(36, b"\0\0"), "line 2, at byte 13: segment size 0 is not allowed for the deal's"),
                           (changed(44, b"\20"), "line 2, at byte 13: code 16 is none that gets a line"),
                           (changed(0, b"")[:73], "line 2, at byte 13: the log ends within it"),
                           (changed(0, b"")[:14], "line 2, at byte 13: the log ends within it"),
                           (changed(0, b"") + b"\11", "line 4, at byte 87: tag 9 is neither 1 nor 2")):
            with self.assertRaises(vz.Malformed) as caught:
                list(vz.lines(4096, log))
            self.assertEqual(str(caught.exception), words)
            self.assertEqual(str(pickle.loads(pickle.dumps(caught.exception))), words)
            self.assertIn(f'"{words}"', rust)
        self.assertEqual(len(list(vz.lines(4096, changed(0, b"")))), 3)
        for other in (vz.BookingLine(1, b"\7" * 31, 300, 0, 0, 0), vz.BookingLine(1, b"\7" * 33, 300, 0, 0, 0)):
            self.assertRaises(ValueError, bytes, other)

    def test_a_library_that_is_not_there(self):
        ran = subprocess.run([sys.executable, "-c", "import vizhuthamen"], capture_output=True, text=True,
                             env=os.environ | {"PYTHONPATH": str(ROOT / "python"), "VIZHUTHAMEN_LIB": "/nowhere"})
        self.assertNotEqual(ran.returncode, 0)
        self.assertIn("run make in the repository's root, or let VIZHUTHAMEN_LIB name the folder of " + _library.NAME,
                      ran.stderr)


if __name__ == "__main__":
    unittest.main()
