"""Made-up years of two houses: bookings, cancellations and collections in a deal that begins with zeros, by the Python
package, each beside the model and told to the history. What must hold after each of them is in year_test.py."""
import sys
from pathlib import Path
from typing import NamedTuple, Optional

from cases import segment_size, strayed
from history import History, index_start, slot_count
from model import Model

sys.path.insert(0, str(Path(__file__).resolve().parent.parent / "python"))
import vizhuthamen as vz  # noqa: E402

MODEL = Model()
LARGE = 1 << 24  # the largest deal
TURN = 4  # of so many bookings and cancellations in the largest deal the model answers one; all other calls it answers

# What can be wrong with a call; of memory it is the length.
WRONG = {"book": ("house", "segment", "deal", "table", "tree"), "cancel": ("house", "place", "deal", "table", "tree"),
         "collect": ("deal", "table", "second", "second_table", "second_tree")}


def asked(call):
    """The code, and what the call answers; None where it is refused."""
    try:
        return 0, call()
    except vz.Refusal as refusal:
        return refusal.code, None


def segment(rng, size):
    """Bytes without stray bits: any, or zeros."""
    data = bytearray(rng.randbytes(size) if rng.randrange(6) else size)
    data[31::32] = bytes(byte & 63 for byte in data[31::32])
    return bytes(data)


def segments(rng, d):
    """The segments of a year: few, so that they come again; some once more with zeros after them, which is another size
    over the same area, and with another last byte. In the largest deal most are short, so that slots run out before
    room does."""
    sizes = [segment_size(rng, d) for _ in range(8)]
    if d == LARGE:
        sizes = [d // 2, d // 4 + 1, d // 8, *(segment_size(rng, 1 << 12) for _ in range(300))]
    made = [segment(rng, size) for size in (*sizes, 100, 130)]
    longer = [each + bytes(rng.randrange(1, 40)) for each in made[-5:] if len(each) + 40 <= d // 2]
    return made + longer + [each[:-1] + bytes([each[-1] ^ 1]) for each in made[-3:]]


def other_lengths(name, d):
    """Lengths that memory of this name must not have beside a deal of d bytes."""
    n = slot_count(d)
    return {"deal": (0, 256, d // 4 * 3, d - 32, d - 1), "second": (0, 256, d // 4 * 3, d - 32, d + 32, 2 * d),
            "tree": (0, d - 64, d - 33, d - 31, d), "table": (0, n - 1, n + 1, 2 * n)}[name.removeprefix("second_")]


class Said(NamedTuple):
    """A call: its form, its arguments in words, its code, and what the model says otherwise."""
    form: str
    words: str
    code: int
    otherwise: Optional[str]


class Year:
    """The deal, its table and its tree as the calls so far have left them, the buffers for the next collection, and the
    history. So large a share of the calls is lent the tree; it is filled anew where a plain call changed the deal."""

    def __init__(self, rng, d, share):
        self.rng, self.d, self.share, self.slots, self.start = rng, d, share, slot_count(d), index_start(d)
        self.deal, self.tree, self.tree_is_filled = bytearray(d), bytearray(d - 32), False
        self.table = bytearray(rng.choice((0, 1, 2, rng.randrange(256))) for _ in range(self.slots))
        self.second, self.second_tree, self.second_table = bytearray(d), bytearray(d - 32), bytearray(self.slots)
        self.history, self.segments, self.calls = History(d), segments(rng, d), 0
        self.houses = (6, 1) if d == LARGE else rng.choice(((1, 1), (1, 1), (1, 4)))
        self.weights = 25, 4, 1

    def call(self):
        """One more call. From collection to collection bookings are rarer or more frequent."""
        self.calls += 1
        name = self.rng.choices(("book", "cancel", "collect"), self.weights)[0]
        wrong = None if self.rng.randrange(10) else self.rng.choice(WRONG[name])
        return {"book": self.book, "cancel": self.cancel, "collect": self.collect}[name](wrong)

    def book(self, wrong):
        house, data = self.house(wrong), self.rng.choice(self.segments)
        if wrong == "segment":
            faulty = b"", bytes(self.d // 2 + 1), strayed(bytes(100), 63, 64), strayed(bytes(128), 127, 128)
            data = self.rng.choice(faulty)
        deal, table, tree = self.lent("deal", wrong), self.lent("table", wrong), self.lent_tree(wrong)
        expected = self.expected(MODEL.book, deal, table, house, data, tree)
        code, booking = asked(lambda: vz.book(deal, table, house, data, tree=tree))
        if isinstance(booking, vz.AlreadyKept):
            code = vz.Refusal.ALREADY_KEPT
        offset, place = (booking.position.offset, booking.position.place) if booking else (0, 0)
        self.history.book(house, data, code, offset, place)
        words = f"house {house}, {len(data)} bytes"
        return self.said("book", words, tree, expected, (code, offset, place), deal, table)

    def cancel(self, wrong):
        house, place = self.house(wrong), self.start + 64 * self.rng.randrange(self.slots)
        if self.history.uncancelled and self.rng.randrange(5):
            booking = self.rng.choice(self.history.uncancelled)
            place, own = booking.place, wrong != "house" and self.rng.randrange(6)
            house = booking.house if own else house
        if wrong == "place":
            others = 0, self.start - 64, place + 1, place + 32, self.d, place + (1 << 32), (1 << 64) - 64
            place = self.rng.choice(others)
        deal, table, tree = self.lent("deal", wrong), self.lent("table", wrong), self.lent_tree(wrong)
        expected = self.expected(MODEL.cancel, deal, table, house, place, tree)
        code = asked(lambda: vz.cancel(deal, table, house, place, tree=tree))[0]
        self.history.cancel(house, place, code)
        return self.said("cancel", f"house {house}, place {place}", tree, expected, (code,), deal, table)

    def collect(self, wrong):
        """After code 0 the second deal, table and tree take the place of the first, which are the next second ones."""
        if self.rng.randrange(2):
            for data in (self.second, self.second_table, self.second_tree):
                data[:] = self.rng.randbytes(len(data))
        tree = self.lent("second_tree", wrong) if self.rng.random() < self.share else None
        deal, table, second, second_table = (self.lent(name, wrong) for name in WRONG["collect"][:4])
        expected = self.expected(MODEL.collect, deal, table, second, second_table, tree)
        code = asked(lambda: vz.collect(deal, table, second, second_table, tree=tree))[0]
        if code == 0:
            self.deal, self.second = self.second, self.deal
            self.table, self.second_table = self.second_table, self.table
            self.tree, self.second_tree = self.second_tree, self.tree
            self.weights = (25, 4, 1) if self.d == LARGE else self.rng.choice(((12, 4, 1), (8, 5, 1), (5, 8, 1)))
        self.history.collect(code)
        words = f"{len(self.history.uncancelled)} bookings"
        return self.said("collect", words, tree, expected, (code,), second, second_table)

    # ---- what calls are lent, and what the model says of them
    def house(self, wrong):
        return self.rng.choice((0, 3, 129, 255)) if wrong == "house" else self.rng.choices((1, 2), self.houses)[0]

    def lent(self, name, wrong):
        """The memory of this name; where its length is what is wrong, its first bytes as they lie there, or a longer
        copy."""
        data = getattr(self, name)
        n = self.rng.choice(other_lengths(name, self.d)) if wrong == name else len(data)
        return memoryview(data)[:n] if n <= len(data) else bytearray(data).ljust(n, b"\0")

    def lent_tree(self, wrong):
        """The tree as (vii) asks, or None for a plain call."""
        if self.rng.random() >= self.share:
            return None
        self.fill()
        return self.lent("tree", wrong)

    def fill(self):
        """Makes the tree the deal's where it is not."""
        if not self.tree_is_filled:
            asked(lambda: vz.tree_fill(self.deal, self.tree))
        self.tree_is_filled = True

    def expected(self, call, *arguments):
        """The model's answer, and memory afterwards; None where it is not asked."""
        if self.d == LARGE and self.calls % TURN and call != MODEL.collect:
            return None
        return call(*(bytes(each) if isinstance(each, (bytearray, memoryview)) else each for each in arguments))

    def said(self, name, words, tree, expected, answer, *memory):
        """The call as it was answered; whether the tree is the deal's afterwards."""
        if answer[0] == 0:
            self.tree_is_filled = tree is not None
        otherwise = None
        if expected and expected[: len(answer)] != answer:
            otherwise = f"{answer}, and the model {expected[: len(answer)]}"
        elif expected and list(expected[len(answer):]) != [bytes(each) for each in memory]:
            otherwise = f"{answer} like the model, but deal or table is another afterwards"
        return Said(name if tree is None else f"{name} with a tree", words, answer[0], otherwise)
