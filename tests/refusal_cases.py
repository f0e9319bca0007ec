"""Records that are refused: a sound one broken by one fault, which decides, or by two, of which the earlier in the
order decides; by the check, by every settling and by the program check_record. And deals with trees that differ from a
record in two of its strings: the first in the order of settling is shown. What each of these calls shows is judged in
tests/model_test.py."""
import random
from itertools import combinations
from typing import NamedTuple

from cases import sparse_record
from model import area, height, index_numbers, le, node_place
from number_cases import held
from operations import CHECK, CHECK_INPUT, MODEL, SETTLE, SETTLE_DEAL, SETTLE_TREE

TAGS = bytes(range(1, 8))

# The codes that a record can get, in their order; settled with another one, it is the second of the two.
RECORD = 3, 21, 4, 5, 6, 7, 8, 19, 9, 10
ORDERS = {CHECK: (1, 2, *RECORD), CHECK_INPUT: RECORD, SETTLE: RECORD, SETTLE_DEAL: RECORD, SETTLE_TREE: (12, *RECORD)}


class Lent(NamedTuple):
    """A record, by the tags and contents of its fields and the bytes after them, and what it is judged by: a deal with
    its tree, another record, the terms."""
    deal: bytes
    tree: bytes
    first: bytes
    root: bytes
    size: int
    number: int
    contents: tuple
    tags: bytes = TAGS
    rest: bytes = b""

    def record(self):
        fields = zip(self.tags, self.contents)
        return b"".join(bytes([tag]) + le(len(content), 2) + content for tag, content in fields) + self.rest

    def call(self, op):
        """The record checked, lent to the program, settled after the other one, with the deal, with deal and tree."""
        if op == CHECK:
            return op, self.record(), self.root, self.size, self.number
        if op == CHECK_INPUT:
            return op, self.root + le(self.size) + le(self.number) + self.record(), b"", 0, 0
        if op == SETTLE:
            return op, self.first, self.record(), self.size, self.number, self.root
        return op, self.deal, self.record(), 0, self.number, self.tree if op == SETTLE_TREE else b""


def contents(record):
    """The contents of a whole record's fields."""
    c, o, s, p, u, v, number = MODEL.parse(record)
    return c, le(o), le(s), le(p), b"".join(u), b"".join(v), le(number)


def sound(d, size):
    """The record of a segment of this size, the last one in its deal; the other record is that of the first one."""
    rng = random.Random(d + size)
    it, number = held(rng, d, size), rng.randrange(1 << 64)
    first, record = (MODEL.build(it.deal, number, p)[1] for p in (index_numbers(d)[2], it.place))
    return Lent(it.deal, it.tree, first, it.root, d, number, contents(record))


def largest():
    """A record of a deal of 2^36 bytes, which nobody holds."""
    rng = random.Random(36)
    number = rng.randrange(1 << 64)
    root, record = sparse_record(rng, 1 << 36, 128, number)
    return Lent(b"", b"", record, root, 1 << 36, number, contents(record))


# ---- faults: what is lent, with one thing changed


def size(d):
    return lambda it: it._replace(size=d)


def content(tag, change):
    """Another content in a field, with its own length before it."""
    i = tag - 1
    return lambda it: it._replace(contents=(*it.contents[:i], change(it.contents[i]), *it.contents[i + 1:]))


def number(tag, n):
    return content(tag, lambda _: le(n))


def flipped(data, at, bit):
    return data[:at] + bytes([data[at] ^ 1 << bit]) + data[at + 1:]


def bit(tag, at, n):
    return content(tag, lambda old: flipped(old, at, n))


def longer(tag, n=1):
    return content(tag, lambda old: old + bytes(n))


def shorter(tag, n=1):
    return content(tag, lambda old: old[:-n])


def other_tag(tag):
    return lambda it: it._replace(tags=it.tags.replace(bytes([tag]), b"\x09"))


# The faults of each code in the record of 128 bytes at offset 128 of a deal of 512, entry place 320. The first in its
# row stands in the pairs.
FAULTS = {
    1: [lambda it: it._replace(root=it.root[:31]), lambda it: it._replace(root=it.root + b"\0")],
    2: [size(513), size(768), size(1023)],
    3: [lambda it: it._replace(rest=b"\0"), *map(other_tag, TAGS), *map(longer, TAGS), *map(shorter, TAGS)],
    21: [bit(7, 0, 0)],
    4: [number(3, 0), number(3, 257)],
    5: [number(2, 64), number(2, 256), number(2, (1 << 64) - 128)],
    6: [number(4, 352), number(4, 512), number(4, 192)],
    7: [shorter(5, 32), longer(5, 32), shorter(6, 32), longer(6, 32)],
    8: [bit(1, 31, 6), bit(1, 31, 7)],
    19: [bit(6, 31, 6), bit(5, 63, 7)],
    9: [bit(5, 0, 0)],
    10: [bit(6, 0, 0)],
    12: [lambda it: it._replace(tree=it.tree[:-1])],
}


def one_fault():
    """Codes (here one), operation and what is lent: every fault checked, a size that is none also settled and lent to
    the program; the last code, which leads no pair, by every operation."""
    it = sound(512, 128)
    for code in ORDERS[CHECK]:
        for fault in FAULTS[code]:
            yield (code,), CHECK, fault(it)
    yield (5,), CHECK, number(2, 1024)(sound(2048, 600))  # 600 bytes end before the index, their area does not
    for op in (CHECK_INPUT, SETTLE):
        yield from (((2,), op, fault(it)) for fault in FAULTS[2])
    for op in (CHECK, CHECK_INPUT, SETTLE):
        yield (2,), op, size((1 << 36) - 32)(largest())
    for op in (CHECK_INPUT, SETTLE, SETTLE_DEAL, SETTLE_TREE):
        yield (10,), op, FAULTS[10][0](it)


def two_faults():
    """Codes (two in their order), operation and what is lent: every pair, for every operation. The other record of two
    is of another entry place, so that 18 comes after all of them."""
    it = sound(512, 128)
    for op, order in ORDERS.items():
        for codes in combinations(order, 2):
            first, second = (FAULTS[code][0] for code in codes)
            yield codes, op, second(first(it))


def two_refused():
    """Codes (two in their order) and what is lent: the other record is refused by the later one, this record by the
    earlier one. The other record is judged first."""
    it = sound(512, 128)
    for codes in zip(RECORD, RECORD[1:]):
        early, late = (FAULTS[code][0](it) for code in codes)
        yield codes, early._replace(first=late.record())


# ---- differences between a record and what stands in deal and tree


def node_changed(h, i):
    return lambda it: it._replace(tree=flipped(it.tree, node_place(it.size, h, i), 0))


def entry_changed(place):
    return lambda it: it._replace(deal=flipped(it.deal, place, 0))


def differences(it):
    """A change for every string of the record, in their order: of a node of the tree, on the way or beside it, or of
    the entry. The segment's way starts below the top, which both ways share."""
    _, o, s, p, *_ = MODEL.parse(it.record())
    top = height(it.size) - 1
    way = lambda at, heights: [node_changed(h, at // (32 << h) ^ h % 2) for h in heights]
    return [*way(p, range(top, 0, -1)), entry_changed(p), *way(o, range(top - 1, height(area(s)) - 1, -1))]


def two_differences():
    """Two changes in the order of their strings, and what is lent without them."""
    it = sound(1024, 128)
    yield from ((pair, it) for pair in combinations(differences(it), 2))


def stored():
    """The calls of all of these, for the stored vectors."""
    for faulty in (one_fault, two_faults):
        yield from (it.call(op) for _, op, it in faulty())
    yield from (it.call(SETTLE) for _, it in two_refused())
    yield from (second(first(it)).call(SETTLE_TREE) for (first, second), it in two_differences())
