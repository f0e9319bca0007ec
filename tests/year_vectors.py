#!/usr/bin/env python3
"""Works out what crates/year_test must print: its file `stdout` is this program's output.

The years are made up of the same numbers. The answers are the model's (model.py), and what is booked is told by the
history of the calls (history.py); the five tests of document 02, request (xiii), are made after every call here too.
"""
import hashlib
from collections import Counter
from functools import lru_cache
from itertools import combinations
from typing import NamedTuple

from history import History
from model import Model, area, filled, index_numbers, overlap

MODEL = Model()
MODEL.tree = lru_cache(maxsize=64)(MODEL.tree)  # a deal is looked at many times before it changes
BOOKING, CANCELLING, COLLECTING = "bookings", "cancellations", "collections"
DEAL, TABLE, TREE, SECOND, SECOND_TABLE = range(5)  # what a call may lend one byte too short
TESTS = "no two alike", "none overlap", "each kept", "each record accepted", "areas booked less cancelled"
ALIKE, OVERLAP, KEPT, RECORD, AREAS = TESTS


class Call(NamedTuple):
    """Its kind, whether a tree is in hand, whose it is; the segment that is booked; the place that is cancelled; what
    is lent too short, nothing for most numbers."""
    kind: str
    with_tree: bool
    house: int
    segment: bytes
    place: int
    short: int


def next_number(x):
    """Marsaglia's xorshift of 64 bits."""
    x ^= x << 13 & (1 << 64) - 1
    x ^= x >> 7
    return x ^ x << 17 & (1 << 64) - 1


def segment_byte(segment, i):
    """Byte i of a made-up segment: of segment 4 one that makes stray bits."""
    if segment == 4:
        return 255
    byte = (61 * segment + 7 * (i % 32) + i // 32 % 32) % 251 if segment else 0
    return byte % 64 if i % 32 == 31 else byte


def size_of(d, digits):
    """Of 32 one is empty and one too long, 16 are as large as an area or one byte less, the others anything up to
    one."""
    which, most, rest = digits % 32, d // 2 >> digits // 32 % 4, digits // 128
    if which < 2:
        return d // 2 + 1 + rest % (d // 2) if which else 0
    return most - rest % 2 if which < 18 else 1 + rest % most


def place_of(d, digits):
    """Of 32 four are no place of the index area."""
    start = d - 256
    place = start + 64 * (digits % 4)
    return {0: place + 32, 1: start - 64, 2: d, 3: place + (1 << 32)}.get(digits // 4 % 32, place)


def call_of(d, tree_in_hand, number):
    """The call that a number stands for on a deal of d bytes."""
    digits, which = number // 16384, number // 1024 % 16
    segment = 4 if which == 15 else 1 if which < 8 else which % 4
    return Call(
        ([BOOKING] * 8 + [CANCELLING] * 7 + [COLLECTING])[number % 16],
        tree_in_hand or number // 16 % 2 == 1,
        ([1] * 15 + [2] * 15 + [0, 3])[number // 32 % 32],
        bytes(segment_byte(segment, i) for i in range(size_of(d, digits))),
        place_of(d, digits),
        number // (1 << 32) % 64,
    )


def lent(data, name, call):
    """What a call is lent of it: all, or all but its last byte."""
    return data[:-1] if call.short == name else data


class Year:
    """A deal of d bytes from all zeros on, its table and its tree as the calls leave them, and the history."""

    def __init__(self, d, tree_in_hand, seed):
        self.d, self.tree_in_hand, self.number = d, tree_in_hand, seed
        self.deal, self.tree, self.table = bytes(d), b"\xff" * (d - 32), bytes([1, 2, 255, 1])
        self.second, self.second_tree, self.second_table = b"\xff" * d, b"\xff" * (d - 32), bytes([2, 2, 1, 7])
        self.history, self.most, self.own_tree = History(d), 0, False
        self.codes = {kind: Counter() for kind in (BOOKING, CANCELLING, COLLECTING)}
        self.made, self.failed = Counter(), Counter()

    # ---- calls
    def book(self, call):
        deal, table = lent(self.deal, DEAL, call), lent(self.table, TABLE, call)
        if call.with_tree:
            tree = lent(self.tree, TREE, call)
            code, offset, place, deal, tree, table = MODEL.book_with_tree(deal, tree, table, call.house, call.segment)
        else:
            code, offset, place, deal, table = MODEL.book(deal, table, call.house, call.segment)
            tree = self.tree
        if code == 0:
            self.deal, self.tree, self.table = deal, tree, table
        self.history.book(call.house, call.segment, code, offset, place)
        self.most = max(self.most, len(self.history.uncancelled))
        return code

    def cancel(self, call):
        deal, table = lent(self.deal, DEAL, call), lent(self.table, TABLE, call)
        if call.with_tree:
            tree = lent(self.tree, TREE, call)
            code, deal, tree, table = MODEL.cancel_with_tree(deal, tree, table, call.house, call.place)
        else:
            code, deal, table = MODEL.cancel(deal, table, call.house, call.place)
            tree = self.tree
        if code == 0:
            self.deal, self.tree, self.table = deal, tree, table
        self.history.cancel(call.house, call.place, code)
        return code

    def collect(self, call):
        deal, table = lent(self.deal, DEAL, call), lent(self.table, TABLE, call)
        second, second_table = lent(self.second, SECOND, call), lent(self.second_table, SECOND_TABLE, call)
        if call.with_tree:
            tree = lent(self.second_tree, TREE, call)
            code, second, tree, second_table = MODEL.collect_with_tree(deal, table, second, tree, second_table)
        else:
            code, second, second_table = MODEL.collect(deal, table, second, second_table)
            tree = self.second_tree
        if code == 0:
            self.second, self.second_tree, self.second_table = second, tree, second_table
            self.deal, self.tree, self.table = second, tree, second_table
        self.history.collect(code)
        return code

    def call(self):
        """The next call, and all tests after it."""
        self.number = next_number(self.number)
        call = call_of(self.d, self.tree_in_hand, self.number)
        if call.with_tree and not self.own_tree:
            self.tree = MODEL.fill(self.deal, self.tree)[1]
        code = {BOOKING: self.book, CANCELLING: self.cancel, COLLECTING: self.collect}[call.kind](call)
        self.codes[call.kind][code] += 1
        self.own_tree = call.with_tree or self.own_tree and code != 0
        self.test()

    # ---- tests
    def note(self, test, holds):
        self.made[test] += 1
        self.failed[test] += not holds

    def test(self):
        rows = [MODEL.standing(self.deal, i) for i in range(4)]
        standing = [(self.table[i], row) for i, row in enumerate(rows) if row]
        for (house, row), (other_house, other) in combinations(standing, 2):
            self.note(OVERLAP, not overlap(row, other))
            if house == other_house:
                self.note(ALIKE, self.segment(row) != self.segment(other))
        commitment = MODEL.commitment(self.deal)[1]
        for booking in self.history.uncancelled:
            self.note(KEPT, self.kept(booking))
            self.note(RECORD, self.accepted(commitment, booking.place, None))
            if self.own_tree:
                self.note(RECORD, self.accepted(commitment, booking.place, self.tree))
        areas = sum(area(row[2]) for _, row in standing)
        self.note(AREAS, areas == self.history.areas_booked - self.history.areas_cancelled)

    def segment(self, row):
        """The T bytes of a standing entry."""
        return self.deal[row[1] : row[1] + row[2]]

    def kept(self, booking):
        slot = (booking.place - index_numbers(self.d)[2]) // 64
        row, whole = MODEL.kept(self.deal, slot), filled(booking.segment)
        return (row and row[1:] == (booking.offset, len(booking.segment)) and self.table[slot] == booking.house
                and self.deal[booking.offset : booking.offset + len(whole)] == whole)

    def accepted(self, commitment, place, tree):
        code, record = MODEL.build(self.deal, self.number, place, tree)
        return code == 0 and MODEL.check(commitment, self.d, self.number, record) == 0


def show(d, calls, tree_in_hand, seed):
    year = Year(d, tree_in_hand, seed)
    for _ in range(calls):
        year.call()
    print(f"a year of {calls} calls on a deal of {d} bytes")
    for kind, codes in year.codes.items():
        print(f"{kind} by code", *(f"{code}:{codes[code]}" for code in sorted(codes)))
    for test in TESTS:
        print(f"{test}: {year.made[test]} made, {year.failed[test]} failed")
    print(f"segments booked at once: {year.most}")
    print(f"areas booked: {year.history.areas_booked}, cancelled: {year.history.areas_cancelled}")
    print("commitment", MODEL.commitment(year.deal)[1].hex())
    print("deal", hashlib.sha256(year.deal).hexdigest())
    print("table", hashlib.sha256(year.table).hexdigest())


show(2048, 6000, False, 88172645463325252)
show(4096, 3000, True, 58)
