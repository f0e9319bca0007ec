"""Plays made-up years (tests/years.py) and tests the five statements of request (xiii) of document 02 after every call.

Run from anywhere, after make: python3 tests/year_test.py [--seed S] [--calls N]

A year is a run of bookings, cancellations and collections of two houses from an all-zero deal. Its calls and their
answers are told to a history (tests/history.py), which sees no byte of the deal; the statements are held against deal
and table, which are read here anew. The first call after which one of them fails, or which the model answers otherwise,
ends the run with exit status 1.
"""
import argparse
import hashlib
import os
import random
import sys
import time
from collections import Counter
from functools import lru_cache
from itertools import cycle, pairwise
from typing import NamedTuple

from cases import deal_number
from history import area, index_start
from years import LARGE, MODEL, Year, asked, vz

CALLS = 16_000  # in a run of the usual length
FEWER = 100  # for so many of these there is one call in the largest deal besides
SIZES = {512: 200, 1024: 300, 2048: 300, 4096: 300, 1 << 14: 200, 1 << 17: 100, 1 << 20: 60}  # deals: calls in a year
SHARES = {0: "plain calls", 1: "a tree in every call", 1 / 2: "a tree in some calls"}

# The codes that calls of a year can have, all of which a run of the usual length must meet. No slot is free (13) only
# where both houses have half of them (22), areas never overlap (20), and the deal has no stray bits (11).
PLAIN = {"book": {0, 2, 4, 11, 14, 15, 22, 23}, "cancel": {0, 2, 6, 16, 23}, "collect": {0, 2, 12, 23}}
CODES = PLAIN | {f"{name} with a tree": codes | {12} for name, codes in PLAIN.items()}


class Failure(Exception):
    pass


# ---- what stands, read from deal and table


class Entry(NamedTuple):
    """A standing entry: its slot's byte of the table, its fields, its place."""
    house: int
    commitment: bytes
    offset: int
    size: int
    place: int


def cut(digest):
    """A node, or a checksum: without the two high bits of its last byte."""
    return digest[:-1] + bytes([digest[-1] & 63])


def standing(deal, table):
    """The entries whose checksum is right, whose size is allowed, and whose area starts and ends where it may."""
    d, start, entries = len(deal), index_start(len(deal)), []
    for house, place in zip(table, range(start, d, 64)):
        entry = bytes(deal[place : place + 64])
        offset, size = (int.from_bytes(entry[at : at + 8], "little") for at in (32, 40))
        valid = entry[48:] == cut(hashlib.sha256(entry[:48] + bytes(16)).digest()[:16])
        if valid and 1 <= size <= d // 2 and offset % area(size) == 0 and offset + area(size) <= start:
            entries.append(Entry(house, entry[:32], offset, size, place))
    return entries


def filled(segment):
    """The bytes of a segment's area."""
    return segment.ljust(area(len(segment)), b"\0")


@lru_cache(maxsize=512)
def commitment(segment):
    """That of a segment's area."""
    level = filled(segment)
    while len(level) > 32:
        level = b"".join(cut(hashlib.sha256(level[at : at + 64]).digest()) for at in range(0, len(level), 64))
    return level


def root_of(deal):
    """The deal's commitment; zeros where that is refused."""
    return asked(lambda: vz.commitment(deal))[1] or bytes(32)


class Now:
    """A year after a call: the commitment, what stands, and whose records are built, each with the tree that is lent.

    In the largest deal these are one by the plain form and four with a tree, after a collection all with a tree; in any
    other deal all by the plain form and, where the tree is the deal's, all with it too."""

    def __init__(self, year):
        self.year, self.history, self.root = year, year.history, root_of(year.deal)

    def look(self, changed, collected):
        year, bookings = self.year, self.history.uncancelled
        self.deal, self.standing = year.deal, standing(year.deal, year.table)
        self.root = root_of(year.deal) if changed else self.root
        some = lambda n: year.rng.sample(bookings, min(n, len(bookings)))
        if year.d == LARGE:
            year.fill()
            with_tree, plain = bookings if collected else some(4), some(1)
        else:
            with_tree, plain = bookings if year.tree_is_filled else [], bookings
        self.built = [(booking, None) for booking in plain] + [(booking, year.tree) for booking in with_tree]


def shown(each):
    """An entry, or a booking of the history, in words."""
    if each is None:
        return "nothing"
    size = each.size if isinstance(each, Entry) else len(each.segment)
    return f"house {each.house}'s {size} bytes at {each.offset} with place {each.place}"


# ---- the five statements: each gives what speaks against it, or None


def two_alike(now):
    """1: no house has two standing entries with equal T and equal bytes, be it T bytes or A."""
    met = {}
    for entry in now.standing:
        for n in {entry.size, area(entry.size)} if entry.house in (1, 2) else ():
            key = entry.house, entry.size, n, bytes(now.deal[entry.offset : entry.offset + n])
            other = met.setdefault(key, entry)
            if other is not entry:
                return f"{shown(entry)} are those of place {other.place}"
    return None


def overlapping(now):
    """2: standing areas never overlap."""
    for entry, later in pairwise(sorted(now.standing, key=lambda entry: entry.offset)):
        if entry.offset + area(entry.size) > later.offset:
            return f"{shown(entry)} overlap {shown(later)}"
    return None


def not_kept(now):
    """3: every booking of the history is kept with its T and its bytes where the history says, as its house's; and
    nothing else stands."""
    entries = {entry.place: entry for entry in now.standing}
    for booking in now.history.uncancelled:
        segment, offset = booking.segment, booking.offset
        found = entries.pop(booking.place, None)
        if found != Entry(booking.house, commitment(segment), offset, len(segment), booking.place):
            return f"{shown(booking)} are booked, {shown(found)} found"
        if now.deal[offset : offset + booking.area] != filled(segment):
            return f"{shown(booking)} are other bytes"
    return f"{shown(min(entries.values()))} are no booking's" if entries else None


def not_recorded(now):
    """4: building there, with just enough output, gives its record, and the check accepts that against the deal's
    commitment, its size and the number built with."""
    d, root = now.year.d, now.root
    for booking, tree in now.built:
        number, output = deal_number(now.year.rng), bytearray(record_length(d, booking.area))
        code, length = asked(lambda: vz.build_into(now.deal, number, booking.place, output, tree=tree))
        if code or length != len(output):
            return f"{shown(booking)}: building answers {code}"
        record = bytes(output)
        code = asked(lambda: vz.check(root, d, number, record))[0] or MODEL.check(root, d, number, record)
        if code:
            return f"{shown(booking)}: the check of the record with number {number} answers {code}"
        fields = commitment(booking.segment), booking.offset, len(booking.segment), booking.place
        if MODEL.parse(record)[:4] != fields:
            return f"{shown(booking)}: the record is another's"
    return None


def record_length(d, a):
    """Seven tags with their lengths, a commitment, four numbers, two paths."""
    return 7 * 3 + 32 + 4 * 8 + 32 * ((d // a).bit_length() - 1 + (d // 64).bit_length() - 1)


def not_the_sum(now):
    """5: the sum of standing areas equals the areas booked with 0 less those cancelled with 0."""
    stand = sum(area(entry.size) for entry in now.standing)
    booked, cancelled = now.history.areas_booked, now.history.areas_cancelled
    return None if stand == booked - cancelled else f"{stand} bytes stand, {booked} were booked, {cancelled} cancelled"


STATEMENTS = two_alike, overlapping, not_kept, not_recorded, not_the_sum


# ---- the run


def tree_spoilt(year, collected):
    """What speaks against the tree where it must be the deal's; in the largest deal, after collections alone."""
    if not year.tree_is_filled or year.d == LARGE and not collected:
        return None
    own = MODEL.fill(bytes(year.deal), year.tree) if year.d <= 1 << 14 else asked(lambda: vz.filled_tree(year.deal))
    return None if year.tree == own[1] else "the tree is not the deal's"


class Run:
    """The years, and what is counted of them."""

    def __init__(self, seed):
        self.seed, self.codes, self.counts = seed, {form: Counter() for form in CODES}, Counter()

    def year(self, number, d, share, calls):
        """A year of its own seed, with a collection after each third of its calls and others between."""
        year = Year(random.Random(f"{self.seed}/{number}"), d, share)
        now, third = Now(year), max(1, calls // 3)
        for call in range(1, calls + 1):
            said = year.call() if call % third else year.collect(None)
            self.codes[said.form][said.code] += 1
            against = self.against(now, said)
            if against:
                raise Failure(f"year {number}, a deal of {d} bytes with {SHARES[share]}, after call {call} "
                              f"({said.form}, {said.words}: code {said.code})\n" + "\n".join(against))
        self.counts["years"] += 1

    def against(self, now, said):
        """All that speaks against the answers and the statements after a call."""
        collected = said.code == 0 and said.form.startswith("collect")
        now.look(said.code == 0, collected)
        self.counts.update(calls=1, collections=collected, entries=len(now.standing), records=len(now.built))
        answers = said.otherwise or tree_spoilt(now.year, collected)
        if not answers and said.code not in CODES[said.form]:
            answers = "a code that no call of a year has"
        named = [("the answers fail", answers)]
        named += [(f"statement {i} fails", statement(now)) for i, statement in enumerate(STATEMENTS, 1)]
        return [f"  {name}: {fault}" for name, fault in named if fault]

    def years(self, calls):
        """Years until there are so many calls, every size with every share of trees in turn; then the largest deal."""
        for number, (d, share) in enumerate(zip(cycle(SIZES), cycle(SHARES)), 1):
            if self.counts["calls"] >= calls:
                break
            self.year(number, d, share, min(SIZES[d], calls - self.counts["calls"]))
        self.year(number, LARGE, 1 / 2, max(1, calls // FEWER))

    def table(self):
        lines = [f"{'form':<20}{'calls':>8}  calls by code"]
        for form, codes in self.codes.items():
            by_code = ", ".join(f"{code}: {n}" for code, n in sorted(codes.items()))
            lines.append(f"{form:<20}{sum(codes.values()):>8}  {by_code}")
        return "\n".join(lines)

    def unmet(self):
        return [f"{form} {code}" for form, codes in CODES.items() for code in sorted(codes - set(self.codes[form]))]


def arguments():
    parser = argparse.ArgumentParser(description="Tests request (xiii) over made-up years.")
    parser.add_argument("--seed", help="seed of the years (default: a fresh one, which is printed)")
    parser.add_argument("--calls", type=int, default=CALLS,
                        help=f"calls in deals of 512 bytes to 1 MiB (default {CALLS}); a hundredth as many go to a "
                             "deal of 16 MiB besides")
    options = parser.parse_args()
    options.seed = options.seed or os.urandom(4).hex()
    return options


def main():
    options, began = arguments(), time.monotonic()
    print(f"year_test: seed {options.seed}", flush=True)
    run = Run(options.seed)
    try:
        run.years(options.calls)
    except Failure as failure:
        sys.exit(f"year_test: --seed {options.seed} --calls {options.calls}: {failure}")
    print(run.table())
    if run.unmet() and options.calls >= CALLS:
        sys.exit(f"year_test: no call has met these codes: {', '.join(run.unmet())}")
    counts = run.counts
    print(f"year_test: {counts['calls']} calls in {counts['years']} years with {counts['collections']} collections, "
          f"five statements after each call: {counts['entries']} standing entries read, {counts['records']} records "
          f"built and checked, no failure, {time.monotonic() - began:.0f} s")


if __name__ == "__main__":
    main()
