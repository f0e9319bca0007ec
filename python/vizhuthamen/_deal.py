"""A deal in memory: its slots and their owners, finding a segment, booking and cancelling one, collecting all."""
from __future__ import annotations

from dataclasses import dataclass
from typing import Final, Optional, Union

from ._codes import Refusal, accepted
from ._library import Readable, Writable, byte_view, call, numbers

MAX_DEAL: Final = 1 << 24
"""The largest deal that is held in memory, in bytes."""
MAX_TABLE: Final = 128
"""The longest table of owners, in bytes: that of the largest deal."""


@dataclass(frozen=True)
class Tally:
    """How many slots of an index are blank, damaged and valid; together they are the number of entries."""

    blank: int
    damaged: int
    valid: int


@dataclass(frozen=True)
class Found:
    """A segment that was found: where it and its entry start, its length, and its bytes, a part of the lent deal."""

    offset: int
    size: int
    place: int
    segment: memoryview


@dataclass(frozen=True)
class Position:
    """Where a segment and its index entry start."""

    offset: int
    place: int


@dataclass(frozen=True)
class Booked:
    """The segment, zeros to the end of its area, and its entry were written."""

    position: Position


@dataclass(frozen=True)
class AlreadyKept:
    """Code 15: the house has the segment in the deal, which was not changed. It is kept here, in its lowest such
    slot."""

    position: Position


Booking = Union[Booked, AlreadyKept]


def table_length(size: int) -> int:
    """The length of the table of owners of a deal of that many bytes: a byte for each slot. The table is kept beside
    the deal; a new deal's is all zeros. A slot's byte is 1 or 2 for the house that owns the entry there, and any other
    one for nobody; it counts only where an entry stands. Booking sets it, cancelling clears it, and collecting writes a
    second table."""
    return max(4, size // 131072)


def tally(deal: Readable) -> Tally:
    """How many slots of a deal's index are blank, damaged and valid. Refusals: 2, 11."""
    counts = numbers(3)
    accepted(call("vz_tally", deal, *counts))
    return Tally(*(count.value for count in counts))


def find(deal: Readable, commitment: Readable) -> Found:
    """The lowest slot that holds a kept entry with this commitment. Refusals: 1, 2, 11, 16."""
    found = numbers(3)
    accepted(call("vz_find", deal, commitment, *found))
    offset, size, place = (each.value for each in found)
    return Found(offset, size, place, byte_view(deal)[offset : offset + size])


def book(deal: Writable, table: Writable, house: int, segment: Readable, *, tree: Optional[Writable] = None) -> Booking:
    """Books a segment of 1 byte to half of the deal for a house, 1 or 2: it, zeros to the end of its area (the smallest
    power of two at or above both its size and 128), its entry, and the house in the slot's byte of the table (see
    table_length) are written, unless the house has the segment in the deal. Refusals: 23 for another house, 2, 23 for a
    table of another length, 4, 11, 22 where the house's entries stand in half of the slots or more, 13, 14; with a tree
    12 after 11. A tree is brought up to date."""
    offset, place = numbers(2)
    if tree is None:
        code = call("vz_book", deal, table, house, segment, offset, place)
    else:
        code = call("vz_book_with_tree", deal, tree, table, house, segment, offset, place)
    position = Position(offset.value, place.value)
    if code == Refusal.ALREADY_KEPT:
        return AlreadyKept(position)
    accepted(code)
    return Booked(position)


def cancel(deal: Writable, table: Writable, house: int, place: int, *, tree: Optional[Writable] = None) -> None:
    """Cancels the house's entry that stands at a place, kept or not: its 64 bytes and its slot's byte of the table are
    zeros afterwards, and no other byte changes. Refusals: 23 for a house other than 1 or 2, 2, 23 for a table of
    another length, 11, 6, 16 where no entry of the house stands; with a tree 12 after 11. A tree is brought up to
    date."""
    if tree is None:
        accepted(call("vz_cancel", deal, table, house, place))
    else:
        accepted(call("vz_cancel_with_tree", deal, tree, table, house, place))


def collect(deal: Readable, table: Readable, second: Writable, second_table: Writable, *,
            tree: Optional[Writable] = None) -> None:
    """Collects a deal into a second one of the same length, without gaps; each moved entry's byte of the table stands
    in the second table, as it was, for its new slot, with zeros after them. The deal itself and its table stay.
    Refusals: 2, 23 for a table of another length, 12, 11, 20; with a tree 12 after 11. The tree is one for the second
    deal, and is left filled."""
    if tree is None:
        accepted(call("vz_collect", deal, table, second, second_table))
    else:
        accepted(call("vz_collect_with_tree", deal, table, second, tree, second_table))
