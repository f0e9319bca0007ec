"""Inclusion records: building, checking, settling, and reading their fields."""
from __future__ import annotations

import ctypes
from dataclasses import dataclass
from typing import Final, Iterator, Optional, Union

from ._codes import Refusal, accepted
from ._library import Readable, Writable, byte_view, call, numbers

MAX_RECORD: Final = 1973
"""The length of the longest record that is accepted, and so of the longest that is built."""


@dataclass(frozen=True)
class Same:
    """Code 0: no string differs."""


@dataclass(frozen=True)
class Collision:
    """Code 17: two different 64-byte strings, of the first record and the second, or of the record and the deal. They
    have one node hash, unless a tree that is not the deal's was in hand."""

    left: bytes
    right: bytes


Settled = Union[Same, Collision]


@dataclass(frozen=True)
class Field:
    """A field of a record: its tag, where its content starts, the content, and the next field's place."""

    tag: int
    start: int
    content: bytes
    next: int


def build_into(deal: Readable, number: int, place: int, output: Writable, *, tree: Optional[Readable] = None) -> int:
    """Builds the record of the entry at a place, for the deal of this number, into the first bytes of an output: its
    length. Refusals: 2, 11, 6, 16, 12; with a tree 12 after 11 too, for its length."""
    (length,) = numbers(1)
    if tree is None:
        accepted(call("vz_build", deal, number, place, output, length))
    else:
        accepted(call("vz_build_with_tree", deal, tree, number, place, output, length))
    return length.value


def build(deal: Readable, number: int, place: int, *, tree: Optional[Readable] = None) -> bytes:
    """The record of the entry at a place of a deal with this number.
    Refusals: 2, 11, 6, 16; with a tree 12 after 11."""
    record = bytearray(MAX_RECORD)
    return bytes(record[: build_into(deal, number, place, record, tree=tree)])


def check(commitment: Readable, size: int, number: int, record: Readable) -> None:
    """Checks a record against a deal's commitment, size and number.
    Refusals, in this order: 1, 2, 3, 21, 4 to 8, 19, 9, 10."""
    accepted(call("vz_check", commitment, size, number, record))


def settle_records(commitment: Readable, size: int, number: int, first: Readable, second: Readable) -> Settled:
    """Settles two records for one deal commitment, size and number. Refusals: those of the first one's check, of the
    second one's, 18."""
    left, right = bytearray(64), bytearray(64)
    return _settled(call("vz_settle_records", commitment, size, number, first, second, left, right), left, right)


def settle_with_deal(deal: Readable, number: int, record: Readable, *, tree: Optional[Readable] = None) -> Settled:
    """Settles a record with a deal in hand, whose number this is. Refusals: 2, 11, those of the check against the
    deal's own commitment and length and this number; with a tree 12 after 11."""
    left, right = bytearray(64), bytearray(64)
    if tree is None:
        code = call("vz_settle_with_deal", deal, number, record, left, right)
    else:
        code = call("vz_settle_with_tree", deal, tree, number, record, left, right)
    return _settled(code, left, right)


def _settled(code: int, left: bytearray, right: bytearray) -> Settled:
    if code == Refusal.COLLISION:
        return Collision(bytes(left), bytes(right))
    accepted(code)
    return Same()


def read_field(record: Readable, place: int) -> Field:
    """The field at a place of a record, whatever its tag. Refusals: 3 where no field lies there."""
    tag, (start, length, following) = ctypes.c_uint32(), numbers(3)
    accepted(call("vz_read_field", record, place, tag, start, length, following))
    content = byte_view(record)[start.value : start.value + length.value]
    return Field(tag.value, start.value, bytes(content), following.value)


def fields(record: Readable) -> Iterator[Field]:
    """The fields of a record from place 0 on, up to the first place that is no field."""
    place = 0
    while True:
        try:
            field = read_field(record, place)
        except Refusal:
            return
        yield field
        place = field.next
