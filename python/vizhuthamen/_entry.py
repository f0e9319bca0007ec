"""Index entries, and the numbers of the index area."""
from __future__ import annotations

import ctypes
from dataclasses import dataclass
from typing import Union

from ._codes import accepted
from ._library import Readable, call, numbers


@dataclass(frozen=True)
class IndexNumbers:
    """The number of index entries of a deal, and the byte at which its index area starts."""

    entries: int
    start: int


@dataclass(frozen=True)
class Entry:
    """What an index entry says: the commitment of the segment's area, the byte of the deal at which the segment starts,
    and its length without the zeros after it."""

    commitment: bytes
    offset: int
    size: int


@dataclass(frozen=True)
class Blank:
    """All 64 bytes are zero."""


@dataclass(frozen=True)
class Damaged:
    """Some byte is not zero, and the checksum is wrong."""


@dataclass(frozen=True)
class Valid:
    """The checksum is right."""

    entry: Entry


ReadEntry = Union[Blank, Damaged, Valid]


def index_numbers(size: int) -> IndexNumbers:
    """The index numbers for a deal size, a power of two from 512 to 2^36. Refusals: 2."""
    entries, start = numbers(2)
    accepted(call("vz_index_numbers", size, entries, start))
    return IndexNumbers(entries.value, start.value)


def make_entry(commitment: Readable, offset: int, size: int) -> bytes:
    """The 64 bytes of the entry for a commitment and two numbers, taken as they are. Refusals: 1, 8."""
    entry = bytearray(64)
    accepted(call("vz_make_entry", commitment, offset, size, entry))
    return bytes(entry)


def read_entry(entry: Readable) -> ReadEntry:
    """What the 64 bytes of an entry say. Refusals: 2 for another length."""
    kind, node, (offset, size) = ctypes.c_uint32(), bytearray(32), numbers(2)
    accepted(call("vz_read_entry", entry, kind, node, offset, size))
    return (Blank(), Damaged(), Valid(Entry(bytes(node), offset.value, size.value)))[kind.value]
