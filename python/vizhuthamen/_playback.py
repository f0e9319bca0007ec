"""Playing a log back: whether the rules give the answers that its lines say, and the ledger's rows after the last
one."""
from __future__ import annotations

import ctypes
import struct
from dataclasses import dataclass
from typing import Final, List, Union

from ._codes import accepted
from ._library import Readable, call, numbers
from ._log import Answers

ROW: Final = 57
"""The bytes of a row: house, commitment, size, offset, entry place."""
ROWS: Final = 128 * ROW
"""The bytes of the rows of a ledger for the largest deal in memory, which has 128 slots."""
WRONG_LINE: Final = 256
"""What the library answers where a line's answers are not those that the rules give: a number past all codes."""

_ROW = struct.Struct("<B32sQQQ")


@dataclass(frozen=True)
class LedgerRow:
    """A row of a ledger, of a segment that was booked, and not cancelled since: the house, the commitment of the
    segment's area as the log's line has it, size and offset of the segment, and the place of its entry."""

    house: int
    commitment: bytes
    size: int
    offset: int
    place: int


@dataclass(frozen=True)
class Confirmed:
    """The rules give the answers of every line. These are the rows after the last one, by rising entry place."""

    rows: List[LedgerRow]


@dataclass(frozen=True)
class WrongLine:
    """The rules do not give the answers of the line with this number, from 1, and give those of every line before it;
    and what they give for it."""

    line: int
    ruling: Answers


Playback = Union[Confirmed, WrongLine]


def playback(size: int, log: Readable) -> Playback:
    """Plays a log back on an empty ledger for a deal of that size: every line in turn, by the rules of booking and
    cancelling, up to the first one whose answers they do not give. Commitments are taken as they are; a booking is
    answered 15 where the house has a row of equal size and commitment. Refusals: 2 for a size that no deal in memory
    has, 3 for a log that is malformed anywhere, which is told before any line is played (`lines` says where)."""
    code, (line, offset, place, count), rows = ctypes.c_uint32(), numbers(4), bytearray(ROWS)
    answer = call("vz_playback", size, log, line, code, offset, place, count, rows)
    if answer == WRONG_LINE:
        return WrongLine(line.value, Answers(code.value, offset.value, place.value))
    accepted(answer)
    return Confirmed([LedgerRow(*_ROW.unpack_from(rows, ROW * i)) for i in range(count.value)])
