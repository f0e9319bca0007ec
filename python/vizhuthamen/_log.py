"""The clerks' log of a deal: a line for every booking and every cancellation whose answer gets one, as data and as
bytes."""
from __future__ import annotations

import struct
from dataclasses import dataclass
from typing import Final, Iterator, Optional, Union

from ._codes import Refusal
from ._deal import AlreadyKept, Booking, Position
from ._library import Readable, byte_view

BOOKING_LINE: Final = 61
"""The bytes of a line for a booking: tag 1, a length of two bytes, and the content of 58."""
CANCELLING_LINE: Final = 13
"""The bytes of a line for a cancellation: tag 2, a length of two bytes, and the content of 10."""

# Tag, length, house; then commitment, size, code, offset, place; or place, code.
_BOOKING = struct.Struct("<BHB32sQBQQ")
_CANCELLING = struct.Struct("<BHBQB")
_BOOKING_CODES = 0, 13, 14, 15, 22
_CANCELLING_CODES = 0, 16


@dataclass(frozen=True)
class Answers:
    """What a line says was answered, or what the rules give for it: a code, and for a booking with 0 or 15 the two
    numbers beside it. They are 0 otherwise."""

    code: int
    offset: int
    place: int


@dataclass(frozen=True)
class BookingLine:
    """A booking that was answered 0, 13, 14, 15 or 22: the house, the commitment of the segment's area, the segment's
    size, and the answers. bytes() of it is the line in a log."""

    house: int
    commitment: bytes
    size: int
    code: int
    offset: int
    place: int

    @classmethod
    def of(cls, house: int, commitment: bytes, size: int, answer: Union[Booking, Refusal]) -> Optional[BookingLine]:
        """The line for a booking, as `book` answered it, or with the refusal that it raised; None where its code gets
        no line."""
        if isinstance(answer, Refusal):
            code, position = answer.code, Position(0, 0)
        else:
            code, position = Refusal.ALREADY_KEPT if isinstance(answer, AlreadyKept) else 0, answer.position
        return cls(house, commitment, size, code, position.offset, position.place) if code in _BOOKING_CODES else None

    def answers(self) -> Answers:
        """What the line says was answered."""
        return Answers(self.code, self.offset, self.place)

    def __bytes__(self) -> bytes:
        if len(self.commitment) != 32:
            raise ValueError("a commitment has 32 bytes")
        return _BOOKING.pack(1, 58, self.house, self.commitment, self.size, self.code, self.offset, self.place)


@dataclass(frozen=True)
class CancellingLine:
    """A cancellation that was answered 0 or 16: the house, the entry place, and the code. bytes() of it is the line in
    a log."""

    house: int
    place: int
    code: int

    @classmethod
    def of(cls, house: int, place: int, refusal: Optional[Refusal] = None) -> Optional[CancellingLine]:
        """The line for a cancellation, which was done or has raised a refusal; None where its code gets no line."""
        code = 0 if refusal is None else refusal.code
        return cls(house, place, code) if code in _CANCELLING_CODES else None

    def answers(self) -> Answers:
        """What the line says was answered."""
        return Answers(self.code, 0, 0)

    def __bytes__(self) -> bytes:
        return _CANCELLING.pack(2, 10, self.house, self.place, self.code)


Line = Union[BookingLine, CancellingLine]


class Malformed(Exception):
    """Where a log is malformed, and why: the number of the line, from 1, the byte at which it starts, and what is wrong
    with it, in words. Playing the log back is refused with 3."""

    def __init__(self, line: int, at: int, fault: str) -> None:
        super().__init__(line, at, fault)
        self.line, self.at, self.fault = line, at, fault

    def __str__(self) -> str:
        return f"line {self.line}, at byte {self.at}: {self.fault}"


def lines(size: int, log: Readable) -> Iterator[Line]:
    """The lines of a log for a deal of that size, in turn. Malformed is raised at the first place where it is
    malformed; for a size that a deal in memory has, a log without such a place is one that `playback` does not
    refuse."""
    data, at, number = byte_view(log).tobytes(), 0, 0
    while at < len(data):
        number += 1
        length = {1: BOOKING_LINE, 2: CANCELLING_LINE}.get(data[at], 0)
        fault = _form(data[at : at + max(length, 3)], length)
        if not fault:
            line = _line(data[at : at + length])
            fault = _fault(size, line)
        if fault:
            raise Malformed(number, at, fault)
        yield line
        at += length


def _form(data: bytes, length: int) -> str:
    """What is wrong with the tag, the length or the end of a line that should have so many bytes; nothing where they
    are right."""
    if not length:
        return f"tag {data[0]} is neither 1 nor 2"
    stated = int.from_bytes(data[1:3], "little")
    if len(data) >= 3 and stated != length - 3:
        return f"{stated} bytes are not the length of its tag"
    return "" if len(data) == length else "the log ends within it"


def _line(data: bytes) -> Line:
    return BookingLine(*_BOOKING.unpack(data)[2:]) if data[0] == 1 else CancellingLine(*_CANCELLING.unpack(data)[2:])


def _fault(size: int, line: Line) -> str:
    """What keeps a line from standing in the log of a deal of that size; nothing where it may."""
    if line.house not in (1, 2):
        return f"house {line.house} is neither 1 nor 2"
    if isinstance(line, BookingLine) and not 1 <= line.size <= size // 2:
        return f"segment size {line.size} is not allowed for the deal's"
    logged = _BOOKING_CODES if isinstance(line, BookingLine) else _CANCELLING_CODES
    return "" if line.code in logged else f"code {line.code} is none that gets a line"
