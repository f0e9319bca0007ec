"""Fr32 padding: raw archives to segments and back."""
from __future__ import annotations

from typing import Final, Optional

from ._codes import accepted
from ._library import Readable, Writable, byte_view, call, numbers

MAX_RAW: Final = 8_323_072
"""The length of the longest raw archive, in bytes. Its segment has 2^23."""


def segment_length(raw_length: int) -> Optional[int]:
    """The length of the segment of so many raw bytes, 128 / 127 of them and rounded up; None where there may not be so
    many."""
    return -(-raw_length * 128 // 127) if 1 <= raw_length <= MAX_RAW else None


def pad_into(raw: Readable, output: Writable) -> int:
    """Writes the segment of raw bytes into the first bytes of an output: its length. Refusals: 2, 12."""
    (length,) = numbers(1)
    accepted(call("vz_fr32_pad", raw, output, length))
    return length.value


def pad(raw: Readable) -> bytes:
    """The segment of raw bytes. Refusals: 2."""
    segment = bytearray(segment_length(byte_view(raw).nbytes) or 0)
    pad_into(raw, segment)
    return bytes(segment)


def unpad_into(raw_length: int, segment: Readable, output: Writable) -> int:
    """Writes the raw bytes of a segment, as many as are named, into the first bytes of an output: their number.
    Refusals: 2 for the raw length, 24, 11, 12."""
    (length,) = numbers(1)
    accepted(call("vz_fr32_unpad", raw_length, segment, output, length))
    return length.value


def unpad(raw_length: int, segment: Readable) -> bytes:
    """The raw bytes of a segment, as many as are named. Refusals: 2 for the raw length, 24, 11."""
    raw = bytearray(raw_length if 0 <= raw_length <= MAX_RAW else 0)
    unpad_into(raw_length, segment, raw)
    return bytes(raw)
