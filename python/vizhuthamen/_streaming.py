"""The commitment of bytes that arrive in pieces."""
from __future__ import annotations

from dataclasses import dataclass
from typing import Final, Optional

from ._codes import Refusal, accepted
from ._library import Readable, call, numbers

STREAM_STATE: Final = 1072
"""The length of a stream's state, in bytes."""

MAX_STREAM: Final = 1 << 36
"""The largest number of bytes that a stream takes."""


@dataclass(frozen=True)
class Streamed:
    """The commitment of all bytes of a stream, and their number."""

    commitment: bytes
    count: int


class Streaming:
    """The state of a stream. `bytes` of it can be kept anywhere until the next piece arrives; any bytes of STREAM_STATE
    are a state."""

    def __init__(self, state: Optional[Readable] = None) -> None:
        """A new start, or the stream that left this state. Refusals: 12 for another length."""
        self._state = bytearray(STREAM_STATE if state is None else state)
        if state is None:
            accepted(call("vz_stream_new", self._state))
        elif len(self._state) != STREAM_STATE:
            raise Refusal(Refusal.OUTPUT)

    def take(self, piece: Readable) -> None:
        """Takes one more piece, of any length. Refusals stick until a new start: 11 where a node is completed that has
        stray bits, 2 at the first byte past 2^36."""
        accepted(call("vz_stream_take", self._state, piece))

    def end(self) -> Streamed:
        """The answer for all bytes taken so far; more may be taken afterwards. Refusals: 11 where it sticks, 2 where
        their number is no power of two from 32 to 2^36."""
        node, (count,) = bytearray(32), numbers(1)
        accepted(call("vz_stream_end", self._state, node, count))
        return Streamed(bytes(node), count.value)

    def __bytes__(self) -> bytes:
        return bytes(self._state)
