"""The audit of a deal, whoever has made it: the state of every slot."""
from __future__ import annotations

from enum import IntEnum
from typing import List

from ._codes import accepted
from ._deal import table_length
from ._library import Readable, Writable, byte_view, call


class SlotState(IntEnum):
    """The state of a slot, and its number. Where two apply, the lower one is given: an overlapping entry may be kept or
    not."""

    BLANK = 0
    """All 64 bytes are zero."""
    DAMAGED = 1
    """Some byte is not zero, and the checksum is wrong."""
    NOT_STANDING = 2
    """The checksum is right, but the size or the offset is not allowed in the deal."""
    OVERLAPPING = 3
    """The entry stands, and overlaps one that stands in a lower slot."""
    WRONG_COMMITMENT = 4
    """The entry stands, but its commitment is not that of the bytes at its offset."""
    KEPT = 5
    """The entry stands, and its commitment is that of the bytes at its offset."""

    def words(self) -> str:
        """The state in words."""
        return self.name.lower().replace("_", " ")

    def is_sound(self) -> bool:
        """Whether the slot is blank or its entry kept, as all are in a deal that was made by bookings alone."""
        return self in (SlotState.BLANK, SlotState.KEPT)


def audit(deal: Readable) -> List[SlotState]:
    """The state of every slot of a deal, by rising place. Refusals: 2, 11."""
    states = bytearray(table_length(byte_view(deal).nbytes))
    audit_into(deal, states)
    return [SlotState(state) for state in states]


def audit_into(deal: Readable, states: Writable) -> None:
    """Writes the number of every slot's state into the first bytes of `states`, one byte each, as many as the deal's
    table of owners has (see table_length); the rest stays. Refusals: 2, 11, 12 for fewer bytes than slots."""
    accepted(call("vz_audit", deal, states))
