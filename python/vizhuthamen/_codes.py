"""The codes that every function answers with, and what they mean."""
from __future__ import annotations

from typing import Final

from ._library import LIBRARY


def meaning(code: int) -> str:
    """What a code means, in words."""
    return LIBRARY.vz_meaning(code).decode() if 0 <= code < 1 << 32 else "unknown code"


def version() -> str:
    """The version of the shared library."""
    return LIBRARY.vz_version().decode()


class Refusal(Exception):
    """A code other than 0. Every code has its name here."""

    COMMITMENT_LENGTH: Final = 1
    SIZE: Final = 2
    FORM: Final = 3
    SEGMENT_SIZE: Final = 4
    OFFSET: Final = 5
    PLACE: Final = 6
    PATH_LENGTH: Final = 7
    COMMITMENT_BITS: Final = 8
    SEGMENT_PATH: Final = 9
    ENTRY_PATH: Final = 10
    STRAY_BITS: Final = 11
    OUTPUT: Final = 12
    NO_SLOT: Final = 13
    NO_PLACE: Final = 14
    ALREADY_KEPT: Final = 15
    NOT_KEPT: Final = 16
    COLLISION: Final = 17
    OTHER_PLACE: Final = 18
    PATH_BITS: Final = 19
    OVERLAP: Final = 20
    DEAL_NUMBER: Final = 21
    QUOTA: Final = 22
    HOUSE: Final = 23
    SEGMENT_LENGTH: Final = 24

    def __init__(self, code: int) -> None:
        super().__init__(code)
        self.code = code

    @property
    def meaning(self) -> str:
        """What the code means, in words."""
        return meaning(self.code)

    def __str__(self) -> str:
        return f"code {self.code}: {self.meaning}"


def accepted(code: int) -> None:
    """Nothing with code 0, the refusal with any other."""
    if code:
        raise Refusal(code)
