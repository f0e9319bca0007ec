"""SHA-256, and the commitment of a run of bytes."""
from __future__ import annotations

from ._codes import accepted
from ._library import Readable, call


def sha256(message: Readable) -> bytes:
    """SHA-256 of a message of 0 to 2^24 bytes. Refusals: 2."""
    digest = bytearray(32)
    accepted(call("vz_sha256", message, digest))
    return bytes(digest)


def commitment(run: Readable) -> bytes:
    """The commitment of a run, a power of two from 32 to 2^24 bytes. Refusals: 2, 11."""
    node = bytearray(32)
    accepted(call("vz_commitment", run, node))
    return bytes(node)
