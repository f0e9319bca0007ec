"""The shared library: where it is, what it has, and how memory is lent to it.

No promise covers this code. It keeps what the library asks of its callers: no pointer is null, lengths are true,
numbers fit, and memory that is written overlaps no other argument.
"""
from __future__ import annotations

import ctypes
import os
from pathlib import Path
from typing import Any, Callable, Dict, List, Tuple, Union

Readable = Union[bytes, bytearray, memoryview]
Writable = Union[bytearray, memoryview]
Number = Union[ctypes.c_uint32, ctypes.c_uint64]

NAME = "libvizhuthamen.so.0.5"

# The functions of vizhuthamen.h: `in` and `out` are memory that is read, and that is written, a pointer and a length
# each; u8 and u64 are numbers; u32* and u64* are numbers that are written.
FUNCTIONS = {
    "vz_sha256": "in out",
    "vz_commitment": "in out",
    "vz_stream_new": "out",
    "vz_stream_take": "out in",
    "vz_stream_end": "in out u64*",
    "vz_fr32_pad": "in out u64*",
    "vz_fr32_unpad": "u64 in out u64*",
    "vz_index_numbers": "u64 u64* u64*",
    "vz_make_entry": "in u64 u64 out",
    "vz_read_entry": "in u32* out u64* u64*",
    "vz_audit": "in out",
    "vz_tally": "in u64* u64* u64*",
    "vz_find": "in in u64* u64* u64*",
    "vz_book": "out out u8 in u64* u64*",
    "vz_cancel": "out out u8 u64",
    "vz_collect": "in in out out",
    "vz_playback": "u64 in u64* u32* u64* u64* u64* out",
    "vz_build": "in u64 u64 out u64*",
    "vz_check": "in u64 u64 in",
    "vz_settle_records": "in u64 u64 in in out out",
    "vz_settle_with_deal": "in u64 in out out",
    "vz_tree_fill": "in out",
    "vz_tree_row": "in out",
    "vz_book_with_tree": "out out out u8 in u64* u64*",
    "vz_cancel_with_tree": "out out out u8 u64",
    "vz_collect_with_tree": "in in out out out",
    "vz_build_with_tree": "in in u64 u64 out u64*",
    "vz_settle_with_tree": "in in u64 in out out",
    "vz_read_field": "in u64 u32* u64* u64* u64*",
}

_TYPES: Dict[str, List[Any]] = {
    "in": [ctypes.c_void_p, ctypes.c_size_t],
    "out": [ctypes.c_void_p, ctypes.c_size_t],
    "u8": [ctypes.c_uint8],
    "u64": [ctypes.c_uint64],
    "u32*": [ctypes.POINTER(ctypes.c_uint32)],
    "u64*": [ctypes.POINTER(ctypes.c_uint64)],
}


def _path() -> str:
    """The folder that VIZHUTHAMEN_LIB names; else the libraries of the checkout, or of the prefix, that this package
    lies in; else where the system looks."""
    named, here = os.environ.get("VIZHUTHAMEN_LIB"), Path(__file__).resolve()
    if named:
        return str(Path(named) / NAME)
    installed = here.parents[1].name in ("site-packages", "dist-packages")
    near = (here.parents[3] if installed else here.parents[2] / "target" / "lib") / NAME
    return str(near) if near.is_file() else NAME


def _load() -> ctypes.CDLL:
    try:
        library = ctypes.CDLL(_path())
    except OSError as error:
        raise OSError(f"{error}; "
                      f"run make in the repository's root, or let VIZHUTHAMEN_LIB name the folder of {NAME}") from None
    for name, kinds in FUNCTIONS.items():
        function = getattr(library, name)
        function.argtypes = [each for kind in kinds.split() for each in _TYPES[kind]]
        function.restype = ctypes.c_uint32
    library.vz_meaning.argtypes, library.vz_meaning.restype = [ctypes.c_uint32], ctypes.c_char_p
    library.vz_version.argtypes, library.vz_version.restype = [], ctypes.c_char_p
    return library


LIBRARY = _load()
_CALLS: Dict[str, Tuple[Callable[..., int], List[str]]] = {
    name: (getattr(LIBRARY, name), kinds.split()) for name, kinds in FUNCTIONS.items()
}
_NOTHING = ctypes.create_string_buffer(1)  # where memory of no bytes lies


def byte_view(data: Readable) -> memoryview:
    """The bytes, as they lie in memory."""
    view = memoryview(data)
    return view if view.format == "B" and view.ndim == 1 else view.cast("B")


class _Lent:
    """The memory of one call. What it holds stays alive and keeps its length until the call is over."""

    def __init__(self) -> None:
        self.held: List[Any] = []
        self.areas: List[Tuple[int, int, bool]] = []

    def memory(self, data: Readable, written: bool) -> Tuple[Union[int, bytes], int]:
        """Pointer and length. Bytes are lent as they are; other memory that must not be written is copied."""
        if not written and isinstance(data, bytes):
            return data, len(data)
        view = byte_view(data)
        if view.readonly:
            if written:
                raise TypeError("memory that is written must be a bytearray, or a memoryview that may be written")
            return view.tobytes(), view.nbytes
        if view.nbytes == 0:
            return ctypes.addressof(_NOTHING), 0
        first = ctypes.c_char.from_buffer(view)
        self.held.append(first)
        self.areas.append((ctypes.addressof(first), view.nbytes, written))
        return ctypes.addressof(first), view.nbytes

    def judge(self) -> None:
        for i, (start, length, written) in enumerate(self.areas):
            for other, size, also_written in self.areas[:i]:
                if (written or also_written) and start < other + size and other < start + length:
                    raise ValueError("memory that is written overlaps another argument")


def _number(value: int, bits: int) -> int:
    if not 0 <= value < 1 << bits:
        raise OverflowError(f"{value} is no number of {bits} bits")
    return value


def call(name: str, *arguments: Union[Readable, int, Number]) -> int:
    """Calls a function, with one argument for each kind of FUNCTIONS: its code."""
    function, kinds = _CALLS[name]
    lent, values = _Lent(), []
    for kind, argument in zip(kinds, arguments):
        if kind in ("in", "out"):
            values.extend(lent.memory(argument, kind == "out"))
        elif kind in ("u8", "u64"):
            values.append(_number(argument, int(kind[1:])))
        else:
            values.append(ctypes.byref(argument))
    lent.judge()
    return function(*values)


def numbers(count: int) -> List[ctypes.c_uint64]:
    """So many numbers to be written."""
    return [ctypes.c_uint64() for _ in range(count)]
