"""Verifiable data aggregation (FRC-0058) over the proved shared library libvizhuthamen.so.

Every function here is a call of one function of the library, or of one of two where a tree may be in hand; the names
are those of the Rust crate. A refusal is an exception, Refusal, which carries the code and its meaning in words. The
answers with a code that is not 0 and yet carry values (15 of a booking, 17 of a settling) are the cases AlreadyKept and
Collision.

    deal, table = bytearray(512), bytearray(vizhuthamen.table_length(512))
    house = 1  # of two, 1 and 2, that book in one deal; the table, beside the deal, says whose entry a slot holds
    booked = vizhuthamen.book(deal, table, house, bytes(128))
    number = 2026  # the deal's, which its bytes do not hold
    record = vizhuthamen.build(deal, number, booked.position.place)
    vizhuthamen.check(vizhuthamen.commitment(deal), 512, number, record)

What is written, a deal that is booked into among them, is a bytearray or a memoryview that may be written. What is read
is copied only where it is a memoryview that may not be written. No other thread may change lent memory during a call.

A log has a line for every booking and cancellation whose answer gets one (BookingLine, CancellingLine); `playback` says
whether the rules give these answers, and is Confirmed or WrongLine.

Anyone may use, copy, change and pass on this package, without conditions (0BSD).
"""
from ._audit import SlotState, audit, audit_into
from ._codes import Refusal, meaning, version
from ._deal import (MAX_DEAL, MAX_TABLE, AlreadyKept, Booked, Booking, Found, Position, Tally, book, cancel, collect,
                    find, table_length, tally)
from ._entry import Blank, Damaged, Entry, IndexNumbers, ReadEntry, Valid, index_numbers, make_entry, read_entry
from ._fr32 import MAX_RAW, pad, pad_into, segment_length, unpad, unpad_into
from ._hash import commitment, sha256
from ._library import Readable, Writable
from ._log import BOOKING_LINE, CANCELLING_LINE, Answers, BookingLine, CancellingLine, Line, Malformed, lines
from ._playback import ROW, ROWS, WRONG_LINE, Confirmed, LedgerRow, Playback, WrongLine, playback
from ._record import (MAX_RECORD, Collision, Field, Same, Settled, build, build_into, check, fields, read_field,
                      settle_records, settle_with_deal)
from ._streaming import MAX_STREAM, STREAM_STATE, Streamed, Streaming
from ._tree import filled_tree, tree_fill, tree_length, tree_row

__license__ = "0BSD"
__all__ = [
    "BOOKING_LINE", "CANCELLING_LINE", "MAX_DEAL", "MAX_RAW", "MAX_RECORD", "MAX_STREAM", "MAX_TABLE", "ROW", "ROWS",
    "STREAM_STATE", "WRONG_LINE", "AlreadyKept", "Answers", "Blank", "Booked", "Booking", "BookingLine",
    "CancellingLine", "Collision", "Confirmed", "Damaged", "Entry", "Field", "Found", "IndexNumbers", "LedgerRow",
    "Line", "Malformed", "Playback", "Position", "Readable", "ReadEntry", "Refusal", "Same", "Settled", "SlotState",
    "Streamed", "Streaming", "Tally", "Valid", "Writable", "WrongLine", "audit", "audit_into", "book", "build",
    "build_into", "cancel", "check", "collect", "commitment", "fields", "filled_tree", "find", "index_numbers", "lines",
    "make_entry", "meaning", "pad", "pad_into", "playback", "read_entry", "read_field", "segment_length",
    "settle_records", "settle_with_deal", "sha256", "table_length", "tally", "tree_fill", "tree_length", "tree_row",
    "unpad", "unpad_into", "version",
]
