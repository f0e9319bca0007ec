"""Calls of the model that get a line in the log of a deal, and what a log comes to."""
from model import BOOKING, CANCELLING, LOGGED, Booking, Cancelling, Model, filled, index_numbers, log_lines

MODEL = Model()


def booking(house, commitment, size, code, offset=0, place=0):
    return Booking(house, commitment, size, code, offset, place).to_bytes()


def cancelling(house, place, code):
    return Cancelling(house, place, code).to_bytes()


def commitment(segment):
    """That of a segment's area."""
    return MODEL.tree(filled(segment))[-1][0]


def book(deal, table, house, segment):
    """A booking by the model: code, the deal and the table afterwards, and the line, empty where the code gets none."""
    code, offset, place, deal, table = MODEL.book(deal, table, house, segment)
    line = booking(house, commitment(segment), len(segment), code, offset, place) if code in LOGGED[BOOKING] else b""
    return code, deal, table, line


def cancel(deal, table, house, place):
    """A cancellation by the model, in the same way."""
    code, deal, table = MODEL.cancel(deal, table, house, place)
    return code, deal, table, cancelling(house, place, code) if code in LOGGED[CANCELLING] else b""


def rows(deal, table):
    """What stands in a deal, as playback's rows: place, house, offset, size, commitment."""
    _, slots, start = index_numbers(len(deal))
    standing = ((i, MODEL.standing(deal, i)) for i in range(slots))
    return [(start + 64 * i, table[i], entry[1], entry[2], entry[0].hex()) for i, entry in standing if entry]


def lines(log, size=1 << 63):
    """The lines of a log that is in form, by their bytes."""
    return [line.to_bytes() for line in log_lines(size, log)]
