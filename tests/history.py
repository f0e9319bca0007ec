"""The history of a deal by its calls and their answers alone, written from document 02, requests (viii), (x), (xiii).

It sees no byte of a deal. What was asked and what was answered tell which bookings are not cancelled, where each of
them is by now, and how much was booked and cancelled.
"""
from typing import NamedTuple


def area(size):
    """The smallest power of two at or above both a segment's size and 128."""
    a = 128
    while a < size:
        a *= 2
    return a


def slot_count(d):
    """How many entries the index of a deal of d bytes has."""
    return max(4, d // 131072)


def index_start(d):
    """Where they start."""
    return d - 64 * slot_count(d)


class Uncancelled(NamedTuple):
    """A booking answered 0 and not cancelled since: whose it is, its bytes, and where they and its entry are by now."""
    house: int
    segment: bytes
    offset: int
    place: int

    @property
    def area(self):
        return area(len(self.segment))


class History:
    """The calls of a deal of d bytes from all zeros on, each told with its answers."""

    def __init__(self, d):
        self.start = index_start(d)
        self.uncancelled, self.areas_booked, self.areas_cancelled = [], 0, 0

    def book(self, house, segment, code, offset, place):
        """A booking answered 0 is added where the answer says; no other answer adds anything, 15 neither."""
        if code == 0:
            self.uncancelled.append(Uncancelled(house, segment, offset, place))
            self.areas_booked += area(len(segment))

    def cancel(self, house, place, code):
        """A cancellation answered 0 takes away what its house has at its place: it sees no other's entries."""
        if code == 0:
            taken = lambda each: (each.house, each.place) == (house, place)
            self.areas_cancelled += sum(each.area for each in self.uncancelled if taken(each))
            self.uncancelled = [each for each in self.uncancelled if not taken(each)]

    def collect(self, code):
        """A collection answered 0 moves all: by falling area, equal ones by old offset, packed from 0, their entries in
        that order from the first slot on."""
        if code == 0:
            before, offset = sorted(self.uncancelled, key=lambda each: (-each.area, each.offset)), 0
            self.uncancelled = []
            for slot, each in enumerate(before):
                self.uncancelled.append(each._replace(offset=offset, place=self.start + 64 * slot))
                offset += each.area
