"""Audits that single slips would get wrong which the calls of audit_cases.py do not see: bytes, words and bits that are
not looked at or not compared, numbers cut to fewer bits, levels, slots and parts of a deal that are left out. Each call
stands beside its code and, with 0, the states that are written; tests/model_test.py judges that the model gives
them."""
from audit_cases import below_index
from house_cases import with_slot
from model import (SLOT_BLANK, SLOT_DAMAGED, SLOT_KEPT, SLOT_NOT_STANDING, SLOT_OVERLAPPING, SLOT_WRONG, index_numbers)
from operations import AUDIT, MODEL, Case
from refusal_cases import flipped
from vector_parts import own_entry

NOBODYS = MODEL.entry(bytes(32), 0, 0)  # valid, and never standing


def entries_of(d):
    return index_numbers(d)[1]


def start_of(d):
    return index_numbers(d)[2]


def audited(deal, slots, more=1):
    """The call for a deal with these slots, {slot: (state, 64 bytes)}; all others are blank."""
    states = bytearray(entries_of(len(deal)))
    for slot, (states[slot], entry) in slots.items():
        deal = with_slot(deal, slot, entry)
    return 0, bytes(states), Case(AUDIT, deal, b"\xa5" * (len(states) + more))


def in_fours(deal, state, entries):
    """Calls with four of the entries each, all of one state."""
    entries = list(entries)
    for at in range(0, len(entries), 4):
        yield audited(deal, {i: (state, entry) for i, entry in enumerate(entries[at : at + 4])})


def standing(deal, *rows):
    """Slots of these states whose entries have the commitment of the bytes there: {slot: (state, entry)} of (state,
    offset, size)."""
    return {i: (state, own_entry(deal, offset, size)) for i, (state, offset, size) in enumerate(rows)}


def refused(code, deal, room):
    return code, b"", Case(AUDIT, bytes(deal), b"\xa5" * room)


def bit_of(j):
    """A bit of byte j of an entry, each of the eight in turn; bits 7 and 6 of a node's last byte would be stray."""
    return j % 6 if j % 32 == 31 else (j + j // 8) % 8


# ---- deals of at most 8,192 bytes


def sizes(rng):
    """Multiples of 128, 256 and 512 that are no power of two, and a power of two less one and more one."""
    for d in (640, 768, 1536, 1023, 1025):
        yield refused(2, bytes(d), 8)


def stray_nodes(rng):
    """Every node of the least deal; one after the size of a kept entry, in its area."""
    for node in range(16):
        yield refused(11, flipped(bytes(512), 32 * node + 31, 6 + node % 2), 4)
    deal = flipped(below_index(rng, 512), 95, 7)
    yield refused(11, with_slot(deal, 0, own_entry(deal, 0, 1)), 4)


def not_blank(rng):
    """One byte set of each of the 64; equal bytes; words or bytes whose sum or difference is 0."""
    deal = bytes(512)
    yield from in_fours(deal, SLOT_DAMAGED, (flipped(bytes(64), j, bit_of(j)) for j in range(64)))
    yield from in_fours(deal, SLOT_DAMAGED, (b"\x01" * 64, b"\x07" * 16 + bytes(48),
                                             b"\x01" + bytes(7) + b"\xff" * 8 + bytes(48), b"\x80\x80" + bytes(62)))
    yield audited(deal, {1: (SLOT_NOT_STANDING, NOBODYS)})


def damaged(rng):
    """A kept entry with one bit flipped of each byte, and of every bit of the checksum's last byte."""
    deal = below_index(rng, 512)
    places = [(j, bit_of(j)) for j in range(64)] + [(63, b) for b in range(6)] + [(47, 7), (0, 7)]
    yield from in_fours(deal, SLOT_DAMAGED, (flipped(own_entry(deal, 0, 128), *place) for place in places))


def wrong(rng):
    """The right commitment with one bit flipped of each byte, and of every bit of its first byte and of its last;
    commitments of twice the area, and of the areas before and after."""
    deal = below_index(rng, 1024)
    right = lambda offset, size: own_entry(deal, offset, size)[:32]
    places = ([(j, bit_of(j)) for j in range(32)] + [(0, b) for b in range(8)] + [(31, b) for b in range(6)]
              + [(15, 0), (16, 0)])
    yield from in_fours(deal, SLOT_WRONG, (MODEL.entry(flipped(right(128 * (i % 4), 128), *place), 128 * (i % 4), 128)
                                           for i, place in enumerate(places)))
    others = ((right(0, 256), 0), (right(0, 128), 128), (right(384, 128), 256))
    yield from in_fours(deal, SLOT_WRONG, (MODEL.entry(node, offset, 128) for node, offset in others))


def numbers(rng):
    """Offsets and sizes of one bit each, and sizes of 128 with one bit more."""
    deal = below_index(rng, 512)
    node = own_entry(deal, 0, 128)[:32]
    offsets = [MODEL.entry(node, 1 << b, 128) for b in range(64) if b != 7]
    yield from in_fours(deal, SLOT_NOT_STANDING, offsets)
    yield from in_fours(deal, SLOT_NOT_STANDING, (MODEL.entry(node, 0, 128 + (1 << b)) for b in range(9, 64)))
    for several in ((1, 2, 4, 8), (16, 32, 64, 127)):
        deal = below_index(rng, 1024)
        yield audited(deal, standing(deal, *((SLOT_KEPT, 128 * i, size) for i, size in enumerate(several))))


def levels(rng):
    """Areas of four levels up to the index, and at an odd multiple of their half."""
    deal = below_index(rng, 8192)
    yield audited(deal, standing(deal, *((SLOT_KEPT, offset, size) for offset, size in
                                         ((0, 4096), (4096, 2048), (6144, 1024), (7168, 512)))))
    yield audited(deal, standing(deal, *((SLOT_NOT_STANDING, size // 2, size) for size in (512, 1024, 2048, 4096))))


def overlaps(rng):
    """Entries that do not stand before and between those that overlap; one that would end beyond the index; one between
    two others."""
    deal = below_index(rng, 1024)
    kept, again = (SLOT_KEPT, own_entry(deal, 0, 128)), (SLOT_OVERLAPPING, own_entry(deal, 0, 128))
    other = SLOT_NOT_STANDING, NOBODYS
    yield audited(deal, {0: kept, 1: other, 2: again})
    yield audited(deal, {0: other, 1: kept, 2: again})
    beyond = MODEL.entry(MODEL.tree(deal[512:])[-1][0], 512, 512)
    yield audited(deal, {0: (SLOT_NOT_STANDING, beyond), 1: (SLOT_KEPT, own_entry(deal, 512, 128))})
    yield audited(deal, standing(deal, *((SLOT_KEPT, offset, 128) for offset in (0, 256, 128))))


def small(rng):
    for group in (sizes, stray_nodes, not_blank, damaged, wrong, numbers, levels, overlaps):
        yield from group(rng)


# ---- deals of up to 2^25 bytes, most of them zeros


def too_long():
    """Too long, with stray bits and a short buffer."""
    yield refused(2, flipped(bytes(1 << 25), 31, 7), 0)


def every_size():
    """The first and the last slot of each size are damaged; buffers that are longer, and one byte short."""
    for d in (1 << k for k in range(9, 25)):
        n = entries_of(d)
        yield audited(bytes(d), {slot: (SLOT_DAMAGED, flipped(bytes(64), 63, 0)) for slot in (0, n - 1)}, 4)
        if d <= 1 << 20:
            yield refused(12, bytes(d), n - 1)


def late_stray():
    """Stray bits in the last node."""
    for d in (1 << k for k in (11, 13, 17, 21, 24)):
        yield refused(11, flipped(bytes(d), d - 1, 6), 128)


def at_index_start():
    """The last area before the index, and the first that is not."""
    deal, start = bytes(1 << 20), start_of(1 << 20)
    entry = own_entry(deal, start - 128, 128)
    yield audited(deal, {0: (SLOT_KEPT, entry), 1: (SLOT_NOT_STANDING, MODEL.entry(entry[:32], start, 128))})


def halves():
    """2^24 bytes, and in it an area of each level from 2^23 down to 2^13 whose halves differ."""
    deal, areas = bytearray(), []
    for k in range(23, 12, -1):
        areas.append((len(deal), 1 << k))
        deal += bytes([2 * k - 25]) * (1 << k - 1) + bytes([2 * k - 24]) * (1 << k - 1)
    return bytes(deal) + bytes((1 << 24) - len(deal)), areas


def large_areas():
    """All of these areas: kept, the last of them overlapped; and with the commitment of their left half."""
    deal, areas = halves()
    slots = standing(deal, *((SLOT_KEPT, *row) for row in areas))
    yield audited(deal, slots | {127: (SLOT_OVERLAPPING, own_entry(deal, areas[-1][0], 128))})
    yield audited(deal, {127: (SLOT_NOT_STANDING, NOBODYS)} | {
        i: (SLOT_WRONG, MODEL.entry(own_entry(deal, offset, size // 2)[:32], offset, size))
        for i, (offset, size) in enumerate(areas)})


def far_areas():
    """An area at the end of a large one, and a kept one in the last slot; the same far offset twice."""
    for k in (12, 16, 20, 22, 23):
        deal = bytes(2 << k)
        last = {entries_of(len(deal)) - 1: (SLOT_KEPT, own_entry(deal, 1 << k, 128))}
        yield audited(deal, standing(deal, (SLOT_KEPT, 0, 1 << k), (SLOT_OVERLAPPING, (1 << k) - 128, 128)) | last)
        if k <= 20:
            far = 1 << k - 1
            yield audited(deal,
                          standing(deal, (SLOT_KEPT, 0, 128), (SLOT_KEPT, far, 128), (SLOT_OVERLAPPING, far, 128)))


def far_slots(d, overlapped, places):
    """The last slot overlaps one that is near, or far; every state in other slots than the first; slot 4 overlaps slot
    3."""
    deal, n = bytes(d), entries_of(d)
    kept = own_entry(deal, 0, 128)
    all_but_one = standing(deal, *((SLOT_KEPT, 128 * slot, 128) for slot in range(n - 1)))
    for lower in overlapped:
        yield audited(deal, all_but_one | {n - 1: (SLOT_OVERLAPPING, own_entry(deal, 128 * lower, 128))})
    for state, entry in ((SLOT_BLANK, bytes(64)), (SLOT_DAMAGED, b"\x01" * 64),
                         (SLOT_NOT_STANDING, MODEL.entry(bytes(32), 64, 128)),
                         (SLOT_WRONG, MODEL.entry(bytes(32), 0, 128)), (SLOT_KEPT, kept)):
        yield from (audited(deal, {place: (state, entry)}) for place in places)
    yield audited(deal, {3: (SLOT_KEPT, kept), 4: (SLOT_OVERLAPPING, kept)})


def large():
    for group in (too_long, every_size, late_stray, at_index_start, large_areas, far_areas):
        yield from group()
    yield from far_slots(1 << 20, (0, 3, 4, 6), (4, 7))
    yield from far_slots(1 << 24, (0, 126), ())
