"""Audits (document 02, request (xi)): slots in every state; slots to which two states apply, or seem to; entries that
overlap, and others that do not; buffers of every length; faults in their order; deals that others have made, and our
own. Each call but those of the last two stands beside its code and, with 0, the states that are written.
tests/model_test.py judges that the model gives them."""
from itertools import product

from cases import node, strayed
from change_cases import changes, foreign_deal, overlapped
from edge_cases import NOT_STANDING
from house_cases import nodes, with_slot
from model import (SLOT_BLANK, SLOT_DAMAGED, SLOT_KEPT, SLOT_NOT_STANDING, SLOT_OVERLAPPING, SLOT_WRONG, area, filled,
                   index_numbers)
from operations import AUDIT, MODEL, Case
from refusal_cases import flipped
from vector_parts import own_entry, with_entries

# Offsets and sizes of two entries in 2,048 bytes whose areas overlap: one area twice; one in the other at its start, in
# its middle, at its end; one after the other's size, which is not all of its area.
OVERLAPPING = (((0, 128), (0, 128)), ((0, 256), (0, 128)), ((0, 512), (256, 128)), ((0, 256), (128, 1)),
               ((0, 257), (384, 128)), ((0, 513), (896, 100)))
# Of two whose areas lie beside each other, or apart.
APART = (((0, 128), (128, 128)), ((0, 100), (128, 1)), ((256, 129), (0, 256)), ((512, 257), (1024, 512)),
         ((0, 1), (1664, 128)))


def below_index(rng, d):
    """A deal of d bytes with nodes below its index, and blank slots."""
    start = index_numbers(d)[2]
    return nodes(rng, start // 32) + bytes(d - start)


def wrong_entry(rng, deal, offset, size):
    """An entry that stands there with another commitment."""
    return MODEL.entry(node(rng), offset, size)


def kept_entry(rng, deal, offset, size):
    return own_entry(deal, offset, size)


STANDING = {SLOT_KEPT: kept_entry, SLOT_WRONG: wrong_entry}


def audited(rng, states, deal, more=0):
    """The call with a buffer of so many bytes more than slots; these are the states of the first slots, all others are
    blank."""
    n = index_numbers(len(deal))[1]
    return 0, bytes(states) + bytes(n - len(states)), Case(AUDIT, deal, rng.randbytes(n + more))


def in_slots(rng, deal, *slots):
    """The same for states and entries in any slots, in this order."""
    states = bytearray(4)
    for i, (state, entry) in zip(sorted(rng.sample(range(4), len(slots))), slots):
        deal, states[i] = with_slot(deal, i, entry), state
    return audited(rng, states, deal, rng.choice((0, 1, 40)))


# ---- one slot, in every state


def damaged(rng, deal):
    """One bit of a blank slot set; a kept entry with one bit of each field flipped, without its checksum, and with one
    that is worked out over an old one."""
    for at in (0, 31, 32, 47, 48, 63):
        yield flipped(bytes(64), at, rng.randrange(6))
    entry = own_entry(deal, 128, 128)
    for at in (0, 31, 32, 40, 48, 63):
        yield flipped(entry, at, rng.randrange(6))
    yield entry[:48] + bytes(16)
    yield entry[:48] + MODEL.h.checksum(entry)


def not_standing(rng, deal):
    """Valid entries that do not stand by one rule alone, with any commitment and with that of the bytes there."""
    for offset, size in NOT_STANDING[len(deal)]:
        yield MODEL.entry(node(rng), offset, size)
        there = deal[offset : offset + area(size or 1)]
        if len(there) == area(size or 1):
            yield MODEL.entry(MODEL.tree(there)[-1][0], offset, size)


def wrong(rng, deal):
    """The commitment of other bytes than those of the area: of nothing, with one bit of the right one flipped, of half
    the area, of twice the area, of the one beside it, of the size's bytes and zeros where others follow."""
    commitment = lambda offset, size: own_entry(deal, offset, size)[:32]
    right, cut = commitment(256, 256), MODEL.tree(filled(deal[256:456]))[-1][0]
    for other in (node(rng), bytes(32), flipped(right, 0, 0), flipped(right, 31, 5), commitment(256, 128),
                  commitment(0, 512), commitment(512, 256), cut):
        yield MODEL.entry(other, 256, 200)


def kept(deal):
    """Areas of every size, at the deal's start and up to its index; sizes that are all of the area and not, with other
    bytes than zeros after them."""
    d, start = len(deal), index_numbers(len(deal))[2]
    for size in (1, 100, 128, 129, 130, 255, 256, 257, d // 2 - 1, d // 2):
        for offset in sorted({0, start // area(size) * area(size) - area(size)}):
            yield own_entry(deal, offset, size)


def forms(rng, deal):
    """The state of a slot where no other entry stands, and its 64 bytes."""
    yield SLOT_BLANK, bytes(64)
    for state, entries in ((SLOT_DAMAGED, damaged(rng, deal)), (SLOT_NOT_STANDING, not_standing(rng, deal)),
                           (SLOT_WRONG, wrong(rng, deal)), (SLOT_KEPT, kept(deal))):
        yield from ((state, entry) for entry in entries)


def one_slot(rng):
    """Each of them in any slot of 1,024 and 2,048 bytes. The all-zero segment is kept like any other."""
    for d in (1024, 2048):
        deal = below_index(rng, d)
        yield from (in_slots(rng, deal, slot) for slot in forms(rng, deal))
    yield audited(rng, [SLOT_KEPT], with_entries(bytes(512), own_entry(bytes(512), 0, 128)))


# ---- two slots, and more


def two_slots(rng):
    """Any two states, but for overlapping."""
    deal, of_state = below_index(rng, 2048), {}
    for state, entry in forms(rng, deal):
        of_state.setdefault(state, []).append(entry)
    for states in product(of_state, repeat=2):
        slots = []
        for state, offset in zip(states, (0, 512)):
            standing = STANDING.get(state)
            slots.append((state, standing(rng, deal, offset, 300) if standing else rng.choice(of_state[state])))
        yield in_slots(rng, deal, *slots)


def pairs(rng):
    """Two entries that overlap, and two that do not, in either order, kept or not. The one in the higher slot is
    overlapping whatever its commitment is; the one in the lower slot is what it is alone."""
    deal = below_index(rng, 2048)
    for rows, lower, higher in product((*OVERLAPPING, *APART), STANDING, STANDING):
        state = SLOT_OVERLAPPING if rows in OVERLAPPING else higher
        for first, second in (rows, rows[::-1]):
            entry = STANDING[lower](rng, deal, *first)
            yield in_slots(rng, deal, (lower, entry), (state, STANDING[higher](rng, deal, *second)))


def chains(rng):
    """More than two: a lower entry counts though it is overlapping itself, and though it is not kept; one that overlaps
    higher slots alone is what it is; one area in all slots."""
    deal = below_index(rng, 2048)
    for rows, overlapping in ((((0, 128), (0, 256), (128, 128)), (0, 1, 1)),  # the third overlaps the second alone
                              (((0, 256), (0, 128), (128, 128)), (0, 1, 1)),  # the third overlaps the first alone
                              (((0, 128), (128, 128), (0, 256)), (0, 0, 1)),  # the third overlaps both
                              (((512, 128), (640, 1), (0, 128), (512, 512)), (0, 0, 0, 1)),
                              (((0, 512), (512, 512), (256, 128), (896, 100)), (0, 0, 1, 1)),
                              (((0, 128), (256, 128), (256, 100), (0, 1)), (0, 0, 1, 1)),
                              (((0, 128),) * 4, (0, 1, 1, 1))):
        for kinds in product(STANDING, repeat=len(rows)):
            lent = with_entries(deal, *(STANDING[kind](rng, deal, *row) for kind, row in zip(kinds, rows)))
            yield audited(rng, [SLOT_OVERLAPPING if over else kind for over, kind in zip(overlapping, kinds)], lent)


def seeming(rng, deal):
    """Slots that do not stand, with their states: by another byte, size or offset their areas would have the deal's
    first bytes."""
    entry = own_entry(deal, 0, 256)
    yield SLOT_BLANK, bytes(64)
    yield from ((SLOT_DAMAGED, flipped(entry, at, 0)) for at in (0, 32, 40, 63))
    for offset, size in ((0, 0), (0, 1025), (64, 256), ((1 << 64) - 256, 512)):
        yield SLOT_NOT_STANDING, MODEL.entry(node(rng), offset, size)


def beside_others(rng):
    """Such a slot beside an entry that stands on these bytes, in either order, and between two: the entries do not
    overlap it, and it is what it is alone."""
    deal = below_index(rng, 2048)
    for other, standing in product(seeming(rng, deal), STANDING):
        entry = standing, STANDING[standing](rng, deal, 0, 300)
        yield in_slots(rng, deal, other, entry)
        yield in_slots(rng, deal, entry, other)
        yield in_slots(rng, deal, entry, other, (SLOT_OVERLAPPING, own_entry(deal, 0, 128)))


# ---- buffers, and faults in their order


def four_states(rng, d):
    """A deal whose first slots are kept, damaged, overlapping and wrong, and the states of all."""
    deal = below_index(rng, d)
    entry = own_entry(deal, 0, 128)
    lent = with_entries(deal, entry, flipped(entry, 0, 0), own_entry(deal, 0, 100), wrong_entry(rng, deal, 128, 128))
    states = bytes((SLOT_KEPT, SLOT_DAMAGED, SLOT_OVERLAPPING, SLOT_WRONG))
    return lent, states + bytes(index_numbers(d)[1] - 4)


def lengths(rng, deal, states):
    """A buffer with a byte for each slot, or more, is written in its first bytes; one with fewer, not at all."""
    n = len(states)
    for length in (0, 1, n - 1, n, n + 1, n + 40):
        case = Case(AUDIT, deal, rng.randbytes(length))
        yield (0, states, case) if length >= n else (12, b"", case)


def buffers(rng):
    for d in (512, 1024):
        yield from lengths(rng, *four_states(rng, d))


def faults(rng):
    """2 for the deal's size, 11 for either stray bit in any node, 12 for a short buffer: every choice of them."""
    deal, states = four_states(rng, 512)
    for size, at, length in product((512, 511, 480, 256, 0, 513, 576), (None, 31, 63, 255, 287, 511), (4, 3, 0, 5)):
        lent, stray = (deal + bytes(64))[:size], at is not None and at < size
        if stray:
            lent = strayed(lent, at, rng.choice((64, 128)))
        code = 2 if size != 512 else 11 if stray else 12 if length < 4 else 0
        yield code, b"" if code else states, Case(AUDIT, lent, rng.randbytes(length))


def judged(rng):
    """All of these, each beside its code and its states."""
    for group in (one_slot, two_slots, pairs, chains, beside_others, buffers, faults):
        yield from group(rng)


# ---- deals that are too long for the stored vectors, where an argument has 8,192 bytes at most


def long_deal(rng, d):
    """A deal of eight slots or more, and their states: in threes an area that is kept, one with a wrong entry, and the
    first one again; then a damaged slot, one that is valid alone, one over the first area and one over all of them."""
    deal, n = below_index(rng, d), index_numbers(d)[1]
    entries, states = [], [(SLOT_KEPT, SLOT_WRONG, SLOT_OVERLAPPING)[i % 3] for i in range(n - 4)]
    for i, state in enumerate(states):
        offset = 128 * (i - i % 3)
        other = wrong_entry(rng, deal, offset + 128, 128)
        entries.append(other if state == SLOT_WRONG else own_entry(deal, offset, 128))
    entries += [flipped(own_entry(deal, d // 2, 128), 0, 0), MODEL.entry(node(rng), d // 2, 0), own_entry(deal, 0, 100),
                own_entry(deal, 0, d // 4)]
    states += [SLOT_DAMAGED, SLOT_NOT_STANDING, SLOT_OVERLAPPING, SLOT_OVERLAPPING]
    return with_entries(deal, *entries), bytes(states)


def long_deals(rng, d):
    """Such a deal with buffers of every length, with one byte of its first segment changed, with stray bits, cut; then
    zeros."""
    deal, states = long_deal(rng, d)
    n = len(states)
    yield from lengths(rng, deal, states)
    yield audited(rng, bytes([SLOT_WRONG]) + states[1:], flipped(deal, 127, 0))
    for at in (31, d // 2 - 1, d - 1):
        yield 11, b"", Case(AUDIT, strayed(deal, at, 128), rng.randbytes(rng.choice((n, n - 1))))
    yield 2, b"", Case(AUDIT, deal[:-32], rng.randbytes(n))
    yield audited(rng, b"", bytes(d), 1)


def longest():
    """A deal has 2^24 bytes at most."""
    for d in ((1 << 24) + 32, 1 << 25):
        yield 2, b"", Case(AUDIT, bytes(d), bytes(d >> 17))


# ---- deals that others have made, and our own


def foreign(rng, count, deal_sizes=(512, 1024, 2048, 4096)):
    """Deals that others have made, and the same with two entries more that overlap, and without one of these."""
    for _ in range(count):
        data = foreign_deal(rng, rng.choice(deal_sizes))
        clash, places = overlapped(rng, data)
        for deal in (data, clash, MODEL.drop(clash, rng.choice(places))[1]):
            n = index_numbers(len(deal))[1]
            yield Case(AUDIT, deal, rng.randbytes(rng.choice((n, n, n + 1, n + 40, n - 1))))


def own_deals(rng, count, deal_sizes=(512, 1024, 2048, 4096), steps=20):
    """Deals that bookings, cancellations and collections of both houses have made, before each of them."""
    for _ in range(count):
        for case in changes(rng, rng.choice(deal_sizes), steps, plain_share=1):
            yield Case(AUDIT, case.a, rng.randbytes(index_numbers(len(case.a))[1]))


# ---- the stored vectors


def stored(rng):
    """The stored vectors' share: all buffers and faults, and some of the others."""
    for group in (buffers, faults):
        yield from (case for *_, case in group(rng))
    for group, count in ((one_slot, 60), (two_slots, 12), (pairs, 44), (chains, 40), (beside_others, 30)):
        yield from rng.sample([case for *_, case in group(rng)], count)
    yield from foreign(rng, 20, (512, 1024))
    yield from own_deals(rng, 3, (512, 1024), 8)
