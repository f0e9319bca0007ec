"""Calls of booking, cancelling and collecting (document 02, requests (vii), (viii) and (x)) in which one rule decides:
another reading of it gives another answer. Each stands beside the numbers that its answer starts with: the code, and
offset and place where a booking is answered with 0 or 15. tests/model_test.py judges that the model gives them."""
from cases import node, strayed
from house_cases import both_forms, nodes, with_slot
from model import filled, height, node_place
from operations import BOOK, BOOK_TREE, CANCEL, CANCEL_TREE, COLLECT, COLLECT_TREE, MODEL, Case
from refusal_cases import flipped

# Offset and size with which a valid entry does not stand in a deal of that many bytes, by one rule alone: the size; the
# offset's multiple (of the size, of 128 or of the size rounded up to 128 it is one); the end of the area (the deal's
# end, within the index, 2^64), also where the size ends before the index.
NOT_STANDING = {1024: ((0, 0), (64, 64), (64, 128), (128, 200), (512, 512), (768, 128), ((1 << 64) - 128, 128)),
                2048: ((384, 300), (1024, 600))}


def keeping(d, *rows):
    """A deal of d zeros but for these bytes at their offsets, the entry of each in the slot of its turn; the entry says
    another size where one is given. None leaves a slot blank."""
    deal = bytes(d)
    for i, row in enumerate(rows):
        if row:
            offset, data, *size = row
            whole = filled(data)
            deal = deal[:offset] + whole + deal[offset + len(whole):]
            deal = with_slot(deal, i, MODEL.entry(MODEL.tree(whole)[-1][0], offset, *(size or [len(data)])))
    return deal


def own_tree(deal):
    return MODEL.fill(deal, bytes(len(deal) - 32))[1]


def with_node(deal, offset, size, other):
    """The deal's tree with another node over these bytes."""
    at = node_place(len(deal), height(size), offset // size)
    tree = own_tree(deal)
    return tree[:at] + other + tree[at + 32:]


# ---- numbers and a call, without a tree and with one; the house is 1 where none is given


def both(numbers, case, tree):
    return [(numbers, each) for each in both_forms(case, tree)]


def booked(numbers, deal, segment, table, house=1):
    return both(numbers, Case(BOOK, deal, segment, y=house, d=table), own_tree(deal))


def cancelled(numbers, deal, place, table):
    return both(numbers, Case(CANCEL, deal, x=place, y=1, d=table), own_tree(deal))


def collected(rng, numbers, deal, table, second_table=None):
    d = len(deal)
    second_table = second_table or rng.randbytes(len(table))
    return both(numbers, Case(COLLECT, deal, rng.randbytes(d), d=table, e=second_table), rng.randbytes(d - 32))


def every_form(rng, numbers, deal, segment, place, table):
    """A segment booked, a place cancelled, the deal collected: all six forms, with the numbers of each of the three."""
    of_booking, of_cancelling, of_collecting = numbers
    yield from booked(of_booking, deal, segment, table)
    yield from cancelled(of_cancelling, deal, place, table)
    yield from collected(rng, of_collecting, deal, table)


# ---- what refuses every one of them


def deal_lengths(rng):
    """256 bytes are too few, and 576 and 1,536, multiples of 64 and of 512, are no powers of two."""
    for d in (256, 576, 1536):
        yield from every_form(rng, [(2,)] * 3, bytes(d), nodes(rng, 4), d - 256, bytes(4))


def tree_lengths(rng):
    """A tree of another length is refused where all else is sound: of none, of a node more or fewer, of a byte more or
    fewer."""
    deal, table = keeping(512, (0, nodes(rng, 4))), b"\1\0\0\0"
    for n in (0, 448, 479, 481, 512):
        made = Case(BOOK_TREE, deal, c=rng.randbytes(n), d=table)
        yield (12,), made._replace(b=nodes(rng, 4), y=1)
        yield (12,), made._replace(op=CANCEL_TREE, x=256, y=1)
        yield (12,), made._replace(op=COLLECT_TREE, b=rng.randbytes(512), e=rng.randbytes(4))


def second_lengths(rng):
    """A second deal of half the length or twice the length is refused, with a tree for the deal's length too."""
    deal = keeping(512, (0, nodes(rng, 4)))
    for n in (256, 1024):
        case = Case(COLLECT, deal, rng.randbytes(n), d=b"\1\0\0\0", e=rng.randbytes(4))
        yield from both((12,), case, rng.randbytes(480))


def stray_bits(rng):
    """Either stray bit alone is found by every form: in the first node and the second, in the last one below the index,
    in the first one of the index and the last one of all, which are in slots without an entry."""
    deal = keeping(512, None, (0, nodes(rng, 4)))
    for at in (31, 63, 255, 287, 511):
        for bit in (64, 128):
            yield from every_form(rng, [(11,)] * 3, strayed(deal, at, bit), nodes(rng, 4), 320, b"\0\1\0\0")


def stray_segments(rng):
    """Stray bits in the last whole node of a segment are found, also where the node is no second one of a pair."""
    for size in (96, 128):
        for bit in (64, 128):
            yield from booked((11,), bytes(512), strayed(nodes(rng, size // 32), size - 1, bit), bytes(4))


# ---- entries that do not stand


def not_standing(rng):
    """Two slots of the house hold an entry that does not stand: by one rule alone, or by one bit of its checksum. A
    booking takes the first slot and offset 0, as neither slot counts towards the quota and neither area is in use;
    there is nothing to cancel, and nothing is collected."""
    entries = [(d, MODEL.entry(node(rng), *row)) for d, rows in NOT_STANDING.items() for row in rows]
    entries += [(1024, flipped(MODEL.entry(node(rng), 0, 128), at, 0)) for at in (48, 63)]
    for d, entry in entries:
        deal, start = with_slot(with_slot(bytes(d), 0, entry), 1, entry), d - 256
        yield from every_form(rng, ((0, 0, start), (16,), (0,)), deal, nodes(rng, 4), start, b"\1\1\0\0")


# ---- 15


def lowest_slot(rng):
    """A house's segment is kept twice, by slot 0 at 128 and by slot 2 at 0: the lowest slot is answered, not the
    lowest offset."""
    segment = nodes(rng, 4)
    yield from booked((15, 128, 768), keeping(1024, (128, segment), None, (0, segment)), segment, b"\1\0\1\0")


def kept_by_the_tree(rng):
    """With a tree the node that stands there says whether an entry is kept, not the deal's bytes. Where the node is the
    entry's commitment and that of the bytes is another: 15, as the bytes are the segment's. Where it is the other way
    round: booked after it."""
    segment, other = nodes(rng, 4), node(rng)
    deal, table = keeping(512, (0, segment)), b"\1\0\0\0"
    not_kept = with_slot(deal, 0, MODEL.entry(other, 0, 128))
    yield (15, 0, 256), Case(BOOK_TREE, not_kept, segment, y=1, c=with_node(not_kept, 0, 128, other), d=table)
    yield (0, 128, 320), Case(BOOK_TREE, deal, segment, y=1, c=with_node(deal, 0, 128, other), d=table)


def compared_areas(rng):
    """An entry of 300 bytes is kept, and its whole area is compared with the segment and the zeros after it: no 15 if
    other bytes stand after the entry's size, nor if the segment's last byte differs in one bit."""
    whole = nodes(rng, 16)
    segment = whole[:300]
    yield from booked((0, 512, 1856), keeping(2048, (0, whole, 300)), segment, b"\1\0\0\0")
    yield from booked((0, 512, 1856), keeping(2048, (0, segment)), flipped(segment, 299, 0), b"\1\0\0\0")
    yield from booked((15, 0, 1792), keeping(2048, (0, segment)), segment, b"\1\0\0\0")


# ---- 22 and 14


def half_of_the_slots(rng):
    """Two entries of 100 bytes, with zeros after them or with other bytes, are half of four slots; one that stands and
    one that is valid and does not stand are not. Bytes of the table with a house's low two bits are nobody's."""
    pair = nodes(rng, 4), nodes(rng, 4)
    with_zeros = keeping(1024, *((128 * i, each[:100]) for i, each in enumerate(pair)))
    with_others = keeping(1024, *((128 * i, each, 100) for i, each in enumerate(pair)))
    for deal in (with_zeros, with_others):
        yield from booked((22,), deal, nodes(rng, 4), b"\1\1\0\0")
    for house, table in ((1, b"\5\x09\0\0"), (2, b"\6\x0a\0\0")):
        yield from booked((0, 256, 896), with_zeros, nodes(rng, 4), table, house)
    one_valid = with_slot(with_zeros, 1, MODEL.entry(node(rng), 0, 600))
    yield from booked((0, 128, 832), one_valid, nodes(rng, 4), b"\1\1\0\0")


def room_by_areas(rng):
    """A segment's whole area must be free and below the index: 300 bytes at 0 end before the entry at 384, and 600 at
    1,024 before the index at 1,792, and their areas do not. An area may end where the index starts."""
    yield from booked((14,), keeping(1024, (384, nodes(rng, 4))), nodes(rng, 10)[:300], b"\2\0\0\0")
    yield from booked((14,), keeping(2048, (0, nodes(rng, 32))), nodes(rng, 19)[:600], b"\2\0\0\0")
    yield from booked((0, 512, 832), keeping(1024, (0, nodes(rng, 16))), nodes(rng, 8), b"\2\0\0\0")


# ---- 6 and 20


def last_place(rng):
    """2^64 - 64 is no entry place, though the sum with 64 is 0 in 64 bits; all else is sound."""
    yield from cancelled((6,), keeping(512, (0, nodes(rng, 4))), (1 << 64) - 64, b"\1\0\0\0")


def overlaps(rng):
    """Two entries that overlap are found where one lies after the other's size and in its area; where another entry is
    between them, by slots or in the order of collection; and where both are the same."""
    first, second = nodes(rng, 10)[:300], nodes(rng, 4)
    yield from collected(rng, (20,), keeping(2048, (0, first), (384, second)), b"\1\1\0\0")
    for between in (second, nodes(rng, 8)):
        deal = keeping(2048, (0, nodes(rng, 8)), (512, between), (0, second))
        yield from collected(rng, (20,), deal, b"\1\2\1\0")
    yield from collected(rng, (20,), keeping(512, (0, second), (0, second)), b"\1\2\0\0")


# ---- the tree afterwards


def renewed_nodes(rng):
    """Every node over what is written is worked out anew, whatever stood there: where no byte changes, as zeros are
    written over zeros; and up to the root, where every node below it is already that of the deal afterwards, by a
    booking and by a cancellation."""
    yield (0, 0, 256), Case(BOOK_TREE, bytes(512), bytes(128), y=1, c=rng.randbytes(480), d=bytes(4))
    segment = nodes(rng, 4)
    deal = keeping(512, (0, segment))
    but_the_root = lambda after: own_tree(after)[:-32] + node(rng)
    yield (0, 0, 256), Case(BOOK_TREE, bytes(512), segment, y=1, c=but_the_root(deal), d=bytes(4))
    without = with_slot(deal, 0, bytes(64))
    yield (0,), Case(CANCEL_TREE, deal, x=256, y=1, c=but_the_root(without), d=b"\1\0\0\0")


def judged(rng):
    """All of these, each beside the numbers that its answer starts with."""
    for group in (deal_lengths, tree_lengths, second_lengths, stray_bits, stray_segments, not_standing, lowest_slot,
                  kept_by_the_tree, compared_areas, half_of_the_slots, room_by_areas, last_place, overlaps,
                  renewed_nodes):
        yield from group(rng)


def stored(rng):
    return (case for _, case in judged(rng))


# ---- deals that are too long for the stored vectors, where an argument has 8,192 bytes at most


def eight_slots(rng):
    """2^20 bytes have eight slots: a house that holds three of them books, one that holds four does not. Tables have
    eight bytes, not four or sixteen, the first and the second. The third slot is cancelled, and all are collected."""
    d = 1 << 20
    start, table = d - 512, b"\1\1\1" + bytes(5)
    rows = [(128 * i, nodes(rng, 4)) for i in range(4)]
    three, four = keeping(d, *rows[:3]), keeping(d, *rows)
    yield from every_form(rng, ((0, 384, start + 192), (0,), (0,)), three, nodes(rng, 4), start + 128, table)
    yield from booked((22,), four, nodes(rng, 4), b"\1\1\1\1" + bytes(4))
    for other in (b"\1\1\1\0", b"\1\1\1" + bytes(13)):
        yield from every_form(rng, [(23,)] * 3, three, nodes(rng, 4), start + 128, other)
        yield from collected(rng, (23,), three, table, other)
        yield from collected(rng, (23,), three, other, table)


def longest_deals():
    """A deal has 2^24 bytes at most: in one of zeros there is nothing to cancel, and one of 2^25 is refused."""
    for d, code in ((1 << 24, 16), (1 << 25, 2)):
        case = Case(CANCEL, bytes(d), x=d - 64, y=1, d=bytes(d >> 17))
        yield from both((code,), case, bytes(d - 32))
    yield from both((2,), case._replace(op=BOOK, b=bytes(128), x=0), bytes(d - 32))


def long_deals(rng):
    return (case for _, case in (*eight_slots(rng), *longest_deals()))
