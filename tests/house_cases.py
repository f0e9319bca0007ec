"""Calls of two houses in one deal (document 02, request (x)): the refusals in their order, houses and tables that are
none, quotas, what a house sees of its own entries, the other's and nobody's, bytes of tables that are collected, and
deals that differ in the other's segments alone. What these calls show is judged in tests/model_test.py."""
from itertools import combinations, product
from typing import Callable, NamedTuple

from cases import node, run, segment_size, strayed
from change_cases import Held, foreign_deal, no_standing_entry
from model import area, height, index_numbers, node_place
from operations import BOOK, BOOK_TREE, CANCEL, CANCEL_TREE, COLLECT, COLLECT_TREE, MODEL, PLAIN_FORM, Case

NO_HOUSES = 0, 3, 4, 127, 128, 129, 130, 254, 255
BYTES = 0, 1, 2, 3, 7, 127, 128, 129, 130, 254, 255  # of a table


def nodes(rng, count):
    return b"".join(node(rng) for _ in range(count))


def with_slot(deal, i, entry):
    """The deal with other bytes in a slot."""
    p = index_numbers(len(deal))[2] + 64 * i
    return deal[:p] + entry + deal[p + 64:]


def both_forms(case, tree):
    """A call without a tree, and with this one."""
    with_tree = {plain: op for op, plain in PLAIN_FORM.items()}
    return case, case._replace(op=with_tree[case.op], c=tree)


# ---- the order of the refusals


class Fault(NamedTuple):
    """What refuses a call with a code, and the same call with it."""
    code: int
    put_in: Callable


def cut(name):
    return lambda case: case._replace(**{name: getattr(case, name)[:-1]})


def filled_slots(case):
    """No slot is left without a standing entry."""
    for i in range(4):
        if not MODEL.standing(case.a, i):
            case = case._replace(a=with_slot(case.a, i, MODEL.entry(bytes(32), 640, 128)))
    return case


def filled_room(case):
    """Every byte below the index is in a standing entry's area; the first slot's entry is as it was."""
    deal = with_slot(case.a, 1, MODEL.entry(bytes(32), 0, 512))
    return case._replace(a=with_slot(deal, 2, MODEL.entry(bytes(32), 512, 256)))


HOUSE = Fault(23, lambda case: case._replace(y=3))
SIZE = Fault(2, cut("a"))
TABLE = Fault(23, cut("d"))
STRAY = Fault(11, lambda case: case._replace(a=strayed(case.a, 767, 64)))
TREE = Fault(12, cut("c"))
SEGMENT = Fault(4, lambda case: case._replace(b=b""))
KEPT = Fault(15, lambda case: case._replace(b=case.a[:128]))
QUOTA = Fault(22, lambda case: case._replace(d=b"\1\1" + case.d[2:]))
NO_SLOT = Fault(13, filled_slots)
NO_PLACE = Fault(14, filled_room)
PLACE = Fault(6, lambda case: case._replace(x=case.x + 32))
NOT_OWN = Fault(16, lambda case: case._replace(d=b"\2" + case.d[1:]))
SECOND_TABLE = Fault(23, cut("e"))
SECOND = Fault(12, cut("b"))
OVERLAP = Fault(20, lambda case: case._replace(a=with_slot(case.a, 3, MODEL.entry(bytes(32), 0, 256))))

# The faults of each operation in their order; TREE is left out where no tree is lent.
FAULTS = {
    BOOK_TREE: (HOUSE, SIZE, TABLE, SEGMENT, STRAY, TREE, KEPT, QUOTA, NO_SLOT, NO_PLACE),
    CANCEL_TREE: (HOUSE, SIZE, TABLE, STRAY, TREE, PLACE, NOT_OWN),
    COLLECT_TREE: (SIZE, TABLE, SECOND_TABLE, SECOND, STRAY, TREE, OVERLAP),
}


def sound(rng):
    """A call of each changing operation that is answered with 0: the first slot of 1,024 bytes is house 1's, the second
    one house 2's."""
    deal = bytes(1024)
    for _ in range(2):
        deal = MODEL.put(deal, nodes(rng, 4))[3]
    case = Case(BOOK_TREE, deal, nodes(rng, 3), y=1, c=MODEL.fill(deal, bytes(992))[1], d=b"\1\2\7\0")
    yield case
    yield case._replace(op=CANCEL_TREE, b=b"", x=768)
    yield case._replace(op=COLLECT_TREE, b=rng.randbytes(1024), y=0, e=rng.randbytes(4))


def faulty(rng):
    """Codes in their order and a call: without a fault, with each fault alone, with every two, the later one put in
    first. Of an empty segment and a kept one the empty one is lent."""
    for case in sound(rng):
        for op in (case.op, PLAIN_FORM[case.op]):
            faults = [fault for fault in FAULTS[case.op] if fault is not TREE or op == case.op]
            made = case if op == case.op else case._replace(op=op, c=b"")
            for chosen in ((), *((fault,) for fault in faults), *combinations(faults, 2)):
                lent = made
                for fault in reversed(chosen):
                    lent = fault.put_in(lent)
                yield [fault.code for fault in chosen], lent


def orders(rng):
    return (case for _, case in faulty(rng))


# ---- houses and tables that are none


def lengths(rng, deal_sizes=(512, 1024, 4096)):
    """Tables of every other length that is near, of those of other deals, and of that of the deal; every byte for a
    house."""
    for d in deal_sizes:
        deal = MODEL.put(bytes(d), run(rng, 128))[3]
        n, tree = index_numbers(d)[1], MODEL.fill(deal, bytes(d - 32))[1]
        p = index_numbers(d)[2]
        for length in sorted({*range(n + 4), 2 * n - 1, 2 * n, 127, 128, 129, 256, d - 32, d}):
            table, other = b"\1" * length, rng.randbytes(length)
            yield from both_forms(Case(BOOK, deal, run(rng, 100), y=2, d=table), tree)
            yield from both_forms(Case(CANCEL, deal, x=p, y=1, d=table), tree)
            for first, second in ((table, other), (table[:n] or b"\1", other), (table, rng.randbytes(n))):
                yield from both_forms(Case(COLLECT, deal, rng.randbytes(d), d=first, e=second), rng.randbytes(d - 32))
    yield from houses(rng, range(256))


def houses(rng, numbers):
    deal = MODEL.put(bytes(512), run(rng, 128))[3]
    tree = MODEL.fill(deal, bytes(480))[1]
    for house in numbers:
        yield from both_forms(Case(BOOK, deal, run(rng, 100), y=house, d=b"\1\0\0\0"), tree)
        yield from both_forms(Case(CANCEL, deal, x=256, y=house, d=bytes([house]) * 4), tree)
        yield Case(BOOK, deal[:500], b"", y=house, d=b"")
        yield Case(CANCEL, deal[:500], x=300, y=house, d=b"")


# ---- quotas


def standing_at(rng, i, kept):
    """A standing entry for slot i, of 128 zeros at an offset of their own; kept or not."""
    return MODEL.entry(MODEL.tree(bytes(128))[-1][0] if kept else node(rng), 128 * i, 128)


def slots(rng, d, standing):
    """A deal of zeros whose slots have an entry that stands, kept or not, or are blank, damaged or valid."""
    _, n, start = index_numbers(d)
    form = lambda i: standing_at(rng, i, rng.randrange(2)) if standing[i] else no_standing_entry(rng)
    return bytes(start) + b"".join(map(form, range(n)))


def quotas(rng, share=1):
    """Every choice of slots with a standing entry, and of owners, in 1,024 bytes; then eight slots of 2^20 bytes with
    one slot fewer than half, half and one more."""
    for standing, table in product(product((False, True), repeat=4), product((1, 2), repeat=4)):
        if rng.random() < share:
            deal = slots(rng, 1024, standing)
            yield from (Case(BOOK, deal, nodes(rng, 1), y=house, d=bytes(table)) for house in (1, 2))
    if share == 1:
        for count in (3, 4, 5):
            standing = rng.sample([True] * count + [False] * (8 - count), 8)
            table = bytes(1 if stands else rng.choice((1, 2)) for stands in standing)
            yield Case(BOOK, slots(rng, 1 << 20, standing), nodes(rng, 1), y=1, d=table)


def half(rng):
    """A house at half of the slots and one below it, by entries that are kept and that are not, with a byte of the
    house at each free slot; its own segments are 15 before 22, and room and slots are looked at after it."""
    for count, kept in product(range(5), (True, False)):
        deal = bytes(768) + b"".join(standing_at(rng, i, kept) if i < count else bytes(64) for i in range(4))
        tree = MODEL.fill(deal, bytes(992))[1]
        for segment in (nodes(rng, 4), bytes(128), nodes(rng, 16)):
            yield from both_forms(Case(BOOK, deal, segment, y=2, d=b"\2\2\2\2"), tree)
            yield from both_forms(Case(BOOK, deal, segment, y=1, d=b"\2\2\2\2"), tree)


def nobodys(rng):
    """Entries of nobody in all slots, which no house holds: 13; in all but one, where a house books: 0, and then 13."""
    deal = slots(rng, 1024, (True,) * 4)
    for byte in BYTES:
        yield Case(BOOK, deal, nodes(rng, 4), y=1, d=bytes([byte]) * 4)
        yield Case(BOOK, deal, nodes(rng, 4), y=2, d=bytes([byte]) * 4)
    held = Held(rng, with_slot(deal, 2, bytes(64)), b"")
    for house in (2, 2, 1):
        yield held.book(house, nodes(rng, 4), plain=True)


# ---- one's own entries, the other's and nobody's


def own_entries(rng, values=range(256)):
    """A segment that is kept, or stands and is not kept, with every byte for its slot: booked again and cancelled by
    both houses. Then runs."""
    for byte in values:
        segment = nodes(rng, 4)
        deal = MODEL.put(bytes(512), segment)[3]
        if byte % 4 == 3:
            deal = with_slot(deal, 0, MODEL.entry(node(rng), 0, 128))
        tree = MODEL.fill(deal, bytes(480))[1]
        table = bytes([byte, 1, 2, 7])
        for house in (1, 2):
            yield from both_forms(Case(BOOK, deal, segment, y=house, d=table), tree)
            yield from both_forms(Case(CANCEL, deal, x=256, y=house, d=table), tree)
    yield from same_segment(rng)
    yield from lowest_own(rng)
    yield from nobodys(rng)
    yield from half(rng)


def same_segment(rng):
    """Both houses book one segment, book it again, cancel each other's and their own, and book it once more."""
    for d, plain in product((512, 2048), (True, False)):
        held = Held(rng, bytes(d), MODEL.fill(bytes(d), bytes(d - 32))[1])
        segment, start = nodes(rng, 4), index_numbers(d)[2]
        for house in (1, 2, 1, 2):
            yield held.book(house, segment, plain)
        for house, i in ((2, 0), (1, 1), (1, 2), (1, 0), (1, 0), (2, 0)):
            yield held.cancel(house, start + 64 * i, plain)
        for house in (2, 1, 1):
            yield held.book(house, segment, plain)
        yield held.collect(plain)
        for house in (1, 2):
            yield held.book(house, segment, plain)


def lowest_own(rng):
    """Four slots that keep one segment: its house's lowest one is answered, whoever owns the lower ones; and with a
    tree in which the lowest one's area has another node, the next."""
    segment = nodes(rng, 4)
    deal = bytes(1024)
    for _ in range(4):
        deal = MODEL.put(deal, segment)[3]
    own, at = MODEL.fill(deal, bytes(992))[1], node_place(1024, height(128), 0)
    for table in product((1, 2), repeat=4):
        plain, with_tree = both_forms(Case(BOOK, deal, segment, y=1, d=bytes(table)), own)
        yield from (plain, with_tree, with_tree._replace(c=own[:at] + node(rng) + own[at + 32:]))


# ---- collection


def collections(rng, values=range(256)):
    """Bytes of the table for entries that move, whatever they are, and those of other slots, which do not: into a
    second table that holds any bytes."""
    deals = [foreign_deal(rng, 1024) for _ in range(16)]
    for byte in values:
        deal = rng.choice(deals)
        for table in (bytes([byte]) * 4, bytes(rng.choice((byte, *BYTES)) for _ in range(4))):
            case = Case(COLLECT, deal, rng.randbytes(1024), d=table, e=rng.randbytes(4))
            yield from both_forms(case, rng.randbytes(992))
    for d in (512, 4096):
        deal = bytes(d)
        for size in (100, 130):
            deal = MODEL.put(deal, run(rng, size))[3]
        for table in product((0, 1, 2, 7, 255), repeat=2):
            yield Case(COLLECT, deal, bytes(d), d=bytes(table) + b"\1\2", e=b"\xff" * 4)


# ---- what does not hang on the other's segments


def other_segments(rng, deal, table, house):
    """The deal with other bytes and other commitments in the segments that are not the house's: the same slots stand,
    with the same sizes and offsets. Some entries are kept, some not."""
    for i, owner in enumerate(table):
        row = MODEL.standing(deal, i)
        if row and owner != house:
            _, o, s = row
            data = nodes(rng, area(s) // 32)
            deal = deal[:o] + data + deal[o + len(data):]
            c = MODEL.tree(data)[-1][0] if rng.randrange(3) else node(rng)
            deal = with_slot(deal, i, MODEL.entry(c, o, s))
    return deal


def asked(rng, house, table, twins):
    """The same bookings and cancellations in each of these deals, with its own tree in hand and without: segments of
    the first deal and the last one, at every standing entry and others; every place, and some that are none."""
    d = len(twins[0])
    _, n, start = index_numbers(d)
    rows = [(deal, MODEL.standing(deal, i)) for deal in twins for i in range(n)]
    segments = {deal[row[1] : row[1] + row[2]] for deal, row in rows if row}
    for segment in (*sorted(segments), nodes(rng, 4), run(rng, segment_size(rng, d)), b""):
        yield [Case(BOOK, deal, segment, y=house, d=table) for deal in twins]
    for p in (*range(start, d, 64), start + 32, 0):
        yield [Case(CANCEL, deal, x=p, y=house, d=table) for deal in twins]


def with_trees(calls):
    """The same calls with each deal's own tree in hand."""
    return [both_forms(case, MODEL.fill(case.a, bytes(len(case.a) - 32))[1])[1] for case in calls]


def twin_calls(rng, count, deal_sizes=(512, 1024, 2048)):
    """Calls in twos: of two deals without overlaps that differ in segments which are not the house's."""
    for _ in range(count):
        deal = foreign_deal(rng, rng.choice(deal_sizes))
        table, house = bytes(rng.choices((1, 2, 2, 7), k=4)), rng.choice((1, 2))
        for calls in asked(rng, house, table, (deal, other_segments(rng, deal, table, house))):
            yield calls
            yield with_trees(calls)


def overlapped_twins(rng):
    """House 1's entry of 128 bytes at 0, which is kept, lies in the other's of 256. Another byte there changes the
    other's segment, and house 1's with it: it is kept in one deal and not in the other."""
    segment = nodes(rng, 4)
    first = (segment + bytes(640) + MODEL.entry(MODEL.tree(segment)[-1][0], 0, 128)
             + MODEL.entry(node(rng), 0, 256) + bytes(128))
    twins = first, bytes([first[0] ^ 1]) + first[1:]
    calls = [Case(BOOK, deal, segment, y=1, d=b"\1\2\0\0") for deal in twins]
    yield calls
    yield with_trees(calls)


def isolations(rng, count):
    for calls in twin_calls(rng, count):
        yield from calls
    for calls in overlapped_twins(rng):
        yield from calls


# ---- the stored vectors


def stored(rng):
    """The stored vectors' share: all refusals in their order; tables and houses at the edges; some of the others."""
    some = lambda calls, count: rng.sample(list(calls), count)
    yield from orders(rng)
    yield from some(lengths(rng, (512,)), 80)
    yield from houses(rng, (1, 2, *NO_HOUSES))
    yield from quotas(rng, 1 / 6)
    yield from own_entries(rng, BYTES)
    yield from some(collections(rng, BYTES), 60)
    yield from isolations(rng, 3)
