"""Calls of the forms that take a tree (document 02, request (vii)): refusals in their order, a tree kept over bookings,
and trees that stand beside another deal than the one they were filled for."""
from itertools import product

from cases import deal, deal_number, place, run, segment_size, spoil, standing_places, strayed
from model import area, index_numbers, owners
from operations import BOOK_TREE, BUILD_TREE, FILL, MODEL, ROW, SETTLE_TREE, Case


def orders(rng):
    """Every choice of faults in deal, tree, segment, place, output and record at once: the first in the order
    decides."""
    whole = bytes(512)
    for size in (128, 100):
        whole = MODEL.put(whole, run(rng, size))[3]
    number = deal_number(rng)
    own, record = MODEL.fill(whole, bytes(480))[1], MODEL.build(whole, number, 256)[1]
    stray = strayed(whole, 31, 64)
    fresh = run(rng, 96)
    segments = (fresh, whole[:128], whole[128:228], b"", bytes(257), strayed(fresh, 63, 128))
    for data, tree in product((whole, stray, whole[:500], stray[:511], bytes(512)), (own, own[:-1], own + b"\0", b"")):
        yield FILL, data, b"", 0, 0, tree
        # of the second slot: one house has half of the slots, or each a quarter
        for segment, owner in product(segments, (1, 2)):
            yield Case(BOOK_TREE, data, segment, y=1, c=tree, d=bytes([1, owner, 0, 0]))
        for p, n in product((256, 300, 384), (245, 244)):
            yield BUILD_TREE, data, rng.randbytes(n), p, number, tree
        for r in (record, record[:-1], spoil(rng, record), b""):
            yield SETTLE_TREE, data, r, 0, number, tree


def rows(rng):
    """Every row of the tree of a deal from the one below it, whole and in parts, over a row that holds other bytes."""
    for d in (512, 2048, 4096):
        below = run(rng, d)
        while len(below) > 32:
            n = len(below) // 64
            for first, count in sorted({(0, n), (0, n // 2), (n // 2, n - n // 2), (n // 3, n // 5)}):
                yield ROW, below[64 * first : 64 * (first + count)], rng.randbytes(32 * count), 0, 0
            below = MODEL.row(below, bytes(32 * n))[1]


def looked_at(rng, data, tree):
    """A record built with the tree, and it and the one without settled with the tree."""
    places = standing_places(data)
    p = rng.choice(places) if places and rng.randrange(8) else place(rng, len(data))
    number = deal_number(rng)
    yield BUILD_TREE, data, rng.randbytes(2000), p, number, tree
    for record in sorted({MODEL.build(data, number, p)[1], MODEL.build(data, number, p, tree)[1]}):
        yield SETTLE_TREE, data, record, 0, number, tree


def kept_tree(rng, d, sizes, mixed):
    """A deal, of zeros or of old bytes, with its tree: filled, and kept over bookings of these sizes by either house,
    each followed by the same segment again. Where plain bookings are mixed in, the tree is stale from there on."""
    start = index_numbers(d)[2]
    data = rng.choice((bytes(start), run(rng, start))) + bytes(d - start)
    old = rng.randbytes(d - 32)
    yield FILL, data, b"", 0, 0, old
    tree, table = MODEL.fill(data, old)[1], owners(data, 0)
    for size in sizes:
        house, segment = rng.choice((1, 2)), run(rng, size)
        if mixed and not rng.randrange(3):
            *_, data, table = MODEL.book(data, table, house, segment)
        for _ in range(2):
            yield Case(BOOK_TREE, data, segment, y=house, c=tree, d=table)
            *_, data, tree, table = MODEL.book_with_tree(data, tree, table, house, segment)
        yield from looked_at(rng, data, tree)


def runs(rng, count, deal_sizes=(512, 1024, 4096, 1 << 14)):
    """Deals with a tree kept over bookings until no room is left, and with plain bookings mixed in."""
    for i in range(count):
        d = rng.choice(deal_sizes)
        yield from kept_tree(rng, d, [segment_size(rng, d) for _ in range(6)], mixed=i % 2 == 1)


def changed_deals(rng, count):
    """Deals changed behind their trees, with a record from before: another entry at its place, a damaged one, none;
    another byte in its segment, or elsewhere."""
    for _ in range(count):
        data = deal(rng, (512, 1024, 4096))
        code, tree = MODEL.fill(data, bytes(len(data) - 32))
        places = standing_places(data)
        if code or not places:
            continue
        p = rng.choice(places)
        _, _, c, o, s = MODEL.read_entry(data[p : p + 64])
        number = deal_number(rng)
        record = MODEL.build(data, number, p)[1]
        other = MODEL.entry(c, o, max(1, s - 1) if rng.randrange(2) else area(s))
        for at, part in ((p, other), (p, bytes(64)), (p, strayed(data[p : p + 64], 50, 1)), (o, bytes(32)),
                         (rng.randrange(16) * 32, bytes(32))):
            changed = data[:at] + part + data[at + len(part):]
            yield SETTLE_TREE, changed, record, 0, number, tree
            yield BUILD_TREE, changed, rng.randbytes(2000), p, number, tree
            yield Case(BOOK_TREE, changed, data[o : o + s], y=2, c=tree, d=owners(data, rng.choice((1, 2))))
