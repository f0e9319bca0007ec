"""Calls of cancelling and collecting (document 02, request (viii)), with a tree in hand and without: refusals in their
order, runs in which each call gets what the one before left, and deals that others have made. Both houses change one
deal; what is about houses and tables alone is in house_cases.py."""
from cases import entry_place, house, node, run, second_deal, second_table, segment_size, strayed, table, tree
from model import area, index_numbers, owners
from operations import BOOK, BOOK_TREE, CANCEL, CANCEL_TREE, COLLECT, COLLECT_TREE, MODEL, Case
from tree_cases import looked_at


def orders(rng):
    """Every choice of faults in deal, second deal, tree and place at once: the first in the order decides."""
    whole = bytes(512)
    for size in (128, 100):
        whole = MODEL.put(whole, run(rng, size))[3]
    whole = whole[:384] + MODEL.entry(node(rng), 256, 128) + whole[448:]  # valid, and does not stand
    clash = whole[:448] + MODEL.entry(node(rng), 0, 129)
    stray = strayed(whole, 31, 64)
    deals = (whole, clash, stray, strayed(clash, 255, 128), whole[:500], stray[:511], clash[:256], b"")
    own = MODEL.fill(whole, bytes(480))[1]
    trees = (own, own[:-1], own + b"\0", own[:1], b"")
    for data in deals:
        for p in (256, 384, 448, 300, 192, 512, 256 + (1 << 32), (1 << 64) - 64):
            made = Case(CANCEL, data, x=p, y=2, d=b"\2\2\2\2")
            yield made
            for lent in trees:
                yield made._replace(op=CANCEL_TREE, c=lent)
        for n in (512, 511, 513, 500, 256, 1, 0):
            made = Case(COLLECT, data, rng.randbytes(n), d=rng.randbytes(4), e=rng.randbytes(4))
            yield made
            for lent in trees:
                yield made._replace(op=COLLECT_TREE, c=lent)


def overlaps(rng):
    """Two entries in 2,048 bytes, in either order: one area in the other, beside each other, apart."""
    for first, other in (((0, 128), (0, 128)), ((0, 256), (128, 128)), ((128, 1), (0, 129)), ((0, 257), (384, 128)),
                         ((0, 128), (128, 128)), ((0, 100), (256, 256)), ((512, 257), (256, 256))):
        for rows in ((first, other), (other, first)):
            slots = b"".join(MODEL.entry(node(rng), *row) for row in rows)
            deal = run(rng, 1792) + bytes(128) + slots
            yield Case(COLLECT, deal, bytes(2048), d=rng.randbytes(4), e=rng.randbytes(4))


def one_rule(rng):
    """An entry in 2,048 bytes that stands, or does not by one rule alone: the size, the offset's multiple, the end of
    its area; places beside it and between slots; lengths that are no power of two."""
    for row in ((1024, 512), (0, 1024), (0, 0), (0, 1025), (128, 256), (640, 300), (1024, 513), (1024, 768),
                (1664, 129)):
        deal = run(rng, 1792) + bytes(192) + MODEL.entry(node(rng), *row)
        lent = rng.randbytes(2016)
        owned = bytes([rng.choice((1, 2))]) * 4
        for p in (1984, 1920, 1985, 2016, 1728):
            yield Case(CANCEL, deal, x=p, y=owned[0], d=owned)
            yield Case(CANCEL_TREE, deal, x=p, y=owned[0], d=owned, c=lent)
        made = Case(COLLECT, deal, rng.randbytes(2048), d=rng.randbytes(4), e=rng.randbytes(4))
        yield made
        yield made._replace(op=COLLECT_TREE, c=lent)
        for n in (1536, 1984):
            yield Case(CANCEL, deal[2048 - n :], x=n - 64, y=owned[0], d=owned)
            yield Case(COLLECT, deal[2048 - n :], bytes(n), d=owned, e=owned)


class Held:
    """A deal with its tree and its table, and the buffers that it is collected into: a second deal with its tree and
    its table. Each call takes what the one before left; a plain one does without the trees."""

    def __init__(self, rng, deal, tree):
        self.deal, self.tree, self.table = deal, tree, owners(deal, 0)
        n = len(deal)
        self.second = rng.choice((bytes(n), rng.randbytes(n)))
        self.second_tree, self.second_table = rng.randbytes(n - 32), rng.randbytes(len(self.table))

    def book(self, house, segment, plain):
        if plain:
            made = Case(BOOK, self.deal, segment, y=house, d=self.table)
            *_, self.deal, self.table = MODEL.book(self.deal, self.table, house, segment)
        else:
            made = Case(BOOK_TREE, self.deal, segment, y=house, c=self.tree, d=self.table)
            *_, self.deal, self.tree, self.table = MODEL.book_with_tree(
                self.deal, self.tree, self.table, house, segment)
        return made

    def cancel(self, house, place, plain):
        if plain:
            made = Case(CANCEL, self.deal, x=place, y=house, d=self.table)
            _, self.deal, self.table = MODEL.cancel(self.deal, self.table, house, place)
        else:
            made = Case(CANCEL_TREE, self.deal, x=place, y=house, c=self.tree, d=self.table)
            _, self.deal, self.tree, self.table = MODEL.cancel_with_tree(self.deal, self.tree, self.table, house, place)
        return made

    def collect(self, plain):
        """After a collection answered 0 the second deal and its table go on, and the old ones are the buffers for the
        next."""
        made = Case(COLLECT, self.deal, self.second, d=self.table, e=self.second_table)
        if plain:
            code, new, table = MODEL.collect(self.deal, self.table, self.second, self.second_table)
        else:
            made = made._replace(op=COLLECT_TREE, c=self.second_tree)
            code, new, tree, table = MODEL.collect_with_tree(self.deal, self.table, self.second, self.second_tree,
                                                             self.second_table)
            if code == 0:
                self.tree, self.second_tree = tree, self.tree
        if code == 0:
            self.deal, self.second = new, self.deal
            self.table, self.second_table = table, self.table
        return made


def owner_of(rng, held, place):
    """The house that a place's slot is of, mostly; else any."""
    d = len(held.deal)
    i = (place - index_numbers(d)[2]) // 64
    owner = held.table[i] if 0 <= i < len(held.table) else 0
    return owner if owner in (1, 2) and rng.randrange(4) else house(rng)


def changes(rng, d, steps, plain_share):
    """A run of bookings, cancellations and collections by both houses over zeros or old bytes, this share of them
    plain. Some segments come again. The tree is filled at the start, and stale from the first plain call on."""
    start = index_numbers(d)[2]
    deal = rng.choice((bytes(start), run(rng, start))) + bytes(d - start)
    held = Held(rng, deal, MODEL.fill(deal, bytes(d - 32))[1])
    segments = [run(rng, segment_size(rng, d)) for _ in range(6)]
    for _ in range(steps):
        plain = rng.random() < plain_share
        kind = rng.randrange(8)
        if kind < 4:
            yield held.book(house(rng), rng.choice(segments), plain)
        elif kind < 7:
            p = entry_place(rng, held.deal)
            yield held.cancel(owner_of(rng, held, p), p, plain)
        else:
            yield held.collect(plain)
        if plain_share < 1 and not rng.randrange(4):
            yield from looked_at(rng, held.deal, held.tree)
    yield held.collect(plain=plain_share == 1)


def runs(rng, count, deal_sizes=(512, 1024, 2048, 4096, 1 << 14), steps=20):
    """Runs without a tree, with one that is kept, and with one that goes stale."""
    for i in range(count):
        yield from changes(rng, rng.choice(deal_sizes), steps, plain_share=(1, 0, 1 / 4)[i % 3])


def free_offset(rng, start, a, used):
    """An offset for an area that overlaps none of these (offset, area), if a few tries find one."""
    for _ in range(20):
        o = a * rng.randrange(start // a)
        if all(o + a <= first or first + taken <= o for first, taken in used):
            return o
    return None


def no_standing_entry(rng):
    """The bytes of a slot without a standing entry: blank, damaged, valid."""
    numbers = (0, 0), (64, 128), (1 << 40, 128), ((1 << 64) - 128, 128), (0, 1 << 60)
    valid = MODEL.entry(node(rng), *rng.choice(numbers))
    damaged = bytearray(MODEL.entry(node(rng), 0, 128))
    damaged[rng.choice((0, 32, 40, 48, 63))] ^= 1 << rng.randrange(6)
    return rng.choice((bytes(64), bytes(64), bytes(damaged), run(rng, 64), valid))


def foreign_deal(rng, d):
    """A deal that others have made: areas anywhere that do not overlap, their entries in any slots, some of them not
    kept, with any bytes after the size; no standing entry in the other slots."""
    _, n, start = index_numbers(d)
    data, used = run(rng, start), []
    slots = [no_standing_entry(rng) for _ in range(n)]
    for i in rng.sample(range(n), rng.choice((n, n, rng.randrange(n + 1)))):
        s = min(segment_size(rng, d), 1 << 16)
        a = area(s)
        o = free_offset(rng, start, a, used)
        if o is not None:
            used.append((o, a))
            own = MODEL.tree(data[o : o + a])[-1][0]
            slots[i] = MODEL.entry(own if rng.randrange(3) else node(rng), o, s)
    return data + b"".join(slots)


def overlapped(rng, data):
    """The deal with two more entries in any slots, and their places. One area lies in the other: at its start, or at
    its end, where the other's size may be over."""
    d, start = len(data), index_numbers(len(data))[2]
    a = rng.choice([a for a in (256, 512, 1024) if a <= d // 2])
    o = a * rng.randrange(start // a)
    rows = (o, rng.choice((a // 2 + 1, a // 2 + 1, a))), (rng.choice((o, o + a - 128)), rng.choice((1, 128)))
    places = rng.sample(range(start, d, 64), 2)
    out = bytearray(data)
    for p, row in zip(places, rows):
        out[p : p + 64] = MODEL.entry(node(rng), *row)
    return bytes(out), places


def foreign_deals(rng, count, deal_sizes=(512, 1024, 2048, 4096)):
    """Deals that others have made are collected, and with two entries that overlap, before one of them is cancelled and
    after; their tables have any bytes."""
    for _ in range(count):
        data = foreign_deal(rng, rng.choice(deal_sizes))
        clash, places = overlapped(rng, data)
        p = rng.choice(places)
        for deal in (data, clash, MODEL.drop(clash, p)[1]):
            for op in (COLLECT, COLLECT_TREE):
                lent = tree(rng, deal) if op == COLLECT_TREE else b""
                yield Case(op, deal, second_deal(rng, deal), c=lent, d=table(rng, deal), e=second_table(rng, deal))
        mine = house(rng)
        yield Case(CANCEL, clash, x=p, y=mine, d=owners(clash, mine))
        yield Case(CANCEL_TREE, clash, x=p, y=mine, c=tree(rng, clash), d=owners(clash, mine))
        for op in (CANCEL, BOOK):
            segment = run(rng, segment_size(rng, len(data))) if op == BOOK else b""
            yield Case(op, data, segment, entry_place(rng, data), house(rng), d=table(rng, data))


def large_changes(rng, d, steps):
    """A deal of d bytes that others have made: refused for two entries that overlap, collected, and changed by both
    houses with a tree in hand."""
    data = foreign_deal(rng, d)
    clash, places = overlapped(rng, data)
    yield Case(COLLECT, clash, rng.randbytes(d), d=owners(clash, 1), e=owners(clash, 9))
    yield Case(CANCEL, clash, x=places[0], y=2, d=owners(clash, 2))
    held = Held(rng, data, rng.randbytes(d - 32))
    held.table = bytes(rng.choices((0, 1, 2, 7), k=len(held.table)))
    yield held.collect(plain=False)
    for _ in range(steps):
        p = entry_place(rng, held.deal)
        yield held.cancel(owner_of(rng, held, p), p, plain=False)
        yield held.book(rng.choice((1, 2)), run(rng, rng.choice((128, 300, 5000))), plain=False)
    yield held.collect(plain=True)
