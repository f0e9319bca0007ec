"""Calls of the library's routines, random and adversarial."""
from model import (MAX_RAW, Booking, Cancelling, Ledger, area, filled, height, index_numbers, le, node_place, pad,
                   power, segment_bit, segment_length)
from operations import (AUDIT, BOOK, BUILD, CANCEL, CHECK, COLLECT, COMMITMENT, FIELDS, FILL, FIND, MAKE, MODEL, NAMES,
                        NUMBERS, PAD, PLAIN_FORM, PLAYBACK, READ, ROW, SETTLE, SETTLE_DEAL, SETTLE_TREE, SHA256, STREAM,
                        UNPAD, Case)

RAW_LENGTHS = (1, 2, 31, 32, 63, 64, 126, 127, 128, 254, 255, 381, 508, 1016)
TOTALS = (0, 1, 31, 32, 33, 63, 64, 65, 96, 127, 128, 256, 1000, 1024, 2048, 4064, 4096)


def node(rng):
    return rng.randbytes(31) + bytes([rng.randrange(64)])


def run(rng, size):
    """Bytes without stray bits; some runs are all zero or repeat one node."""
    kind = rng.randrange(8)
    if kind == 0:
        return bytes(size)
    if kind == 1:
        return (node(rng) * (size // 32 + 1))[:size]
    return b"".join(node(rng) for _ in range(size // 32)) + rng.randbytes(size % 32)


def strayed(data, at, bits):
    """The bytes with these bits set in one of them."""
    return data[:at] + bytes([data[at] | bits]) + data[at + 1:]


def maybe_strayed(rng, data):
    """One run of five has stray bits in a node."""
    if len(data) < 32 or rng.randrange(5):
        return data
    at = rng.randrange(len(data) // 32) * 32 + 31
    return strayed(data, at, rng.choice((64, 128)))


def cuts(rng, total):
    """The lengths of pieces but the last: none, of one length, or any; zeros among them."""
    kind = rng.randrange(4)
    if kind == 0:
        return b""
    if kind == 1:
        n = rng.choice((1, 7, 16, 31, 32, 33, 64, 255))
        return bytes([n]) * rng.randrange(min(total // n, 200) + 1)
    return bytes(rng.choice((0, 1, 31, 32, 33, rng.randrange(256))) for _ in range(rng.randrange(40)))


def streams(rng, totals=TOTALS):
    """Streams of these totals, cut in several ways, without stray bits and with them: in the first, a middle and the
    last whole node, and in the last byte of a node that is cut short, where they are none."""
    for total in totals:
        data = b"".join(node(rng) for _ in range(total // 32)) + rng.randbytes(total % 32)
        whole = total // 32
        runs = [data] + [strayed(data, 32 * k + 31, rng.choice((64, 128))) for k in sorted({0, whole // 2, whole - 1})
                         if 0 <= k < whole]
        if total % 32:
            runs.append(strayed(data, total - 1, 192))
        for data in runs:
            for lengths in (b"", b"\0\0", bytes([31, 1, 0, 33]), bytes([1]) * min(total, 70), cuts(rng, total)):
                yield STREAM, data, lengths, 0, 0


def archive(rng, n):
    """Raw bytes: any, all ones, or all zero."""
    return rng.choice((rng.randbytes(n), rng.randbytes(n), b"\xff" * n, bytes(n)))


def output(rng, n):
    """An output for n bytes: of their length, longer, shorter, empty."""
    return rng.randbytes(rng.choice((n, n, n + 1, n + rng.randrange(60), max(n - 1, 0), rng.randrange(n + 1), 0)))


def segment_of(raw):
    return pad(raw, bytes(segment_length(len(raw))))[2]


def paddings(rng, lengths=RAW_LENGTHS):
    """Raw bytes there and back, with outputs of every kind. Then segments with another length, and with one bit set
    that is not raw: each of those after the last raw bit, and the two high bits of every whole node."""
    for n in lengths:
        for raw in (rng.randbytes(n), b"\xff" * n):
            segment = segment_of(raw)
            t = len(segment)
            for size in (t, t - 1, t + 17):
                yield PAD, raw, rng.randbytes(size), 0, 0
            for size in (n, n - 1, n + 9):
                yield UNPAD, segment, rng.randbytes(size), n, 0
        for named, data in ((n, segment[:-1]), (n, segment + b"\0"), (n, b""), (n - 1, segment), (n + 1, segment)):
            yield UNPAD, data, rng.randbytes(n + 1), named, 0
        high = [256 * k + b for k in range(t // 32) for b in (254, 255)]
        for at in sorted({*high, *range(segment_bit(8 * n - 1) + 1, 8 * t)}):
            yield UNPAD, strayed(segment, at // 8, 1 << at % 8), rng.randbytes(n), n, 0
    for n in (0, MAX_RAW + 1, (1 << 64) - 1):
        yield UNPAD, bytes(2), bytes(9), n, 0
    yield PAD, b"", bytes(9), 0, 0


def padding_case(rng, op):
    n = rng.choice((*RAW_LENGTHS, rng.randrange(1, 300), rng.randrange(1, 1200)))
    raw = archive(rng, n if rng.randrange(20) else 0)
    if op == PAD:
        return op, raw, output(rng, segment_length(n)), 0, 0
    segment = segment_of(raw)
    if segment and not rng.randrange(3):  # a bit that may be no raw one
        segment = strayed(segment, rng.choice((rng.randrange(len(segment)), len(segment) - 1)), 1 << rng.randrange(8))
    if not rng.randrange(8):
        segment = rng.choice((rng.randbytes(len(segment)), segment[:-1], segment + b"\0",
                              rng.randbytes(rng.randrange(300))))
    named = rng.choice((n, n, n, n, n, n, n, n + 1, n - 1, any_number(rng), MAX_RAW + 1))
    return op, segment, output(rng, n), named, 0


def any_number(rng):
    return rng.choice((0, 1, 63, 64, 127, 128, 255, 256, 448, 512, 1024, 1 << 20, 1 << 36, 1 << 37, (1 << 64) - 128,
                       (1 << 64) - 1, rng.randrange(1 << 64), rng.randrange(4096)))


def deal_number(rng):
    """A deal's number: any 64 bits, many of them at an edge."""
    edges = 0, 1, 1 << 63, (1 << 64) - 1, 1 << rng.randrange(64)
    return rng.choice((*edges, rng.randrange(1 << 64), rng.randrange(1 << 64)))


def other_number(rng, number):
    """Another number: by one bit, by one byte, by one, with the bytes in the other order, any."""
    others = (number ^ 1 << rng.randrange(64), number ^ rng.randrange(1, 256) << 8 * rng.randrange(8),
              (number + rng.choice((1, -1))) % (1 << 64), int.from_bytes(le(number), "big"), deal_number(rng))
    return rng.choice([n for n in others if n != number])


def named_number(rng, number):
    """The number that a caller names, or a second record: mostly this one."""
    return number if rng.randrange(5) else other_number(rng, number)


def segment_size(rng, d):
    """A size that is allowed: a power of two, one beside a power of two, or any."""
    if rng.randrange(2):
        sizes = [128 << k for k in range(24) if 128 << k <= d // 2]
        return rng.choice(sizes[:4] + sizes[-1:])
    sizes = [t for t in (1, 31, 32, 33, 127, 129, 130, 255, 257, 258, d // 4 + 1, d // 2 - 1) if t <= d // 2]
    return rng.choice((*sizes, rng.randrange(1, min(d // 2, 1024) + 1)))


def deal(rng, sizes, steps=6):
    """A deal made by bookings and cancellations, and then spoilt in one of the ways that the rules tell apart."""
    m, d = MODEL, rng.choice(sizes)
    _, n, start = index_numbers(d)
    data = bytes(d) if rng.randrange(3) else run(rng, start) + bytes(d - start)
    for _ in range(rng.randrange(steps)):
        data = m.put(data, run(rng, segment_size(rng, d)))[3]
        if not rng.randrange(4):
            data = m.drop(data, start + 64 * rng.randrange(n))[1]
    data = bytearray(data)
    for _ in range(rng.choice((0, 0, 0, 1, 2))):
        i = rng.randrange(n)
        p = start + 64 * i
        s = segment_size(rng, d)
        a = area(s)
        o = rng.randrange(start // a + 1) * a if start >= a else 0
        kind = rng.randrange(8)
        if kind == 0:  # a damaged slot
            data[p + rng.randrange(64)] ^= 1 << rng.randrange(5)
        elif kind == 1:  # valid, not standing
            data[p : p + 64] = m.entry(node(rng), any_number(rng), any_number(rng))
        elif kind == 2:  # standing or off by one area, not kept
            data[p : p + 64] = m.entry(node(rng), o, s)
        elif kind == 3 and o + a <= start:
            # kept, perhaps overlapping another, perhaps with other bytes than zeros after the size
            data[p : p + 64] = m.entry(m.tree(bytes(data[o : o + a]))[-1][0], o, s)
        elif kind == 4:  # another slot's entry again
            q = start + 64 * rng.randrange(n)
            data[p : p + 64] = data[q : q + 64]
        elif kind == 5:  # a segment's byte changed
            data[rng.randrange(start) // 32 * 32 + rng.randrange(31)] ^= 1
        elif kind == 6:  # an entry with a commitment of other bytes that are there
            data[p : p + 64] = m.entry(m.tree(filled(run(rng, s)))[-1][0], o, s)
        else:  # offset that wraps
            data[p : p + 64] = m.entry(node(rng), (1 << 64) - a, s)
    if not rng.randrange(12):
        data[rng.randrange(d // 32) * 32 + 31] |= rng.choice((64, 128, 192))
    return bytes(data)


def odd_deal(rng, sizes):
    """Mostly a deal; now and then bytes of a length that is none."""
    if rng.randrange(15):
        return deal(rng, sizes)
    return bytes(rng.choice((0, 1, 31, 32, 64, 256, 511, 513, 768, 1000)))


def place(rng, d):
    code, n, start = index_numbers(d)
    if code or not rng.randrange(5):
        return any_number(rng)
    return start + 64 * rng.randrange(n)


def standing_places(data):
    """The places of a deal's standing entries; most of them are kept."""
    code, n, start = index_numbers(len(data))
    if code or len(data) > 1 << 24:
        return []
    return [start + 64 * i for i in range(n) if MODEL.standing(data, i)]


def entry_place(rng, data):
    """Mostly the place of a standing entry; now and then one that differs from it in its high bits alone."""
    places = standing_places(data)
    p = rng.choice(places) if places and rng.randrange(4) else place(rng, len(data))
    return p if rng.randrange(12) else p ^ 1 << rng.choice((32, 40, 63))


def second_deal(rng, data):
    """What a deal is collected into: any bytes, zeros, the deal once more; now and then of another length."""
    n = len(data)
    if not rng.randrange(10):
        return rng.randbytes(rng.choice((0, 1, 32, n // 2, max(n - 1, 0), max(n - 32, 0), n + 1, n + 32, 2 * n)))
    return rng.choice((rng.randbytes(n), rng.randbytes(n), bytes(n), data))


def house(rng):
    """Mostly a house, 1 or 2; now and then another byte."""
    return (rng.choice((1, 2)) if rng.randrange(12)
            else rng.choice((0, 0, 3, 3, 4, 127, 129, 130, 254, 255, rng.randrange(256))))


def table(rng, data):
    """A table of owners for a deal: of both houses and nobody, of one house, of nobody, any bytes; now and then of
    another length."""
    n = max(4, len(data) // 131072)
    if not rng.randrange(12):
        return rng.randbytes(rng.choice((0, 1, n // 2, n - 1, n + 1, 2 * n, 128, 129, len(data))))
    kind = rng.randrange(8)
    if kind == 0:
        return bytes([rng.choice((0, 0, 1, 2, 3, 255))]) * n
    if kind == 1:
        return rng.randbytes(n)
    return bytes(rng.choices((0, 1, 2, 3, 7, 129, 255), (2, 6, 6, 1, 1, 1, 1), k=n))


def second_table(rng, data):
    """What a table is collected into: any bytes, as many as a table has; now and then of another length."""
    return rng.randbytes(len(table(rng, data)))


def kept_places(data):
    start = index_numbers(len(data))[2]
    return [p for p in standing_places(data) if MODEL.kept(data, (p - start) // 64)]


def area_at(data, p):
    """Offset and area of the valid entry at a place."""
    _, _, _, o, s = MODEL.read_entry(data[p : p + 64])
    return o, area(s)


def believing(data, tree):
    """The tree with the commitment of each standing entry over its area: all are kept by this tree."""
    out = bytearray(tree)
    for p in standing_places(data):
        o, a = area_at(data, p)
        at = node_place(len(data), height(a), o // a)
        out[at : at + 32] = data[p : p + 32]
    return bytes(out)


def stale_tree(rng, data):
    """The tree of the deal as it was before one of its entries, with its segment, came in."""
    before, places = bytearray(data), standing_places(data)
    for p in rng.sample(places, min(1, len(places))):
        o, a = area_at(data, p)
        before[o : o + a], before[p : p + 64] = bytes(a), bytes(64)
    return MODEL.fill(bytes(before), bytes(len(data) - 32))[1]


def spoilt_tree(rng, tree):
    """The tree with a few nodes changed: in one bit, to any bytes, to zeros, to another node of it."""
    out = bytearray(tree)
    for _ in range(rng.choice((1, 1, 2, 5))):
        at, other = (32 * rng.choice((rng.randrange(len(tree) // 32), -1 - rng.randrange(7))) % len(tree)
                     for _ in range(2))
        flipped = bytearray(out[at : at + 32])
        flipped[rng.randrange(32)] ^= 1 << rng.randrange(8)
        out[at : at + 32] = rng.choice((flipped, rng.randbytes(32), node(rng), bytes(32), out[other : other + 32]))
    return bytes(out)


def tree(rng, data):
    """A tree for a deal: its own, stale, spoilt, one that believes the index, any bytes; now and then of another
    length."""
    n = max(len(data) - 32, 0)
    if not rng.randrange(12):
        return rng.randbytes(rng.choice((0, 31, 32, n // 2, max(n - 1, 0), max(n - 32, 0), n + 1, n + 32, 2 * n + 32)))
    code, own = MODEL.fill(data, bytes(n))
    if code:
        return rng.randbytes(n)
    kind = rng.randrange(8)
    if kind == 0:
        return stale_tree(rng, data)
    if kind <= 2:
        return spoilt_tree(rng, own)
    if kind == 3:
        return believing(data, rng.choice((own, rng.randbytes(n))))
    if kind == 4:
        return rng.randbytes(n - 32) + rng.choice((own[-32:], rng.randbytes(32)))
    return own


def record_of(rng, data, number, tree=None):
    """A record of the deal, with a tree in hand the one that it gives, or one of another shape."""
    places = standing_places(data)
    if places and rng.randrange(6):
        code, r = MODEL.build(data, number, rng.choice(places), tree)
        if code == 0:
            return r
    d = len(data) if power(len(data)) and len(data) >= 512 else 512
    return made_up(rng, d, number)


def made_up(rng, d, number):
    s = segment_size(rng, d)
    a = area(s)
    nodes = lambda n: [rng.randbytes(32) for _ in range(n)]
    u, v = (d // a).bit_length() - 1, (d // 64).bit_length() - 1
    o = rng.choice((0, a, 2 * a, a // 2, s, d, any_number(rng)))
    p = place(rng, d)
    size = rng.choice((s, s, s, a, d, d // 2 + 1, 64, 0, 129, any_number(rng)))
    u, v = rng.choice(((u, v), (u, v), (u + 1, v - 1), (u, v + 1), (0, 0)))
    return MODEL.encode(rng.choice((node(rng), rng.randbytes(32))), o, size, p, nodes(u), nodes(v), number)


def sparse_record(rng, d, size, number):
    """The commitment of a deal of d bytes that is zero but for one segment and its entry, and the record of it."""
    h = MODEL.h
    zero = [bytes(32)]
    for _ in range(40):
        zero.append(h.node(zero[-1] + zero[-1]))
    _, n, start = index_numbers(d)
    taken = area(size)
    segment = filled(run(rng, size))
    o = rng.randrange(start // taken) * taken
    p = start + 64 * rng.randrange(n)
    commitment = MODEL.tree(segment)[-1][0]
    entry = MODEL.entry(commitment, o, size)
    levels = [{(o + 32 * i) // 32: segment[32 * i : 32 * i + 32] for i in range(taken // 32)}]
    levels[0][p // 32], levels[0][p // 32 + 1] = entry[:32], entry[32:]
    top = d.bit_length() - 6
    for k in range(top):
        at = lambda i: levels[k].get(i, zero[k])
        levels.append({i // 2: h.node(at(i & ~1) + at(i | 1)) for i in levels[k]})
    path = lambda k, q: [levels[k + j].get((q >> j) ^ 1, zero[k + j]) for j in range(top - k)]
    k = (taken // 32).bit_length() - 1
    record = MODEL.encode(commitment, o, size, p, path(k, o // taken), path(1, p // 64), number)
    return levels[top][0], record


def entry_path_field(record):
    """Where tag 6 stands in a whole record."""
    return 71 + int.from_bytes(record[69:71], "little")


def other_last_fields(record):
    """A whole record without its number, as records were before request (ix); with a number that is cut, of another
    length or tag, before another field, or there twice; with bytes after it; without its entry path."""
    old, last, at = record[:-11], record[-11:], entry_path_field(record)
    number = last[3:]
    fields = [last[:n] for n in range(11)]
    fields += [b"\7" + le(n, 2) + (number + bytes(248))[:n] for n in (0, 1, 7, 9, 16, 32, 256)]
    fields += [b"\7\x08\1" + number, b"\7\0\x08" + number]  # 264 and 2,048 bytes announced
    fields += [bytes([tag]) + last[1:] for tag in (0, 1, 5, 6, 8, 135)]
    fields += [last + last, last + b"\0", last + b"\7\0\0", b"\x08\0\0" + last]
    moved = [old[:i] + last + old[i:] for i in (0, 68, at)]
    return [old + field for field in fields] + moved + [old[:at] + last]


def spoil(rng, record):
    """A record damaged, cut, extended, or with its fields in another order."""
    r = bytearray(record)
    kind = rng.randrange(10)
    if kind == 0 and r:
        r[rng.randrange(len(r))] ^= 1 << rng.randrange(8)
    elif kind == 1:
        r = r[: rng.randrange(len(r) + 1)]
    elif kind == 2:
        r += rng.randbytes(rng.choice((1, 3, 32, 35)))
    elif kind == 3 and len(r) > 46:
        r[35:38], r[46:49] = r[46:49], r[35:38]
    elif kind == 4 and r:
        at = rng.choice((0, 35, 46, 57, 68, entry_path_field(r), len(r) - 11))
        r[at + rng.randrange(3)] = rng.randrange(256)
    elif kind == 5 and r:  # a number changed
        at = rng.choice((38, 49, 60, len(r) - 8)) + rng.randrange(8)
        r[at] ^= 1 << rng.randrange(8)
    elif kind == 6 and len(r) > 35:  # stray bits of the commitment
        r[34] |= 192
    elif kind == 7 and len(r) > 85:  # stray bits of a path's node
        at, ends = entry_path_field(r), [*range(102, len(r), 32)]
        r[rng.choice([e for e in ends if e < at] + [e + 3 for e in ends if at < e + 3 < len(r) - 11])] |= 128
    elif kind == 8 and r:  # no number, or another field for it
        r = rng.choice(other_last_fields(bytes(r)))
    elif kind == 9:
        r = bytearray(rng.randbytes(rng.randrange(300)))
    return bytes(r)


def maybe_spoilt(rng, record):
    return spoil(rng, record) if rng.randrange(2) else record


def commitment_for(rng, data):
    places = kept_places(data)
    if places and rng.randrange(4):
        p = rng.choice(places)
        return data[p : p + 32]
    return rng.choice((node(rng), bytes(32), rng.randbytes(32), rng.randbytes(rng.choice((0, 1, 31, 33, 64)))))


def root_of(rng, data):
    code, c = MODEL.commitment(data)
    if code or not rng.randrange(10):
        return rng.choice((bytes(32), rng.randbytes(32), rng.randbytes(31), b"", rng.randbytes(33)))
    return c


def deal_size(rng, data):
    return len(data) if rng.randrange(8) else any_number(rng)


def small_case(rng, op):
    """A call that takes no deal."""
    if op == SHA256:
        return op, rng.randbytes(rng.choice((0, 1, 55, 56, 63, 64, 65, 119, 120, 128, rng.randrange(2000))))
    if op == COMMITMENT:
        data = run(rng, rng.choice((32, 64, 128, 256, 512, 1024, 2048, 4096, 0, 31, 33, 96, rng.randrange(3000))))
        return op, maybe_strayed(rng, data)
    if op == NUMBERS:
        return op, b"", b"", rng.choice((any_number(rng), 1 << rng.randrange(40)))
    if op == MAKE:
        return (op, rng.choice((node(rng), rng.randbytes(32), rng.randbytes(rng.randrange(40)))), b"",
                any_number(rng), any_number(rng))
    if op == READ:
        e = bytearray(MODEL.entry(rng.randbytes(32), any_number(rng), any_number(rng)))
        if rng.randrange(2):
            e[rng.randrange(64)] ^= 1 << rng.randrange(8)
        one_bit = (1 << rng.randrange(512)).to_bytes(64, "little")
        return op, rng.choice((bytes(e), bytes(e), bytes(e), bytes(64), one_bit, bytes(e)[:63], bytes(e) + b"0", b""))
    if op == STREAM:
        data = run(rng, rng.choice((*TOTALS, 1 << rng.randrange(5, 13), rng.randrange(3000))))
        return op, maybe_strayed(rng, data), cuts(rng, len(data))
    if op == ROW:
        return row_case(rng)
    if op == PLAYBACK:
        d = rng.choice((512, 1024, 1024, 2048, 4096, 1 << 20))
        return changed_log(rng, ledger_day(rng, d, rng.randrange(20)), d)
    return padding_case(rng, op)


def row_case(rng):
    """Pairs of nodes, stray bits among them, and a row above of the right length; one row of four has another one, or
    is not of pairs."""
    n = rng.choice((0, 1, 2, 3, 4, 5, 15, 16, 17, 31, 32, 33, 48, 64, rng.randrange(100)))
    below, above = rng.randbytes(64 * n), rng.randbytes(32 * n)
    if rng.randrange(4) == 0:
        below = rng.choice((below, below[:-1], below[:-32], below + bytes(1), below + bytes(32), below + bytes(64),
                            below[:-64]))
        above = rng.choice((above, above[:-1], above[:-32], above + bytes(1), above + bytes(16), above + bytes(32),
                            above + above))
    return ROW, below, above


def log_of(lines):
    return b"".join(line.to_bytes() for line in lines)


def ledger_day(rng, d, steps):
    """The lines of a day, as the ledger's rules answer its calls: few segments, so that some are booked again, and any
    places of the index."""
    ledger, lines = Ledger(d), []
    segments = [(rng.choice((node(rng), rng.randbytes(32))), segment_size(rng, d)) for _ in range(rng.randrange(1, 9))]
    segments += [(segments[0][0], segment_size(rng, d)), (node(rng), segments[0][1]), (node(rng), 128), (node(rng), 1)]
    for _ in range(steps):
        house = rng.choice((1, 2))
        if rng.randrange(4):
            commitment, size = (rng.choice(segments) if rng.randrange(3)
                                else (node(rng), rng.choice((1, 128, segment_size(rng, d)))))
            lines.append(Booking(house, commitment, size, *ledger.book(house, commitment, size)))
        else:
            place = rng.choice(list(ledger.rows))
            lines.append(Cancelling(house, place, ledger.cancel(house, place)[0]))
    return lines


def other_line(rng, line, d):
    """The line with another value in one of its fields: any, or one that a day has."""
    name = rng.choice(line._fields)
    values = {"house": (1, 2, rng.randrange(256)), "commitment": (bytes(32), node(rng), rng.randbytes(32)),
              "size": (segment_size(rng, d), line[2], rng.choice((0, d // 2, d // 2 + 1)), any_number(rng)),
              "code": (0, 13, 14, 15, 16, 22, rng.randrange(256)), "offset": (0, 128, 256, 512, any_number(rng)),
              "place": (0, d - 256, d - 192, d - 64, d, any_number(rng))}
    return line._replace(**{name: rng.choice(values[name])})


def changed_log(rng, lines, d):
    """The log of a day with one change, or none: in a field, in a byte, in the order or number of lines, at the end, in
    the deal's size."""
    lines, kind = list(lines), rng.randrange(9)
    at = rng.randrange(len(lines)) if lines else 0
    if lines and kind in (0, 1, 2):
        lines[at] = other_line(rng, lines[at], d)
    elif lines and kind == 3:
        lines.insert(rng.randrange(len(lines)), lines.pop(at))
    elif lines and kind == 4:
        lines = [*lines[:at], *lines[at + rng.choice((0, 1)):], *rng.choice(((), (lines[at],)))]
    log = log_of(lines)
    if log and kind == 5:
        at = rng.randrange(len(log))
        log = log[:at] + bytes([log[at] ^ 1 << rng.randrange(8)]) + log[at + 1:]
    elif kind == 6:
        log = log[: rng.randrange(len(log) + 1)] + rng.choice((b"", b"\0", rng.randbytes(rng.randrange(70))))
    return Case(PLAYBACK, log, x=deal_size(rng, bytes(d)) if kind == 7 and d <= 4096 else d)


def segment_for(rng, data):
    """A segment to book: any, one of a length that is not allowed, one that is there; now and then with stray bits."""
    d = len(data)
    if rng.randrange(4):
        seg = run(rng, segment_size(rng, d if d >= 512 else 512))
    else:
        seg = run(rng, rng.choice((0, 1, 64, 127, 130, d // 2 + 1, d, 96)))
    places = standing_places(data)
    if places and not rng.randrange(3):
        _, _, _, o, s = MODEL.read_entry(data[(p := rng.choice(places)) : p + 64])
        seg = data[o : o + rng.choice((s, s, s, s - 1, s + 1))]
    if len(seg) >= 32 and not rng.randrange(15):
        seg = seg[:31] + b"\xff" + seg[32:]
    return seg


def settling_case(rng, data):
    number = deal_number(rng)
    r, s = (maybe_spoilt(rng, record_of(rng, data, n)) for n in (number, named_number(rng, number)))
    return SETTLE, r, rng.choice((s, r)), deal_size(rng, data), named_number(rng, number), root_of(rng, data)


def deal_case(rng, op, data):
    """A call that takes a deal, or a record of one."""
    if op == FIND:
        return op, data, commitment_for(rng, data)
    if op == BOOK:
        return Case(op, data, segment_for(rng, data), y=house(rng), d=table(rng, data))
    if op == CANCEL:
        return Case(op, data, x=entry_place(rng, data), y=house(rng), d=table(rng, data))
    if op == COLLECT:
        return Case(op, data, second_deal(rng, data), d=table(rng, data), e=second_table(rng, data))
    if op == BUILD:
        lengths = 0, 202, 212, 213, 234, 244, 245, 277, 500, 1000, 2000, 2000, 2000, 2000
        return op, data, rng.randbytes(rng.choice(lengths)), entry_place(rng, data), deal_number(rng)
    if op == SETTLE:
        return settling_case(rng, data)
    if op in (CHECK, SETTLE_DEAL, FIELDS):
        number = deal_number(rng)
        record = maybe_spoilt(rng, record_of(rng, data, number))
        if op == CHECK:
            return op, record, root_of(rng, data), deal_size(rng, data), named_number(rng, number)
        return (op, data, record, 0, named_number(rng, number)) if op == SETTLE_DEAL else (op, record)
    if op == AUDIT:
        return op, data, output(rng, max(4, len(data) // 131072))
    return op, data


def case(rng, op, sizes):
    if op in (SHA256, COMMITMENT, NUMBERS, MAKE, READ, STREAM, PAD, UNPAD, ROW, PLAYBACK):
        return small_case(rng, op)
    made = Case(*deal_case(rng, PLAIN_FORM.get(op, op), odd_deal(rng, sizes)))
    if op == FILL or op in PLAIN_FORM:
        made = made._replace(op=op, c=tree(rng, made.a))
    if op == SETTLE_TREE and rng.randrange(2):
        made = made._replace(b=maybe_spoilt(rng, record_of(rng, made.a, made.y, made.c)))
    return made


def cases(rng, count, sizes=(512, 512, 1024, 2048, 4096), ops=tuple(NAMES)):
    for i in range(count):
        yield case(rng, ops[i % len(ops)], sizes)
