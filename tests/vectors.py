"""Writes the calls that the program `vectors` replays, and the answers that the independent model gives; and the
vectors for others.

Run from the repository's root: python3 tests/vectors.py. It writes crates/vectors/stdin, crates/vectors/stdout and
vectors/vectors.json (see json_vectors.py); with --check it compares them with what stands there.
"""
import random
import sys
from pathlib import Path

import audit_cases
import audit_edge_cases
import change_cases
import edge_cases
import house_cases
import number_cases
import playback_cases
import playback_edge_cases
import refusal_cases
import tree_cases
from cases import any_number, case, deal_number, node, other_number, paddings, run, sparse_record, streams
from model import index_numbers, le, owners
from operations import (BOOK, BUILD, CHECK, CHECK_INPUT, COMMITMENT, COMPARE, FIELDS, FIND, MAKE, MODEL, NAMES, NUMBERS,
                        READ, SETTLE, SETTLE_DEAL, TALLY, Case, answer, encode)

ROOT = Path(__file__).resolve().parent.parent


def table_of_sizes():
    for k in range(8, 38):
        yield NUMBERS, b"", b"", 1 << k, 0
    for d in (0, 511, 513, 768, (1 << 36) + 1, (1 << 64) - 1):
        yield NUMBERS, b"", b"", d, 0


def bookings(rng, size, calls):
    """A run of bookings, each by a house: each call gets the deal and the table that the one before left."""
    deal = bytes(size)
    table = owners(deal, 0)
    for house, s in calls:
        yield Case(BOOK, deal, s, y=house, d=table)
        *_, deal, table = MODEL.book(deal, table, house, s)
    number = deal_number(rng)
    yield SETTLE_DEAL, deal, MODEL.build(deal, number, index_numbers(size)[2])[1], 0, number


def worked_runs(rng):
    """Document 01's two runs, done by one house and by two, and the all-zero segment and slot."""
    a, b, c = (b"".join(node(rng) for _ in range(4)) for _ in range(3))
    yield from bookings(rng, 512, ((1, a), (1, a), (1, b), (1, c), (1, a)))
    yield from bookings(rng, 512, ((1, a), (1, a), (2, b), (1, c), (2, c), (2, a), (1, a)))
    four = [b"".join(node(rng) for _ in range(4)) for _ in range(4)]
    for houses in ((1, 1, 1, 1), (2, 2, 2, 2), (1, 1, 2, 2), (2, 1, 2, 1)):
        yield from bookings(rng, 1024, [*zip(houses, four), (1, a), (2, a)])
    yield from bookings(rng, 512, ((1, bytes(128)), (1, bytes(128)), (2, bytes(128))))
    yield READ, bytes(64), b"", 0, 0
    yield MAKE, bytes(32), b"", 0, 0  # its checksum is not zero: the all-zero slot's is wrong


def sizes_in_deals(rng):
    """Sizes at and beside powers of two (document 02, request (iii)): booked in zeros, booked over old bytes, booked
    again, found."""
    for size, d in ((1, 512), (31, 512), (127, 512), (128, 512), (129, 512), (130, 512), (255, 1024), (256, 512),
                    (257, 1024), (258, 1024), (512, 1024), (513, 2048), (1000, 2048)):
        _, n, start = index_numbers(d)
        segment = node(rng) * (size // 32) + rng.randbytes(size % 32)
        shorter, longer = segment[:-1] or bytes(2), segment + b"\0"
        for deal in (bytes(d), run(rng, start) + bytes(d - start)):
            code, o, p, after, table = MODEL.book(deal, owners(deal, 0), 1, segment)
            yield Case(BOOK, deal, segment, y=1, d=owners(deal, 0))
            yield from (Case(BOOK, after, s, y=1, d=table) for s in (segment, shorter, longer))
            yield FIND, after, after[p : p + 32], 0, 0
            number = deal_number(rng)
            yield BUILD, after, bytes(2000), p, number
            record = MODEL.build(after, number, p)[1]
            yield CHECK, record, MODEL.commitment(after)[1], d, number
            yield SETTLE_DEAL, after, record, 0, number
    for size in (0, 257, 512):
        yield Case(BOOK, bytes(512), bytes(size), y=1, d=bytes(4))


def other_trailer(rng):
    """A kept entry whose size ends before other bytes than zeros: kept by its area, and not the segment that booking
    takes."""
    deal = bytearray(1024)
    deal[:256] = b"".join(node(rng) for _ in range(8))
    deal[768:832] = MODEL.entry(MODEL.tree(bytes(deal[:256]))[-1][0], 0, 130)
    deal = bytes(deal)
    yield FIND, deal, deal[768:800], 0, 0
    number = deal_number(rng)
    yield BUILD, deal, bytes(2000), 768, number
    record = MODEL.build(deal, number, 768)[1]
    yield CHECK, record, MODEL.commitment(deal)[1], 1024, number
    yield SETTLE_DEAL, deal, record, 0, number
    yield Case(BOOK, deal, deal[:130], y=2, d=owners(deal, 2))


def two_places(rng):
    """Two records of one deal for two entry places."""
    deal = bytes(1024)
    for size in (100, 130):
        deal = MODEL.put(deal, run(rng, size))[3]
    number = deal_number(rng)
    r, s = (MODEL.build(deal, number, p)[1] for p in (768, 832))
    root = MODEL.commitment(deal)[1]
    for a, b in ((r, s), (s, r), (r, r), (r, s[:-1])):
        yield SETTLE, a, b, 1024, number, root


def large_deals(rng):
    """Records for deals up to 2^36 bytes: whole, without their number, damaged in one byte of each kind of field."""
    for d, size in ((512, 128), (512, 256), (1 << 20, 1024), (1 << 20, 258), (1 << 24, 128), (1 << 24, 1),
                    (1 << 30, 1 << 12), (1 << 36, 128), (1 << 36, 130), (1 << 36, 1 << 20)):
        number = deal_number(rng)
        root, r = sparse_record(rng, d, size, number)
        yield CHECK, r, root, d, number
        yield SETTLE, r, r, d, number, root
        yield FIELDS, r, b"", 0, 0
        yield CHECK_INPUT, root + le(d) + le(number) + r, b"", 0, 0
        n = len(r)
        places = 0, 1, 3, 38, 49, 60, 68, 71, n - 43, n - 12, n - 8
        spoilt = [r[:at] + bytes([r[at] ^ 1]) + r[at + 1:] for at in places]
        for record in (r[:-11], *spoilt):
            yield CHECK, record, root, d, number
            yield SETTLE, r, record, d, number, root
        yield CHECK, r, root, d // 2, number
        yield CHECK, r, bytes(32), d, number
        other = other_number(rng, number)
        yield from ((CHECK, record, root, d, other) for record in (r, r[:-11]))


def kinds_of_entries(rng):
    """An all-zero entry, and with a bit set in each byte; a valid entry, and with a bit flipped in each byte."""
    for entry in (bytes(64), MODEL.entry(node(rng), 128, 256)):
        yield READ, entry, b"", 0, 0
        for at in range(64):
            spoilt = bytearray(entry)
            spoilt[at] ^= 1 << rng.randrange(8)
            yield READ, bytes(spoilt), b"", 0, 0


def slot(rng, form):
    """A slot of a deal of 1,024 zeros: blank, one bit set, an entry with one bit flipped, valid, standing, kept."""
    one_bit = (1 << 8 * rng.randrange(64) + rng.randrange(5)).to_bytes(64, "little")
    kept = MODEL.entry(MODEL.tree(bytes(128))[-1][0], 128 * rng.randrange(6), 128)
    spoilt = bytes(a ^ b for a, b in zip(kept, one_bit))
    return (bytes(64), one_bit, spoilt, MODEL.entry(node(rng), any_number(rng), 96), MODEL.entry(node(rng), 0, 256),
            kept)[form]


def tallies(rng):
    """Indexes with slots of every form, counted; a segment booked, which may take a damaged slot; and counted again."""
    yield TALLY, bytes(512), b"", 0, 0
    for i in range(48):
        forms = (i // 8,) * 4 if i % 8 == 0 else rng.choices(range(6), k=4)
        deal = bytes(768) + b"".join(slot(rng, form) for form in forms)
        segment = b"".join(node(rng) for _ in range(4))
        yield TALLY, deal, b"", 0, 0
        table = bytes(rng.choices((0, 1, 2), k=4))
        yield Case(BOOK, deal, segment, y=1, d=table)
        yield TALLY, MODEL.book(deal, table, 1, segment)[3], b"", 0, 0
    for deal in (bytes(0), bytes(511), bytes(768), bytes(8192), bytes(1023) + b"\x40",
                 bytes(767) + b"\x80" + bytes(256)):
        yield TALLY, deal, b"", 0, 0


def stray_paths(rng):
    """Records for 512 bytes whose paths lead to the commitment: without stray bits in a path, and with them in one of
    its nodes."""
    h = MODEL.h
    for strayed in (None, 0, 1, 2):
        c, *free = (node(rng) for _ in range(4))
        if strayed is not None:
            free[strayed] = free[strayed][:31] + bytes([rng.randrange(64, 256)])
        sibling, *below = free
        p = 256 + 64 * rng.randrange(4)
        left, right = h.node(c + sibling), MODEL.path_root(h.node(MODEL.entry(c, 0, 128)), p // 64, below)
        number = deal_number(rng)
        record = MODEL.encode(c, 0, 128, p, [sibling, right], [*below, left], number)
        root = h.node(left + right)
        yield CHECK, record, root, 512, number
        yield SETTLE, record, record, 512, number, root
        yield CHECK_INPUT, root + le(512) + le(number) + record, b"", 0, 0


def compared_paths(rng):
    """Two paths from one position that differ in the start node, in one sibling, in several, or not at all; from the
    top, the first difference is the highest string that differs."""
    for levels in (0, 1, 2, 5, 18):
        for position in (0, 1, 2, 5, (1 << 18) - 1):
            a = rng.randbytes(32 + 32 * levels)
            yield COMPARE, a, a, position, 0
            for k in range(levels + 1):
                b = bytearray(a)
                b[32 * k + rng.randrange(32)] ^= 1
                yield COMPARE, a, bytes(b), position, 0
            yield COMPARE, a, rng.randbytes(len(a)), position, 0


def inputs(rng):
    """Inputs of the program check_record at the edges of its lengths."""
    number = rng.randrange(1 << 64)
    root, r = sparse_record(rng, 512, 128, number)
    terms = root + le(512) + le(number)
    for n in (0, 1, 31, 32, 39, 40, 41, 47, 48, 49, 292, 293):
        yield CHECK_INPUT, (terms + r)[:n], b"", 0, 0
    for n in (4088, 4096, 4097):
        yield CHECK_INPUT, terms + (r + bytes(n))[:n], b"", 0, 0
        yield CHECK_INPUT, root + le(0) + le(number) + bytes(n), b"", 0, 0
    yield CHECK_INPUT, root + le(512) + r, b"", 0, 0  # without the number
    yield CHECK_INPUT, root + le(number) + le(512) + r, b"", 0, 0  # the number before D


def all_cases():
    rng = random.Random(58)
    yield from table_of_sizes()
    yield from worked_runs(rng)
    yield from large_deals(rng)
    yield from inputs(rng)
    yield from compared_paths(random.Random(17))
    yield from stray_paths(random.Random(19))
    yield from streams(random.Random(36), (0, 1, 31, 32, 33, 64, 96, 1024, 4096))
    yield from paddings(random.Random(32), (1, 2, 32, 126, 127, 128, 254, 255, 381))
    yield from sizes_in_deals(random.Random(128))
    yield from other_trailer(random.Random(130))
    yield from two_places(random.Random(18))
    yield from kinds_of_entries(random.Random(2))
    yield from tallies(random.Random(64))
    yield from tree_cases.orders(random.Random(12))
    yield from tree_cases.runs(random.Random(7), 4, (512, 1024))
    yield from tree_cases.changed_deals(random.Random(4), 12)
    yield from tree_cases.rows(random.Random(28))
    yield from random.Random(8).sample(list(change_cases.orders(random.Random(20))), 60)
    yield from change_cases.overlaps(random.Random(257))
    yield from change_cases.one_rule(random.Random(2048))
    yield from change_cases.runs(random.Random(16), 3, (512, 1024), 12)
    yield from change_cases.foreign_deals(random.Random(256), 8, (512, 1024))
    yield from house_cases.stored(random.Random(22))
    yield from edge_cases.stored(random.Random(23))
    yield from audit_cases.stored(random.Random(24))
    yield from (case for *_, case in audit_edge_cases.small(random.Random(25)))
    yield from playback_cases.stored(random.Random(26))
    yield from (each.case for each in playback_edge_cases.judged())
    yield from number_cases.stored(random.Random(21))
    yield from refusal_cases.stored()
    yield COMMITMENT, run(rng, 8192), b"", 0, 0
    for _ in range(50):
        for op in NAMES:
            yield case(rng, op, (512, 512, 1024))


def main():
    from json_vectors import written  # which takes records from here

    calls = list(all_cases())
    texts = {"crates/vectors/stdin": b"".join(map(encode, calls)),
             "crates/vectors/stdout": "".join(map(answer, calls)).encode(), "vectors/vectors.json": written().encode()}
    for name, data in texts.items():
        path = ROOT / name
        if "--check" in sys.argv:
            if path.read_bytes() != data:
                sys.exit(f"vectors: {path} is not what the model gives")
        else:
            path.write_bytes(data)
    codes = sorted({int(line.split()[0]) for line in texts["crates/vectors/stdout"].decode().splitlines()})
    if codes != [*range(25)]:
        sys.exit(f"vectors: the codes {codes} are not 0 to 24")
    print(f"vectors: {len(calls)} calls, codes {codes}")


if __name__ == "__main__":
    main()
