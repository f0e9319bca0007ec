"""Calls of vectors/vectors.json: hashes, streams, raw archives, entries, and deals."""
import hashlib

from model import MAX_RAW, area, filled, le, pad, segment_bit, segment_length
from operations import MODEL
from vector_parts import (CUT_DEAL, CUT_TABLE, NO_HOUSE, OTHER, STRAY_DEAL, call, changed, deal_of, joined, nodes,
                          orders, own_entry, repeat, segment, stray, with_entries, zeros)


def hashes():
    for n in (0, 1, 3, 55, 56, 63, 64, 65, 119, 120, 128, 300):
        yield call("sha256", f"a-{n}", f"{n} times the letter a", message=repeat(b"a", n))
    for text in ("abc", "abcdbcdecdefdefgefghfghighijhijkijkljklmklmnlmnomnopnopq"):
        yield call("sha256", f"fips-{len(text)}", f"FIPS 180-4: {text}", message=text.encode())
    for n in (1 << 24, (1 << 24) + 1):
        yield call("sha256", f"zeros-{n}", "the longest message has 2^24 bytes", message=zeros(n))


def commitments():
    for n in (32, 64, 128, 256, 512, 1024, 4096, 1 << 20):
        yield call("commitment", f"nodes-{n}", f"{n} bytes by the rule of nodes", run=nodes("run", n // 32))
    for n in (1 << 24, (1 << 24) + 32, 1 << 25):
        yield call("commitment", f"zeros-{n}", "the longest run has 2^24 bytes", run=zeros(n))
    for n in (0, 1, 31, 33, 96, 1000):
        yield call("commitment", f"length-{n}", "no power of two from 32 on", run=zeros(n))
    run = nodes("run", 16)
    for node in (0, 7, 15):
        for bits in (0x40, 0x80):
            yield call("commitment", f"stray-{node}-{bits:02x}", f"node {node} of 16 has bit {bits:02x} of byte 31 set",
                       run=stray(run, 32 * node, bits))
    yield call("commitment", "stray-96", "2 before 11", run=stray(run[:96], 0))
    yield call("commitment", "no-stray", "the other bits of byte 31, and all of byte 0, are free",
               run=b"\xff" * 31 + b"\x3f")


def streams():
    data = nodes("stream", 32)
    for lengths in ([], [0], [1] * 40, [31, 1, 0, 33], [32] * 31, [1000, 24]):
        yield call("stream", f"1024-in-{len(lengths) + 1}", "the pieces do not change the answer", data=data,
                   lengths=lengths)
    for n in (0, 1, 31, 33, 96, 1000):
        yield call("stream", f"total-{n}", "the total is no power of two from 32 on", data=zeros(n), lengths=[n // 2])
    for n in (32, 64):
        yield call("stream", f"total-{n}", "the smallest totals", data=zeros(n), lengths=[n // 2])
    for node in (0, 31):
        yield call("stream", f"stray-{node}", f"node {node} has stray bits: 11 sticks once it is complete",
                   data=stray(data, 32 * node), lengths=[16, 16, 1])
    yield call("stream", "stray-33", "11 before 2, where a commitment of these bytes is refused with 2",
               data=stray(bytes(data[:33]), 0), lengths=[])
    yield call("stream", "stray-cut-short", "a node that is not complete has no stray bits", data=b"\xff" * 31,
               lengths=[])
    yield call("stream", "2-to-16", "pieces at and beside powers of two", data=nodes("stream", 2048),
               lengths=[512, 511, 1, 4096, 32769])


def paddings():
    for n in (1, 2, 31, 32, 126, 127, 128, 254, 255, 381):
        raw = repeat(b"\xff", n)
        padded = pad(raw, bytes(segment_length(n)))[2]
        lent = repeat(b"\xa5", segment_length(n) + 3)
        yield call("fr32_pad", f"ones-{n}", f"{n} raw bytes of all ones; the rest of the output stays", raw=raw,
                   segment=lent)
        yield call("fr32_unpad", f"ones-{n}", "the way back", raw_length=n, segment=padded, raw=repeat(b"\xa5", n + 3))
        last = segment_bit(8 * n - 1) + 1
        if last < 8 * len(padded):
            spoilt = changed(padded, last // 8, bytes([padded[last // 8] | 1 << last % 8]))
            yield call("fr32_unpad", f"bit-after-{n}", "the bit after the last raw one is set", raw_length=n,
                       segment=spoilt, raw=zeros(n))


def refused_paddings():
    raw = nodes("raw", 8)[:254]
    padded = pad(raw, bytes(256))[2]
    yield call("fr32_pad", "nodes-254", "the first 254 bytes of 8 nodes by the rule", raw=raw, segment=zeros(256))
    yield call("fr32_pad", "no-raw", "at least one raw byte; 2 before 12", raw=b"", segment=b"")
    yield call("fr32_pad", "short", "the output is a byte too short", raw=raw, segment=zeros(255))
    yield call("fr32_pad", "too-long", "at most 8,323,072 raw bytes; 2 before 12", raw=zeros(MAX_RAW + 1), segment=b"")
    yield from orders("fr32_unpad", {"raw_length": 254, "segment": padded, "raw": zeros(254)}, {
        "raw-length": lambda i: {"raw_length": 0},
        "segment-length": lambda i: {"segment": i["segment"] + b"\0"},
        "stray-bits": lambda i: {"segment": stray(i["segment"], 32)},
        "output": lambda i: {"raw": zeros(253)},
    })
    for n in (MAX_RAW + 1, (1 << 64) - 1):
        yield call("fr32_unpad", f"raw-length-{n}", "no raw length", raw_length=n, segment=zeros(2), raw=zeros(9))


def sizes():
    for k in range(8, 38):
        yield call("index_numbers", f"2-to-{k}", f"a deal of 2^{k} bytes", size=1 << k)
    for n in (0, 511, 513, 768, (1 << 36) + 1, (1 << 64) - 1):
        yield call("index_numbers", f"size-{n}", "no power of two from 512 to 2^36", size=n)


def entries():
    for offset, size in ((0, 128), (128, 100), (1 << 35, 1 << 35), ((1 << 64) - 1, 0)):
        yield call("make_entry", f"{offset}-{size}", "the numbers are taken as they are", commitment=OTHER,
                   offset=offset, size=size)
        yield call("read_entry", f"{offset}-{size}", "a valid entry", entry=MODEL.entry(OTHER, offset, size))
    yield from orders("make_entry", {"commitment": OTHER, "offset": 0, "size": 1}, {
        "length": lambda i: {"commitment": i["commitment"][1:]},
        "stray-bits": lambda i: {"commitment": i["commitment"][:-1] + b"\x40"},
    })
    for n in (0, 33):
        yield call("make_entry", f"length-{n}", "a commitment has 32 bytes", commitment=zeros(n), offset=0, size=0)


def kinds_of_entries():
    entry = MODEL.entry(OTHER, 128, 256)
    yield call("read_entry", "blank", "64 zero bytes, whose checksum is wrong", entry=zeros(64))
    yield call("read_entry", "stray-commitment", "a valid entry whose commitment has stray bits",
               entry=MODEL.entry(b"\xff" * 32, 0, 128))
    for at in (0, 31, 32, 40, 47, 48, 62, 63):
        yield call("read_entry", f"damaged-{at}", f"one bit of byte {at} is another one",
                   entry=changed(entry, at, bytes([entry[at] ^ 1])))
        yield call("read_entry", f"one-bit-{at}", f"one bit of byte {at} is set, and no other one",
                   entry=changed(bytes(64), at, b"\x01"))
    bodies = (OTHER + le(128 * i) + le(128) for i in range(100))
    whole = next(body + sum for body in bodies if (sum := hashlib.sha256(body + bytes(16)).digest()[:16])[15] >= 0x40)
    yield call("read_entry", "checksum-not-cleared", "the two high bits of the checksum's last byte are not cleared",
               entry=whole)
    for n in (0, 63, 65):
        yield call("read_entry", f"length-{n}", "an entry has 64 bytes", entry=zeros(n))


def two_runs():
    """Document 01's two runs, done by one house and by two, and the all-zero segment."""
    one, two, three = segment(1), segment(2), segment(3)
    book = lambda name, how, deal, table, house, data: call(
        "book", name, how, deal=deal, table=bytes(table), house=house, segment=data)
    yield book("first", "A, into 512 zeros", zeros(512), (0, 0, 0, 0), 1, one)
    yield book("again", "A again", deal_of(512, one), (1, 0, 0, 0), 1, one)
    yield book("second", "B: the next offset, the next slot", deal_of(512, one), (1, 0, 0, 0), 1, two)
    yield book("third", "the house holds half of the slots: 22", deal_of(512, one, two), (1, 1, 0, 0), 1, three)
    yield book("third-of-two", "neither house holds half of the slots, and no place is left: 14",
               deal_of(512, one, two), (1, 2, 0, 0), 1, three)
    yield book("again-where-full", "15 before 22 and 14", deal_of(512, one, two), (1, 1, 0, 0), 1, two)
    full = deal_of(1024, *map(segment, range(1, 5)))
    yield book("fourth", "into 1,024 bytes", deal_of(1024, one, two, three), (1, 1, 2, 0), 2, segment(4))
    yield book("fifth", "each house holds half of the slots, and none is left: 22 before 13", full, (1, 1, 2, 2), 1,
               segment(5))
    yield book("fifth-of-nobody", "no slot is left, though there is room, and neither house holds one: 13", full,
               (0, 0, 0, 0), 1, segment(5))
    yield book("fifth-again", "15 before 22 and 13", full, (1, 1, 2, 2), 2, segment(4))
    yield book("zeros", "the all-zero segment is booked like any other", zeros(512), (0, 0, 0, 0), 1, zeros(128))
    yield book("zeros-again", "and kept like any other", deal_of(512, zeros(128)), (2, 0, 0, 0), 2, zeros(128))


def booked_sizes():
    one = {"table": zeros(4), "house": 1}
    for n in (1, 31, 32, 127, 129, 130, 255, 256):
        yield call("book", f"size-{n}", f"{n} bytes, and zeros after them to {area(n)}",
                   deal=repeat(b"\x07", 768) + bytes(256), **one, segment=segment(9, n))
    for n in (0, 257, 512):
        yield call("book", f"size-{n}-of-512", "a segment has 1 byte to half of the deal", deal=zeros(512), **one,
                   segment=zeros(n))
    yield call("book", "longer", "the same bytes and one zero more are another segment",
               deal=deal_of(1024, segment(9, 100)), table=b"\1\0\0\0", house=1, segment=segment(9, 100) + b"\0")
    yield call("book", "2-to-20", "over old bytes in 2^20", deal=joined(nodes("deal", 32752), zeros(512)),
               table=zeros(8), house=2, segment=nodes("segment", 1000))


def bookings_in_foreign_deals():
    owned = {"table": b"\1\0\0\0", "house": 1}
    standing = with_entries(bytes(512), MODEL.entry(OTHER, 0, 128))
    yield call("book", "standing-not-kept", "an entry that stands and is not kept has its slot and its bytes",
               deal=standing, **owned, segment=segment(1))
    yield call("book", "standing-not-kept-same", "the segment is there, and no entry keeps it", deal=standing, **owned,
               segment=zeros(128))
    wrap = with_entries(bytes(512), MODEL.entry(OTHER, (1 << 64) - 128, 128))
    yield call("book", "wrapping-offset", "offset and area would wrap: the entry does not stand, its slot is free",
               deal=wrap, **owned, segment=segment(1))
    damaged = changed(deal_of(512, segment(1), segment(2)), 300, b"\x01")
    yield call("book", "damaged-slot", "a damaged slot is free, and so are its bytes", deal=damaged, **owned,
               segment=segment(3))
    inner = with_entries(bytes(1024), own_entry(bytes(1024), 256, 256))
    yield call("book", "inside", "overlap is by areas, not by equal offsets",
               deal=joined(repeat(b"\x01", 256), inner[256:]), **owned, segment=segment(8, 257))
    cut = bytes(repeat(b"\x06", 256)) + bytes(768)
    yield call("book", "other-trailer",
               "a kept entry of 130 bytes with other bytes than zeros after them is not this segment",
               deal=with_entries(cut, own_entry(cut, 0, 130)), **owned, segment=segment(6, 130))
    taken = with_entries(bytes(512), *(MODEL.entry(OTHER, 0, 256) for _ in range(4)))
    yield call("book", "13-before-14", "no slot and no place is free", deal=taken, **owned, segment=segment(1))


def refused_bookings():
    yield from orders("book", {"deal": deal_of(1024, segment(1), segment(3)), "table": b"\1\2\0\0", "house": 1,
                               "segment": segment(2)}, {
        **NO_HOUSE, **CUT_DEAL, **CUT_TABLE,
        "segment-size": lambda i: {"segment": b""},
        **STRAY_DEAL,
        "kept": lambda i: {"segment": segment(1)},
        "quota": lambda i: {"table": b"\1\1\0\0"},
        "no-slot": lambda i: {"deal": changed(i["deal"], 896, MODEL.entry(OTHER, 640, 128) * 2)},
        "no-place": lambda i: {"deal": changed(i["deal"], 832,
                                               MODEL.entry(OTHER, 0, 512) + MODEL.entry(OTHER, 512, 256))},
    })
    one = {"deal": zeros(512), "table": zeros(4), "house": 1}
    yield call("book", "stray-segment", "11 for the segment", **one, segment=stray(segment(2), 96, 0x80))
    yield call("book", "stray-cut-short", "the last node is cut short: its bits are none of byte 31", **one,
               segment=b"\xff" * 31)


def houses():
    """Two houses in one deal: whose entries count for what."""
    deal = deal_of(1024, segment(1), segment(1), segment(2))
    spoilt = changed(deal, 0, b"\2")
    free = with_entries(deal, bytes(64))
    for name, how, lent, table, house, data in (
            ("same-segment", "what the other house keeps does not count for 15", deal_of(1024, segment(1)),
             (2, 0, 0, 0), 1, segment(1)),
            ("nobodys-segment", "nor what is nobody's", deal_of(1024, segment(1)), (7, 0, 0, 0), 1, segment(1)),
            ("own-slot", "15 is answered for the house's own slot", deal, (2, 1, 2, 0), 1, segment(1)),
            ("lowest-own-slot", "and for the lowest of them", deal, (1, 1, 2, 0), 1, segment(1)),
            ("one-below-half", "the house holds one slot of four", deal, (1, 2, 2, 0), 1, segment(3)),
            ("half", "the house holds two slots of four", deal, (1, 2, 2, 0), 2, segment(3)),
            ("half-not-kept", "entries that stand count for the quota, kept or not", spoilt, (1, 1, 2, 0), 1,
             segment(3)),
            ("bytes-at-free-slots", "bytes at free slots count nothing", free, (1, 1, 2, 1), 1, segment(3)),
            ("any-byte-is-set", "the slot's byte becomes the house's, whatever it was", deal, (1, 2, 2, 255), 1,
             segment(3))):
        yield call("book", name, how, deal=lent, table=bytes(table), house=house, segment=data)
    for house in (0, 3, 4, 129, 255):
        yield call("book", f"house-{house}", "a house is 1 or 2: 23 before all else", deal=b"", table=b"", house=house,
                   segment=b"")
        yield call("cancel", f"house-{house}", "a house is 1 or 2: 23 before all else", deal=b"", table=b"",
                   house=house, place=0)
    for n in (0, 1, 3, 5, 8, 128, 1024):
        yield call("book", f"table-{n}", "a table has one byte a slot", deal=deal, table=repeat(b"\1", n), house=2,
                   segment=b"")


def table_of_2_to_24():
    yield call("book", "table-2-to-24", "128 slots, of which the house has 63", deal=held_slots(63),
               table=repeat(b"\1", 128), house=1, segment=segment(3))
    yield call("book", "half-of-2-to-24", "128 slots, of which the house has 64", deal=held_slots(64),
               table=repeat(b"\1", 128), house=1, segment=segment(3))


def held_slots(count):
    """A deal of 2^24 zeros in whose first slots so many entries stand."""
    slots = b"".join(MODEL.entry(OTHER, 128 * i, 128) for i in range(count))
    return joined(zeros((1 << 24) - 8192), slots + bytes(8192 - len(slots)))


def audits():
    deal = deal_of(1024, segment(1), segment(2, 100))
    first, second = deal[768:832], deal[832:896]
    inside = own_entry(deal, 0, 100)
    not_standing = MODEL.entry(first[:32], 64, 128)
    damaged = changed(first, 0, bytes([first[0] ^ 1]))
    wrong = MODEL.entry(OTHER, 0, 128)
    whole = own_entry(deal, 0, 256)
    for name, how, entries in (
            ("own", "made by our bookings: kept and blank", (first, second)),
            ("damaged", "one bit of an entry is another one", (damaged, second)),
            ("not-standing", "valid, with the commitment of bytes that are there, at no multiple of its area",
             (not_standing, second)),
            ("wrong-commitment", "standing, with another commitment", (wrong, second)),
            ("overlapping-kept", "its commitment is right, and a lower slot has its bytes: 3 before 5",
             (first, inside)),
            ("overlapping-wrong", "its commitment is wrong, and a lower slot has its bytes: 3 before 4",
             (first, wrong)),
            ("larger-above", "the larger area in the higher slot", (second, first, whole)),
            ("larger-around", "the larger area in the higher slot, and the smaller one at its end", (second, whole)),
            ("larger-below", "the larger area in the lower slot, which overlaps higher ones alone",
             (whole, first, second)),
            ("overlapping-by-overlapping", "the third overlaps the second alone, which is overlapping itself",
             (first, whole, second)),
            ("below-not-kept", "a lower entry that is not kept counts", (wrong, first)),
            ("below-damaged", "a lower slot that is damaged does not count", (damaged, first)),
            ("below-not-standing", "nor one that does not stand", (MODEL.entry(OTHER, 0, 513), first)),
            ("damaged-above", "a damaged slot is damaged, whatever its bytes would be", (first, damaged)),
            ("not-standing-above", "what does not stand does not overlap", (first, MODEL.entry(OTHER, 0, 513))),
            ("after-the-size", "an area is also what follows the size",
             (own_entry(deal, 0, 257), own_entry(deal, 384, 128))),
            ("after-its-own-size", "the same in the other order", (own_entry(deal, 384, 128), own_entry(deal, 0, 257))),
            ("beside", "areas that lie beside each other", (own_entry(deal, 0, 256), own_entry(deal, 256, 128))),
            ("one-area", "one area in all slots", (first,) * 4)):
        yield call("audit", name, how, deal=with_entries(bytes(deal[:768]) + bytes(256), *entries),
                   states=repeat(b"\xa5", 4))


def audits_of_one_rule():
    """Entries of 1,024 bytes of which one rule says whether they stand, or whether they are kept."""
    deal = bytes(nodes("deal", 24)) + bytes(256)
    entry, cut = own_entry(deal, 0, 128), MODEL.tree(filled(deal[:100]))[-1][0]
    whole = entry[:32]
    for name, how, slot in (
            ("half", "half of the deal", own_entry(deal, 0, 512)),
            ("last-area", "an area that ends at the index start, with other bytes than zeros after the size",
             own_entry(deal, 640, 100)),
            ("commitment-of-the-size", "the commitment is that of the size's bytes and zeros, and others follow",
             MODEL.entry(cut, 0, 100)),
            ("commitment-byte-1", "one bit of byte 1 is another one",
             MODEL.entry(changed(whole, 1, bytes([whole[1] ^ 1])), 0, 128)),
            ("commitment-byte-31", "one bit of byte 31 is another one",
             MODEL.entry(changed(whole, 31, bytes([whole[31] ^ 1])), 0, 128)),
            ("commitment-zeros", "a commitment of zeros", MODEL.entry(bytes(32), 0, 128)),
            ("checksum-byte-63", "one bit of the checksum's last byte is another one",
             changed(entry, 63, bytes([entry[63] ^ 1]))),
            ("size-0", "no size", MODEL.entry(OTHER, 0, 0)),
            ("size-513", "more than half of the deal", MODEL.entry(OTHER, 0, 513)),
            ("offset-128", "a multiple of 128, and not of the area of 256",
             MODEL.entry(own_entry(deal, 0, 200)[:32], 128, 200)),
            ("offset-512", "the area ends beyond the index start", MODEL.entry(OTHER, 512, 512)),
            ("offset-768", "an area in the index", MODEL.entry(OTHER, 768, 128)),
            ("wrapping-offset", "offset and area would wrap", MODEL.entry(OTHER, (1 << 64) - 128, 128))):
        yield call("audit", name, how, deal=with_entries(deal, slot), states=repeat(b"\xa5", 4))
    yield call("audit", "offset-1024", "in 2,048 bytes the size ends before the index start, and the area does not",
               deal=with_entries(bytes(2048), MODEL.entry(OTHER, 1024, 600)), states=repeat(b"\xa5", 4))
    yield call("audit", "256-bytes", "no deal", deal=zeros(256), states=repeat(b"\xa5", 4))


def audited_buffers():
    deal = deal_of(1024, segment(1), segment(2, 100))
    for n in (0, 1, 3, 4, 5, 44):
        yield call("audit", f"buffer-{n}", "a byte for each slot, and the rest stays", deal=deal,
                   states=repeat(b"\xa5", n))
    yield from orders("audit", {"deal": deal, "states": repeat(b"\xa5", 4)}, {
        **CUT_DEAL, **STRAY_DEAL,
        "buffer": lambda i: {"states": i["states"][:3]},
    })
    for k in (20, 24):
        n = (1 << k) // 131072
        yield call("audit", f"2-to-{k}", f"{n} slots", deal=zeros(1 << k), states=repeat(b"\xa5", n))
        yield call("audit", f"2-to-{k}-short", f"{n} slots", deal=zeros(1 << k), states=repeat(b"\xa5", n - 1))
    for node in (0, 15, 31):
        for bits in (0x40, 0x80):
            yield call("audit", f"stray-{node}-{bits:02x}", f"node {node} of 32 has stray bits",
                       deal=stray(deal, 32 * node, bits), states=repeat(b"\xa5", 4))
    yield call("audit", "2-to-24-standing", "128 slots, in all of which an entry stands", deal=held_slots(128),
               states=repeat(b"\xa5", 130))
    yield call("audit", "2-to-25", "no lent deal", deal=zeros(1 << 25), states=repeat(b"\xa5", 256))


def tallies():
    kinds = with_entries(bytes(1024), MODEL.entry(bytes(32), 1, 0), changed(bytes(64), 63, b"\x01"),
                         MODEL.entry(bytes(32), 0, 128))
    yield call("tally", "kinds", "valid, damaged, valid, blank", deal=kinds)
    yield call("tally", "zeros", "all slots are blank", deal=zeros(512))
    yield call("tally", "2-to-24", "128 slots", deal=zeros(1 << 24))
    yield call("tally", "2-to-25", "no lent deal", deal=zeros(1 << 25))
    yield call("tally", "stray", "the last node has stray bits", deal=stray(bytes(512), 480, 0x80))


def findings():
    deal = deal_of(1024, segment(1), segment(2, 100))
    false = with_entries(deal, MODEL.entry(OTHER, 128, 100))
    yield call("find", "second", "a segment of 100 bytes", deal=deal, commitment=deal[832:864])
    yield call("find", "lowest", "two slots keep it", deal=with_entries(deal, own_entry(deal, 128, 128)),
               commitment=deal[832:864])
    yield call("find", "not-kept", "an entry that is not kept is not found", deal=false, commitment=OTHER)
    yield from orders("find", {"deal": deal, "commitment": MODEL.commitment(filled(segment(1)))[1]}, {
        "commitment-length": lambda i: {"commitment": i["commitment"][:31]},
        **CUT_DEAL, **STRAY_DEAL,
        "unknown": lambda i: {"commitment": OTHER},
    })


def cancellations():
    deal = deal_of(1024, segment(1), segment(2, 200), segment(3))
    owned = {"table": b"\1\2\1\7", "house": 1}
    for place in (768, 896):
        yield call("cancel", f"place-{place}",
                   "the 64 bytes and the slot's byte become zeros, and no other byte changes", deal=deal, **owned,
                   place=place)
    yield call("cancel", "the-others", "only the owner cancels an entry", deal=deal, **owned, place=832)
    for byte in (0, 3, 7, 255):
        yield call("cancel", f"nobodys-{byte}", "nobody's entry is cancelled by no house", deal=deal,
                   table=bytes([byte] * 4), house=1, place=768)
    standing, not_standing = (with_entries(deal, MODEL.entry(OTHER, *row)) for row in ((128, 100), (64, 128)))
    yield call("cancel", "standing-not-kept", "what stands and is not kept is cancelled too", deal=standing, **owned,
               place=768)
    yield call("cancel", "valid-not-standing", "what does not stand is not cancelled", deal=not_standing, **owned,
               place=768)
    yield from orders("cancel", {"deal": deal, **owned, "place": 768}, {
        **NO_HOUSE, **CUT_DEAL, **CUT_TABLE, **STRAY_DEAL,
        "place": lambda i: {"place": i["place"] + 32},
        "nothing-stands": lambda i: {"place": i["place"] + 192, "table": b"\1\2\1\1"},
    })


def collections():
    deal, old = deal_of(1024, segment(1), segment(2, 200), segment(3)), repeat(b"\xff", 1024)
    tables = {"table": b"\0\1\2\7", "second_table": repeat(b"\xa5", 4)}
    gap = MODEL.drop(deal, 768)[1]
    yield call("collect", "gap",
               "the larger area first; all else is zero, whatever the second deal and the second table held", deal=gap,
               second=old, **tables)
    yield call("collect", "nothing", "a deal without entries", deal=repeat(b"\x01", 768) + bytes(256), second=old,
               **tables)
    yield call("collect", "not-kept", "commitment and size are as they were, kept or not", second=old, **tables,
               deal=with_entries(deal, MODEL.entry(OTHER, 640, 100)))
    trailer = bytes(256) + bytes(repeat(b"\x05", 256)) + bytes(512)
    yield call("collect", "bytes-after-the-size", "all bytes of the area are moved", second=old, **tables,
               deal=with_entries(trailer, MODEL.entry(OTHER, 256, 130)))
    rows = (512, 128), (0, 256), (640, 100), (256, 1)
    shuffled = with_entries(bytes(range(48)) * 16 + bytes(256), *(MODEL.entry(OTHER, *row) for row in rows))
    yield call("collect", "order", "by falling area, equal ones by old offset", deal=shuffled, second=old, **tables)
    for table in ((1, 1, 2, 2), (255, 0, 7, 2)):
        yield call("collect", "owners-" + bytes(table).hex(), "each byte as it was, for the entry's new slot",
                   deal=shuffled, second=old, table=bytes(table), second_table=zeros(4))
    for name, other in (("same", (0, 128)), ("inside", (128, 100)), ("beside", (256, 128))):
        clash = with_entries(bytes(1024), *(MODEL.entry(bytes(32), *row) for row in ((0, 256), other)))
        yield call("collect", f"overlap-{name}", "two areas: (0, 256) and " + str(other), deal=clash, second=old,
                   **tables)
    clash = with_entries(deal, *(MODEL.entry(bytes(32), 0, 128) for _ in range(2)))
    yield from orders("collect", {"deal": gap, "second": old, **tables}, {
        **CUT_DEAL, **CUT_TABLE,
        "second-table-length": lambda i: {"second_table": zeros(5)},
        "second-length": lambda i: {"second": zeros(1025)},
        **STRAY_DEAL,
        "overlap": lambda i: {"deal": clash},
    })


GROUPS = (hashes, commitments, streams, paddings, refused_paddings, sizes, entries, kinds_of_entries, two_runs,
          booked_sizes, bookings_in_foreign_deals, refused_bookings, houses, table_of_2_to_24, audits,
          audits_of_one_rule, audited_buffers, tallies, findings, cancellations, collections)
