"""Runs the independent model on the papers' own worked values. Prints one line; exits non-zero at the first
difference."""
import random
import sys
from itertools import product
from pathlib import Path

import audit_cases
import audit_edge_cases
import edge_cases
import house_cases
import playback_cases
import playback_days
import playback_edge_cases
import refusal_cases
from cases import sparse_record
from model import (BLANK, DAMAGED, MAX_RAW, SLOT_BLANK, SLOT_DAMAGED, SLOT_KEPT, SLOT_NOT_STANDING, SLOT_OVERLAPPING,
                   SLOT_WRONG, VALID, Booking, Model, Weak, area, filled, index_numbers, node_in, node_place, owners,
                   pad, segment_length, sha256, stray, unpad, ZERO32, ZERO64)
from operations import (BOOK, BOOK_TREE, CANCEL, CANCEL_TREE, CHECK, CHECK_INPUT, COLLECT, COLLECT_TREE, PLAIN_FORM,
                        SETTLE, SETTLE_TREE, answer)

NUMBER = 0x1122334455667788  # a deal's number


def expect(what, got, want):
    if got != want:
        sys.exit(f"model_test: {what}: got {got!r}, expected {want!r}")


def node_of(rng):
    return bytes(rng.randrange(256) for _ in range(31)) + bytes([rng.randrange(64)])


def segment(rng, size):
    return b"".join(node_of(rng) for _ in range(size // 32))


def published_values():
    expect("SHA-256 of abc", sha256(b"abc")[1].hex(),
           "ba7816bf8f01cfea414140de5dae2223b00361a396177a9cb410ff61f20015ad")
    expect("SHA-256 of nothing", sha256(b"")[1].hex(),
           "e3b0c44298fc1c149afbf4c8996fb92427ae41e4649b934ca495991b7852b855")
    for d, n, start in ((512, 4, 256), (524288, 4, 524032), (1048576, 8, 1048064), (16777216, 128, 16769024),
                        (34359738368, 262144, 34342961152), (68719476736, 524288, 68685922304)):
        expect(f"index of {d}", index_numbers(d), (0, n, start))
    for raw, t, a in ((127, 128, 128), (128, 130, 256), (255, 258, 512)):
        expect(f"size of {raw} raw bytes", (-(-raw * 128 // 127), area(t)), (t, a))
    for d in (0, 256, 513, 1 << 37):
        expect(f"index of {d}", index_numbers(d), (2, 0, 0))


def streams():
    """However the bytes are cut the answer is that of the run, but that 11 stands before 2."""
    m, rng = Model(), random.Random(3)
    for total in (31, 32, 33, 64, 96, 1024):
        data = segment(rng, total - total % 32) + bytes(total % 32)
        code, c = m.commitment(data)
        for n in (1, 7, 32, 33, total):
            pieces = [data[i : i + n] for i in range(0, total, n)] + [b""]
            expect(f"{total} bytes by {n}", m.stream(pieces), (code, c, 0 if code else total, [0] * len(pieces)))
    stray = bytes(31) + b"\x40"
    expect("33 bytes as a run", m.commitment(stray + b"\0"), (2, ZERO32))
    expect("33 bytes as a stream", m.stream([stray[:31], stray[31:], b"\0", bytes(31)]),
           (11, ZERO32, 0, [0, 11, 11, 11]))
    expect("no piece", m.stream([]), (2, ZERO32, 0, []))


def paddings():
    """The lengths that document 02 names, and raw bytes there and back."""
    for raw, t in ((127, 128), (128, 130), (255, 258), (MAX_RAW, 1 << 23)):
        expect(f"the segment of {raw} bytes", segment_length(raw), t)
    rng = random.Random(4)
    for n in (1, 2, 31, 32, 126, 127, 128, 254, 255, 381):
        raw = bytes(rng.randrange(256) for _ in range(n))
        code, t, segment = pad(raw, bytes(segment_length(n)))
        expect(f"{n} bytes there", (code, t, stray(segment)), (0, segment_length(n), False))
        expect(f"{n} bytes back", unpad(n, segment, bytes(n)), (0, n, raw))
    expect("32 bytes of ones", pad(b"\xff" * 32, bytes(33))[2], b"\xff" * 31 + b"\x3f\x03")


def bookings(what, d, calls):
    """A run of bookings: house, segment, and what is answered, one after the other; the deal and the table
    afterwards."""
    m, deal = Model(), bytes(d)
    table = owners(deal, 0)
    for i, (house, s, *wanted) in enumerate(calls):
        *got, after, owned = m.book(deal, table, house, s)
        expect(f"{what}, booking {i}", got, wanted)
        expect(f"{what}, booking {i} without 0", wanted[0] == 0 or (after, owned) == (deal, table), True)
        deal, table = after, owned
    return deal, table


def worked_runs():
    """Document 01's runs: done by one house they show 22 at the third new segment (document 02, request (x)); two
    houses meet 14 in 512 bytes, and in 1,024 bytes 22 at the fifth segment, not 13, which needs nobody's entries."""
    m, rng = Model(), random.Random(1)
    a, b, c = (segment(rng, 128) for _ in range(3))
    for house in (1, 2):
        run = (house, a, 0, 0, 256), (house, a, 15, 0, 256), (house, b, 0, 128, 320), (house, c, 22, 0, 0)
        expect("the table", bookings("512 bytes, one house", 512, run)[1], bytes([house, house, 0, 0]))
    run = (1, a, 0, 0, 256), (1, a, 15, 0, 256), (2, b, 0, 128, 320), (1, c, 14, 0, 0), (2, c, 14, 0, 0)
    expect("the table", bookings("512 bytes, two houses", 512, run)[1], b"\1\2\0\0")
    four = [segment(rng, 128) for _ in range(4)]
    row = lambda i, house: (house, four[i], 0, 128 * i, 768 + 64 * i)
    bookings("1,024 bytes, one house", 1024, (row(0, 2), row(1, 2), (2, four[2], 22, 0, 0)))
    full, table = bookings("1,024 bytes, two houses", 1024,
                           (*map(row, range(4), (1, 1, 2, 2)), (1, a, 22, 0, 0), (2, a, 22, 0, 0)))
    expect("the table", table, b"\1\1\2\2")
    for byte in (0, 3, 7, 255):
        for house in (1, 2):
            expect("nobody's entries", m.book(full, owners(full, byte), house, a)[:3], (13, 0, 0))
    for table, house, code in ((b"\1\0\0\0", 1, 13), (b"\1\1\0\0", 1, 22), (b"\1\1\0\0", 2, 13)):
        expect("nobody's entries among others", m.book(full, table, house, a)[0], code)
    bookings("the all-zero segment", 512, ((1, bytes(128), 0, 0, 256), (1, bytes(128), 15, 0, 256)))


def kinds():
    """An all-zero slot is blank whatever its checksum, an entry with one bit flipped is damaged, and the tally counts
    each slot once."""
    m, rng = Model(), random.Random(3)
    expect("an all-zero slot", m.read_entry(bytes(64)), (0, BLANK, ZERO32, 0, 0))
    expect("the checksum of an all-zero slot is wrong", m.h.checksum(bytes(48)) != bytes(16), True)
    entry = m.entry(node_of(rng), 128, 256)
    expect("an entry", m.read_entry(entry), (0, VALID, entry[:32], 128, 256))
    for bit in range(512):
        flip = (1 << bit).to_bytes(64, "little")
        expect(f"bit {bit} of an all-zero slot set", m.read_entry(flip)[1], DAMAGED)
        flipped = bytes(a ^ b for a, b in zip(entry, flip))
        expect(f"bit {bit} of an entry flipped", m.read_entry(flipped), (0, DAMAGED, ZERO32, 0, 0))
    expect("the tally of an all-zero deal", m.tally(bytes(1 << 20)), (0, 8, 0, 0))
    deal = m.put(m.put(bytes(1024), segment(rng, 128))[3], segment(rng, 256))[3]
    expect("the tally of two bookings", m.tally(deal), (0, 2, 0, 2))
    spoilt = deal[:800] + b"\1" + deal[801:]
    expect("the tally with a damaged slot", m.tally(spoilt), (0, 2, 1, 1))
    expect("a damaged slot is booked", m.put(spoilt, segment(rng, 128))[:3], (0, 0, 768))
    expect("the tally of a deal that is none", m.tally(bytes(1000)), (2, 0, 0, 0))
    expect("the tally of a deal with stray bits", m.tally(deal[:31] + b"\x40" + deal[32:]), (11, 0, 0, 0))


def records():
    """The lengths that document 02 names (P4 to P7), the last one of a deal that is no longer held in memory."""
    m, rng = Model(), random.Random(2)
    for d, s, length in ((512, 256, 213), (512, 128, 245), (1 << 20, 1024, 853)):
        code, o, p, deal = m.put(bytes(d), segment(rng, s))
        code, r = m.build(deal, NUMBER, p)
        expect(f"a record for {d}, {s}", (code, len(r)), (0, length))
        root = m.tree(deal)[-1][0]
        expect("its check", m.check(root, d, NUMBER, r), 0)
        expect("its settling", (m.settle_records(root, d, NUMBER, r, r)[0], m.settle_deal(deal, NUMBER, r)[0]), (0, 0))
    root, r = sparse_record(rng, 1 << 36, 128, NUMBER)
    expect("a record for 2^36, 128", (len(r), m.check(root, 1 << 36, NUMBER, r)), (1973, 0))


def stored_input():
    """The stored input of the program check_record, and what it must print."""
    folder = Path(__file__).resolve().parent.parent / "crates/check_record"
    stdin, stdout = (folder / "stdin").read_bytes(), (folder / "stdout").read_text()
    expect("its length", len(stdin), 32 + 8 + 8 + 245)
    expect("the stored input", answer((CHECK_INPUT, stdin)), stdout)
    expect("the stored input with another number", answer((CHECK_INPUT, put(stdin, 40, b"\0"))), "21\n")


def deal_numbers():
    """Every number of 64 bits stands in the record's last 8 bytes, lowest byte first; every other one is refused with
    21, by the check and by all settlings."""
    m, rng = Model(), random.Random(22)
    deal = m.put(bytes(512), segment(rng, 128))[3]
    root, tree = m.commitment(deal)[1], m.fill(deal, bytes(480))[1]
    without = m.build(deal, 0, 256)[1][:234]
    for number in (0, 1, 255, 256, 1 << 63, (1 << 64) - 1, NUMBER):
        record = m.build(deal, number, 256)[1]
        expect("the last field", record, without + b"\7\x08\0" + number.to_bytes(8, "little"))
        expect("the number read", m.parse(record)[6], number)
        for named in {number, *(number ^ 1 << bit for bit in range(64)), (1 << 64) - 1 - number}:
            code = 0 if named == number else 21
            expect("its check", m.check(root, 512, named, record), code)
            expect("settled with itself", m.settle_records(root, 512, named, record, record), (code, ZERO64, ZERO64))
            for t in (None, tree):
                expect("settled with the deal", m.settle_deal(deal, named, record, t), (code, ZERO64, ZERO64))


def without_number():
    """A record without tag 7, as they were before request (ix), is 3 whatever the deal's size and number; so is one
    whose tag 7 has another length, stands elsewhere or twice, or is not the end."""
    m, rng = Model(), random.Random(23)
    for d, s, length in ((512, 256, 202), (512, 128, 234), (1 << 20, 1024, 842), (1 << 36, 128, 1962)):
        root, r = sparse_record(rng, d, s, NUMBER)
        expect("its length", len(r[:-11]), length)
        for number in (NUMBER, 0, (1 << 64) - 1):
            expect(f"a record of {length} bytes", m.check(root, d, number, r[:-11]), 3)
    root, r = sparse_record(rng, 512, 128, NUMBER)
    old, last = r[:234], r[234:]
    for other in (b"\7\0\0", b"\7\7\0" + last[3:10], b"\7\x09\0" + last[3:] + b"\0", last[:-1], last + b"\0",
                  last + last, b"\6" + last[1:], b"\x08" + last[1:], last[:2] + b"\1" + last[3:]):
        expect("another last field", m.check(root, 512, NUMBER, old + other), 3)
    expect("tag 7 before tag 6", m.check(root, 512, NUMBER, r[:135] + last + r[135:234]), 3)


def order_of_the_number():
    """1, 2 and 3 are before 21, and all other codes of the check after it; a first record's 21 is before all of the
    second's."""
    m, rng = Model(), random.Random(24)
    deal = m.put(bytes(512), segment(rng, 128))[3]
    root, r = m.commitment(deal)[1], m.build(deal, NUMBER, 256)[1]
    spoilt = {3: r[:-1], 4: put(r, 49, bytes(1)), 5: put(r, 38, b"\x40"), 6: put(r, 60, b"\1"),
              7: r[:68] + b"\5\0\0\6\0\0" + r[234:], 8: put(r, 34, b"\x40"), 19: put(r, 233, b"\x80"),
              9: put(r, 71, bytes([r[71] ^ 1])), 10: put(r, 202, bytes([r[202] ^ 1]))}
    for code, record in spoilt.items():
        expect(f"{code} alone", m.check(root, 512, NUMBER, record), code)
        late = 3 if code == 3 else 21
        expect(f"{code} and another number", m.check(root, 512, NUMBER + 1, record), late)
        expect(f"2 before {late}", m.check(root, 511, NUMBER + 1, record), 2)
        expect(f"1 before {late}", m.check(root[:31], 511, NUMBER + 1, record), 1)
        expect(f"{code} and another number, settled", m.settle_deal(deal, NUMBER + 1, record)[0], late)
        expect(f"{code} in the first of two", m.settle_records(root, 512, NUMBER, record, b"")[0], code)
        expect(f"another number before {code}", m.settle_records(root, 512, NUMBER + 1, r, record)[0], 21)
        other = m.build(deal, NUMBER + 1, 256)[1]
        expect("21 in the second of two", m.settle_records(root, 512, NUMBER, r, other)[0], 21)
        expect(f"{code} before the second one's 21", m.settle_records(root, 512, NUMBER, record, other)[0], code)
        expect(f"21 before the second one's {code}", m.settle_records(root, 512, NUMBER, other, record)[0], 21)


def conditions(it):
    """The codes whose own conditions hold of what is lent, whatever the others do, and also where the form is wrong."""
    m, (c, o, s, p, u, v, number) = Model(), it.contents
    o, s, p, number = (int.from_bytes(x, "little") for x in (o, s, p, number))
    nodes = lambda x: [x[i : i + 32] for i in range(0, len(x), 32)]
    levels = lambda part: (it.size // part).bit_length() - 1
    a, start = area(s), it.size - 64 * max(4, it.size // 131072)
    entry = m.h.node(m.entry(c, o, s))
    holds = {1: len(it.root) != 32, 2: it.size not in (1 << k for k in range(9, 37)), 3: m.parse(it.record()) is None,
             21: number != it.number, 4: not 1 <= s <= it.size // 2, 5: o % a != 0 or start < o + a,
             6: p % 64 != 0 or p < start or it.size <= p, 7: (len(u) // 32, len(v) // 32) != (levels(a), levels(64)),
             8: c[31:] > b"\x3f", 19: stray(u) or stray(v), 9: m.path_root(c, o // a, nodes(u)) != it.root,
             10: m.path_root(entry, p // 64, nodes(v)) != it.root, 12: len(it.tree) != it.size - 32}
    return {code for code, held in holds.items() if held}


def code_of(case):
    return int(answer(case).split()[0])


def refused_records():
    """A fault alone gets its own code; of two that are both there the earlier in the order decides, for every
    operation; of two records refused the first one's code."""
    it = refusal_cases.sound(512, 128)
    for op, order in refusal_cases.ORDERS.items():
        expect("a sound record", (code_of(it.call(op)), conditions(it)), (18 if op == SETTLE else 0, set()))
        for code in order:
            expect(f"{code} by operation {op}", code_of(refusal_cases.FAULTS[code][0](it).call(op)), code)
    expect("the largest record", code_of(refusal_cases.largest().call(CHECK)), 0)
    expect("a record of 600 bytes", code_of(refusal_cases.sound(2048, 600).call(CHECK)), 0)
    for faulty in (refusal_cases.one_fault, refusal_cases.two_faults):
        for codes, op, lent in faulty():
            expect(f"{codes} by operation {op}", code_of(lent.call(op)), codes[0])
            expect(f"of {codes} both hold", set(codes) - conditions(lent), set())
    for (early, late), lent in refusal_cases.two_refused():
        other = lent._replace(first=it.first).call(SETTLE), lent._replace(first=lent.record()).call(SETTLE)
        expect(f"{late} first, {early} second", code_of(lent.call(SETTLE)), late)
        expect(f"{early} second alone, and first", tuple(map(code_of, other)), (early, early))


def shown_strings():
    """Of two strings that differ between a record and a tree, the first in the order of settling is shown."""
    m, it = Model(), refusal_cases.sound(1024, 128)
    strings, changes = m.strings(it.record()), refusal_cases.differences(it)
    del strings[5]  # the top of the segment's way, which is that of the entry's
    shown = lambda lent: answer(lent.call(SETTLE_TREE)).split()
    for string, change in zip(strings, changes, strict=True):
        code, left, right = shown(change(it))
        expect("a string that differs", (code, left, right != left), ("17", string.hex(), True))
    for (first, second), lent in refusal_cases.two_differences():
        both = shown(second(first(lent)))
        expect("the first of two", (both, both != shown(second(lent))), (shown(first(lent)), True))


def collisions():
    """With a node hash of four bits, forged records are accepted, and settling shows a collision, never anything
    else."""
    shown = 0
    for seed in range(3000):
        rng = random.Random(seed)
        m = Model(Weak(4))
        _, o, p, deal = m.put(bytes(512), segment(rng, 128))
        root = m.tree(deal)[-1][0]
        r = bytearray(m.build(deal, NUMBER, p)[1])
        at = rng.choice((74, 141)) + rng.randrange(len(r) - 152)
        r[min(at, len(r) - 12)] ^= 1 << rng.randrange(6)
        if m.check(root, 512, NUMBER, bytes(r)):
            continue
        r, whole = bytes(r), m.build(deal, NUMBER, p)[1]
        for code, v, w in (m.settle_deal(deal, NUMBER, r), m.settle_records(root, 512, NUMBER, r, whole)):
            if code == 17:
                shown += 1
                expect("a collision", (v != w, m.h.node(v) == m.h.node(w), len(v), len(w)), (True, True, 64, 64))
    expect("collisions occur", shown > 50, True)
    return shown


# The commitments of 64, 128, 256 and 512 zero bytes, as Filecoin's implementations list them.
ZEROS = [bytes.fromhex(digits) for digits in (
    "f5a5fd42d16a20302798ef6ed309979b43003d2320d9f0e8ea9831a92759fb0b",
    "3731bb99ac689f66eef5973e4a94da188f4ddcae580724fc6f3fd60dfd488333",
    "642a607ef886b004bf2c1978463ae1d4693ac0f410eb2d1b7a47fe205e5e750f",
    "57a2381a28652bf47f6bef7aca679be4aede5871ab5cf3eb2c08114488cb8526")]


def filled_trees():
    """Every inner node stands once in the buffer, where the formula says, and no byte is left over."""
    m, rng = Model(), random.Random(7)
    zeros = b"".join(node * (8 >> i) for i, node in enumerate(ZEROS))
    expect("the tree of 512 zeros", m.fill(bytes(512), bytes(480)), (0, zeros))
    for d in (512, 1024, 4096):
        deal = segment(rng, d)
        tree = m.fill(deal, rng.randbytes(d - 32))[1]
        levels = m.tree(deal)
        places = [(node_place(d, h, i), levels[h][i]) for h in range(1, len(levels)) for i in range(len(levels[h]))]
        expect(f"the places of {d} bytes", [at for at, _ in places], list(range(0, d - 32, 32)))
        expect(f"the nodes of {d} bytes", b"".join(node for _, node in places), tree)
        expect(f"the last node of {d} bytes", tree[-32:], m.commitment(deal)[1])
        expect(f"the levels of {d} bytes", m.levels(deal, tree), levels)


def tree_lengths():
    """A tree of any other length is 12: after 2, 4 and 11, before all that is read from it."""
    m, rng = Model(), random.Random(8)
    deal = m.put(bytes(512), segment(rng, 128))[3]
    strayed = deal[:31] + b"\x40" + deal[32:]
    for n in (0, 32, 479, 481, 512, 992):
        tree = rng.randbytes(n)
        forms = lambda data: (m.fill(data, tree)[0], m.book_with_tree(data, tree, b"\1\0\0\0", 1, deal[:128])[0],
                              m.build(data, NUMBER, 300, tree)[0], m.settle_deal(data, NUMBER, b"", tree)[0])
        expect(f"a tree of {n} bytes", forms(deal), (12,) * 4)
        expect(f"a tree of {n} bytes with stray bits", forms(strayed), (11,) * 4)
        expect(f"a tree of {n} bytes with a deal of 500", forms(deal[:500]), (2,) * 4)
        expect(f"a tree of {n} bytes with a long segment", m.book_with_tree(strayed, tree, bytes(4), 2, bytes(257)),
               (4, 0, 0, strayed, tree, bytes(4)))


def same_as_plain(m, rng, deal):
    """With the deal's own tree each form answers as the plain one, and booking leaves the new deal's own tree."""
    d = len(deal)
    code, tree = m.fill(deal, bytes(d - 32))
    for size in (1, 100, 128, 130, d // 4, d // 2):
        for s in (segment(rng, 1024)[:size], deal[:size]):
            table = bytes(rng.choices((0, 1, 2), k=4))
            *got, after, renewed, owned = m.book_with_tree(deal, tree, table, 1, s)
            expect("booking with the deal's tree", (*got, after, owned), m.book(deal, table, 1, s))
            expect("the tree after booking", (code, renewed), m.fill(after, tree) if got[0] == 0 else (code, tree))
    start = index_numbers(d)[2]
    for place in (*range(start, d, 64), 0, 300):
        code, record = m.build(deal, NUMBER, place)
        expect("building with the deal's tree", m.build(deal, NUMBER, place, tree), (code, record))
        for r in (record, record[:-1], record[:-1] + b"\x39", record[:-12] + b"\x39" + record[-11:]):
            plain = m.settle_deal(deal, NUMBER, r)
            expect("settling with the deal's tree", m.settle_deal(deal, NUMBER, r, tree), plain)


def true_trees():
    """Runs of bookings with the tree in hand, and deals that others have made."""
    for seed in range(6):
        rng = random.Random(f"tree/{seed}")
        m = Model() if seed % 2 else Model(Weak(4))
        d = rng.choice((512, 1024, 2048))
        deal = segment(rng, d) if seed < 4 else bytes(d)
        tree, table = m.fill(deal, bytes(d - 32))[1], bytes(4)
        for i in range(5):
            s = segment(rng, 256)[: rng.choice((1, 100, 128, 130, 256))]
            *_, deal, tree, table = m.book_with_tree(deal, tree, table, 1 + i % 2, s)
            expect("the tree kept over bookings", (0, tree), m.fill(deal, tree))
            same_as_plain(m, rng, deal)
        deal = bytearray(deal)
        deal[rng.randrange(d // 64) * 32] ^= 1
        same_as_plain(m, rng, bytes(deal))


def stale_trees():
    """Filled, then booked by the plain form: the segment is not kept by that tree, so building says 16, and it is
    booked again."""
    m, rng = Model(), random.Random(9)
    tree = m.fill(bytes(1024), bytes(992))[1]
    for s in (b"x", segment(rng, 130)):
        code, o, p, deal, table = m.book(bytes(1024), bytes(4), 1, s)
        expect("booked by the plain form", (code, o, p), (0, 0, 768))
        expect("building with the stale tree", m.build(deal, NUMBER, p, tree), (16, b""))
        code, again, q, after, renewed, _ = m.book_with_tree(deal, tree, table, 1, s)
        expect("booking with the stale tree", (code, again, q), (0, area(len(s)), 832))
        record = m.build(deal, NUMBER, p)[1]
        expect("settling with the stale tree", m.settle_deal(deal, NUMBER, record, tree), (9, ZERO64, ZERO64))
        expect("building what was booked with it", m.build(after, NUMBER, q, renewed)[0], 0)


def other_trees():
    """Whatever a tree holds, its nodes are taken as they stand there: kept, the paths, the last node, the deal's
    strings."""
    m, rng = Model(), random.Random(10)
    deal, s = bytes(1024), segment(rng, 256)
    _, o, p, deal = m.put(m.put(deal, segment(rng, 128))[3], s)
    own_table = b"\0\1\0\0"
    tree, record = m.fill(deal, bytes(992))[1], m.build(deal, NUMBER, p)[1]
    put = lambda node, h, i: tree[: node_place(1024, h, i)] + node + tree[node_place(1024, h, i) + 32:]
    root = put(node_of(rng), 5, 0)
    expect("a record with another last node", m.settle_deal(deal, NUMBER, record, root), (9, ZERO64, ZERO64))
    expect("building with another last node", m.build(deal, NUMBER, p, root), (0, record))
    sibling = put(node_of(rng), 3, 0)
    built = m.build(deal, NUMBER, p, sibling)[1]
    expect("a record of another sibling, checked", m.check(tree[-32:], 1024, NUMBER, built), 9)
    expect("a record of another sibling, settled", m.settle_deal(deal, NUMBER, built, sibling)[0], 9)
    strayed = m.build(deal, NUMBER, p, put(b"\xff" * 32, 3, 0))[1]
    expect("another sibling with stray bits", m.check(tree[-32:], 1024, NUMBER, strayed), 19)
    code, v, w = m.settle_deal(deal, NUMBER, record, sibling)
    expect("a pair that does not collide", (code, v[32:], m.h.node(v) == m.h.node(w)), (17, w[32:], False))
    own = put(node_of(rng), 3, 1)
    expect("kept by the bytes alone",
           (m.build(deal, NUMBER, p, own)[0], m.book_with_tree(deal, own, own_table, 1, s)[0]), (16, 0))
    named = node_of(rng)
    forged = deal[:p] + m.entry(named, o, 256) + deal[p + 64:]
    own = put(named, 3, 1)
    expect("kept by no tree but this one", (m.build(forged, NUMBER, p)[0], m.book(forged, own_table, 1, s)[0]), (16, 0))
    expect("kept by this tree, built", m.build(forged, NUMBER, p, own)[0], 0)
    expect("kept by this tree, booked", m.book_with_tree(forged, own, own_table, 1, s)[:3], (15, o, p))


def renewed_trees():
    """Booking works out anew the nodes above what is written and writes no other, whatever the tree holds; the
    segment's nodes and the entry's may be worked out one after the other, in either order."""
    m, rng = Model(), random.Random(11)
    for d in (512, 1024, 4096):
        for size in (1, 128, 130, d // 2):
            old = rng.randbytes(d - 32)
            code, o, p, deal, new, _ = m.book_with_tree(bytes(d), old, bytes(4), 1, segment(rng, d)[:size])
            expect(f"booking {size} bytes", code, 0)
            whole, entry = (o, area(size)), (p, 64)
            for first, second in ((whole, entry), (entry, whole)):
                expect("one part after the other", m.renewed(deal, m.renewed(deal, old, (first,)), (second,)), new)
            above = {(h, i) for start, n in (whole, entry) for h in range(1, d.bit_length() - 5)
                     for i in range(start // (32 << h), (start + n - 1) // (32 << h) + 1)}
            changed = {(h, i) for h in range(1, d.bit_length() - 5) for i in range(d // (32 << h))
                       if node_in(old, d, i * (32 << h), 32 << h) != node_in(new, d, i * (32 << h), 32 << h)}
            expect(f"the nodes that change with {size} bytes", changed, above)


def put(data, at, part):
    return data[:at] + part + data[at + len(part):]


def booked(m, d, *segments):
    """A deal of d zeros with these segments booked."""
    deal = bytes(d)
    for s in segments:
        code, _, _, deal = m.put(deal, s)
        expect("a booking", code, 0)
    return deal


def drop_with_tree(m, deal, tree, place):
    """Cancelled by a house that owns every slot: code, the deal and the tree afterwards."""
    return m.cancel_with_tree(deal, tree, owners(deal, 1), 1, place)[:3]


def pack_with_tree(m, deal, second, tree):
    """Nobody's entries collected: code, the second deal and its tree afterwards."""
    return m.collect_with_tree(deal, owners(deal, 0), second, tree, owners(deal, 0))[:3]


def cancellations():
    """64 zero bytes are written, and no other; slot and bytes are free then. An entry that stands is cancelled, kept or
    not."""
    m, rng = Model(), random.Random(12)
    a, b, c = (segment(rng, 128) for _ in range(3))
    deal = booked(m, 512, a, b)
    after = a + b + bytes(64) + m.entry(m.commitment(b)[1], 128, 128) + bytes(128)
    expect("A cancelled", m.drop(deal, 256), (0, after))
    expect("A cancelled twice", m.drop(after, 256), (16, after))
    expect("A booked again", m.put(after, a), (0, 0, 256, deal))
    expect("another one in its place", m.put(after, c)[:3], (0, 0, 256))
    expect("a shorter one over its bytes", m.put(after, c[:100])[3][:128], c[:100] + bytes(28))
    false = put(deal, 256, m.entry(node_of(rng), 0, 128))
    expect("an entry that is not kept", (m.build(false, NUMBER, 256)[0], m.drop(false, 256)), (16, (0, after)))
    damaged, valid = put(deal[256:320], 40, b"\1"), m.entry(node_of(rng), 64, 128)
    for what, slot in (("blank", bytes(64)), ("damaged", damaged), ("valid", valid)):
        spoilt = put(deal, 256, slot)
        expect(f"a slot that is {what}", m.drop(spoilt, 256), (16, spoilt))


def cancelled_overlaps():
    """The bytes of a cancelled entry are free wherever no other standing entry covers them."""
    m, rng = Model(), random.Random(13)
    deal = booked(m, 1024, segment(rng, 256))
    deal = put(deal, 896, m.entry(node_of(rng), 0, 100))
    inner, outer = m.drop(deal, 896)[1], m.drop(deal, 768)[1]
    s = segment(rng, 128)
    expect("both stand", m.put(deal, s)[:3], (0, 256, 832))
    expect("the outer one stands", m.put(inner, s)[:3], (0, 256, 832))
    expect("the inner one stands", m.put(outer, s)[:3], (0, 128, 768))
    expect("none stands", m.put(m.drop(outer, 896)[1], s)[:3], (0, 0, 768))


def cancelling_order():
    """2, 11, 12 with a tree, 6, 16."""
    m, rng = Model(), random.Random(14)
    deal = booked(m, 512, segment(rng, 128))
    strayed, tree = put(deal, 223, b"\x80"), m.fill(deal, bytes(480))[1]
    places = (0, 192, 255, 257, 300, 319, 512, 576, 256 + (1 << 32), (1 << 64) - 64, (1 << 64) - 1)
    no_deals = strayed[:511], deal[:256], bytes(768), b"", bytes(1 << 25)
    for p in (256, 320, *places):
        for data, code in ((strayed, 11), *((data, 2) for data in no_deals)):
            expect(f"cancelling at {p}", m.drop(data, p), (code, data))
            expect(f"cancelling at {p} with a tree", drop_with_tree(m, data, tree[:-1], p), (code, data, tree[:-1]))
        for other in (b"", tree[:1], tree[:-1], tree + b"\0"):
            expect(f"a tree of {len(other)} bytes", drop_with_tree(m, deal, other, p), (12, deal, other))
    for p, code in (*((p, 6) for p in places), (320, 16), (448, 16)):
        expect(f"place {p}", m.drop(deal, p), (code, deal))
        expect(f"place {p} with a tree", drop_with_tree(m, deal, tree, p), (code, deal, tree))


def cancelling_trees():
    """The one node of each height above the 64 bytes is worked out anew, whatever the tree holds; so the deal's own
    tree stays its own."""
    m, rng = Model(), random.Random(15)
    deal = booked(m, 1024, *(segment(rng, 128) for _ in range(4)))
    for p in (768, 832, 896, 960):
        own, other = m.fill(deal, bytes(992))[1], rng.randbytes(992)
        code, after, tree = drop_with_tree(m, deal, own, p)
        expect("the deal's own tree", (code, after, tree), (*m.drop(deal, p), m.fill(after, own)[1]))
        renewed, node = other, m.h.node(bytes(64))
        for h in range(1, 6):
            i = p // (32 << h)
            renewed = put(renewed, node_place(1024, h, i), node)
            pair = node_place(1024, h, i & ~1)
            node = m.h.node(renewed[pair : pair + 64])
        expect("another tree", drop_with_tree(m, deal, other, p), (0, after, renewed))


def collections():
    """Four bookings in 1,024 bytes, the first one cancelled: the larger area first, then the others by old offset;
    entries in that order from the first slot, all else zero, whatever the second deal held."""
    m, rng = Model(), random.Random(16)
    a, b, c, e = (segment(rng, size) for size in (128, 256, 128, 128))
    e = e[:100]
    deal = booked(m, 1024, a, b, c, e)
    expect("where they are", deal[:768], a + c + b + filled(e) + bytes(128))
    deal = m.drop(deal, 768)[1]
    entry = lambda s, o: m.entry(m.commitment(filled(s))[1], o, len(s))
    new = b + c + filled(e) + bytes(256) + entry(b, 0) + entry(c, 256) + entry(e, 384) + bytes(64)
    tree = m.fill(new, bytes(992))[1]
    for second in (bytes(1024), b"\xff" * 1024, deal):
        expect("the new deal", m.pack(deal, second), (0, new))
        expect("the new deal and its tree", pack_with_tree(m, deal, second, rng.randbytes(992)), (0, new, tree))
    expect("a new deal collected", m.pack(new, bytes(1024)), (0, new))
    expect("all are kept", m.audit(new, bytes(4)), (0, bytes((SLOT_KEPT, SLOT_KEPT, SLOT_KEPT, SLOT_BLANK))))
    expect("A booked again", m.put(new, a)[:3], (0, 512, 960))
    expect("old bytes that no entry names", m.pack(put(segment(rng, 1024), 768, bytes(256)), deal), (0, bytes(1024)))


def collected_entries():
    """What others have made: entries in any slots, not kept, with other bytes than zeros after the size, and slots with
    no standing entry. The commitment is copied, the size stays, all bytes of the area move; what does not stand is left
    behind."""
    m, rng = Model(), random.Random(17)
    data, left, right = segment(rng, 768), node_of(rng), node_of(rng)
    damaged = put(m.entry(left, 256, 128), 48, bytes(16))
    slots = m.entry(right, 640, 1), damaged, m.entry(left, 384, 100), m.entry(left, 0, 130)
    new = data[:256] + data[384:512] + data[640:768] + bytes(256)
    new += m.entry(left, 0, 130) + m.entry(left, 256, 100) + m.entry(right, 384, 1) + bytes(64)
    expect("entries that are not kept", m.pack(data + b"".join(slots), bytes(1024)), (0, new))
    for o, s in ((64, 128), (256, 0), (0, 513), ((1 << 64) - 128, 128)):
        other = data + slots[0] + m.entry(left, o, s) + slots[2] + slots[3]
        expect("a valid entry that does not stand", m.pack(other, bytes(1024)), (0, new))


def overlaps():
    """20 where two standing areas overlap, and only there: by area, not by size or offset, whether kept or not."""
    m, rng = Model(), random.Random(18)
    second, tree = rng.randbytes(2048), rng.randbytes(2016)
    slots = lambda rows: b"".join(m.entry(node_of(rng), o, s) for o, s in rows)
    rows = lambda *rows: bytes(1792) + slots(rows) + bytes(256 - 64 * len(rows))
    for first, other in (((0, 128), (0, 128)), ((0, 256), (128, 128)), ((128, 1), (0, 129)), ((0, 257), (384, 128)),
                         ((512, 512), (896, 1))):
        for pair in ((first, other), (other, first)):
            expect(f"{pair}", m.pack(rows(*pair), second), (20, second))
            expect(f"{pair}", pack_with_tree(m, rows((1536, 128), *pair), second, tree), (20, second, tree))
    for pair in (((0, 128), (128, 128)), ((0, 100), (256, 256)), ((512, 257), (256, 256)), ((1664, 128), (1536, 128))):
        expect(f"{pair}", m.pack(rows(*pair), second)[0], 0)
    deal = rows((0, 128), (0, 256))
    expect("one of them cancelled", m.pack(m.drop(deal, 1792)[1], second)[0], 0)
    expect("one of them damaged", m.pack(put(deal, 1800, b"\1\2"), second)[0], 0)


def collecting_order():
    """2, 12 for the second deal, 11, 12 for the tree, 20. Stray bits in a second deal or a tree are none of a lent
    deal."""
    m, rng = Model(), random.Random(19)
    deal = booked(m, 512, segment(rng, 128))
    clash = put(deal, 448, m.entry(node_of(rng), 0, 256))
    strayed, tree = put(clash, 31, b"\x40"), b"\xff" * 480
    for n in (0, 1, 256, 480, 511, 513, 544, 1024):
        other, short = b"\xff" * n, tree[:-1]
        for data, code in ((deal, 12), (clash, 12), (strayed, 12), (strayed[:511], 2), (deal[:256], 2), (b"", 2)):
            expect(f"a second deal of {n} bytes", m.pack(data, other), (code, other))
            expect("the same with a short tree", pack_with_tree(m, data, other, short), (code, other, short))
    large = bytes(1 << 25)
    expect("a deal that is too large", m.pack(large, large), (2, large))
    second = b"\xff" * 512
    expect("stray bits", m.pack(strayed, second), (11, second))
    for n in (0, 1, 479, 481, 512):
        for data, code in ((deal, 12), (clash, 12), (strayed, 11)):
            expect(f"a tree of {n} bytes", pack_with_tree(m, data, second, bytes(n)), (code, second, bytes(n)))
    expect("two that overlap", pack_with_tree(m, clash, second, tree), (20, second, tree))
    expect("a deal", pack_with_tree(m, deal, second, tree)[0], 0)


def half_a_deal():
    """A segment with an area of half the deal fits at 0 alone: once anything stands below it gets 14, and collecting
    does not help."""
    m, rng = Model(), random.Random(20)
    half, small = segment(rng, 512), segment(rng, 128)
    deal = booked(m, 1024, half, small)
    deal = m.drop(deal, 768)[1]
    expect("the half again", m.put(deal, half)[:3], (0, 0, 768))
    deal = m.pack(deal, bytes(1024))[1]
    expect("a smaller one moved to 0", deal[:128], small)
    expect("the half afterwards", m.put(deal, half)[:3], (14, 0, 0))
    deal = m.drop(deal, 768)[1]
    expect("the half once none stands", m.put(deal, half)[:3], (0, 0, 768))


def old_records():
    """A record belongs to the commitment of the deal it was built from."""
    m, rng = Model(), random.Random(21)
    deal = booked(m, 1024, segment(rng, 128), segment(rng, 256))
    old, records = m.commitment(deal)[1], [m.build(deal, NUMBER, p)[1] for p in (768, 832)]
    for after in (m.drop(deal, 768)[1], m.pack(deal, bytes(1024))[1]):
        new = m.commitment(after)[1]
        for r in records:
            codes = m.check(old, 1024, NUMBER, r), m.check(new, 1024, NUMBER, r)
            expect("an old record", codes in ((0, 9), (0, 10)), True)
    expect("new records", [m.check(new, 1024, NUMBER, m.build(after, NUMBER, p)[1]) for p in (768, 832)], [0, 0])


def kept_rows(m, deal, table):
    """House and bytes of every entry that stands, all of which are kept."""
    rows = [(table[i], m.kept(deal, i)) for i in range(4) if m.standing(deal, i)]
    return sorted((owner, deal[o : o + s]) for owner, (_, o, s) in rows)


def whole_runs():
    """Bookings, cancellations and collections of both houses from zeros: each segment that was booked and not cancelled
    since is kept for its house, with its size and bytes; nothing else stands; no house has a segment twice, or more
    than half of the slots; areas do not overlap, so that 20 is never met, and neither is 13; bytes at free slots are
    zero; the tree kept over all of it is the deal's own."""
    for seed in range(60):
        rng = random.Random(f"whole/{seed}")
        m, d = Model() if seed % 2 else Model(Weak(4)), rng.choice((512, 1024, 2048))
        deal, table, wanted = bytes(d), bytes(4), []
        tree = m.fill(deal, bytes(d - 32))[1]
        segments = [segment(rng, 512)[: min(d // 2, rng.choice((1, 100, 128, 130, 256, 300)))] for _ in range(6)]
        for _ in range(30):
            kind, house = rng.randrange(5), rng.choice((1, 2))
            if kind < 3:
                s = rng.choice(segments)
                code, _, _, deal, tree, table = m.book_with_tree(deal, tree, table, house, s)
                expect("a booking", (code == 15, code in (0, 14, 15, 22)), ((house, s) in wanted, True))
                wanted += [(house, s)] if code == 0 else []
            elif kind == 3:
                i = rng.randrange(4)
                row, owner = m.standing(deal, i), table[i]
                code, deal, tree, table = m.cancel_with_tree(deal, tree, table, house, d - 256 + 64 * i)
                expect("a cancellation", code, 0 if row and owner == house else 16)
                if code == 0:
                    wanted.remove((house, deal[row[1] : row[1] + row[2]]))
            else:
                code, deal, tree, table = m.collect_with_tree(
                    deal, table, rng.randbytes(d), rng.randbytes(d - 32), rng.randbytes(4))
                expect("a collection", code, 0)
            expect("what is kept", kept_rows(m, deal, table), sorted(wanted))
            expect("no house has more than half", max(table.count(1), table.count(2)) <= 2, True)
            expect("bytes at free slots", all(m.standing(deal, i) for i in range(4) if table[i]), True)
            expect("the tree", (0, tree), m.fill(deal, tree))


def house_orders():
    """23, 2, 23, 4, 11, 12, 15, 22, 13, 14 for a booking; 23, 2, 23, 11, 12, 6, 16 for a cancellation; 2, 23 for either
    table, 12, 11, 12, 20 for a collection. A fault alone gets its code, of two the earlier one's; nothing is
    written."""
    met = {op: set() for op in (*house_cases.FAULTS, *map(PLAIN_FORM.get, house_cases.FAULTS))}
    for codes, lent in house_cases.faulty(random.Random(25)):
        code, *after = answer(lent).split()
        expect(f"{codes} by operation {lent.op}", int(code), codes[0] if codes else 0)
        memory = {COLLECT: "be", COLLECT_TREE: "bce"}.get(lent.op, "ad" if lent.op in (BOOK, CANCEL) else "acd")
        before = [sha256(getattr(lent, name))[1].hex() for name in memory]
        expect("what is written", after[-len(before):] == before, bool(codes))
        met[lent.op].update(codes)
    expect("the codes of bookings", met[BOOK_TREE], {23, 2, 4, 11, 12, 15, 22, 13, 14})
    expect("the codes of plain bookings", met[BOOK], {23, 2, 4, 11, 15, 22, 13, 14})
    expect("the codes of cancellations", (met[CANCEL_TREE], met[CANCEL]), ({23, 2, 11, 12, 6, 16}, {23, 2, 11, 6, 16}))
    expect("the codes of collections", met[COLLECT_TREE] == met[COLLECT] == {2, 23, 12, 11, 20}, True)


def quotas():
    """22 where twice the slots in which an entry of the house stands, kept or not, are all slots or more: whatever the
    bytes at other slots are."""
    m, rng, seen = Model(), random.Random(26), set()
    for lent in house_cases.quotas(rng):
        n = len(lent.d)
        held = sum(owner == lent.y and m.standing(lent.a, i) is not None for i, owner in enumerate(lent.d))
        free = any(m.standing(lent.a, i) is None for i in range(n))
        code = m.book(lent.a, lent.d, lent.y, lent.b)[0]
        expect(f"{held} of {n} slots", code, 22 if 2 * held >= n else 0 if free else 13)
        seen.add((n, held))
    expect("numbers of slots held", seen, {(4, held) for held in range(5)} | {(8, 3), (8, 4), (8, 5)})
    for count in range(5):
        for kept in (0, 1):
            deal = bytes(768) + b"".join(house_cases.standing_at(rng, i, kept)
                                         for i in range(count)) + bytes(256 - 64 * count)
            code = m.book(deal, b"\1" * 4, 1, b"x")[0]
            expect(f"{count} entries, kept or not: {kept}", code, 22 if count >= 2 else 0)


def written_owners():
    """Booking sets the slot's byte to the house whatever it was, cancelling clears it, and neither changes another
    one."""
    m, rng = Model(), random.Random(27)
    for byte in range(256):
        for house in (1, 2):
            i = rng.randrange(4)
            deal = house_cases.slots(rng, 1024, [j != i and rng.randrange(3) == 0 for j in range(4)])
            table = bytes(byte if j == i else rng.choice((0, 3, byte | 4)) for j in range(4))
            code, _, p, after, owned = m.book(deal, table, house, segment(rng, 128))
            slot = (p - 768) // 64
            expect("booked", (code, owned), (0, put(table, slot, bytes([house]))))
            expect("the other house", m.cancel(after, owned, 3 - house, p), (16, after, owned))
            expect("cancelled", m.cancel(after, owned, house, p),
                   (0, put(after, p, bytes(64)), put(table, slot, b"\0")))


def own_entries():
    """15 is answered for the house's lowest slot that keeps the segment, and for no other's; only an owner cancels."""
    m, rng = Model(), random.Random(28)
    s = segment(rng, 128)
    deal = booked(m, 1024, s, s, s, s)
    for table in product((0, 1, 2, 7), repeat=4):
        for house in (1, 2):
            own = [i for i, owner in enumerate(table) if owner == house]
            got = m.book(deal, bytes(table), house, s)[:3]
            expect(f"owners {table}", got, (15, 128 * own[0], 768 + 64 * own[0]) if own else (13, 0, 0))
            for i, owner in enumerate(table):
                expect(f"owners {table}", m.cancel(deal, bytes(table), house, 768 + 64 * i)[0],
                       0 if owner == house else 16)


def moved_owners():
    """Collection carries each standing entry's byte as it was to its new slot, with zeros after them; bytes at other
    slots are left behind."""
    m, rng = Model(), random.Random(29)
    deal = m.drop(booked(m, 1024, *(segment(rng, size) for size in (128, 128, 256, 128))), 832)[1]
    for a, b, c, free in product((0, 1, 2, 7, 255), repeat=4):
        moved = m.collect(deal, bytes((a, free, b, c)), rng.randbytes(1024), rng.randbytes(4))
        expect("the table", (moved[0], moved[2]), (0, bytes((b, a, c, 0))))


def isolated():
    """Where no standing area overlaps another, a house's bookings and cancellations have the same code, offset and
    place in two deals that differ in segments which are not its own; where one does, they may not."""
    differ, codes = 0, set()
    for calls in house_cases.twin_calls(random.Random(30), 60):
        numbers = 3 if calls[0].op in (BOOK, BOOK_TREE) else 1
        first, second = (answer(lent).split()[:numbers] for lent in calls)
        expect("the answers", second, first)
        differ += calls[0].a != calls[1].a
        codes.add((numbers, int(first[0])))
    expect("deals that differ", differ > 500, True)
    expect("codes", codes, {(3, code) for code in (0, 4, 13, 14, 15, 22)} | {(1, code) for code in (0, 6, 16)})
    for calls in house_cases.overlapped_twins(random.Random(31)):
        answers = [answer(lent).split()[:3] for lent in calls]
        expect("areas that overlap", answers, [["15", "0", "768"], ["0", "256", "896"]])


def one_rule_decides():
    """The calls of edge_cases.py have the codes that are written beside them, and bookings their offset and place. Of
    the valid entries there that do not stand each breaks one rule alone."""
    m = Model()
    rng = random.Random(32)
    for numbers, lent in (*edge_cases.judged(rng), *edge_cases.eight_slots(rng), *edge_cases.longest_deals()):
        got = tuple(map(int, answer(lent).split()[:len(numbers)]))
        expect(f"operation {lent.op} on {len(lent.a)} bytes", got, numbers)
    for d, rows in edge_cases.NOT_STANDING.items():
        for o, s in rows:
            rules = m.size_allowed(d, s), o % area(s) == 0, o + area(s) <= index_numbers(d)[2]
            expect(f"rules that {s} bytes at {o} keep", sorted(rules), [False, True, True])


def audits():
    """The calls of audit_cases.py and audit_edge_cases.py have the codes and states that are written beside them; the
    rest of the buffer stays, and with a refusal all of it."""
    m, rng, codes, states = Model(), random.Random(33), set(), set()
    for code, written, lent in (*audit_cases.judged(rng), *audit_cases.long_deals(rng, 1 << 20), *audit_cases.longest(),
                                *audit_edge_cases.small(rng), *audit_edge_cases.large()):
        after = written + lent.b[len(written):]
        expect(f"an audit of {len(lent.a)} bytes into {len(lent.b)}", m.audit(lent.a, lent.b), (code, after))
        codes.add(code)
        states.update(written)
    expect("the codes", codes, {0, 2, 11, 12})
    expect("the states", states, {0, 1, 2, 3, 4, 5})


def audited_orders():
    """Where two states apply, the lower number is written: 3 over 4, and 3 over 5. Only lower slots count for 3."""
    m, rng = Model(), random.Random(34)
    data = segment(rng, 768)
    kept = lambda o, s: m.entry(m.commitment(data[o : o + area(s)])[1], o, s)
    wrong = lambda o, s: m.entry(node_of(rng), o, s)
    audited = lambda *slots: m.audit(data + b"".join(slots) + bytes(256 - 64 * len(slots)), b"\xff" * 5)
    for first, other, states in ((kept(0, 128), kept(0, 100), (SLOT_KEPT, SLOT_OVERLAPPING)),
                                 (kept(0, 128), wrong(0, 256), (SLOT_KEPT, SLOT_OVERLAPPING)),
                                 (wrong(0, 256), kept(128, 128), (SLOT_WRONG, SLOT_OVERLAPPING)),
                                 (wrong(0, 128), wrong(0, 128), (SLOT_WRONG, SLOT_OVERLAPPING)),
                                 (kept(0, 128), kept(128, 128), (SLOT_KEPT, SLOT_KEPT)),
                                 (kept(0, 128), wrong(128, 128), (SLOT_KEPT, SLOT_WRONG)),
                                 (m.entry(node_of(rng), 0, 513), kept(0, 512), (SLOT_NOT_STANDING, SLOT_KEPT)),
                                 (kept(0, 512), m.entry(node_of(rng), 0, 513), (SLOT_KEPT, SLOT_NOT_STANDING)),
                                 (put(kept(0, 128), 0, b"\1\2"), kept(0, 128), (SLOT_DAMAGED, SLOT_KEPT)),
                                 (kept(0, 128), put(kept(0, 128), 0, b"\1\2"), (SLOT_KEPT, SLOT_DAMAGED))):
        expect(f"states {states}", audited(first, other), (0, bytes(states) + b"\0\0\xff"))


def audited_laws():
    """The states of deals that others have made, by what other routines say of them: the kinds are those of the tally,
    a slot is free for booking below 3, an entry is overlapping somewhere exactly where collecting is refused with 20,
    and what can be built is 5 or overlapping."""
    m, seen = Model(), set()
    for lent in audit_cases.foreign(random.Random(35), 150):
        d, n = len(lent.a), len(owners(lent.a, 0))
        states = m.audit(lent.a, bytes(n))[1]
        expect("the tally", m.tally(lent.a), (0, states.count(0), states.count(1), sum(state >= 2 for state in states)))
        expect("free slots", [state < 3 for state in states], [m.standing(lent.a, i) is None for i in range(n)])
        expect("overlaps", 3 in states, m.pack(lent.a, bytes(d))[0] == 20)
        codes = [m.build(lent.a, NUMBER, d - 64 * n + 64 * i)[0] for i in range(n)]
        expect("what can be built",
               all(code == (16, 0)[state == 5] for code, state in zip(codes, states) if state != 3), True)
        seen.update(zip(states, codes))
    expect("states and codes of building", seen, {(0, 16), (1, 16), (2, 16), (3, 16), (3, 0), (4, 16), (5, 0)})


def audited_runs():
    """A deal that was made by our own calls alone shows only 0 and 5."""
    m, seen = Model(), set()
    for lent in audit_cases.own_deals(random.Random(36), 20):
        code, states = m.audit(lent.a, lent.b)
        expect("an audit of an own deal", (code, set(states) <= {SLOT_BLANK, SLOT_KEPT}), (0, True))
        seen.add(states.count(SLOT_KEPT))
    expect("numbers of kept entries", seen >= {0, 1, 2, 3}, True)


def played_logs():
    """The calls of playback_cases.py and playback_edge_cases.py say what is written beside them, and have the rows that
    are."""
    m, said = Model(), set()
    for each in (*playback_cases.judged(), *playback_cases.longest(), *playback_edge_cases.judged(),
                 *playback_edge_cases.past_the_store()):
        *got, rows = m.playback(each.case.x, each.case.a)
        expect(f"playback: {each.what}", got, [each.said, each.ruling])
        expect(f"rows: {each.what}", rows, (rows if each.rows is None else each.rows) if each.said == (0, 0) else [])
        said.add((each.said[0], each.ruling[0]) if each.said[0] else each.said)
    expect("what was said", said, {(0, 0), (0, 2), (0, 3), *((1, code) for code in (0, 6, 14, 15, 16, 22))})


def played_days():
    """The log of a day from an all-zero deal is confirmed, and its rows are the standing entries; calls with other
    codes have no line."""
    m, rng, codes, calls = Model(), random.Random(37), set(), 0
    for i in range(60):
        clerk, cases = playback_days.deal_day(rng, rng.choice((512, 1024, 2048)), 20, with_tree=i % 2 == 1)
        log = b"".join(line.to_bytes() for line in clerk.log)
        expect("a day", m.playback(len(clerk.deal), log), ((0, 0), (0, 0, 0), clerk.standing()))
        codes.update((type(line).__name__, line.code) for line in clerk.log)
        calls += len(cases) - len(clerk.log)
    expect("the codes", codes,
           {("Booking", 0), ("Booking", 14), ("Booking", 15), ("Booking", 22), ("Cancelling", 0), ("Cancelling", 16)})
    expect("calls without a line", calls > 50, True)


def played_collisions():
    """Without the claim's premise it fails: two segments with one commitment, of a weak hash, are booked with 0, and
    the second line is wrong, as is one that was refused with 22."""
    m = Model(Weak(4))
    segments = {}
    for i in range(40):
        segments.setdefault(m.tree(filled(bytes([i, 1])))[-1][0], []).append(bytes([i, 1]))
    c, (first, second, third, *_) = next((c, each) for c, each in segments.items() if len(each) > 2)
    deal, table, lines = bytes(1024), bytes(4), []
    for each in (first, second, third):
        code, o, p, deal, table = m.book(deal, table, 1, each)
        lines.append(Booking(1, c, 2, code, o, p).to_bytes())
    expect("the codes in the deal", [line[44] for line in lines], [0, 0, 22])
    expect("the second line", m.playback(1024, b"".join(lines))[:2], ((1, 2), (15, 0, 768)))
    expect("the third line", m.playback(1024, lines[0] + lines[2])[:2], ((1, 2), (15, 0, 768)))


published_values()
streams()
paddings()
worked_runs()
kinds()
records()
stored_input()
deal_numbers()
without_number()
order_of_the_number()
refused_records()
shown_strings()
filled_trees()
tree_lengths()
true_trees()
stale_trees()
other_trees()
renewed_trees()
cancellations()
cancelled_overlaps()
cancelling_order()
cancelling_trees()
collections()
collected_entries()
overlaps()
collecting_order()
half_a_deal()
old_records()
whole_runs()
house_orders()
quotas()
written_owners()
own_entries()
moved_owners()
isolated()
one_rule_decides()
audits()
audited_orders()
audited_laws()
audited_runs()
played_logs()
played_days()
played_collisions()
print(f"model_test: the papers' values hold in the model; with a weak node hash {collisions()} collisions were shown")
