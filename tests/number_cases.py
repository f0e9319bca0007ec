"""Calls with a deal's number (document 02, request (ix)): numbers right and wrong, records whose last field is no
number, and 21 in its order among the other codes; for building, the check, every settling and the program
check_record."""
from itertools import product
from typing import NamedTuple

from cases import deal_number, node, other_last_fields, other_number, run
from model import area, le
from operations import BUILD, BUILD_TREE, CHECK, CHECK_INPUT, FIELDS, MODEL, SETTLE, SETTLE_DEAL, SETTLE_TREE

EDGES = (0, 1, 1 << 63, (1 << 64) - 1)


class Held(NamedTuple):
    """A deal with its tree and commitment, and the place of an entry that it keeps."""
    deal: bytes
    tree: bytes
    root: bytes
    place: int


def held(rng, d, size):
    """A deal that keeps a segment of this size, after another one where there is room for two."""
    deal = bytes(d) if area(size) == d // 2 else MODEL.put(bytes(d), b"".join(node(rng) for _ in range(4)))[3]
    _, _, place, deal = MODEL.put(deal, run(rng, size))
    return Held(deal, MODEL.fill(deal, bytes(d - 32))[1], MODEL.commitment(deal)[1], place)


def looked_at(it, record, number):
    """A record in the hand of one who names this number: checked, settled with itself and with the deal, and lent to
    the program."""
    d = len(it.deal)
    yield CHECK, record, it.root, d, number
    yield SETTLE, record, record, d, number, it.root
    yield SETTLE_DEAL, it.deal, record, 0, number
    yield SETTLE_TREE, it.deal, record, 0, number, it.tree
    yield CHECK_INPUT, it.root + le(d) + le(number) + record, b"", 0, 0


def others(rng, number):
    """Numbers that differ from this one in one bit of each byte, in all bits of a byte, of either half, of all; by one;
    in the order of the bytes."""
    bits = [number ^ 1 << 8 * i + rng.randrange(8) for i in range(8)]
    halves = [number ^ 0xFFFFFFFF, number ^ 0xFFFFFFFF << 32, number ^ (1 << 64) - 1]
    beside = [(number + step) % (1 << 64) for step in (1, -1)]
    byte = number ^ 255 << 8 * rng.randrange(8)
    return [n for n in (*bits, byte, *halves, *beside, int.from_bytes(le(number), "big")) if n != number]


def numbers(rng):
    """Records built with numbers at the edges and with others, asked for by their own number and by others."""
    for number in (*EDGES, rng.randrange(1 << 64), 1 << rng.randrange(64)):
        it = held(rng, rng.choice((512, 1024, 4096)), rng.choice((100, 128, 200)))
        yield BUILD, it.deal, rng.randbytes(2000), it.place, number
        yield BUILD_TREE, it.deal, rng.randbytes(2000), it.place, number, it.tree
        record = MODEL.build(it.deal, number, it.place)[1]
        for named in (number, *EDGES, *others(rng, number)):
            yield from looked_at(it, record, named)


def last_fields(rng):
    """Records as they were before there were numbers, and with other last fields: 3, whatever number is named."""
    for d, size in ((512, 100), (512, 130), (1024, 128), (2048, 1000), (4096, 128), (4096, 2000)):
        it, number = held(rng, d, size), deal_number(rng)
        record = MODEL.build(it.deal, number, it.place)[1]
        for other in other_last_fields(record):
            yield FIELDS, other, b"", 0, 0
            for named in (number, other_number(rng, number), 0):
                yield from looked_at(it, other, named)


def changed(record, at, value):
    return record[:at] + bytes([value]) + record[at + 1:]


def late_refusals(record):
    """A record of 512 and 128 bytes, changed so that a rule after the number's refuses it: each one alone, 7 and 19 in
    either path, and all of them."""
    made = {4: changed(record, 49, 0), 5: changed(record, 38, 64), 6: changed(record, 60, 1),
            8: changed(record, 34, 64),
            7: record[:68] + b"\5\x20\0" + record[71:103] + record[135:],
            "7, entry path": record[:135] + b"\6\x40\0" + record[138:202] + record[234:],
            19: changed(record, 102, 128), "19, entry path": changed(record, 233, 64),
            9: changed(record, 71, record[71] ^ 1), 10: changed(record, 202, record[202] ^ 1)}
    made["all"] = changed(changed(changed(changed(made[7], 49, 0), 38, 1), 60, 1), 34, 255)
    return made


def cut_and_late(record):
    """The record, cut, and refused by each rule after the number's."""
    return record, record[:-1], record[:-11], *late_refusals(record).values()


def beside_record(rng):
    """A wrong number, and a right one, beside every fault that a record can have: 3 is before 21, all others after."""
    it, number = held(rng, 512, 128), deal_number(rng)
    for record in cut_and_late(MODEL.build(it.deal, number, it.place)[1]):
        for named in (number, other_number(rng, number)):
            yield from looked_at(it, record, named)


def beside_deal(rng):
    """A wrong number, and a right one, beside faults of commitment, size, deal and tree: these are before 21."""
    it, number = held(rng, 512, 128), deal_number(rng)
    stray = changed(it.deal, 31, 64)
    terms = (it.root[:31], 511), (it.root + b"\0", 512), (it.root, 511), (it.root, 1 << 37), (node(rng), 512)
    for record in cut_and_late(MODEL.build(it.deal, number, it.place)[1]):
        for named in (number, other_number(rng, number)):
            for root, d in terms:
                yield CHECK, record, root, d, named
                yield SETTLE, record, b"", d, named, root
            for d in (0, 1 << 63):
                yield CHECK_INPUT, it.root + le(d) + le(named) + record, b"", 0, 0
            for deal, tree in ((it.deal[:500], it.tree[:468]), (stray, it.tree), (stray, b""), (it.deal, it.tree[:-1])):
                yield SETTLE_DEAL, deal, record, 0, named
                yield SETTLE_TREE, deal, record, 0, named, tree


def pairs(rng):
    """Two records, each of this deal number or of another, of one place or of another, whole, without a number, or
    refused by a later rule: the first one's refusal is before the second one's."""
    it, number = held(rng, 512, 128), deal_number(rng)
    wrong = other_number(rng, number)
    records = []
    for n, place in product((number, wrong), (it.place, 256)):
        record = MODEL.build(it.deal, n, place)[1]
        late = late_refusals(record)
        records += [record, record[:-11], late[4], late[10]]
    for first, second in product(records, records):
        for named in (number, wrong):
            yield SETTLE, first, second, 512, named, it.root


def stored(rng):
    """The stored vectors' share: every check beside a fault of the record, the program's too; some of the others."""
    some = lambda calls, count: rng.sample(list(calls), count)
    beside = list(beside_record(rng))
    yield from (call for call in beside if call[0] in (CHECK, CHECK_INPUT))
    yield from some((call for call in beside if call[0] not in (CHECK, CHECK_INPUT)), 40)
    yield from some(beside_deal(rng), 40)
    yield from some(numbers(rng), 50)
    yield from some(last_fields(rng), 50)
    yield from some(pairs(rng), 36)
