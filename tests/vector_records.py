"""Calls of vectors/vectors.json: records that are built, checked and settled, and all that takes a tree."""
import random

from cases import sparse_record
from model import index_numbers, le
from operations import CHECK, MODEL, Case
from vector_parts import (CUT_DEAL, CUT_TABLE, NO_HOUSE, NUMBER, OTHER, STRAY_DEAL, call, changed, deal_of, joined,
                          nodes, orders, repeat, segment, stray, with_entries, zeros)
from vectors import stray_paths

# A deal of 512 bytes with two segments, its tree, its commitment, and the record of the second.
DEAL = deal_of(512, segment(1), segment(2, 100))
TREE = MODEL.fill(DEAL, bytes(480))[1]
ROOT = TREE[-32:]
RECORD = MODEL.build(DEAL, NUMBER, 320)[1]
STARTS = (0, 35, 46, 57, 68, 135, 234)  # of its fields
FIELDS = ("commitment", "offset", "size", "place", "segment path", "entry path", "number")


def other_field(name, change):
    """A fault: the record has another value in a field."""
    def fault(inputs):
        values = list(MODEL.parse(inputs["record"]))
        values[FIELDS.index(name)] = change(values[FIELDS.index(name)])
        return {"record": MODEL.encode(*values)}
    return fault


def other_node(path, at, change):
    """A fault: a node of a path is another one."""
    return other_field(path, lambda nodes: [change(node) if i == at else node for i, node in enumerate(nodes)])


def flipped(node):
    return changed(node, 5, bytes([node[5] ^ 1]))


RECORD_FAULTS = {
    "form": lambda i: {"record": i["record"] + b"\0"},
    "number": other_field("number", lambda number: number + 1),
    "segment-size": other_field("size", lambda size: 257),
    "offset": other_field("offset", lambda offset: 64),
    "place": other_field("place", lambda place: 300),
    "path-length": other_field("entry path", lambda nodes: nodes[:-1]),
    "commitment-bits": other_field("commitment", lambda node: stray(node, 0)),
    "path-bits": other_node("segment path", 1, lambda node: stray(node, 0, 0x80)),
    "segment-path": other_node("segment path", 0, flipped),
    "entry-path": other_node("entry path", 2, flipped),
}
TREE_LENGTH = {"tree-length": lambda i: {"tree": bytes(i["tree"]) + b"\0"}}


def built():
    for d, n, name in ((512, 256, "p4"), (512, 128, "p5"), (1 << 20, 1024, "p6"), (1024, 100, "size-100"),
                       (4096, 1, "size-1")):
        yield call("build", name, f"D = {d}, a segment of {n} bytes; the rest of the output stays",
                   deal=deal_of(d, segment(1, n)),
                   number=NUMBER, place=index_numbers(d)[2], record=repeat(b"\xa5", 2000))
    for number in (0, 1, 1 << 63, (1 << 64) - 1):
        yield call("build", f"number-{number}", "any 64 bits are a deal's number", deal=DEAL, number=number, place=256,
                   record=zeros(245))
    yield from orders("build", {"deal": DEAL, "number": NUMBER, "place": 320, "record": zeros(245)}, {
        **CUT_DEAL, **STRAY_DEAL,
        "place": lambda i: {"place": i["place"] + 1},
        "not-kept": lambda i: {"deal": changed(i["deal"], 128, b"\0")},
        "output": lambda i: {"record": zeros(244)},
    })


def fields():
    for place in (*STARTS, len(RECORD), 1, 200, (1 << 64) - 1):
        yield call("read_field", f"place-{place}", "whatever the tag; 3 where no field lies there", record=RECORD,
                   place=place)
    for cut in (236, 237, 244):
        yield call("read_field", f"cut-{cut}", "the last field is cut short", record=RECORD[:cut], place=234)
    yield call("read_field", "empty", "a field without content", record=b"\xff\0\0", place=0)


def checked(name, how, record=RECORD, size=512, commitment=ROOT, number=NUMBER):
    return call("check", name, how, commitment=commitment, size=size, number=number, record=record)


def check_orders():
    yield from orders("check", {"commitment": ROOT, "size": 512, "number": NUMBER, "record": RECORD}, {
        "commitment-length": lambda i: {"commitment": i["commitment"][:31]},
        "size": lambda i: {"size": 511},
        **RECORD_FAULTS,
    })


def record_forms():
    """Records out of form, and two with paths of other lengths, which are in form."""
    r = RECORD
    for tag, at in enumerate(STARTS, 1):
        yield checked(f"tag-{tag}", f"tag {tag} is another one", changed(r, at, bytes([tag ^ 8])))
        yield checked(f"length-{tag}", f"the length of tag {tag} is 256 more",
                      changed(r, at + 2, bytes([r[at + 2] + 1])))
        yield checked(f"cut-{at}", f"the record ends before tag {tag}", r[:at])
    yield checked("length-31", "a commitment of 31 bytes", changed(r[:3] + r[4:], 1, b"\x1f"))
    yield checked("path-of-97", "a path that is no multiple of 32", changed(r[:199] + b"\0" + r[199:], 136, b"\x61"))
    yield checked("number-first", "tag 7 before all others", r[-11:] + r[:-11])
    yield checked("order", "tags 2 and 3 change places", r[:35] + r[46:57] + r[35:46] + r[57:])
    yield checked("twice", "tag 4 twice", r[:68] + r[57:])
    yield checked("cut", "the last byte is missing", r[:-1])
    *head, u, v, number = MODEL.parse(r)
    yield checked("no-nodes", "paths without nodes are in form", MODEL.encode(*head, [], [], number))
    yield checked("nodes-moved", "a node more in one path and one less in the other",
                  MODEL.encode(*head, u + v[:1], v[1:], number))


def record_values():
    """Other values in a record's fields, single bits, and the record for another deal."""
    for field, values in (("size", (0, 1, 128, 129, 256, 1 << 63)), ("place", (192, 256, 448, 512, 1 << 32)),
                          ("offset", (0, 256, (1 << 64) - 128))):
        for value in values:
            record = other_field(field, lambda _: value)({"record": RECORD})["record"]
            yield checked(f"{field}-{value}", f"the record says {field} {value}", record)
    for at in (3, 5, 60, 71, 102, 138, 233, 237, 244):
        yield checked(f"bit-of-{at}", f"bit 0 of byte {at} is another one",
                      changed(RECORD, at, bytes([RECORD[at] ^ 1])))
    for number in (0, NUMBER ^ 1, NUMBER ^ 1 << 63, int.from_bytes(le(NUMBER), "big")):
        yield checked(f"asked-for-{number}", "the record of another deal", number=number)
    for size in (256, 1024, 1 << 36, 0):
        yield checked(f"deal-size-{size}", "the record of a deal of 512 bytes for another size", size=size)
    yield checked("other-commitment", "the record for another commitment", commitment=OTHER)
    yield checked("stray-commitment", "no path leads to a commitment with stray bits", commitment=stray(ROOT, 0))


def large_deals():
    for name, d, size in (("p4", 512, 256), ("p5", 512, 128), ("p6", 1 << 20, 1024), ("2-to-30", 1 << 30, 5000),
                          ("p7", 1 << 36, 128), ("2-to-36", 1 << 36, 1 << 20)):
        root, record = sparse_record(random.Random(name), d, size, NUMBER)
        how = f"D = {d}: zeros, but for a segment of {size} bytes and its entry"
        other = changed(record, len(record) - 43, bytes([record[-43] ^ 1]))
        yield checked(name, how, record, d, root)
        yield checked(f"{name}-half", how + "; asked for half of the size", record, d // 2, root)
        yield checked(f"{name}-other-node", how + "; another last node", other, d, root)
        yield checked(f"{name}-old", how + "; without the number, as records once were", record[:-11], d, root)


def paths_with_stray_bits():
    made = (Case(*each) for each in stray_paths(random.Random(19)))
    for i, case in enumerate(case for case in made if case.op == CHECK):
        how = "both paths lead to the commitment; from the second case on a node of a path has stray bits"
        yield checked(f"leads-home-{i}", how, case.a, case.x, case.b, case.y)


def settlings():
    of = lambda name, fault: lambda i: {name: RECORD_FAULTS[fault]({"record": i[name]})["record"]}
    yield from orders("settle_records",
                      {"commitment": ROOT, "size": 512, "number": NUMBER, "first": RECORD, "second": RECORD}, {
        "commitment-length": lambda i: {"commitment": i["commitment"] + b"\0"},
        "size": lambda i: {"size": 0},
        "first-form": of("first", "form"),
        "first-entry-path": of("first", "entry-path"),
        "second-form": of("second", "form"),
        "second-number": of("second", "number"),
        "second-segment-size": of("second", "segment-size"),
        "other-place": lambda i: {"second": MODEL.build(DEAL, NUMBER, 256)[1]},
    })
    yield from orders("settle_with_deal", {"deal": DEAL, "number": NUMBER, "record": RECORD},
                      {**CUT_DEAL, **STRAY_DEAL, **RECORD_FAULTS})
    yield call("settle_with_deal", "other-deal", "the record of a deal with another second segment",
               deal=deal_of(512, segment(1), segment(2, 101)), number=NUMBER, record=RECORD)


# ---- with a tree


def fillings():
    yield from orders("tree_fill", {"deal": DEAL, "tree": repeat(b"\xa5", 480)},
                      {**CUT_DEAL, **STRAY_DEAL, **TREE_LENGTH})
    for n in (0, 448, 479, 512):
        yield call("tree_fill", f"tree-of-{n}", "a tree has 32 bytes less than its deal", deal=DEAL, tree=zeros(n))
    yield call("tree_fill", "2-to-20", "a larger one", deal=joined(nodes("deal", 32752), zeros(512)),
               tree=zeros((1 << 20) - 32))


def rows():
    for n in (0, 1, 2, 3, 4, 5, 16, 17, 100):
        yield call("tree_row", f"pairs-{n}", f"{n} pairs of nodes", below=nodes("row", 2 * n),
                   above=repeat(b"\xa5", 32 * n))
    yield call("tree_row", "stray", "stray bits are not looked for", below=repeat(b"\xff", 64), above=zeros(32))
    for below, above in ((32, 16), (63, 31), (64, 31), (64, 33), (96, 48), (0, 32)):
        how = "no whole pairs, or a row above of another length"
        yield call("tree_row", f"{below}-{above}", how, below=zeros(below), above=zeros(above))


def changes_with_tree():
    one, owned = deal_of(512, segment(1)), {"table": b"\1\0\0\0", "house": 1}
    yield from orders("book_with_tree",
                      {"deal": one, **owned, "segment": segment(2, 100), "tree": MODEL.fill(one, bytes(480))[1]}, {
        **NO_HOUSE, **CUT_DEAL, **CUT_TABLE,
        "segment-size": lambda i: {"segment": b""},
        **STRAY_DEAL, **TREE_LENGTH,
        "kept": lambda i: {"segment": segment(1)},
        "quota": lambda i: {"deal": changed(i["deal"], 320, MODEL.entry(OTHER, 128, 128)), "table": b"\1\1\0\0"},
    })
    yield call("book_with_tree", "stale", "kept is read from the tree: one filled before the booking books again",
               deal=one, **owned, tree=MODEL.fill(bytes(512), bytes(480))[1], segment=segment(1))
    yield call("book_with_tree", "any-bytes", "only nodes above what is written are worked out anew", deal=zeros(512),
               table=zeros(4), house=2, tree=nodes("tree", 15), segment=segment(1))
    yield call("book_with_tree", "the-others", "what the other house keeps does not count for 15", deal=one,
               table=b"\1\0\0\0", house=2, tree=MODEL.fill(one, bytes(480))[1], segment=segment(1))
    both = {"table": b"\1\2\0\0", "house": 1}
    yield from orders("cancel_with_tree", {"deal": DEAL, **both, "tree": TREE, "place": 256}, {
        **NO_HOUSE, **CUT_DEAL, **CUT_TABLE, **STRAY_DEAL, **TREE_LENGTH,
        "place": lambda i: {"place": i["place"] + 32},
        "the-others": lambda i: {"place": i["place"] + 64},
    })
    yield call("cancel_with_tree", "any-bytes", "one node of each height is worked out anew", deal=DEAL, **both,
               tree=nodes("tree", 15), place=256)
    clash = with_entries(DEAL, *(MODEL.entry(bytes(32), 0, 128) for _ in range(2)))
    gap = {"deal": MODEL.drop(DEAL, 256)[1], "table": b"\1\7\2\2", "second": repeat(b"\xff", 512),
           "tree": repeat(b"\xa5", 480), "second_table": repeat(b"\xa5", 4)}
    yield from orders("collect_with_tree", gap, {
        **CUT_DEAL, **CUT_TABLE,
        "second-table-length": lambda i: {"second_table": b""},
        "second-length": lambda i: {"second": zeros(511)},
        **STRAY_DEAL, **TREE_LENGTH,
        "overlap": lambda i: {"deal": clash},
    })


def records_with_tree():
    yield from orders("build_with_tree",
                      {"deal": DEAL, "tree": TREE, "number": NUMBER, "place": 320, "record": zeros(250)}, {
        **CUT_DEAL, **STRAY_DEAL, **TREE_LENGTH,
        "place": lambda i: {"place": 300},
        "not-kept": lambda i: {"place": i["place"] + 64},
        "output": lambda i: {"record": zeros(244)},
    })
    for name, how, tree in (("stale", "kept is read from the tree", MODEL.fill(bytes(512), bytes(480))[1]),
                            ("spoilt", "every inner node is taken as it stands", changed(TREE, 416, bytes(32)))):
        yield call("build_with_tree", name, how, deal=DEAL, tree=tree, number=NUMBER, place=320, record=zeros(245))
    yield from orders("settle_with_tree", {"deal": DEAL, "tree": TREE, "number": NUMBER, "record": RECORD},
                      {**CUT_DEAL, **STRAY_DEAL, **TREE_LENGTH, **RECORD_FAULTS})
    for at in (0, 256, 384, 416, 448):
        yield call("settle_with_tree", f"node-at-{at}", f"the tree's node at {at} is another one", deal=DEAL,
                   tree=changed(TREE, at, flipped(TREE[at : at + 32])), number=NUMBER, record=RECORD)


GROUPS = (built, fields, check_orders, record_forms, record_values, large_deals, paths_with_stray_bits, settlings,
          fillings, rows, changes_with_tree, records_with_tree)
