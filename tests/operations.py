"""The operations that a case can ask for, and the answers of the independent model.

A case is a header of eight little-endian u64 (operation, lengths of a, b, c, d and e, x, y), then the bytes a, b, c, d
and e. Its answer is one line of text: the code, the numbers in decimal, the bytes in hex. `encode` writes it; ANSWERS
says what each operation takes and prints.
"""
import hashlib
from typing import NamedTuple

from model import Model, index_numbers, le, pad, sha256, unpad

# The operations by number, as crates/vectors and rust/examples/replay/operation.rs have them. CHECK_INPUT is of the
# program check_record, and COMPARE of the code that settling shares (two paths from one position): no routines of their
# own.
(SHA256, COMMITMENT, NUMBERS, MAKE, READ, FIND, BOOK, BUILD, CHECK, SETTLE, SETTLE_DEAL, FIELDS, CHECK_INPUT, AUDIT,
 COMPARE, STREAM, PAD, UNPAD, TALLY, FILL, BOOK_TREE, BUILD_TREE, SETTLE_TREE, CANCEL, CANCEL_TREE, COLLECT,
 COLLECT_TREE, ROW, PLAYBACK) = range(1, 30)

NAMES = {SHA256: "sha256", COMMITMENT: "commitment", NUMBERS: "index_numbers", MAKE: "make_entry", READ: "read_entry",
         FIND: "find", BOOK: "book", BUILD: "build", CHECK: "check", SETTLE: "settle_records",
         SETTLE_DEAL: "settle_with_deal", FIELDS: "read_field",
         AUDIT: "audit", TALLY: "tally", FILL: "tree_fill", BOOK_TREE: "book_with_tree", BUILD_TREE: "build_with_tree",
         SETTLE_TREE: "settle_with_tree", CANCEL: "cancel", CANCEL_TREE: "cancel_with_tree", COLLECT: "collect",
         COLLECT_TREE: "collect_with_tree", ROW: "tree_row", PLAYBACK: "playback"}

# The forms that take a tree, in c; their other arguments are those of the plain forms. A table of owners is in d, a
# second one in e, and a house in y.
PLAIN_FORM = {BOOK_TREE: BOOK, BUILD_TREE: BUILD, SETTLE_TREE: SETTLE_DEAL, CANCEL_TREE: CANCEL, COLLECT_TREE: COLLECT}

MODEL = Model()


class Case(NamedTuple):
    """A call; what it leaves out is empty, or 0."""
    op: int
    a: bytes = b""
    b: bytes = b""
    x: int = 0
    y: int = 0
    c: bytes = b""
    d: bytes = b""
    e: bytes = b""


def encode(case):
    op, a, b, x, y, *more = Case(*case)
    memory = a, b, *more
    return b"".join(map(le, (op, *map(len, memory), x, y))) + b"".join(memory)


def line(*parts):
    return " ".join(p.hex() if isinstance(p, (bytes, bytearray)) else str(int(p)) for p in parts) + "\n"


PART = 1 << 24  # the longest message that the library's sha256 takes


def digest(data):
    """The SHA-256 by which a line shows bytes; of more than PART, that of the SHA-256s of their parts."""
    if len(data) <= PART:
        return hashlib.sha256(data).digest()
    return digest(b"".join(digest(data[at : at + PART]) for at in range(0, len(data), PART)))


# ---- the answers; bytes that may be many are shown by their SHA-256


def found(case):
    """b is the commitment; the view is shown after the numbers."""
    code, o, s, p = MODEL.find(case.a, case.b)
    return code, o, s, p, s, digest(case.a[o : o + s])


def shown(*memory):
    """What lent memory holds afterwards."""
    return [digest(each) for each in memory]


def booked(case):
    """b is the segment, y the house, d the table; the deal, with a tree in hand the tree, and the table afterwards."""
    if case.op == BOOK:
        code, o, p, *after = MODEL.book(case.a, case.d, case.y, case.b)
    else:
        code, o, p, *after = MODEL.book_with_tree(case.a, case.c, case.d, case.y, case.b)
    return code, o, p, *shown(*after)


def audited(case):
    """b is the lent buffer before; the buffer afterwards."""
    code, states = MODEL.audit(case.a, case.b)
    return code, digest(states)


ROWS = 128 * 57  # the bytes of a ledger's rows


def played_back(case):
    """a is the log, x the deal's size. The kind of the answer, 0 or 1, and the code or the number of the line; what the
    rules give for that line: code, offset, place; the number of rows, and their bytes, with zeros after them."""
    verdict, ruling, rows = MODEL.playback(case.x, case.a)
    return *verdict, *ruling, len(rows), digest(b"".join(row.to_bytes() for row in rows).ljust(ROWS, b"\0"))


def tree_filled(case):
    """The tree afterwards."""
    code, tree = MODEL.fill(case.a, case.c)
    return code, digest(tree)


def row_written(case):
    """a is the row below, b the row above before; the row above afterwards."""
    code, above = MODEL.row(case.a, case.b)
    return code, digest(above)


def cancelled(case):
    """x is the place, y the house, d the table; the deal, with a tree in hand the tree, and the table afterwards."""
    if case.op == CANCEL:
        code, *after = MODEL.cancel(case.a, case.d, case.y, case.x)
    else:
        code, *after = MODEL.cancel_with_tree(case.a, case.c, case.d, case.y, case.x)
    return code, *shown(*after)


def collected(case):
    """b is the second deal before, d the table, e the second table before; the second deal, with a tree for it in hand
    the tree, and the second table afterwards."""
    if case.op == COLLECT:
        code, *after = MODEL.collect(case.a, case.d, case.b, case.e)
    else:
        code, *after = MODEL.collect_with_tree(case.a, case.d, case.b, case.c, case.e)
    return code, *shown(*after)


def tree_of(case):
    return case.c if case.op in PLAIN_FORM else None


def built(case):
    """b is the output before, x the place, y the deal's number; the output afterwards."""
    code, record = MODEL.build(case.a, case.y, case.x, tree_of(case))
    if code == 0 and len(case.b) < len(record):
        code = 12
    out = record + case.b[len(record):] if code == 0 else case.b
    return code, len(record) if code == 0 else 0, digest(out)


def fields(case):
    """The fields read in turn from place 0, whatever their tags: tag, start, length, next; then the place that is no
    field."""
    record, at, out = case.a, 0, []
    while at + 3 <= len(record):
        n = record[at + 1] + 256 * record[at + 2]
        if at + 3 + n > len(record):
            break
        out += [record[at], at + 3, n, at + 3 + n]
        at += 3 + n
    return 0, *out, at


def compared(case):
    """a and b are a node and a path each, x the position."""
    nodes = lambda data: [data[i : i + 32] for i in range(32, len(data), 32)]
    strings = lambda data: MODEL.path_strings(data[:32], case.x, nodes(data))
    return MODEL.settled(strings(case.a), strings(case.b))


def streamed(case):
    """a are the bytes, b the lengths of the pieces but the last; after the answer the code that sticks after each."""
    code, node, count, codes = MODEL.stream(pieces(case.a, case.b))
    return code, node, count, *codes


def padded(case):
    """a are the raw bytes, b is the output before; the output afterwards."""
    code, n, out = pad(case.a, case.b)
    return code, n, digest(out)


def unpadded(case):
    """a is the segment, b the output before, x the raw length; the output afterwards."""
    code, n, out = unpad(case.x, case.a, case.b)
    return code, n, digest(out)


def checked_input(case):
    """What the program check_record prints for its input."""
    data = case.a
    if len(data) < 32:
        return (1,)
    if len(data) < 48:
        return (2,)
    if len(data) > 48 + 4096:
        return (3,)
    size, number = (int.from_bytes(data[at : at + 8], "little") for at in (32, 40))
    return (MODEL.check(data[:32], size, number, data[48:]),)


# What each operation answers. Where nothing else is said, a is the message, run, commitment, entry, record or deal, x
# the size or place, y the deal's number.
ANSWERS = {
    SHA256: lambda case: sha256(case.a),
    COMMITMENT: lambda case: MODEL.commitment(case.a),
    NUMBERS: lambda case: index_numbers(case.x),
    MAKE: lambda case: MODEL.make_entry(case.a, case.x, case.y),
    READ: lambda case: MODEL.read_entry(case.a),
    FIND: found,
    BOOK: booked,
    BUILD: built,
    CHECK: lambda case: (MODEL.check(case.b, case.x, case.y, case.a),),  # a is the record, b the commitment
    SETTLE: lambda case: MODEL.settle_records(case.c, case.x, case.y, case.a, case.b),  # c is the commitment
    SETTLE_DEAL: lambda case: MODEL.settle_deal(case.a, case.y, case.b),
    FIELDS: fields,
    CHECK_INPUT: checked_input,
    AUDIT: audited,
    COMPARE: compared,
    STREAM: streamed,
    PAD: padded,
    UNPAD: unpadded,
    TALLY: lambda case: MODEL.tally(case.a),
    FILL: tree_filled,
    BOOK_TREE: booked,
    BUILD_TREE: built,
    SETTLE_TREE: lambda case: MODEL.settle_deal(case.a, case.y, case.b, case.c),
    CANCEL: cancelled,
    CANCEL_TREE: cancelled,
    COLLECT: collected,
    COLLECT_TREE: collected,
    ROW: row_written,
    PLAYBACK: played_back,
}


def answer(case):
    case = Case(*case)
    return line(*ANSWERS[case.op](case))


def pieces(data, lengths):
    """Pieces of these lengths, as far as the bytes go, and then the rest in one piece."""
    out, at = [], 0
    for n in lengths:
        out.append(data[at : at + n])
        at += n
    return [*out, data[at:]]
