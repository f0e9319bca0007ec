"""An independent model of the rules (documents 01 and 02, FRC-0058, FIPS 180-4), written from the papers.

SHA-256 is Python's hashlib. Nothing here is shared with the library under test. The node hash and the checksum can be
replaced by weak ones (see `weak`), so that code 17 can be seen to occur.
"""
import hashlib
from itertools import combinations
from typing import NamedTuple

ZERO32, ZERO64 = bytes(32), bytes(64)

BLANK, DAMAGED, VALID = range(3)  # the kinds of an entry

# The states of a slot in an audit: blank; damaged; valid but not standing; standing and overlapping a standing entry in
# a lower slot; standing but its commitment is wrong; kept.
SLOT_BLANK, SLOT_DAMAGED, SLOT_NOT_STANDING, SLOT_OVERLAPPING, SLOT_WRONG, SLOT_KEPT = range(6)


class Hashes:
    """The two hash functions that everything else rests on."""

    def node(self, pair):
        d = bytearray(hashlib.sha256(pair).digest())
        d[31] &= 0x3F
        return bytes(d)

    def checksum(self, body):
        d = bytearray(hashlib.sha256(body + bytes(16)).digest()[:16])
        d[15] &= 0x3F
        return bytes(d)


class Weak(Hashes):
    """A node hash of a few bits: collisions are easy to find."""

    def __init__(self, bits):
        self.bits = bits

    def node(self, pair):
        v = int.from_bytes(hashlib.sha256(pair).digest()[:4], "little") % (1 << self.bits)
        return bytes([v]) + bytes(31)


def power(n):
    return n > 0 and bin(n).count("1") == 1


def le(v, n=8):
    return v.to_bytes(n, "little")


def sha256(message):
    if len(message) > 1 << 24:
        return 2, ZERO32
    return 0, hashlib.sha256(message).digest()


def stray(data):
    return any(data[i + 31] >= 64 for i in range(0, len(data) - 31, 32))


def area(t):
    """The smallest power of two at or above both a segment size and 128."""
    return max(128, 1 << (t - 1).bit_length())


def overlap(row, other):
    """Whether the areas of two standing entries, each (commitment, offset, size), have a byte in common."""
    return row[1] < other[1] + area(other[2]) and other[1] < row[1] + area(row[2])


def filled(segment):
    """The bytes of the segment's area: the segment, and zeros after it."""
    return segment + bytes(area(len(segment)) - len(segment))


MAX_RAW = 8_323_072
# Of 2^36 bytes after padding.
MAX_RAW_STREAM = (1 << 36) // 128 * 127


def bit(data, i):
    """Bits in little-endian order."""
    return data[i // 8] >> i % 8 & 1


def segment_bit(i):
    """Where raw bit i stands in the segment: 254 data bits and then two zero bits for every node of 256."""
    return i // 254 * 256 + i % 254


def segment_length(n):
    return -(-n * 128 // 127)


def pad(raw, output):
    """Code, length, the output afterwards."""
    if not 1 <= len(raw) <= MAX_RAW:
        return 2, 0, output
    n = segment_length(len(raw))
    if len(output) < n:
        return 12, 0, output
    segment = bytearray(n)
    for i in range(8 * len(raw)):
        at = segment_bit(i)
        segment[at // 8] |= bit(raw, i) << at % 8
    return 0, n, bytes(segment) + output[n:]


def unpad(n, segment, output):
    """Code, length, the output afterwards."""
    if not 1 <= n <= MAX_RAW:
        return 2, 0, output
    if len(segment) != segment_length(n):
        return 24, 0, output
    last = segment_bit(8 * n - 1)
    if stray(segment) or any(bit(segment, at) for at in range(last + 1, 8 * len(segment))):
        return 11, 0, output
    if len(output) < n:
        return 12, 0, output
    raw = bytearray(n)
    for i in range(8 * n):
        raw[i // 8] |= bit(segment, segment_bit(i)) << i % 8
    return 0, n, bytes(raw) + output[n:]


def index_numbers(d):
    if not (power(d) and 512 <= d <= 1 << 36):
        return 2, 0, 0
    n = max(4, d // 131072)
    return 0, n, d - 64 * n


def height(size):
    """The height of the node over a power of two of bytes: a node itself has height 0."""
    return (size // 32).bit_length() - 1


def tree_allowed(d, tree):
    """Whether a tree buffer has the length that a deal of d bytes asks for; none is needed."""
    return tree is None or len(tree) == d - 32


def table_allowed(d, table):
    """Whether a table of owners has one byte for each slot of a deal of d bytes."""
    return len(table) == index_numbers(d)[1]


def owners(deal, owner):
    """A table for a deal with this byte for every slot."""
    return bytes([owner]) * index_numbers(len(deal))[1]


def owned(table, i, owner):
    """The table of owners with another byte for slot i."""
    return table[:i] + bytes([owner]) + table[i + 1:]


def node_place(d, h, i):
    """Where node i of height h, from 1 on, stands in the tree buffer of a deal of d bytes."""
    return d - d // 2 ** (h - 1) + 32 * i


def node_in(tree, d, offset, size):
    """The node over the bytes at an offset, as it stands in the tree buffer."""
    at = node_place(d, height(size), offset // size)
    return tree[at : at + 32]


# ---- the clerks' log: a field for each call that gets a line

BOOKING, CANCELLING = 1, 2  # the tags
CONTENT = {BOOKING: 58, CANCELLING: 10}  # the lengths of their contents
LOGGED = {BOOKING: (0, 13, 14, 15, 22), CANCELLING: (0, 16)}  # the codes of the calls that get a line


class Booking(NamedTuple):
    """A line for a booking: whose it is, the segment, and the answers."""
    house: int
    commitment: bytes
    size: int
    code: int
    offset: int = 0
    place: int = 0

    def to_bytes(self):
        content = (bytes([self.house]) + self.commitment + le(self.size) + bytes([self.code]) + le(self.offset)
                   + le(self.place))
        return field(BOOKING, content)


class Cancelling(NamedTuple):
    """A line for a cancellation: whose it is, the entry place, and the answer."""
    house: int
    place: int
    code: int

    def to_bytes(self):
        return field(CANCELLING, bytes([self.house]) + le(self.place) + bytes([self.code]))


def field(tag, content):
    return bytes([tag]) + le(len(content), 2) + content


def line_of(tag, content):
    """The line that a field's content says."""
    number = lambda at: int.from_bytes(content[at : at + 8], "little")
    if tag == BOOKING:
        return Booking(content[0], content[1:33], number(33), content[41], number(42), number(50))
    return Cancelling(content[0], number(1), content[9])


def line_allowed(d, tag, line):
    """Whether the house, the size and the code of a line may stand in the log of a deal of d bytes."""
    sized = tag == CANCELLING or 1 <= line.size <= d // 2
    return line.house in (1, 2) and sized and line.code in LOGGED[tag]


def log_lines(d, log):
    """The lines of a log for a deal of d bytes; None where it is malformed."""
    at, lines = 0, []
    while at < len(log):
        tag, n = log[at], int.from_bytes(log[at + 1 : at + 3], "little")
        content = log[at + 3 : at + 3 + n]
        if CONTENT.get(tag) != n or len(content) != n:
            return None
        line = line_of(tag, content)
        if not line_allowed(d, tag, line):
            return None
        lines.append(line)
        at += 3 + n
    return lines


class Row(NamedTuple):
    """A row of a ledger."""
    house: int
    commitment: bytes
    size: int
    offset: int
    place: int

    def to_bytes(self):
        return bytes([self.house]) + self.commitment + le(self.size) + le(self.offset) + le(self.place)


class Ledger:
    """What stands in the slots of a deal of d bytes by a log alone: rows by their entry places."""

    def __init__(self, d):
        _, n, self.start = index_numbers(d)
        self.rows = dict.fromkeys(range(self.start, d, 64))

    def held(self):
        """The rows by rising place."""
        return [row for row in self.rows.values() if row]

    def lowest_offset(self, a):
        """The lowest multiple of the area that ends by the index start and overlaps no row's area; None where there is
        none."""
        used = [(row.offset, row.offset + area(row.size)) for row in self.held()]
        free = (o for o in range(0, self.start - a + 1, a) if all(end <= o or o + a <= first for first, end in used))
        return next(free, None)

    def book(self, house, commitment, size):
        """Code, offset, place."""
        own = [row for row in self.held() if row.house == house]
        for row in own:
            if (row.size, row.commitment) == (size, commitment):
                return 15, row.offset, row.place
        if 2 * len(own) >= len(self.rows):
            return 22, 0, 0
        free = [place for place, row in self.rows.items() if row is None]
        if not free:
            return 13, 0, 0
        offset = self.lowest_offset(area(size))
        if offset is None:
            return 14, 0, 0
        self.rows[free[0]] = Row(house, commitment, size, offset, free[0])
        return 0, offset, free[0]

    def cancel(self, house, place):
        """The code, and zeros."""
        if place not in self.rows:
            return 6, 0, 0
        if self.rows[place] is None or self.rows[place].house != house:
            return 16, 0, 0
        self.rows[place] = None
        return 0, 0, 0

    def play(self, line):
        """What the rules give for a line, and what it says."""
        if isinstance(line, Booking):
            return self.book(line.house, line.commitment, line.size), (line.code, line.offset, line.place)
        return self.cancel(line.house, line.place), (line.code, 0, 0)


class Model:
    def __init__(self, hashes=None):
        self.h = hashes or Hashes()

    # ---- trees
    def tree(self, run):
        """All levels, the nodes of level 0 first."""
        level = [run[i : i + 32] for i in range(0, len(run), 32)]
        levels = [level]
        while len(level) > 1:
            level = [self.h.node(level[i] + level[i + 1]) for i in range(0, len(level), 2)]
            levels.append(level)
        return levels

    def commitment(self, run):
        if not (power(len(run)) and 32 <= len(run) <= 1 << 24):
            return 2, ZERO32
        if stray(run):
            return 11, ZERO32
        return 0, self.tree(run)[-1][0]

    def stream(self, pieces):
        """Code, commitment and count at the end, and the code that sticks after each piece. Bytes are judged in
        turn."""
        taken, sticks, codes = bytearray(), 0, []
        for piece in pieces:
            for byte in piece:
                if sticks:
                    break
                if len(taken) == 1 << 36:
                    sticks = 2
                    break
                taken.append(byte)
                if len(taken) % 32 == 0 and byte >= 64:
                    sticks = 11
            codes.append(sticks)
        total = len(taken)
        code = sticks or (0 if power(total) and 32 <= total <= 1 << 36 else 2)
        return code, ZERO32 if code else self.tree(bytes(taken))[-1][0], 0 if code else total, codes

    def path_root(self, node, p, path):
        for s in path:
            node = self.h.node(node + s if p % 2 == 0 else s + node)
            p //= 2
        return node

    def path_strings(self, node, p, path):
        """The strings hashed at each level, from the top down."""
        out = []
        for s in path:
            pair = node + s if p % 2 == 0 else s + node
            out.append(pair)
            node = self.h.node(pair)
            p //= 2
        return out[::-1]

    # ---- entries
    def entry(self, commitment, offset, size):
        body = commitment + le(offset) + le(size)
        return body + self.h.checksum(body)

    def make_entry(self, commitment, offset, size):
        if len(commitment) != 32:
            return 1, ZERO64
        if commitment[31] >= 64:
            return 8, ZERO64
        return 0, self.entry(commitment, offset, size)

    def read_entry(self, e):
        """Code, kind, commitment, offset, size."""
        if len(e) != 64:
            return 2, BLANK, ZERO32, 0, 0
        if e == ZERO64:
            return 0, BLANK, ZERO32, 0, 0
        if self.h.checksum(e[:48]) != e[48:]:
            return 0, DAMAGED, ZERO32, 0, 0
        return 0, VALID, e[:32], int.from_bytes(e[32:40], "little"), int.from_bytes(e[40:48], "little")

    @staticmethod
    def size_allowed(d, s):
        return 1 <= s <= d // 2

    @staticmethod
    def offset_allowed(d, o, s):
        return o % area(s) == 0 and o + area(s) <= index_numbers(d)[2]

    def standing(self, deal, i):
        """What stands in slot i: (commitment, offset, size) or None."""
        d = len(deal)
        _, n, start = index_numbers(d)
        p = start + 64 * i
        _, kind, c, o, s = self.read_entry(deal[p : p + 64])
        if kind == VALID and self.size_allowed(d, s) and self.offset_allowed(d, o, s):
            return c, o, s
        return None

    def kept(self, deal, i, tree=None):
        """What is kept in slot i: (commitment, offset, size) or None. With a tree buffer, by the node that stands
        there."""
        row = self.standing(deal, i)
        if row is None:
            return None
        c, o, s = row
        node = self.tree(deal[o : o + area(s)])[-1][0] if tree is None else node_in(tree, len(deal), o, area(s))
        return row if node == c else None

    @staticmethod
    def lent_allowed(d):
        return power(d) and 512 <= d <= 1 << 24

    def slot_state(self, deal, rows, i):
        """The lowest state that applies to slot i; the rows are what stands in each slot."""
        p = index_numbers(len(deal))[2] + 64 * i
        kind, row = self.read_entry(deal[p : p + 64])[1], rows[i]
        below = row and any(other and overlap(row, other) for other in rows[:i])
        kept = row and self.kept(deal, i)
        applies = kind == BLANK, kind == DAMAGED, kind == VALID and not row, below, row and not kept, kept
        return next(state for state, holds in enumerate(applies) if holds)

    def audit(self, deal, states):
        """Code, the lent buffer afterwards: a byte for each slot, and all after them as it was."""
        d = len(deal)
        if not self.lent_allowed(d):
            return 2, states
        if stray(deal):
            return 11, states
        n = index_numbers(d)[1]
        if len(states) < n:
            return 12, states
        rows = [self.standing(deal, i) for i in range(n)]
        return 0, bytes(self.slot_state(deal, rows, i) for i in range(n)) + states[n:]

    def tally(self, deal):
        """Code, and how many slots are blank, damaged, valid."""
        d = len(deal)
        if not self.lent_allowed(d):
            return 2, 0, 0, 0
        if stray(deal):
            return 11, 0, 0, 0
        kinds = [self.read_entry(deal[p : p + 64])[1] for p in range(index_numbers(d)[2], d, 64)]
        return 0, kinds.count(BLANK), kinds.count(DAMAGED), kinds.count(VALID)

    # ---- find
    def find(self, deal, commitment):
        """Code, offset, size, place; the view is deal[offset:offset + size]."""
        if len(commitment) != 32:
            return 1, 0, 0, 0
        if not self.lent_allowed(len(deal)):
            return 2, 0, 0, 0
        if stray(deal):
            return 11, 0, 0, 0
        _, n, start = index_numbers(len(deal))
        for i in range(n):
            row = self.standing(deal, i)
            if row and row[0] == commitment and self.kept(deal, i):
                return 0, row[1], row[2], start + 64 * i
        return 16, 0, 0, 0

    # ---- two houses
    def house_refusal(self, d, table, house):
        """The first of what booking and cancelling look at: the house, the deal's size, the table's length."""
        if house not in (1, 2):
            return 23
        if not self.lent_allowed(d):
            return 2
        return 0 if table_allowed(d, table) else 23

    @staticmethod
    def held(rows, table, house):
        """The slots that a house holds: an entry stands there, kept or not, and the slot's byte is the house's."""
        return [i for i, row in enumerate(rows) if row and table[i] == house]

    # ---- book
    def book(self, deal, table, house, segment, tree=None):
        """Code, offset, place, the deal and the table afterwards. A tree buffer is read alone; see `book_with_tree`."""
        d, s = len(deal), len(segment)
        refused = lambda code: (code, 0, 0, deal, table)
        code = self.house_refusal(d, table, house)
        if code:
            return refused(code)
        if not self.size_allowed(d, s):
            return refused(4)
        whole, a = filled(segment), area(s)
        if stray(deal) or stray(whole):
            return refused(11)
        if not tree_allowed(d, tree):
            return refused(12)
        _, n, start = index_numbers(d)
        rows = [self.standing(deal, i) for i in range(n)]
        own = self.held(rows, table, house)
        for i in own:
            _, o, size = rows[i]
            if size == s and deal[o : o + a] == whole and self.kept(deal, i, tree):
                return 15, o, start + 64 * i, deal, table
        if 2 * len(own) >= n:
            return refused(22)
        slots = [i for i, row in enumerate(rows) if row is None]
        if not slots:
            return refused(13)
        used = [(row[1], row[1] + area(row[2])) for row in rows if row]
        for o in range(0, start - a + 1, a):
            if all(end <= o or o + a <= first for first, end in used):
                break
        else:
            return refused(14)
        out = bytearray(deal)
        out[o : o + a] = whole
        p = start + 64 * slots[0]
        out[p : p + 64] = self.entry(self.tree(whole)[-1][0], o, s)
        return 0, o, p, bytes(out), owned(table, slots[0], house)

    # ---- cancel and collect
    def cancel(self, deal, table, house, place, tree=None):
        """Code, the deal and the table afterwards. A tree buffer is judged by its length alone; see
        `cancel_with_tree`."""
        d = len(deal)
        code = self.house_refusal(d, table, house)
        if code:
            return code, deal, table
        if stray(deal):
            return 11, deal, table
        if not tree_allowed(d, tree):
            return 12, deal, table
        _, n, start = index_numbers(d)
        if place % 64 or not start <= place < d:
            return 6, deal, table
        i = (place - start) // 64
        if self.standing(deal, i) is None or table[i] != house:
            return 16, deal, table
        return 0, deal[:place] + ZERO64 + deal[place + 64:], owned(table, i, 0)

    def collect(self, deal, table, second, second_table, tree=None):
        """Code, the second deal and the second table afterwards. A tree buffer is judged by its length alone; see
        `collect_with_tree`."""
        d = len(deal)
        refused = lambda code: (code, second, second_table)
        if not self.lent_allowed(d):
            return refused(2)
        if not table_allowed(d, table) or not table_allowed(d, second_table):
            return refused(23)
        if len(second) != d:
            return refused(12)
        if stray(deal):
            return refused(11)
        if not tree_allowed(d, tree):
            return refused(12)
        _, n, start = index_numbers(d)
        rows = [(*row, owner) for row, owner in ((self.standing(deal, i), table[i]) for i in range(n)) if row]
        if any(overlap(r, s) for r, s in combinations(rows, 2)):
            return refused(20)
        new, moved, offset, place = bytearray(d), b"", 0, start
        for c, o, s, owner in sorted(rows, key=lambda row: (-area(row[2]), row[1])):
            a = area(s)
            new[offset : offset + a] = deal[o : o + a]
            new[place : place + 64] = self.entry(c, offset, s)
            offset, place, moved = offset + a, place + 64, moved + bytes([owner])
        return 0, bytes(new), moved + bytes(n - len(moved))

    # ---- the same where it does not matter whose entries stand
    def put(self, deal, segment):
        """Booked by a house that holds no slot: code, offset, place, the deal afterwards."""
        return self.book(deal, owners(deal, 0), 1, segment)[:4]

    def drop(self, deal, place):
        """Cancelled by a house that owns every slot: code, the deal afterwards."""
        return self.cancel(deal, owners(deal, 1), 1, place)[:2]

    def pack(self, deal, second):
        """Nobody's entries collected: code, the second deal afterwards."""
        return self.collect(deal, owners(deal, 0), second, owners(deal, 0))[:2]

    # ---- the tree beside the deal
    def fill(self, deal, tree):
        """Code, the tree buffer afterwards."""
        if not self.lent_allowed(len(deal)):
            return 2, tree
        if stray(deal):
            return 11, tree
        if not tree_allowed(len(deal), tree):
            return 12, tree
        return 0, b"".join(node for level in self.tree(deal)[1:] for node in level)

    def row(self, below, above):
        """Code, the row above afterwards: the node hashes of the pairs of nodes below."""
        if len(below) % 64 or len(above) != len(below) // 2:
            return 12, above
        return 0, b"".join(self.h.node(below[i : i + 64]) for i in range(0, len(below), 64))

    def levels(self, deal, tree):
        """All levels, the nodes of level 0 first: hashed from the deal, or with a tree buffer the others as they stand
        there."""
        if tree is None:
            return self.tree(deal)
        nodes = lambda data: [data[i : i + 32] for i in range(0, len(data), 32)]
        levels, rest = [nodes(deal)], nodes(tree)
        while rest:
            n = len(levels[-1]) // 2
            levels.append(rest[:n])
            rest = rest[n:]
        return levels

    def renewed(self, deal, tree, parts):
        """The tree buffer once every node above these parts (start, length) of the deal is worked out anew, from the
        bottom up."""
        levels = self.levels(deal, tree)
        for h in range(1, len(levels)):
            for i in range(len(levels[h])):
                first, end = 32 * i << h, 32 * (i + 1) << h
                if any(first < start + length and start < end for start, length in parts):
                    levels[h][i] = self.h.node(levels[h - 1][2 * i] + levels[h - 1][2 * i + 1])
        return b"".join(node for level in levels[1:] for node in level)

    def book_with_tree(self, deal, tree, table, house, segment):
        """Code, offset, place; the deal, the tree buffer and the table afterwards."""
        code, o, p, after, table = self.book(deal, table, house, segment, tree)
        renewed = self.renewed(after, tree, ((o, area(len(segment))), (p, 64))) if code == 0 else tree
        return code, o, p, after, renewed, table

    def cancel_with_tree(self, deal, tree, table, house, place):
        """Code; the deal, the tree buffer and the table afterwards."""
        code, after, table = self.cancel(deal, table, house, place, tree)
        return code, after, self.renewed(after, tree, ((place, 64),)) if code == 0 else tree, table

    def collect_with_tree(self, deal, table, second, tree, second_table):
        """Code; the second deal, its tree buffer and its table afterwards."""
        code, after, table = self.collect(deal, table, second, second_table, tree)
        return code, after, self.fill(after, tree)[1] if code == 0 else tree, table

    # ---- a log played back
    def playback(self, d, log):
        """What is said, the kind first: 0 and a code, or 1 and the number of a line; what the rules give for that line
        (code, offset, place); the rows."""
        if not self.lent_allowed(d):
            return (0, 2), (0, 0, 0), []
        lines = log_lines(d, log)
        if lines is None:
            return (0, 3), (0, 0, 0), []
        ledger = Ledger(d)
        for number, line in enumerate(lines, 1):
            ruling, said = ledger.play(line)
            if ruling != said:
                return (1, number), ruling, []
        return (0, 0), (0, 0, 0), ledger.held()

    # ---- records
    @staticmethod
    def parse(record):
        """(commitment, offset, size, place, segment path, entry path, deal number) or None."""
        at, contents = 0, []
        for tag, length in ((1, 32), (2, 8), (3, 8), (4, 8), (5, None), (6, None), (7, 8)):
            head = record[at : at + 3]
            if len(head) < 3 or head[0] != tag:
                return None
            n = head[1] + 256 * head[2]
            content = record[at + 3 : at + 3 + n]
            if len(content) != n or (n != length if length is not None else n % 32 != 0):
                return None
            contents.append(content)
            at += 3 + n
        if at != len(record):
            return None
        c, o, s, p, u, v, number = contents
        nodes = lambda x: [x[i : i + 32] for i in range(0, len(x), 32)]
        value = lambda x: int.from_bytes(x, "little")
        return c, value(o), value(s), value(p), nodes(u), nodes(v), value(number)

    @staticmethod
    def encode(c, o, s, p, u, v, number):
        contents = c, le(o), le(s), le(p), b"".join(u), b"".join(v), le(number)
        return b"".join(bytes([tag]) + le(len(content), 2) + content for tag, content in enumerate(contents, 1))

    def check(self, commitment, d, number, record):
        if len(commitment) != 32:
            return 1
        code, n, start = index_numbers(d)
        if code:
            return 2
        fields = self.parse(record)
        if fields is None:
            return 3
        c, o, s, p, u, v, named = fields
        if named != number:
            return 21
        if not self.size_allowed(d, s):
            return 4
        if not self.offset_allowed(d, o, s):
            return 5
        if p % 64 or not start <= p < d:
            return 6
        if len(u) != (d // area(s)).bit_length() - 1 or len(v) != (d // 64).bit_length() - 1:
            return 7
        if c[31] >= 64:
            return 8
        if stray(b"".join(u)) or stray(b"".join(v)):
            return 19
        if self.path_root(c, o // area(s), u) != commitment:
            return 9
        if self.path_root(self.h.node(self.entry(c, o, s)), p // 64, v) != commitment:
            return 10
        return 0

    def build(self, deal, number, place, tree=None):
        """Code and record."""
        d = len(deal)
        if not self.lent_allowed(d):
            return 2, b""
        if stray(deal):
            return 11, b""
        if not tree_allowed(d, tree):
            return 12, b""
        _, n, start = index_numbers(d)
        if place % 64 or not start <= place < d:
            return 6, b""
        row = self.kept(deal, (place - start) // 64, tree)
        if row is None:
            return 16, b""
        c, o, s = row
        levels = self.levels(deal, tree)
        u, v = self.path(levels, area(s), o // area(s)), self.path(levels, 64, place // 64)
        return 0, self.encode(c, o, s, place, u, v, number)

    @staticmethod
    def path(levels, size, q):
        level = height(size)
        out = []
        while level < len(levels) - 1:
            out.append(levels[level][q ^ 1])
            q //= 2
            level += 1
        return out

    def strings(self, record):
        c, o, s, p, u, v, _ = self.parse(record)
        e = self.entry(c, o, s)
        return self.path_strings(self.h.node(e), p // 64, v) + [e] + self.path_strings(c, o // area(s), u)

    @staticmethod
    def settled(vs, ws):
        for a, b in zip(vs, ws):
            if a != b:
                return 17, a, b
        return 0, ZERO64, ZERO64

    def settle_records(self, commitment, d, number, r, s):
        for x in (r, s):
            code = self.check(commitment, d, number, x)
            if code:
                return code, ZERO64, ZERO64
        if self.parse(r)[3] != self.parse(s)[3]:
            return 18, ZERO64, ZERO64
        return self.settled(self.strings(r), self.strings(s))

    def settle_deal(self, deal, number, record, tree=None):
        d = len(deal)
        if not self.lent_allowed(d):
            return 2, ZERO64, ZERO64
        if stray(deal):
            return 11, ZERO64, ZERO64
        if not tree_allowed(d, tree):
            return 12, ZERO64, ZERO64
        levels = self.levels(deal, tree)
        code = self.check(levels[-1][0], d, number, record)
        if code:
            return code, ZERO64, ZERO64
        _, o, s, p, *_ = self.parse(record)
        pairs = lambda size, q: self.pairs(levels, size, q)
        return self.settled(self.strings(record),
                            pairs(64, p // 64) + [deal[p : p + 64]] + pairs(area(s), o // area(s)))

    @staticmethod
    def pairs(levels, size, q):
        """The deal's pairs of nodes along a path, from the top down."""
        level = height(size)
        out = []
        while level < len(levels) - 1:
            out.append(levels[level][q & ~1] + levels[level][q | 1])
            q //= 2
            level += 1
        return out[::-1]
