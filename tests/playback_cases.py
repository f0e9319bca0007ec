"""Logs that are played back (document 02, request (xii)).

Three days stand below line by line, with every code that a day can have. What is made of them: the whole day and its
beginnings; one answer, one byte or one line changed; lines exchanged, left out, doubled; the log cut at every byte;
faults of form in every place. Then rules of the ledger, one at a time, and logs that are long or for deals of many
slots. Each call stands beside what it is for and what playback says; tests/model_test.py judges that the model says so.
Of what single changes of bytes and lines make of a day the model alone says what is right."""
from itertools import combinations, permutations
from typing import NamedTuple, Optional

from cases import log_of
from model import BOOKING, CANCELLING, CONTENT, LOGGED, Booking, Cancelling, Row, area, field, index_numbers, le
from operations import PLAYBACK, Case

# ---- what playback says

CONFIRMED, NO_SUCH_DEAL, MALFORMED = (0, 0), (0, 2), (0, 3)
NOTHING = 0, 0, 0


class Judged(NamedTuple):
    """A call: what it is for, what playback says, what the rules give for a wrong line, the rows where they are
    stated."""
    what: str
    said: tuple
    ruling: tuple
    case: Case
    rows: Optional[list] = None


def confirmed(what, d, lines, rows=None):
    return Judged(what, CONFIRMED, NOTHING, Case(PLAYBACK, log_of(lines), x=d), rows)


def wrong(what, d, lines, number, *ruling):
    """The line of that number is the first wrong one; the rules give these answers for it, zeros where none are
    named."""
    code, offset, place = (*ruling, 0, 0)[:3]
    return Judged(what, (1, number), (code, offset, place), Case(PLAYBACK, log_of(lines), x=d))


def malformed(what, d, log):
    return Judged(what, MALFORMED, NOTHING, Case(PLAYBACK, log, x=d))


# ---- three days

# Commitments: in the ledger any 32 bytes are one, with stray bits too.
A, B, C, D, E = (bytes([byte]) * 32 for byte in b"\x0a\x0b\x0c\xdd\xee")


class Day(NamedTuple):
    """A day of both houses: the deal's size, the lines, and the rows after the last one."""
    d: int
    lines: list
    rows: list


# 512 bytes have room for two areas of 128, and four slots from 256 on.
SMALL = Day(512, [
    Booking(1, A, 100, 0, 0, 256),
    Booking(1, A, 100, 15, 0, 256),
    Booking(2, A, 100, 0, 128, 320),  # what the other house has does not count
    Booking(1, B, 128, 14),
    Cancelling(1, 320, 16),  # the other's
    Cancelling(1, 384, 16),  # nobody's
    Cancelling(1, 256, 0),
    Cancelling(1, 256, 16),  # no more
    Booking(1, B, 128, 0, 0, 256),  # slot and bytes are free again
    Booking(1, A, 100, 14),  # the row is gone, and so is its 15
    Booking(2, A, 100, 15, 128, 320),
    Booking(2, C, 256, 14),  # half of the deal fits at 0 alone
], [Row(1, B, 128, 0, 256), Row(2, A, 100, 128, 320)])

# 1,024 bytes have four slots from 768 on: two for each house.
QUOTAS = Day(1024, [
    Booking(2, A, 200, 0, 0, 768),  # an area of 256
    Booking(1, B, 1, 0, 256, 832),
    Booking(1, C, 129, 0, 512, 896),  # 256 again: at 256 stands B, and 384 is no multiple
    Booking(1, D, 1, 22),
    Booking(1, B, 1, 15, 256, 832),  # 15 before 22
    Booking(2, B, 2, 0, 384, 960),
    Booking(2, D, 512, 22),  # before 13 and 14: no slot is free, and no place
    Cancelling(1, 832, 0),
    Cancelling(2, 832, 16),
    Booking(1, D, 128, 0, 256, 832),  # the lowest slot, and the lowest offset, again
    Cancelling(2, 768, 0),
    Booking(2, E, 257, 14),  # 512 bytes are not free at 0
    Booking(2, E, 256, 0, 0, 768),
    Booking(1, E, 256, 22),
], [Row(2, E, 256, 0, 768), Row(1, D, 128, 256, 832), Row(1, C, 129, 512, 896), Row(2, B, 2, 384, 960)])

# 2,048 bytes have room up to 1,792: gaps of every width.
GAPS = Day(2048, [
    Booking(1, A, 128, 0, 0, 1792),
    Booking(2, B, 256, 0, 256, 1856),
    Booking(1, C, 512, 0, 512, 1920),
    Cancelling(1, 1792, 0),
    Booking(2, D, 257, 0, 1024, 1792),  # 512 bytes: not at 0, which B is over; in the lowest slot all the same
    Booking(1, E, 128, 0, 0, 1984),
    Cancelling(1, 1920, 0),
    Booking(1, A, 129, 0, 512, 1920),
    Cancelling(2, 1856, 0),
    Booking(2, A, 1, 0, 128, 1856),
    Cancelling(1, 1984, 0),
    Booking(1, D, 1024, 14),
    Cancelling(1, 1984, 16),
], [Row(2, D, 257, 1024, 1792), Row(2, A, 1, 128, 1856), Row(1, A, 129, 512, 1920)])

DAYS = SMALL, QUOTAS, GAPS


def days():
    """The whole day, with its rows; then its beginnings, the empty log among them."""
    for day in DAYS:
        yield confirmed("a day", day.d, day.lines, day.rows)
        for n in range(len(day.lines)):
            yield confirmed("the beginning of a day", day.d, day.lines[:n], [] if n == 0 else None)


def tag_of(line):
    return BOOKING if isinstance(line, Booking) else CANCELLING


def answers_of(line):
    return (line.code, line.offset, line.place) if isinstance(line, Booking) else (line.code, 0, 0)


def other_answers(line):
    """The line with another code of its tag; with each number alone changed, in its low bits, above 32 bits, to that of
    another row."""
    yield from (line._replace(code=code) for code in LOGGED[tag_of(line)] if code != line.code)
    if isinstance(line, Booking):
        for other in (1, 64, 128, 1 << 32, 1 << 63):
            yield line._replace(offset=line.offset ^ other)
            yield line._replace(place=line.place ^ other)
        yield line._replace(offset=line.offset + 128, place=line.place + 64)
        if line.place:
            yield line._replace(offset=0, place=0)


def wrong_answers():
    """One line of a day whose answers are others: it is the wrong one, and the rules give what it said. Numbers beside
    13, 14 and 22 are such answers: they are 0."""
    for day in DAYS:
        for i, line in enumerate(day.lines):
            for other in other_answers(line):
                lines = [*day.lines[:i], other, *day.lines[i + 1:]]
                yield wrong("other answers in a line", day.d, lines, i + 1, *answers_of(line))


def two_wrong_lines():
    """The first of two is named."""
    for day in DAYS:
        for i, j in combinations(range(len(day.lines)), 2):
            lines = list(day.lines)
            for at in (i, j):
                lines[at] = next(other_answers(lines[at]))
            yield wrong("two wrong lines", day.d, lines, i + 1, *answers_of(day.lines[i]))


# ---- faults of form


def codes():
    """A log of one line with every byte for a code, of both tags: a code that gets no line is malformed, whatever the
    rules give. A first booking is answered 0, and a first cancellation 16."""
    for code in range(256):
        for line, right in ((Booking(1, A, 128, code, 0, 256), (0, 0, 256)), (Cancelling(2, 256, code), (16, 0, 0))):
            what = f"code {code} in a line of tag {tag_of(line)}"
            if code == right[0]:
                yield confirmed(what, 512, [line])
            elif code in LOGGED[tag_of(line)]:
                yield wrong(what, 512, [line], 1, *right)
            else:
                yield malformed(what, 512, line.to_bytes())


def no_tags(booking, cancelling):
    """Other tags, and other lengths, than a line has."""
    for tag in (0, 3, 4, 127, 129, 130, 255):
        yield f"tag {tag}, length 58", field(tag, booking[3:])
        yield f"tag {tag}, length 10", field(tag, cancelling[3:])
    yield "tag 1, length 10", field(BOOKING, cancelling[3:])
    yield "tag 2, length 58", field(CANCELLING, booking[3:])
    yield "tag 2, length 58, and a cancellation's content first", field(CANCELLING, cancelling[3:] + bytes(48))
    for tag, line in ((BOOKING, booking), (CANCELLING, cancelling)):
        n = CONTENT[tag]
        for other in (0, 1, n - 1, n + 1, 2 * n, n + 256):
            yield f"tag {tag}, length {other}", field(tag, (line[3:] * 40)[:other])
        yield f"tag {tag}, the length's bytes exchanged", bytes([tag]) + le(n, 2)[::-1] + line[3:]
        yield f"tag {tag}, a length of {n + 256} and a content of {n}", bytes([tag]) + le(n + 256, 2) + line[3:]


def no_lines(d):
    """Bytes that are no line in the log of a deal of d bytes, each with what it is for."""
    booking, cancelling = Booking(1, A, 128, 0, 0, d - 256).to_bytes(), Cancelling(1, d - 256, 16).to_bytes()
    yield from no_tags(booking, cancelling)
    for line in (booking, cancelling):
        for house in (0, 3, 4, 127, 128, 129, 130, 254, 255):
            yield f"tag {line[0]}, house {house}", line[:3] + bytes([house]) + line[4:]
    for size in (0, d // 2 + 1, d, 128 + (1 << 32), 1 << 63, (1 << 64) - 1):
        for code in LOGGED[BOOKING]:
            yield f"size {size}, code {code}", Booking(1, A, size, code).to_bytes()
    for code in (1, 2, 4, 6, 11, 12, 16, 17, 23, 255):
        yield f"code {code} in a booking", Booking(1, A, 128, code).to_bytes()
    for code in (1, 2, 6, 11, 13, 14, 15, 17, 22, 23, 255):
        yield f"code {code} in a cancellation", Cancelling(1, d - 256, code).to_bytes()


def no_ends():
    """Bytes at the end of a log that are not a whole line."""
    for line in (Booking(1, A, 128, 0, 0, 256).to_bytes(), Cancelling(1, 256, 16).to_bytes()):
        for n in range(1, len(line)):
            yield f"{n} bytes of a line of {len(line)}", line[:n]
    for rest in (b"\0", b"\0" * 13, b"\0" * 61, b"\xff", b"\n", b"\1", b"\2"):
        yield f"{len(rest)} bytes {rest[0]} after the last line", rest


def faults():
    """Every one of these alone; behind a line; between two."""
    before, after = Booking(2, B, 128, 0, 0, 256).to_bytes(), Cancelling(1, 256, 16).to_bytes()
    for what, bytes_ in no_lines(512):
        yield malformed(f"{what}: alone", 512, bytes_)
        yield malformed(f"{what}: last", 512, before + bytes_)
        yield malformed(f"{what}: between lines", 512, before + bytes_ + after)
    for what, bytes_ in no_ends():
        yield malformed(f"{what}: alone", 512, bytes_)
        yield malformed(f"{what}: last", 512, before + after + bytes_)


def form_before_lines():
    """A wrong line, and a fault of form in a later line, or in an earlier one: the log is malformed. The wrong line is
    a booking or a cancellation, first, second or third."""
    right = [Booking(1, A, 128, 0, 0, 256), Cancelling(2, 320, 16), Booking(2, A, 128, 0, 128, 320)]
    for i, line in enumerate(right):
        lines = [*right[:i], next(other_answers(line)), *right[i + 1:]]
        yield wrong("a wrong line, and no fault", 512, lines, i + 1, *answers_of(line))
        for what, bytes_ in (*no_lines(512), *no_ends()):
            yield malformed(f"a wrong line, then {what}", 512, log_of(lines) + bytes_)
        for what, bytes_ in no_lines(512):
            for at in range(i + 1):
                log = log_of(lines[:at]) + bytes_ + log_of(lines[at:])
                yield malformed(f"{what}, then a wrong line", 512, log)


def cuts():
    """A log cut at every byte: whole lines are confirmed, anything else is malformed."""
    for day, n in ((SMALL, 9), (QUOTAS, 3)):
        log = log_of(day.lines[:n])
        ends = {len(log_of(day.lines[:i])): i for i in range(n + 1)}
        for at in range(len(log) + 1):
            if at in ends:
                yield confirmed(f"cut at byte {at}, after line {ends[at]}", day.d, day.lines[: ends[at]])
            else:
                yield malformed(f"cut at byte {at}", day.d, log[:at])


# Sizes that no lent deal has: no powers of two; too small, too large; allowed ones with a bit above 32 bits.
NO_SIZES = (0, 1, 32, 256, 511, 513, 640, 768, 1000, 1536, (1 << 24) - 1, (1 << 24) + 1, 3 << 22, 1 << 25, 1 << 32,
            1 << 36, 1 << 63, 512 + (1 << 32), 512 + (1 << 63), (1 << 24) + (1 << 25), (1 << 64) - 512, (1 << 64) - 1)
# Logs for them: an empty one, a day, a malformed one, a wrong line.
ANY_LOGS = b"", log_of(SMALL.lines), b"\0", Cancelling(1, 256, 0).to_bytes()


def sizes():
    """2 comes first: before 3, before a wrong line, and for an empty log too. Every size that is allowed has an empty
    ledger."""
    for d in NO_SIZES:
        for log in ANY_LOGS:
            yield Judged(f"a size of {d}", NO_SUCH_DEAL, NOTHING, Case(PLAYBACK, log, x=d))
    for k in range(9, 25):
        yield confirmed(f"an empty log for 2^{k}", 1 << k, [], [])
        yield malformed(f"a malformed log for 2^{k}", 1 << k, b"\0")


def segment_sizes():
    """The sizes of segments that are allowed, 1 to half of the deal, each booked first; none, and more, are
    malformed."""
    for k in range(9, 25):
        d, start = 1 << k, index_numbers(1 << k)[2]
        for size in (1, d // 2 - 1, d // 2):
            yield confirmed(f"size {size} in 2^{k}", d, [Booking(1, A, size, 0, 0, start)], [Row(1, A, size, 0, start)])
        for size in (0, d // 2 + 1, d, (1 << 64) - 1):
            yield malformed(f"size {size} in 2^{k}", d, Booking(1, A, size, 0, 0, start).to_bytes())


# ---- rules of the ledger, one at a time


def areas():
    """A second segment beside the first: its area, not its size, says where it goes."""
    start = index_numbers(4096)[2]
    for first, second, offset in ((1, 1, 128), (127, 128, 128), (128, 129, 256), (129, 1, 256), (130, 128, 256),
                                  (255, 256, 256), (256, 257, 512), (257, 1, 512), (258, 512, 512), (512, 513, 1024),
                                  (513, 1, 1024), (1000, 1024, 1024)):
        what = f"{second} bytes beside {first}"
        lines = [Booking(1, A, first, 0, 0, start), Booking(2, B, second, 0, offset, start + 64)]
        yield confirmed(what, 4096, lines)
        for other in sorted({0, 128, 256, first, area(first)} - {offset}):
            moved = [lines[0], lines[1]._replace(offset=other)]
            yield wrong(f"{what}, at {other}", 4096, moved, 2, 0, offset, start + 64)


def other_commitment(at):
    return A[:at] + bytes([A[at] ^ 1 << at % 8]) + A[at + 1:]


def same_segments():
    """15 asks for a row of equal house, size and commitment, all of their bytes. What differs is booked with 0."""
    first = Booking(1, A, 1, 0, 0, 768)
    others = [("house", first._replace(house=2), 128), ("size", first._replace(size=2), 128),
              ("size of the same area", first._replace(size=128), 128), ("area", first._replace(size=129), 256)]
    for at in range(32):
        others.append((f"byte {at} of the commitment", first._replace(commitment=other_commitment(at)), 128))
    for what, other, offset in others:
        yield confirmed(f"another {what}", 1024, [first, other._replace(offset=offset, place=832)])
        again = other._replace(code=15)
        yield wrong(f"15 for another {what}", 1024, [first, again], 2, 0, offset, 832)
    yield confirmed("the same", 1024, [first, first._replace(code=15)])
    yield wrong("the same with 0", 1024, [first, first._replace(offset=128, place=832)], 2, 15, 0, 768)


def sizes_by_bytes():
    """In the largest deal, sizes that differ in their second byte alone, or in their third, are two segments."""
    d, start = 1 << 24, index_numbers(1 << 24)[2]
    for size in (1 + (1 << 8), 1 + (1 << 16), 1 + (1 << 21)):
        lines = [Booking(1, A, 1, 0, 0, start), Booking(1, A, size, 0, area(size), start + 64)]
        yield confirmed(f"size {size} beside 1", d, [*lines, *(line._replace(code=15) for line in lines)])


def commitments():
    """Any commitment is taken as it is, and comes back: zeros, ones, stray bits."""
    for commitment in (bytes(32), b"\xff" * 32, bytes(31) + b"\x40", bytes(31) + b"\x80", bytes(range(32))):
        line = Booking(1, commitment, 128, 0, 0, 256)
        yield confirmed("any commitment", 512, [line, line._replace(code=15)], [Row(1, commitment, 128, 0, 256)])


def stray_commitments():
    """Commitments that differ in a stray bit are two."""
    for bits in (64, 128, 192):
        lines = [Booking(1, bytes(32), 1, 0, 0, 768), Booking(1, bytes(31) + bytes([bits]), 1, 0, 128, 832)]
        yield confirmed("stray bits of a commitment", 1024, [*lines, *(line._replace(code=15) for line in lines)])


def house_rows():
    """15 is looked for among the house's own rows: of both houses' rows for one segment each has its own, wherever it
    stands."""
    lines = [Booking(2, A, 128, 0, 0, 768), Booking(1, A, 128, 0, 128, 832), Booking(1, A, 128, 15, 128, 832),
             Booking(2, A, 128, 15, 0, 768)]
    yield confirmed("both houses have a segment", 1024, lines)
    others = lines[2]._replace(offset=0, place=768)
    yield wrong("the other's row for 15", 1024, [*lines[:2], others], 3, 15, 128, 832)
    lines = [*lines[:2], Cancelling(2, 768, 0), Booking(1, A, 128, 15, 128, 832), Booking(2, A, 128, 0, 0, 768)]
    yield confirmed("a row that is not the lowest", 1024, lines)


def quotas():
    """A house's rows alone count for its quota, and only as long as they stand; 22 comes before 13 and 14, and 13 is
    never given: where no slot is free, both houses hold half."""
    lines = [Booking(2, A, 1, 0, 0, 768), Booking(2, B, 1, 0, 128, 832), Booking(2, C, 1, 22),
             Booking(1, C, 1, 0, 256, 896), Booking(1, D, 1, 0, 384, 960), Booking(1, E, 1, 22), Cancelling(2, 768, 0),
             Booking(1, E, 1, 22), Booking(2, E, 1, 0, 0, 768)]
    yield confirmed("quotas of two houses", 1024, lines)
    yield wrong("no quota", 1024, [*lines[:2], Booking(2, C, 1, 0, 256, 896)], 3, 22)
    yield wrong("13 where both hold half", 1024, [*lines[:5], Booking(1, E, 1, 13)], 6, 22)
    yield wrong("14 where the quota is reached", 1024, [*lines[:2], Booking(2, C, 512, 14)], 3, 22)
    yield wrong("22 where a slot is left", 1024, [lines[0], Booking(2, B, 1, 22)], 2, 0, 128, 832)
    yield wrong("13 where a slot is left", 1024, [lines[0], Booking(2, B, 1, 13)], 2, 0, 128, 832)
    yield wrong("13 where no place is free", 512, [*SMALL.lines[:3], Booking(1, B, 128, 13)], 4, 14)


def numbers_beside_refusals():
    """13, 14 and 22 have no numbers: each of the two alone, and both, are wrong, even those of a row or of a free
    slot."""
    for d, before, line in ((512, SMALL.lines[:3], SMALL.lines[3]), (1024, QUOTAS.lines[:3], QUOTAS.lines[3])):
        start = index_numbers(d)[2]
        for offset, place in ((1, 0), (0, 1), (128, 0), (0, start), (0, start + 192), (128, start), (1 << 63, 0),
                              (0, 1 << 63)):
            lines = [*before, line._replace(offset=offset, place=place)]
            yield wrong(f"{line.code} with numbers {offset} and {place}", d, lines, 4, line.code)
    for offset, place in ((0, 0), (0, 256), (128, 320)):
        yield wrong("13 with numbers", 512, [Booking(1, A, 128, 13, offset, place)], 1, 0, 0, 256)


ROWS_OF_BOTH = [Booking(1, A, 1, 0, 0, 768), Booking(2, B, 1, 0, 128, 832)]


def no_places():
    """Places that are none of the index: the rules give 6, so that neither 0 nor 16 is right there. The line is not
    malformed for its place."""
    for place in (0, 1, 64, 128, 704, 767, 769, 800, 831, 833, 992, 1023, 1024, 1088, 768 + (1 << 32), 768 + (1 << 63),
                  832 + (1 << 32), (1 << 64) - 64, (1 << 64) - 1):
        for code in (16, 0):
            yield wrong(f"place {place} with {code}", 1024, [*ROWS_OF_BOTH, Cancelling(1, place, code)], 3, 6)
        yield wrong(f"place {place} with 16 and no row", 1024, [Cancelling(2, place, 16)], 1, 6)


def cancellations():
    """16 where no row of the house is; 0 where one is, once."""
    for house, place, code in ((1, 768, 0), (2, 768, 16), (1, 832, 16), (2, 832, 0), (1, 896, 16), (2, 960, 16)):
        what = f"house {house} cancels at {place}"
        yield confirmed(what, 1024, [*ROWS_OF_BOTH, Cancelling(house, place, code)])
        other = 16 - code
        yield wrong(f"{what}, with {other}", 1024, [*ROWS_OF_BOTH, Cancelling(house, place, other)], 3, code)
    yield confirmed("twice", 1024, [*ROWS_OF_BOTH, Cancelling(1, 768, 0), Cancelling(1, 768, 16)])
    yield wrong("twice with 0", 1024, [*ROWS_OF_BOTH, Cancelling(1, 768, 0), Cancelling(1, 768, 0)], 4, 16)
    yield confirmed("16 changes nothing", 1024, [*ROWS_OF_BOTH, Cancelling(2, 768, 16), Cancelling(1, 768, 0)])


def rows_that_stay():
    """Rows come by rising place, whenever they were booked; a cancelled row is gone, and its slot is the next one that
    is taken. In eight slots, of which the first has an area of 128 and all others one of 256."""
    d, start = 1 << 20, index_numbers(1 << 20)[2]
    line = lambda i: Booking(1 + i % 2, bytes([i]) * 32, 128 + i, 0, 256 * i, start + 64 * i)
    lines = [line(i) for i in range(8)]
    rows = [Row(*each[:3], *each[4:]) for each in lines]
    yield confirmed("all slots taken", d, lines, rows)
    yield confirmed("both at their quota", d, [*lines, Booking(1, E, 1, 22), Booking(2, E, 1, 22)], rows)
    for i, old in enumerate(lines):
        gone = [*lines, Cancelling(old.house, old.place, 0)]
        yield confirmed(f"without row {i}", d, gone, rows[:i] + rows[i + 1:])
        new = Booking(old.house, E, 128, 0, 128 if i else 0, old.place)  # the gap after the first area
        row = Row(*new[:3], *new[4:])
        yield confirmed(f"another one in slot {i}", d, [*gone, new], rows[:i] + [row] + rows[i + 1:])
        if i:
            lost = [*gone, new._replace(offset=old.offset)]
            yield wrong(f"at the old offset of slot {i}", d, lost, 10, 0, 128, old.place)


def equal_commitments():
    """The claim's premise: where two different segments share commitment and size, the deal books both with 0, and the
    second line is wrong; so is one with 14 or 22, which plays as 15."""
    first = Booking(1, A, 128, 0, 0, 256)
    for second in (Booking(1, A, 128, 0, 128, 320), Booking(1, A, 128, 14), Booking(1, A, 128, 22)):
        yield wrong("two segments of one commitment", 512, [first, second], 2, 15, 0, 256)


# ---- long logs, and deals of many slots


def full_day(d):
    """Both houses take turns until each holds half of the slots of a deal; then each is refused."""
    _, n, start = index_numbers(d)
    lines = [Booking(1 + i % 2, le(i + 1, 32), 1, 0, 128 * i, start + 64 * i) for i in range(n)]
    return [*lines, Booking(1, E, 1, 22), Booking(2, E, 1, 22)], [Row(*each[:3], *each[4:]) for each in lines]


def full_deals(deal_sizes=tuple(1 << k for k in range(10, 25))):
    """Every number of slots, from 4 to 128, filled; one more booking with 0, and with 13; the last row cancelled by its
    house, and by the other; another one in its slot; the last row said to be one slot lower."""
    for d in deal_sizes:
        (*lines, first, second), rows = full_day(d)
        last, number = lines[-1], len(lines) + 1
        what = f"2^{d.bit_length() - 1}, {len(rows)} slots"
        yield confirmed(f"{what}, filled", d, [*lines, first, second], rows)
        for line in (first, second):
            more = line._replace(code=0, offset=128 * len(rows), place=d)
            yield wrong(f"{what}, one row more", d, [*lines, more], number, 22)
            yield wrong(f"{what}, 13", d, [*lines, line._replace(code=13)], number, 22)
        cancelled = [*lines, Cancelling(2, last.place, 0)]
        yield confirmed(f"{what}, the last one cancelled", d, cancelled, rows[:-1])
        yield confirmed(f"{what}, and another one", d, [*cancelled, last._replace(commitment=E, size=2)],
                        [*rows[:-1], Row(2, E, 2, last.offset, last.place)])
        yield confirmed(f"{what}, the other's", d, [*lines, Cancelling(1, last.place, 16)], rows)
        lower = [*lines[:-1], last._replace(place=last.place - 64)]
        yield wrong(f"{what}, one slot lower", d, lower, number - 1, 0, last.offset, last.place)


def one_house(deal_sizes=(1 << 20, 1 << 24)):
    """One house alone takes half of the slots, and no more."""
    for d in deal_sizes:
        _, n, start = index_numbers(d)
        for house in (1, 2):
            line = lambda i: Booking(house, le(i, 32), 128, 0, 128 * i, start + 64 * i)
            lines, refused = [line(i) for i in range(n // 2)], Booking(house, E, 1, 22)
            yield confirmed(f"house {house} has half of {n} slots", d, [*lines, refused])
            yield wrong(f"house {house} has more than half", d, [*lines, line(n // 2)], n // 2 + 1, 22)
            yield wrong(f"house {house} is refused early", d, [*lines[:-1], refused], n // 2, *answers_of(lines[-1]))


def long_logs(counts=(255, 256, 257, 600)):
    """Lines are counted past one byte, and past two."""
    right, booked = Cancelling(1, 256, 16), Booking(1, A, 128, 0, 0, 256)
    for n in counts:
        yield confirmed(f"{n} lines", 512, [right] * n, [])
        yield wrong(f"line {n} of {n}", 512, [right] * (n - 1) + [right._replace(code=0)], n, 16)
        yield wrong(f"line {n - 1} of {n}", 512, [right] * (n - 2) + [right._replace(place=0), right], n - 1, 6)
        log = log_of([right._replace(code=0)] + [right] * (n - 2)) + b"\3"
        yield malformed(f"line {n} of {n} is malformed, and the first one wrong", 512, log)
        yield confirmed(f"{n // 2} times booked and cancelled", 512, [booked, Cancelling(1, 256, 0)] * (n // 2), [])


# ---- what is made of a day by one change; the model says what is right


def changed_bytes(changes=(1, 128, 255)):
    """Every byte of a line of each kind, in turn: a booking with 0, 15, 14, 22, a cancellation with 0, 16."""
    kinds = {}
    for day in DAYS:
        for i, line in enumerate(day.lines):
            kinds.setdefault((type(line), line.code), (day, i))
    for day, i in kinds.values():
        before, line, after = log_of(day.lines[:i]), day.lines[i].to_bytes(), log_of(day.lines[i + 1:])
        for at in range(len(line)):
            for change in changes:
                changed = line[:at] + bytes([line[at] ^ change]) + line[at + 1:]
                yield Case(PLAYBACK, before + changed + after, x=day.d)


def changed_days(day):
    """One line left out; said twice; moved to the front and to the end. Two lines exchanged. The houses exchanged."""
    lines = day.lines
    for i, line in enumerate(lines):
        rest = [*lines[:i], *lines[i + 1:]]
        yield from (rest, [*lines[:i], line, *lines[i:]], [line, *rest], [*rest, line])
    for i, j in combinations(range(len(lines)), 2):
        yield [*lines[:i], lines[j], *lines[i + 1 : j], lines[i], *lines[j + 1:]]
    yield [line._replace(house=3 - line.house) for line in lines]


def changed_lines():
    """All of these; the log of a deal for deals of other sizes; its first four lines in every order."""
    for day in DAYS:
        yield from (Case(PLAYBACK, log_of(lines), x=day.d) for lines in changed_days(day))
        yield from (Case(PLAYBACK, log_of(day.lines), x=1 << k) for k in range(8, 26))
        yield from (Case(PLAYBACK, log_of(lines), x=day.d) for lines in permutations(day.lines[:4]))


# ---- all of these

RULES = (days, areas, same_segments, sizes_by_bytes, commitments, stray_commitments, house_rows, quotas,
         numbers_beside_refusals, no_places, cancellations, rows_that_stay, equal_commitments)
FORMS = codes, faults, cuts, sizes, segment_sizes, form_before_lines
LONG = full_deals, one_house, long_logs


def judged():
    """Everything that stands beside what playback says."""
    for group in (*RULES, wrong_answers, two_wrong_lines, *FORMS, *LONG):
        yield from group()


def longest():
    """Lines past two bytes: logs of up to 900 KB."""
    return long_logs((65_535, 65_536, 65_537, 70_000))


def stored(rng):
    """The stored vectors' share, where an argument has 8,192 bytes at most: every byte for a code; each other fault of
    a line, alone; ends; each size that no deal has; the rules; and some of the others."""
    cases = lambda group: [each.case for each in group]
    yield from cases(codes())
    yield from (Case(PLAYBACK, bytes_, x=512) for what, bytes_ in no_lines(512) if not what.startswith("code"))
    yield from (Case(PLAYBACK, ANY_LOGS[1] + bytes_, x=512) for what, bytes_ in no_ends() if "after" in what)
    yield from (Case(PLAYBACK, ANY_LOGS[i % 4], x=d) for i, d in enumerate(NO_SIZES))
    yield from (Case(PLAYBACK, b"", x=d) for d in (512, 1 << 20, 1 << 24))
    yield from cases(each for each in same_segments() if each.said == CONFIRMED)
    yield from cases(no_places())[::3]
    for group in (sizes_by_bytes, commitments, stray_commitments, house_rows, quotas, numbers_beside_refusals,
                  cancellations, equal_commitments):
        yield from cases(group())
    for group, count in ((days, 14), (areas, 12), (rows_that_stay, 12), (wrong_answers, 24), (two_wrong_lines, 4),
                         (cuts, 20), (segment_sizes, 12), (form_before_lines, 16), (one_house, 2)):
        yield from rng.sample(cases(group()), count)
    yield from rng.sample(list(changed_bytes((1,))), 30)
    yield from rng.sample(list(changed_lines()), 10)
    for d in (1 << 19, 1 << 21, 1 << 24):  # 4, 16 and 128 slots
        yield from cases(full_deals((d,)))[:2]
    yield from cases(long_logs((257,)))[:2]
