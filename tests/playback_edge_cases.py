"""Logs that are played back: edges that the rules meet seldom, single bytes and bits of numbers, slots and offsets
beside the right ones, lines that lack only zeros. They come from slips put into an implementation written from the
papers alone that the other stored calls did not show."""
from playback_cases import (A, B, C, D, E, BOOKING, CANCELLING, SMALL, Booking, Cancelling, Row, confirmed, full_day,
                            index_numbers, le, log_of, malformed, wrong)


def ends_of_lines():
    """A last line cut by some of its bytes, where the bytes that are missing are zeros, so that they might be made up;
    a cancellation cut behind a right line; a few zeros, or an empty line of a tag that is none, after the last one."""
    booked, refused, cancelled = SMALL.lines[:3], SMALL.lines[3].to_bytes(), Cancelling(1, 256, 0).to_bytes()
    for less in (1, 2, 8, 16):
        yield malformed(f"a booking that lacks {less} zeros", 512, log_of(booked) + refused[:-less])
    for less in (1, 2, 9, 10):
        yield malformed(f"a cancellation that lacks {less} bytes", 512, log_of(booked) + cancelled[:-less])
    for rest in (b"\0" * 2, b"\0" * 3, b"\3\0\0", b"\1\0\0", b"\2\0\0"):
        yield malformed(f"{len(rest)} bytes {rest[0]} behind a line", 512, log_of(booked[:1]) + rest)


def lengths_of_lines():
    """A length whose top bit alone is wrong; a length of 10 for a booking whose content goes on, with a second booking
    in it that is a line of its own."""
    first, right = Booking(1, A, 128, 0, 0, 256).to_bytes(), Cancelling(2, 256, 16).to_bytes()
    for tag, line in ((BOOKING, first), (CANCELLING, right)):
        for high in (64, 128):
            log = bytes([tag]) + le(len(line) - 3 + 256 * high, 2) + line[3:]
            yield malformed(f"tag {tag}, a length's high byte {high}", 512, log)
    inner = Booking(2, A[:19] + le(128) + b"\0" + A[:4], 128, 0, 0, 256).to_bytes()
    yield malformed("a booking of length 10 over another one", 512, b"\1\x0a\0\1" + A[:9] + inner)


def houses_by_code():
    """A house that is none in a line of each code."""
    for house in (0, 3, 255):
        for code, place in ((0, 256), (13, 0), (14, 0), (15, 256), (22, 0)):
            line = Booking(house, A, 128, code, 0, place).to_bytes()
            yield malformed(f"house {house} with code {code}", 512, line)
        for code in (0, 16):
            yield malformed(f"house {house} cancels with code {code}", 512, Cancelling(house, 256, code).to_bytes())


def numbers_by_bytes():
    """Each byte of each number counts: a size of 128 and a bit in another byte is not allowed; an offset or place so
    changed is wrong, with 0 and with 15; a place so changed is none of the index."""
    first = Booking(1, A, 128, 0, 0, 256)
    for bit in (*range(8, 64, 8), 63):
        yield malformed(f"a size with bit {bit}", 512, first._replace(size=128 | 1 << bit).to_bytes())
    for bit in (*range(0, 64, 8), 63):
        if bit != 8:
            for code in (16, 0):
                lines = [first, Cancelling(1, 256 | 1 << bit, code)]
                yield wrong(f"a cancellation's place with bit {bit}, {code}", 512, lines, 2, 6)
        yield wrong(f"an offset with bit {bit}", 512, [first._replace(offset=1 << bit)], 1, 0, 0, 256)
        yield wrong(f"a place with bit {bit}", 512, [first._replace(place=256 ^ 1 << bit)], 1, 0, 0, 256)
        again = first._replace(code=15, offset=1 << bit)
        yield wrong(f"15, an offset with bit {bit}", 512, [first, again], 2, 15, 0, 256)
        again = first._replace(code=15, place=256 ^ 1 << bit)
        yield wrong(f"15, a place with bit {bit}", 512, [first, again], 2, 15, 0, 256)


def numbers_together():
    """Offset and place count each for itself: others with the same sum, also one that wraps, or the same exclusive or;
    another free slot; numbers near 2^64; with 15, zeros, and the numbers of another row."""
    first, top = Booking(1, A, 128, 0, 0, 256), 1 << 64
    for offset, place in ((64, 192), (256, 0), (top - 64, 320), (64, 320), (128, 384), (0, 320), (0, 384), (0, 448),
                          (top - 1, 256), (top - 128, 256), (0, top - 64), (0, top - 1), (top - 128, top - 64)):
        yield wrong(f"numbers {offset} and {place}", 512, [first._replace(offset=offset, place=place)], 1, 0, 0, 256)
    lines = [Booking(2, A, 1, 0, 0, 768), Booking(1, A, 1, 0, 128, 832)]
    for offset, place in ((0, 0), (128, 0), (0, 832), (128, 768), (0, 768), (832, 128), (64, 896), (128, 896)):
        again = lines[1]._replace(code=15, offset=offset, place=place)
        yield wrong(f"15 with numbers {offset} and {place}", 1024, [*lines, again], 3, 15, 128, 832)


def commitments_by_order():
    """Commitments of the same bytes in another order are two."""
    for one in (bytes(range(32)), b"\1" + bytes(31)):
        lines = [Booking(1, one, 1, 0, 0, 768), Booking(1, one[::-1], 1, 0, 128, 832)]
        rows = [Row(1, one, 1, 0, 768), Row(1, one[::-1], 1, 128, 832)]
        yield confirmed("the same bytes in another order", 1024, [*lines, *(line._replace(code=15) for line in lines)],
                        rows)


def slots_again():
    """Of two slots that were cancelled the lower is taken first, whichever was cancelled last, and whatever the offset.
    A slot that the other house has booked again is the other's alone."""
    lines = [Booking(1, A, 1, 0, 0, 768), Booking(1, B, 129, 0, 256, 832), Booking(2, C, 1, 0, 128, 896)]
    last = Booking(1, D, 129, 0, 256, 768)  # not at 0, which C is over
    for places in ((768, 832), (832, 768)):
        gone = [*lines, *(Cancelling(1, place, 0) for place in places)]
        yield confirmed("two slots free again", 1024, [*gone, last], [Row(1, D, 129, 256, 768), Row(2, C, 1, 128, 896)])
        yield wrong("the upper of two free slots", 1024, [*gone, last._replace(place=832)], 6, 0, 256, 768)
    lines = [Booking(1, A, 128, 0, 0, 256), Cancelling(1, 256, 0), Booking(2, B, 128, 0, 0, 256)]
    yield confirmed("the other's by now", 512, [*lines, Cancelling(1, 256, 16)], [Row(2, B, 128, 0, 256)])
    yield wrong("no more one's own", 512, [*lines, Cancelling(1, 256, 0)], 4, 16)


def ends_of_areas():
    """A segment whose bytes would fit before a row, but not the zeros after them, goes behind it. A deal that is full
    up to its index, with slots and quotas left, has no place, not even for one byte; one area less, and it has one."""
    lines = [Booking(1, A, 129, 0, 0, 1792), Booking(2, B, 1, 0, 256, 1856), Booking(2, C, 1, 0, 384, 1920),
             Cancelling(1, 1792, 0), Cancelling(2, 1856, 0)]
    behind = Booking(1, D, 257, 0, 512, 1792)
    yield confirmed("zeros that would not fit", 2048, [*lines, behind],
                    [Row(1, D, 257, 512, 1792), Row(2, C, 1, 384, 1920)])
    yield wrong("zeros over a row", 2048, [*lines, behind._replace(offset=0)], 6, 0, 512, 1792)
    for k in (21, 22, 24):
        d, start = 1 << k, index_numbers(1 << k)[2]
        sizes = [d >> i for i in range(1, 12)]  # eleven areas, each half of the one before: start bytes
        line = lambda i: Booking(1 + i % 2, bytes([i]) * 32, sizes[i], 0, d - 2 * sizes[i], start + 64 * i)
        lines = [line(i) for i in range(11)]
        rows = [Row(*each[:3], *each[4:]) for each in lines]
        yield confirmed(f"2^{k}, full up to the index", d, [*lines, Booking(1, E, 1, 14), Booking(2, E, 1, 14)], rows)
        more = Booking(2, E, 1, 0, start, start + 64 * 11)
        yield wrong(f"2^{k}, one more over the index", d, [*lines, more], 12, 14)
        place = more._replace(offset=lines[-1].offset, place=lines[-1].place)
        yield confirmed(f"2^{k}, all but the last", d, [*lines[:-1], place],
                        [*rows[:-1], Row(2, E, 1, place.offset, place.place)])


def large_areas():
    """In the largest deal: areas of half of it, beside which the next offset is 2^23, for a size of one byte too."""
    d, start = 1 << 24, index_numbers(1 << 24)[2]
    for size in ((1 << 22) + 1, (1 << 23) - 1, 1 << 23):
        lines = [Booking(1, A, size, 0, 0, start), Booking(2, B, 1, 0, 1 << 23, start + 64)]
        rows = [Row(1, A, size, 0, start), Row(2, B, 1, 1 << 23, start + 64)]
        yield confirmed(f"one byte beside {size}", d, lines, rows)
        yield wrong(f"one byte over {size}", d, [lines[0], lines[1]._replace(offset=1 << 22)], 2, 0, 1 << 23,
                    start + 64)
        again = [line._replace(code=15) for line in lines]
        yield confirmed(f"again, beside {size}", d, [*lines, *again], rows)
        yield wrong(f"again, beside {size}, at 0", d, [*lines, again[1]._replace(offset=0)], 3, 15, 1 << 23, start + 64)


def last_slots(deal_sizes=(1 << 10, 1 << 20, 1 << 24)):
    """In a deal whose slots are all taken: 15 for the last row, and for the first of the upper half; the same rows
    cancelled, and another one in the last slot."""
    for d in deal_sizes:
        (*lines, _, _), rows = full_day(d)
        last, half = lines[-1], lines[len(lines) // 2]
        what = f"{len(rows)} slots"
        yield confirmed(f"{what}, the last row again", d, [*lines, last._replace(code=15)], rows)
        yield confirmed(f"{what}, a row of the upper half again", d, [*lines, half._replace(code=15)], rows)
        yield wrong(f"{what}, 22 for the last row", d, [*lines, last._replace(code=22, offset=0, place=0)],
                    len(rows) + 1, 15, last.offset, last.place)
        gone = [*lines, Cancelling(last.house, last.place, 0)]
        yield confirmed(f"{what}, the last one gone", d, gone, rows[:-1])
        yield confirmed(f"{what}, and another in its slot", d, [*gone, last._replace(commitment=E, size=2)],
                        [*rows[:-1], Row(last.house, E, 2, last.offset, last.place)])
        middle = [each for each in rows if each.place != half.place]
        yield confirmed(f"{what}, one of the upper half gone", d, [*lines, Cancelling(half.house, half.place, 0)],
                        middle)


def smaller_sizes():
    """A row of the same commitment and a larger size is another segment, of the same area or not."""
    for size, other, offset in ((128, 127, 128), (128, 1, 128), (256, 130, 256), (256, 1, 256)):
        lines = [Booking(1, A, size, 0, 0, 768), Booking(1, A, other, 0, offset, 832)]
        yield confirmed(f"size {other} after {size}", 1024, [*lines, *(line._replace(code=15) for line in lines)])
        yield wrong(f"15 for size {other} after {size}", 1024, [lines[0], lines[1]._replace(code=15)], 2, 0, offset,
                    832)


def refused_cancellations():
    """A cancellation with 16 gives no quota back, be the place nobody's or the other's."""
    lines = [Booking(1, A, 1, 0, 0, 768), Booking(1, B, 1, 0, 128, 832), Booking(2, A, 1, 0, 256, 896)]
    for place in (896, 960):
        held = [*lines, Cancelling(1, place, 16)]
        yield confirmed(f"still half after 16 at {place}", 1024, [*held, Booking(1, C, 1, 22)])
        yield wrong(f"more than half after 16 at {place}", 1024, [*held, Booking(1, C, 1, 0, 384, 960)], 5, 22)


def ends_in_the_index():
    """An area that begins before the index and ends in it is no place, even where the segment's own bytes would fit."""
    for d, sizes in ((1024, (257, 512)), (2048, (513, 768, 769, 1024)), (4096, (1025, 1792, 2048))):
        start = index_numbers(d)[2]
        first = Booking(1, A, 1, 0, 0, start)
        for size in sizes:
            yield confirmed(f"{size} bytes in {d} behind one", d, [first, Booking(2, B, size, 14)])
            yield wrong(f"{size} bytes in {d} over the index", d, [first, Booking(2, B, size, 0, d // 2, start + 64)],
                        2, 14)


GROUPS = (ends_of_lines, lengths_of_lines, houses_by_code, numbers_by_bytes, numbers_together, commitments_by_order,
          slots_again, ends_of_areas, large_areas, last_slots, smaller_sizes, refused_cancellations, ends_in_the_index)


def judged():
    """All that the store takes: logs of 8,192 bytes at most."""
    for group in GROUPS:
        yield from group()


def past_the_store():
    """Logs over 8,192 bytes, that are not stored: of over 1,024 lines; of over 65,535 bytes; of over 65,535 lines."""
    right, first = Cancelling(1, 256, 16), Booking(2, A, 128, 0, 0, 256)
    for n in (1025, 5042, 65536):
        yield confirmed(f"{n} lines", 512, [right] * (n - 1) + [first], [Row(2, A, 128, 0, 256)])
        yield wrong(f"line {n} of {n}", 512, [right] * (n - 1) + [right._replace(code=0)], n, 16)
