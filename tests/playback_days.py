"""Days in deals that begin with zeros, and their logs (document 02, request (xii)): both houses book and cancel, by the
model, without a tree and with one; every call whose code gets a line is written down. Then the logs with random
changes. Days of the ledger alone reach deals of many slots."""
from cases import changed_log, ledger_day, log_of, run, segment_size
from model import BOOKING, CANCELLING, LOGGED, Booking, Cancelling, Row, filled, index_numbers, le, owners
from operations import BOOK, BOOK_TREE, CANCEL, CANCEL_TREE, MODEL, PLAYBACK, Case


class Clerk:
    """Books and cancels in a deal, with a tree in hand or without one, and keeps the log."""

    def __init__(self, d, with_tree=False):
        self.deal, self.log = bytes(d), []
        self.table = owners(self.deal, 0)
        self.tree = MODEL.fill(self.deal, bytes(d - 32))[1] if with_tree else None

    def book(self, house, segment):
        """The call as a case."""
        if self.tree is None:
            case = Case(BOOK, self.deal, segment, y=house, d=self.table)
            code, o, p, self.deal, self.table = MODEL.book(self.deal, self.table, house, segment)
        else:
            case = Case(BOOK_TREE, self.deal, segment, y=house, c=self.tree, d=self.table)
            answer = MODEL.book_with_tree(self.deal, self.tree, self.table, house, segment)
            code, o, p, self.deal, self.tree, self.table = answer
        if code in LOGGED[BOOKING]:
            self.log.append(Booking(house, MODEL.tree(filled(segment))[-1][0], len(segment), code, o, p))
        return case

    def cancel(self, house, place):
        """The call as a case."""
        if self.tree is None:
            case = Case(CANCEL, self.deal, x=place, y=house, d=self.table)
            code, self.deal, self.table = MODEL.cancel(self.deal, self.table, house, place)
        else:
            case = Case(CANCEL_TREE, self.deal, x=place, y=house, c=self.tree, d=self.table)
            answer = MODEL.cancel_with_tree(self.deal, self.tree, self.table, house, place)
            code, self.deal, self.tree, self.table = answer
        if code in LOGGED[CANCELLING]:
            self.log.append(Cancelling(house, place, code))
        return case

    def standing(self):
        """The standing entries, with their owners, as rows."""
        _, n, start = index_numbers(len(self.deal))
        entries = [(i, MODEL.standing(self.deal, i)) for i in range(n)]
        return [Row(self.table[i], entry[0], entry[2], entry[1], start + 64 * i) for i, entry in entries if entry]


def deal_day(rng, d, steps, with_tree=False):
    """A clerk after a day, and its calls: few segments, so that they are booked again, and places of every kind. Houses
    that are none, and segments that may not be booked, are among them; they get no line."""
    clerk, (_, n, start) = Clerk(d, with_tree), index_numbers(d)
    segments = [run(rng, segment_size(rng, d)) for _ in range(rng.randrange(1, 7))] + [run(rng, 128), run(rng, 100)]
    odd = [b"", bytes(d // 2 + 1), b"\xff" * 32]
    calls = []
    for _ in range(steps):
        house = rng.choice((1, 2)) if rng.randrange(20) else rng.choice((0, 3, 255))
        if rng.randrange(3):
            calls.append(clerk.book(house, rng.choice(segments) if rng.randrange(12) else rng.choice(odd)))
        else:
            place = start + 64 * rng.randrange(n) if rng.randrange(8) else rng.choice((0, start - 64, start + 32, d))
            calls.append(clerk.cancel(house, place))
    return clerk, calls


def deal_days(rng, count, deal_sizes=(512, 1024, 1024, 2048, 4096), steps=16, changes=8):
    """Days in deals: the calls themselves, the log, and the log with random changes."""
    for i in range(count):
        d = rng.choice(deal_sizes)
        clerk, calls = deal_day(rng, d, steps, with_tree=i % 2 == 1)
        yield from calls
        yield Case(PLAYBACK, log_of(clerk.log), x=d)
        yield from (changed_log(rng, clerk.log, d) for _ in range(changes))


def filled_deal(rng):
    """The largest deal, filled by both houses in turn up to their quotas, each once more refused; two rows cancelled
    and others booked. The log alone is a call, of more than 128 lines, and changed ones are."""
    clerk, start = Clerk(1 << 24), index_numbers(1 << 24)[2]
    for i in range(130):
        clerk.book(1 + i % 2, le(i + 1))
    for house, slot in ((1, 6), (2, 6), (1, 0), (2, 5)):
        clerk.cancel(house, start + 64 * slot)
    for house in (1, 2, 1, 1):
        clerk.book(house, run(rng, 300))
    yield Case(PLAYBACK, log_of(clerk.log), x=1 << 24)
    yield from (changed_log(rng, clerk.log, 1 << 24) for _ in range(20))


def ledger_days(rng, count, deal_sizes=(512, 1024, 1 << 19, 1 << 20, 1 << 21, 1 << 24), steps=60, changes=8):
    """Days that the ledger's rules alone have answered, also for deals of many slots, and the same with random
    changes."""
    for _ in range(count):
        d = rng.choice(deal_sizes)
        lines = ledger_day(rng, d, rng.randrange(steps))
        yield Case(PLAYBACK, log_of(lines), x=d)
        yield from (changed_log(rng, lines, d) for _ in range(changes))
