"""Compares the library with the independent model, call by call.

Run from anywhere: python3 tests/differential.py [--count N] [--seed S] [--large] [--memcheck] [--replay PATH]

The calls of tests/cases.py are answered by the model and by the program `replay`, which runs each of them by the C
interface and by the safe Rust functions: codes, numbers, nodes, views, and the content of all lent memory before and
after. The first difference ends the run; its case is written to target/differential-failure.bin. --large adds deals of
2^20 and 2^24 bytes, --memcheck runs the library under valgrind.
"""
import argparse
import os
import random
import subprocess
import sys
import time
from collections import Counter
from concurrent.futures import ThreadPoolExecutor
from pathlib import Path

import audit_cases
import audit_edge_cases
import change_cases
import edge_cases
import house_cases
import number_cases
import playback_cases
import playback_days
import playback_edge_cases
import tree_cases
from cases import cases, deal, deal_number, node, paddings, place, run, spoil, strayed, streams, table
from model import MAX_RAW, area, index_numbers, owners
from operations import (AUDIT, BOOK, BOOK_TREE, BUILD, BUILD_TREE, CANCEL, CANCEL_TREE, CHECK, COLLECT, COLLECT_TREE,
                        COMMITMENT, FIELDS, FILL, FIND, MAKE, MODEL, NAMES, NUMBERS, PAD, PLAYBACK, READ, ROW, SETTLE,
                        SETTLE_DEAL, SETTLE_TREE, SHA256, STREAM, TALLY, UNPAD, Case, answer, encode)
from vectors import large_deals

ROOT = Path(__file__).resolve().parent.parent
FAILURE = ROOT / "target" / "differential-failure.bin"
ROUTINES = NAMES | {STREAM: "stream", PAD: "pad", UNPAD: "unpad"}
BATCH = 2000

# The codes that a run of the default length must meet. 17 needs a collision of SHA-256, or a tree that is not the
# deal's, and 2 of sha256 a long message (--large).
CODES = {SHA256: {0}, COMMITMENT: {0, 2, 11}, NUMBERS: {0, 2}, MAKE: {0, 1, 8}, READ: {0, 2}, FIND: {0, 1, 2, 11, 16},
         BOOK: {0, 2, 4, 11, 13, 14, 15, 22, 23}, BUILD: {0, 2, 6, 11, 12, 16}, CHECK: {*range(11), 19, 21},
         SETTLE: {*range(11), 18, 19, 21}, SETTLE_DEAL: {0, *range(2, 12), 19, 21}, FIELDS: {0}, AUDIT: {0, 2, 11, 12},
         STREAM: {0, 2, 11}, PAD: {0, 2, 12}, UNPAD: {0, 2, 11, 12, 24}, TALLY: {0, 2, 11}, FILL: {0, 2, 11, 12},
         BOOK_TREE: {0, 2, 4, 11, 12, 13, 14, 15, 22, 23},
         BUILD_TREE: {0, 2, 6, 11, 12, 16}, SETTLE_TREE: {0, *range(2, 13), 17, 19, 21}, CANCEL: {0, 2, 6, 11, 16, 23},
         CANCEL_TREE: {0, 2, 6, 11, 12, 16, 23}, COLLECT: {0, 2, 11, 12, 20, 23}, COLLECT_TREE: {0, 2, 11, 12, 20, 23},
         ROW: {0, 12}, PLAYBACK: {0, 2, 3, *(256 + ruled for ruled in (0, 6, 14, 15, 16, 22))}}
ENOUGH = 50_000


class Difference(Exception):
    pass


def code_of(op, line):
    """The code that an answer's line begins with; of a wrong line of a log 256 and the code that the rules give for
    it."""
    first, second, third, *_ = (*line.split(), "", "")
    if op == PLAYBACK:
        return 256 + int(third) if first == "1" else int(second)
    return int(first)


class Comparison:
    """Feeds batches to the replay program, while the model answers them, and counts what was compared."""

    def __init__(self, command):
        self.command = command
        self.counts = {op: Counter() for op in ROUTINES}

    def batch(self, calls):
        calls = [c for c in calls if c[0] in ROUTINES]
        with ThreadPoolExecutor(1) as beside:
            running = beside.submit(subprocess.run, self.command, input=b"".join(map(encode, calls)),
                                    capture_output=True)
            expected = [answer(c) for c in calls]
        ran = running.result()
        got = ran.stdout.decode(errors="replace").splitlines(keepends=True)
        for i, call in enumerate(calls):
            if i >= len(got) or got[i] != expected[i]:
                error = ran.stderr.decode(errors="replace").strip()
                self.differs(call, got[i] if i < len(got) else f"no answer, exit status {ran.returncode}: {error}",
                             expected[i])
            self.counts[call[0]][code_of(call[0], expected[i])] += 1
        if ran.returncode or len(got) != len(calls):
            raise Difference(f"the replay program ended with {ran.returncode} after {len(got)} answers to {len(calls)} "
                             "calls:\n" + ran.stderr.decode(errors="replace"))

    def differs(self, call, got, expected):
        FAILURE.parent.mkdir(exist_ok=True)
        FAILURE.write_bytes(encode(call))
        op, a, b, x, y, *more = Case(*call)
        lengths = ", ".join(str(len(each)) for each in (a, b, *more))
        raise Difference(f"{ROUTINES[op]}, arguments of {lengths} bytes, numbers {x} and {y}\n"
                         f"  library: {got.rstrip()}\n  model:   {expected.rstrip()}\n"
                         f"the case again: {' '.join(self.command)} < {FAILURE}")

    def total(self):
        return sum(sum(c.values()) for c in self.counts.values())

    def table(self):
        lines = [f"{'routine':<18}{'calls':>8}  calls by code"]
        for op, name in ROUTINES.items():
            codes = ", ".join(f"{code}: {n}" for code, n in sorted(self.counts[op].items()))
            lines.append(f"{name:<18}{sum(self.counts[op].values()):>8}  {codes}")
        return "\n".join(lines)

    def unmet(self):
        """Codes of the rules that no call has met."""
        return [f"{ROUTINES[op]} {code}" for op in ROUTINES for code in sorted(CODES[op] - set(self.counts[op]))]


def random_batches(seed, count):
    """Batches of their own seeds, so that each can be made again without the others."""
    for i in range(0, count, BATCH):
        yield cases(random.Random(f"{seed}/{i}"), min(BATCH, count - i), ops=tuple(ROUTINES))


def false_entries(rng, count):
    """Entries that stand without being kept: asked for by their commitment, their bytes, their place."""
    for _ in range(count):
        data = bytearray(deal(rng, (512, 1024, 4096)))
        _, n, start = index_numbers(len(data))
        p = start + 64 * rng.randrange(n)
        s = rng.choice((1, 100, 128, 130, 256))
        o = area(s) * rng.randrange(start // area(s))
        data[p : p + 64] = MODEL.entry(node(rng), o, s)
        data = bytes(data)
        yield FIND, data, data[p : p + 32], 0, 0
        yield Case(BOOK, data, data[o : o + s], y=1, d=owners(data, 1))
        yield BUILD, data, rng.randbytes(2000), p, deal_number(rng)
        yield AUDIT, data, rng.randbytes(n), 0, 0
        yield TALLY, data, b"", 0, 0


def long_records(rng):
    """Well-formed records with more nodes than any path has, and as many as a length can say."""
    for u, v in ((3, 2047), (2047, 3), (2047, 2047), (2047, 0)):
        nodes = [[rng.randbytes(32) for _ in range(n)] for n in (u, v)]
        number = deal_number(rng)
        r = MODEL.encode(node(rng), 0, 128, 256, *nodes, number)
        for named in (number, number ^ 1 << 63):
            yield CHECK, r, bytes(32), 512, named
            yield SETTLE, r, r, 512, named, bytes(32)
            yield SETTLE_DEAL, bytes(512), r, 0, named
        yield FIELDS, r, b"", 0, 0
    yield FIELDS, bytes(65538) + b"\1\xff\xff" + bytes(65535) + b"\7\0", b"", 0, 0
    yield CHECK, bytes(70000), bytes(32), 512, 0


def limits():
    """Lengths at the upper bound and beyond it."""
    full = 1 << 24
    for n in (full, full + 1, 2 * full):
        yield SHA256, bytes(n), b"", 0, 0
    for n in (full, full + 32, 2 * full):
        yield COMMITMENT, bytes(n), b"", 0, 0
    for data in (bytes(2 * full), strayed(bytes(full + 32), full + 31, 128)):  # more than a lent run has
        yield STREAM, data, bytes([0, 255, 1, 17]), 0, 0
    for n in (MAX_RAW, MAX_RAW + 1):
        yield PAD, bytes(n), bytes(full // 2 - 1), 0, 0
        yield UNPAD, bytes(full // 2), bytes(MAX_RAW - 1), n, 0
    for n in (full + 32, 2 * full):
        yield FIND, bytes(n), bytes(32), 0, 0
        yield BUILD, bytes(n), bytes(2000), n - 64, 0
        yield TALLY, bytes(n), b"", 0, 0
        yield SETTLE_DEAL, bytes(n), b"", 0, 0
        for op in (FILL, BUILD_TREE, SETTLE_TREE):
            yield op, bytes(n), b"", 0, 0, bytes(n - 32)
        for op in (COLLECT, COLLECT_TREE):
            yield Case(op, bytes(n), bytes(n), c=bytes(n - 32), d=bytes(n >> 17), e=bytes(n >> 17))
    for n in (full, full + 32, full + 64):  # a row has no upper bound
        yield ROW, bytes(n), bytes(n // 2), 0, 0


def long_runs(rng):
    """Runs from 2^20 bytes on, which the safe functions take by parts: random ones, stray bits in every part, and other
    lengths."""
    for d in (1 << 20, 1 << 20, 1 << 21):
        data = b"".join(node(rng) for _ in range(d // 32))
        tree = rng.randbytes(d - 32)
        yield COMMITMENT, data, b"", 0, 0
        yield FILL, data, b"", 0, 0, tree
        for part in range(d >> 18):
            stray = strayed(data, (part << 18) + 32 * rng.randrange(1 << 13) + 31, rng.choice((64, 128)))
            yield COMMITMENT, stray, b"", 0, 0
            yield FILL, stray, b"", 0, 0, tree
        for n in (d - 32, d - 1, d * 3 // 4):
            yield COMMITMENT, data[:n], b"", 0, 0
            yield FILL, data[:n], b"", 0, 0, tree
        yield FILL, data, b"", 0, 0, tree[:-32]
        yield FILL, data, b"", 0, 0, tree + bytes(32)
        yield ROW, data, rng.randbytes(d // 2), 0, 0


def large_calls(rng, d, sizes):
    """A deal of d bytes, booked into step by step; then records of it, whole and spoilt, and the deal spoilt."""
    _, _, start = index_numbers(d)
    data = run(rng, start) + bytes(d - start)
    table = owners(data, 0)
    places = []
    for i, s in enumerate(sizes):
        house, segment = 1 + i % 2, run(rng, s)
        yield Case(BOOK, data, segment, y=house, d=table)
        code, o, p, data, table = MODEL.book(data, table, house, segment)
        if code == 0:
            places.append(p)
            yield Case(BOOK, data, segment, y=house, d=table)
            yield Case(BOOK, data, segment, y=3 - house, d=table)
            yield FIND, data, data[p : p + 32], 0, 0
            yield AUDIT, data, rng.randbytes(len(table)), 0, 0
    yield TALLY, data, b"", 0, 0
    yield FIND, data, node(rng), 0, 0
    yield Case(BOOK, data, run(rng, d), y=1, d=table)
    root = MODEL.commitment(data)[1]
    for p in rng.sample(places, min(2, len(places))):
        number = deal_number(rng)
        code, r = MODEL.build(data, number, p)
        yield BUILD, data, rng.randbytes(2000), p, number
        yield BUILD, data, rng.randbytes(len(r) - 1), p, number
        yield CHECK, r, root, d, number
        for record in (r, spoil(rng, r)):
            yield SETTLE, r, record, d, number, root
            yield SETTLE_DEAL, data, record, 0, number
        yield SETTLE_DEAL, data, r, 0, number ^ 1 << rng.randrange(64)
    yield BUILD, data, rng.randbytes(2000), place(rng, d), deal_number(rng)
    yield from spoilt_deal(rng, data, places)


def spoilt_deal(rng, data, places):
    """One byte of a kept segment changed; then one of its entry; then stray bits in the last node."""
    p = rng.choice(places)
    changed = bytearray(data)
    changed[int.from_bytes(data[p + 32 : p + 40], "little")] ^= 1
    changed = bytes(changed)
    yield FIND, changed, data[p : p + 32], 0, 0
    yield AUDIT, changed, rng.randbytes(len(owners(changed, 0))), 0, 0
    yield BUILD, changed, rng.randbytes(2000), p, 0
    yield Case(BOOK, changed, run(rng, 128), y=1, d=table(rng, changed))
    damaged = changed[:p] + bytes([changed[p] ^ 1]) + changed[p + 1:]
    yield TALLY, damaged, b"", 0, 0
    yield AUDIT, damaged, rng.randbytes(len(owners(damaged, 0))), 0, 0
    yield Case(BOOK, damaged, run(rng, 128), y=2, d=table(rng, damaged))
    stray = changed[:-1] + b"\x80"
    for op, b, x in ((COMMITMENT, b"", 0), (FIND, bytes(32), 0), (BUILD, b"", p), (AUDIT, b"", 0), (TALLY, b"", 0)):
        yield op, stray, b, x, 0
    yield Case(BOOK, stray, bytes(128), y=1, d=owners(stray, 0))


def house_batches(rng):
    yield "houses: the refusals in their order", house_cases.orders(rng)
    yield "houses: lengths of tables, and bytes for houses", house_cases.lengths(rng)
    yield "houses: quotas", house_cases.quotas(rng)
    yield "houses: what each sees of the other's and nobody's entries", house_cases.own_entries(rng)
    yield "houses: bytes of the table collected", house_cases.collections(rng)
    yield "houses: answers that do not hang on the other's segments, and some that do", house_cases.isolations(rng, 20)


def audit_batches(rng, options):
    cases = lambda judged: [case for *_, case in judged]
    yield "audits: states, overlaps, buffers and faults", cases(audit_cases.judged(rng))
    yield "audits: single bytes, bits and numbers", cases(audit_edge_cases.small(rng))
    yield "audits: deals that others have made", audit_cases.foreign(rng, min(400, options.count))
    yield "audits: our own deals", audit_cases.own_deals(rng, min(40, options.count))
    yield "audits: deals of eight slots", cases(audit_cases.long_deals(rng, 1 << 20))
    if options.large:
        yield "audits: deals of 128 slots", cases(audit_cases.long_deals(rng, 1 << 24))
        yield "audits: deals that others have made, of 128 slots", audit_cases.foreign(rng, 1, (1 << 24,))
        yield "audits: more than a deal has", cases(audit_cases.longest())
        yield "audits: every size, large areas and far slots", cases(audit_edge_cases.large())


def playback_batches(rng, options):
    cases = lambda judged: [each.case for each in judged]
    yield "logs: days, changed in every answer; every fault of form; rules; many slots", cases(playback_cases.judged())
    yield "logs: edges", cases(playback_edge_cases.judged())
    yield "logs: every byte of a line", playback_cases.changed_bytes()
    yield "logs: lines left out, doubled, moved, exchanged", playback_cases.changed_lines()
    yield "logs: days in deals, with random changes", playback_days.deal_days(rng, min(150, options.count))
    yield "logs: days of the ledger, with random changes", playback_days.ledger_days(rng, min(200, options.count))
    if options.large:
        yield "logs: lines past two bytes", cases((*playback_cases.longest(), *playback_edge_cases.past_the_store()))
        yield "logs: a day in 2^20 bytes", playback_days.deal_days(rng, 2, (1 << 20,), 30)
        yield "logs: a day in 2^24 bytes that fills both quotas", playback_days.filled_deal(rng)


def batches(options):
    yield "records of deals up to 2^36 bytes", large_deals(random.Random(f"{options.seed}/records"))
    yield "records with long paths", long_records(random.Random(f"{options.seed}/paths"))
    yield "streams of every total", streams(random.Random(f"{options.seed}/streams"))
    yield "raw bytes there and back", paddings(random.Random(f"{options.seed}/paddings"))
    yield "entries that are not kept", false_entries(random.Random(f"{options.seed}/entries"), min(500, options.count))
    rng = random.Random(f"{options.seed}/numbers")
    yield "numbers of deals, right and wrong", number_cases.numbers(rng)
    yield "numbers: other last fields of records", number_cases.last_fields(rng)
    yield "numbers: beside every fault of a record", number_cases.beside_record(rng)
    yield "numbers: beside faults of commitment, size, deal and tree", number_cases.beside_deal(rng)
    yield "numbers: two records", number_cases.pairs(rng)
    yield from house_batches(random.Random(f"{options.seed}/houses"))
    yield from audit_batches(random.Random(f"{options.seed}/audits"), options)
    yield from playback_batches(random.Random(f"{options.seed}/logs"), options)
    yield "booking, cancelling, collecting: one rule decides", edge_cases.stored(random.Random(f"{options.seed}/edges"))
    rng = random.Random(f"{options.seed}/trees")
    yield "trees: the refusals in their order", tree_cases.orders(rng)
    yield "trees kept over bookings, and stale ones", tree_cases.runs(rng, 40)
    yield "trees: deals changed behind them", tree_cases.changed_deals(rng, min(300, options.count))
    yield "rows of trees", tree_cases.rows(rng)
    if not options.memcheck:
        yield "runs from 2^20 bytes on", long_runs(random.Random(f"{options.seed}/runs"))
    rng = random.Random(f"{options.seed}/changes")
    yield "changes: the refusals in their order", change_cases.orders(rng)
    yield "changes: two entries that overlap or not", change_cases.overlaps(rng)
    yield "changes: entries that stand or not by one rule", change_cases.one_rule(rng)
    yield "changes: runs of bookings, cancellations and collections", change_cases.runs(rng, min(60, options.count))
    yield "changes: deals that others have made", change_cases.foreign_deals(rng, min(200, options.count))
    yield "changes: deals of 2^20 bytes that others have made", change_cases.foreign_deals(rng, 2, (1 << 20,))
    if options.large:
        rng = random.Random(f"{options.seed}/large")
        yield "lengths at their bounds", limits()
        yield ("deals of eight slots, and the longest deals",
               edge_cases.long_deals(random.Random(f"{options.seed}/edges")))
        for _ in range(4):
            yield ("deals of 2^20 bytes",
                   large_calls(rng, 1 << 20, [128, 1 << 12, 128, 1 << 18, 1 << 19, 1 << 10, 256, 1 << 15, 128, 64]))
        yield "deals of 2^24 bytes", large_calls(rng, 1 << 24, [128, 1 << 23, 1 << 16, 1 << 10])
        for mixed in (False, True):
            yield ("trees of 2^20 bytes",
                   tree_cases.kept_tree(rng, 1 << 20, [128, 1 << 12, 1 << 18, 130, 1 << 15, 1, 1 << 10, 128], mixed))
        yield "trees of 2^24 bytes", tree_cases.kept_tree(rng, 1 << 24, [1 << 20, 130], False)
        yield "changes of deals of 2^20 bytes", change_cases.large_changes(rng, 1 << 20, 3)
        yield "changes of deals of 2^24 bytes", change_cases.large_changes(rng, 1 << 24, 1)
    for i, calls in enumerate(random_batches(options.seed, options.count)):
        yield f"batch {i}", calls


def arguments():
    parser = argparse.ArgumentParser(description="Compares the library with the independent model.")
    parser.add_argument("--count", type=int,
                        help="random calls on deals of 512 to 4,096 bytes (default 96000; with --memcheck 2000)")
    parser.add_argument("--seed", help="seed of the calls (default: a fresh one, which is printed)")
    parser.add_argument("--large", action="store_true",
                        help="add deals of 2^20 and 2^24 bytes and lengths at the upper bounds")
    parser.add_argument("--memcheck", action="store_true", help="run the library under valgrind's memcheck")
    parser.add_argument("--replay", default=ROOT / "rust" / "target" / "release" / "examples" / "replay", type=Path,
                        help="the replay program")
    options = parser.parse_args()
    options.seed = options.seed or os.urandom(4).hex()
    if options.count is None:
        options.count = 2000 if options.memcheck else 96_000
    return options


def main():
    options = arguments()
    if not options.replay.is_file():
        sys.exit(f"differential: {options.replay} is not there; "
                 "run: cargo build --release --examples --offline --manifest-path rust/Cargo.toml")
    valgrind = ["valgrind", "--quiet", "--leak-check=full", "--error-exitcode=99"] if options.memcheck else []
    comparison = Comparison([*valgrind, str(options.replay)])
    print(f"differential: seed {options.seed}", flush=True)
    began = time.monotonic()
    name = ""
    try:
        for name, calls in batches(options):
            comparison.batch(calls)
    except Difference as difference:
        sys.exit(f"differential: seed {options.seed}, {name}: a difference after {comparison.total()} calls\n"
                 f"{difference}")
    print(comparison.table())
    unmet = comparison.unmet()
    if unmet and options.count >= ENOUGH:
        sys.exit(f"differential: no call has met these codes: {', '.join(unmet)}")
    print(f"differential: {comparison.total()} calls, no difference, {time.monotonic() - began:.0f} s")


if __name__ == "__main__":
    main()
