"""The calls of vectors/vectors.json that play logs back: the days, rules and faults of playback_cases.py, each under a
name."""
import re

import playback_cases as logs
from cases import log_of
from model import Booking, Cancelling
from operations import ROWS
from vector_parts import call, orders, repeat

LENT = {"rows": repeat(b"\xa5", ROWS)}


def named(group, judged):
    """Judged calls as calls of the file; where several are for one thing, they are numbered."""
    seen = {}
    for each in judged:
        name = re.sub("[^a-z0-9]+", "-", f"{group} {each.what}".lower()).strip("-")
        seen[name] = seen.get(name, 0) + 1
        number = f"-{seen[name]}" if seen[name] > 1 else ""
        yield call("playback", name + number, each.what, size=each.case.x, log=each.case.a, **LENT)


def days():
    yield from named("whole", (each for each in logs.days() if each.rows))
    for day in logs.DAYS:
        for i, line in enumerate(day.lines):
            lines = [*day.lines[:i], next(logs.other_answers(line)), *day.lines[i + 1:]]
            yield call("playback", f"day-{day.d}-line-{i + 1}", "another code in this line", size=day.d,
                       log=log_of(lines), **LENT)


def rules():
    for group in (logs.sizes_by_bytes, logs.commitments, logs.stray_commitments, logs.house_rows, logs.quotas,
                  logs.numbers_beside_refusals, logs.cancellations, logs.equal_commitments):
        yield from named(group.__name__, group())
    yield from named("segments", list(logs.same_segments())[:10])
    yield from named("places", list(logs.no_places())[::3])
    yield from named("areas", list(logs.areas())[::4])
    yield from named("rows", list(logs.rows_that_stay())[:6])
    yield from named("slots", list(logs.full_deals((1 << 10, 1 << 24)))[::4])


def forms():
    yield from named("form", (each for each in logs.codes() if int(each.what.split()[1]) in (*range(25), 32, 128, 255)))
    no_lines = [logs.malformed(what, 512, line) for what, line in logs.no_lines(512) if not what.startswith("code")]
    yield from named("form", no_lines)
    yield from named("end", list(logs.cuts())[::40])
    yield from named("size", list(logs.sizes())[: 4 * len(logs.NO_SIZES) : 4])
    yield from named("segment", list(logs.segment_sizes())[:7] + list(logs.segment_sizes())[-7:])


def answers_in_order():
    """12 for rows of another length, 2, 3, and then the wrong line, which is no code: 256."""
    wrong = log_of([Booking(1, logs.A, 128, 0, 0, 256), Cancelling(1, 256, 16)])
    yield from orders("playback", {"size": 512, "log": log_of(logs.SMALL.lines), **LENT}, {
        "rows-length": lambda i: {"rows": repeat(b"\xa5", ROWS - 1)},
        "deal-size": lambda i: {"size": 511},
        "form": lambda i: {"log": bytes(i["log"]) + b"\0"},
        "line": lambda i: {"log": wrong},
    })
    for length in (0, 57, ROWS + 1):
        rows = repeat(b"\xa5", length)
        yield call("playback", f"rows-{length}", "rows have one length, whatever their number", size=512, log=b"",
                   rows=rows)


GROUPS = days, rules, forms, answers_in_order
