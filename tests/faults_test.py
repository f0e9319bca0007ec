"""Kills, signals, errors and races at the command line: python3 tests/faults_test.py [--large] [--seed S] [--folder F].

A library between the program and the C library (tests/c/faults.c, compiled here) counts the calls that go to the
system. Each command that writes is run once for every call of it and every way in which that call can go wrong:

  kill     the process is killed before the call, and later calls must find the old state or the new one, nothing
           between;
  signal   SIGINT, SIGTERM or SIGHUP comes before the call, and nothing may be left behind, without any later call;
  error    the call fails with ENOSPC, EIO, EINTR, EXDEV or EACCES, writes too little, or says that it failed when it
           did not; or it and all later ones that write fail;
  pause    the process is stopped before the call, another one books into the same deal, and the first goes on.

So are streams that keep their state: whatever goes wrong, going on from the state gives the answer of an unbroken run.
Calls with a log (--log) add their lines with the deal or not at all, and whenever a call has ended or was recovered,
playback confirms the log, and its rows are the deal's entries.

All of it is done with unnamed files and without them (`plain`), as on a system that has none. Then processes are killed
at random moments, and 2 to 8 processes of two houses book into one deal at once, undisturbed, and, with some bookings
cancelled again, while others of them are killed. Afterwards every booking that was answered with 0 and not cancelled
must be in the deal where it was told to be, and its house in the table of owners; every deal must be a whole one with
its own table, and no file may be there that nobody asked for.
"""
import argparse
import errno
import hashlib
import json
import os
import random
import shutil
import signal
import subprocess
import sys
import tempfile
import threading
import time
from collections import Counter
from concurrent.futures import ProcessPoolExecutor
from pathlib import Path

import logs
import proofs
from cases import node
from model import MAX_RAW, Model, area, filled, pad, segment_length

ROOT = Path(__file__).resolve().parent.parent
BINARY = Path(os.environ.get("VIZHUTHAMEN", ROOT / "rust" / "target" / "release" / "vizhuthamen"))
MODEL = Model()
DATA, IO, BUSY = 65, 74, 75
ERRORS = (errno.ENOSPC, errno.EIO, errno.EINTR, errno.EXDEV, errno.EACCES)
BREAKDOWNS = (errno.EROFS, errno.EIO, errno.ENOSPC)
SIGNALS = (signal.SIGINT, signal.SIGTERM, signal.SIGHUP)

# Functions of the C library that the program uses and that need no fault: they do not go to the system, or only at the
# start, or their failure is not the program's to handle (memory, threads, time).
PLAIN = set("""_ITM_deregisterTMCloneTable _ITM_registerTMCloneTable __cxa_finalize __cxa_thread_atexit_impl
__errno_location __gmon_start__ __libc_start_main __tls_get_addr __xpg_strerror_r abort bcmp calloc clock_gettime
clock_nanosleep closedir dirfd dl_iterate_phdr dlsym free getauxval getenv getrandom gettid isatty malloc memcpy memmove
memset memchr memcmp mmap64 mprotect munmap pause poll posix_memalign realloc sched_getaffinity sched_yield sigaction
sigaltstack signal sigpending strlen syscall sysconf getpid geteuid nanosleep""".split())

# what a name begins with that is no file of the folder, but of one on another file system where there is one
ELSEWHERE = "elsewhere/"


class Wrong(Exception):
    pass


def check(condition, *what):
    if not condition:
        raise Wrong(" ".join(map(str, what)))


def compile_shim(shim):
    source = ROOT / "tests" / "c" / "faults.c"
    subprocess.run(["gcc", "-Wall", "-Wextra", "-Werror", "-O1", "-shared", "-fPIC", "-o", shim, source, "-ldl"],
                   check=True)


def names_of(file, kind):
    out = subprocess.run(["nm", "-D", kind, file], capture_output=True, check=True, text=True).stdout
    return {line.split()[-1].split("@")[0] for line in out.splitlines()}


def check_names(shim):
    """Every function that the program asks of the C library is one that can go wrong here, or is known to need no
    fault."""
    asked = {n for n in names_of(BINARY, "--undefined-only") if not n.startswith(("_Unwind", "pthread_"))}
    unknown = asked - names_of(shim, "--defined-only") - PLAIN
    check(not unknown, "functions that are not looked at:", *sorted(unknown))


class Place:
    """A folder and another one elsewhere, and calls of the program in the first."""

    def __init__(self, folder, outside, shim):
        self.folder, self.outside, self.shim = folder, outside, shim

    def path(self, name):
        return self.outside / name.removeprefix(ELSEWHERE) if name.startswith(ELSEWHERE) else self.folder / name

    def clean(self):
        for path in (*self.folder.iterdir(), *self.outside.iterdir()):
            shutil.rmtree(path) if path.is_dir() else path.unlink()

    def put(self, files):
        self.clean()
        for name, data in files.items():
            self.path(name).write_bytes(data)

    def state(self):
        """All files: names and bytes."""
        elsewhere = {ELSEWHERE + p.name: p.read_bytes() for p in self.outside.iterdir()}
        return {**{p.name: p.read_bytes() for p in self.folder.iterdir()}, **elsewhere}

    def start(self, words, fault=None, plain=False, **options):
        environment = {"PATH": os.environ.get("PATH", "")}
        if fault or plain:
            environment["LD_PRELOAD"] = str(self.shim)
            environment["FAULT_PLAIN"] = str(int(plain))
        environment.update(fault or {})
        words = [self.path(word) if word.startswith(ELSEWHERE) else word for word in map(str, words)]
        return subprocess.Popen([BINARY, *words], cwd=self.folder, env=environment, stdin=subprocess.DEVNULL,
                                stdout=subprocess.PIPE, stderr=subprocess.PIPE, **options)

    def run(self, words, **options):
        call = self.start(words, **options)
        try:
            out, err = call.communicate(timeout=60)
        except subprocess.TimeoutExpired:
            call.kill()
            raise Wrong(f"{words} {options}: no end") from None
        check(b"panicked" not in err, words, err)
        return call.returncode, out, err

    def calls(self, words, plain):
        """The names of the calls that a command makes, in order."""
        log = self.folder.parent / "log"
        log.unlink(missing_ok=True)
        self.run(words, fault={"FAULT_LOG": str(log)}, plain=plain)
        return log.read_text().split()


def check_flushed(names):
    """A file is flushed to the disk after its last write and before it gets its name, and the folder is flushed after
    that; so is a log before the journal goes."""
    naming = ("linkat", "rename", "renameat2", "unlink")
    written = flushed = named = 0
    for at, name in enumerate(names, 1):
        if name in naming:
            check(flushed > written, "named before it was flushed:", *names[:at])
            named = at
        flushed = at if name == "fsync" else flushed
        written = at if name in ("write", "ftruncate64") and at < len(names) else written
    check(flushed > named, "the folder was not flushed:", *names)


def fault(at, what):
    return {"FAULT_AT": str(at), "FAULT_DO": what}


class Scene:
    """A command, the files before it, what it does to files, its exit statuses (done, and run once more afterwards),
    and the deal that it makes, if it makes one, with the number that is to be kept of that; the log that it adds lines
    to. A deal that is made has its table, and its manifest where it gets one, whenever it is there."""

    def __init__(self, name, words, before, effect, again, made=None, number=None, status=0, log=None):
        self.name, self.words, self.before, self.effect, self.again = name, words, before, effect, again
        self.made, self.number, self.status, self.log = made, number, status, log
        self.after = effect(before)
        # Files that the command makes or changes.
        self.changed = [n for n in self.after if before.get(n) != self.after[n]]

    def whole(self, state):
        """Every file that the command changes is the old one or the new one, and every other is as it was."""
        for name in self.changed:
            grown = (name == self.log and self.after[name].startswith(state.get(name, b""))
                     and state.get(name, b"").startswith(self.before.get(name, b"")))
            check(grown or state.get(name) in (self.before.get(name), self.after[name]), self.name, "torn:", name)
        for name, data in self.before.items():
            check(name in state and (name in self.changed or state[name] == data), self.name, "lost:", name)
        check(self.made not in state or self.made + ".owners" in state, self.name, "a deal without its table")
        listed = f"{self.made}.manifest.json"
        check(self.made not in state or listed not in self.after or listed in state, self.name,
              "a deal without its manifest")

    def litter(self, state):
        return [name for name in state if name not in self.before and name not in self.after]

    def tidy(self, state):
        """Neither a table nor a manifest is there without the deal that was to be made."""
        for end in (".owners", ".manifest.json"):
            check(not self.made or self.made in state or self.made + end not in state, self.name, "without its deal:",
                  end)

    def together(self, state):
        """All files of the command are the old ones, or all are the new ones."""
        old = [state.get(n) == self.before.get(n) for n in self.changed]
        new = [state.get(n) == self.after[n] for n in self.changed]
        check(all(old) or all(new), self.name, "neither all nor nothing:", *sorted(state))
        return all(new)


def sidecar(deal, number=None):
    return b"vizhuthamen deal 1\nsize %d\n" % len(deal) + (b"" if number is None else b"number %d\n" % number)


def with_deal(files, deal, table, name="deal", number=None):
    """The files with this deal and this table, and what is known of it: what lies there, or its size and its number."""
    return {name + ".vz": sidecar(deal, number), **files, name: deal, name + ".owners": table}


def both(files, name="deal"):
    """A deal and its table; zeros where it has none yet."""
    return files[name], files.get(name + ".owners", bytes(max(4, len(files[name]) >> 17)))


def booked(files, segment, house, name="deal"):
    return with_deal(files, *MODEL.book(*both(files, name), house, segment)[3:], name)


def with_line(files, code, deal, table, line, log):
    """The files after a call with a log that the model has answered: the deal and its table where it changed them, and
    one line more."""
    files = with_deal(files, deal, table) if code == 0 else files
    return {**files, log: files.get(log, b"") + line}


def book_logged(files, segment, house, log="log"):
    return with_line(files, *logs.book(*both(files), house, segment), log)


def cancel_logged(files, house, place, log="log"):
    return with_line(files, *logs.cancel(*both(files), house, place), log)


def entry(deal, place):
    """What the entry at a place says, as a manifest has it."""
    offset, size = (int.from_bytes(deal[place + at : place + at + 8], "little") for at in (32, 40))
    return {"place": place, "offset": offset, "size": size, "commitment": deal[place : place + 32].hex()}


def manifest(lines):
    """The text of a manifest: a line for each file, by place."""
    lines = sorted(lines, key=lambda line: line["place"])
    text = ",\n".join(json.dumps(line, separators=(",", ":")) for line in lines)
    files = f"\n{text}\n" if lines else ""
    return f'{{\n"form":"vizhuthamen manifest",\n"version":1,\n"files":[{files}]\n}}\n'.encode()


def packed(files, names, house, log=None):
    """The files with these packed into the deal for a house, by falling area and then by name, and listed in a manifest
    where there is none; with a log, which gets a line for each."""
    (deal, table), lines, log_lines = both(files), [], b""
    for name in sorted(names, key=lambda name: (-area(segment_length(len(files[name]))), name)):
        raw = files[name]
        _, deal, table, line = logs.book(deal, table, house, pad(raw, bytes(segment_length(len(raw))))[2])
        place = int.from_bytes(line[-8:], "little")
        digest = hashlib.sha256(raw).hexdigest()
        lines.append({"names": [name], "length": len(raw), "sha256": digest, **entry(deal, place)})
        log_lines += line
    files = {**with_deal(files, deal, table), "deal.manifest.json": manifest(lines)}
    return {**files, log: files.get(log, b"") + log_lines} if log else files


def still_listed(files, deal, name="deal"):
    """The manifest of the deal for another one that has some of its segments."""
    lines = json.loads(files["deal.manifest.json"])["files"]
    places = {deal[place : place + 32].hex(): place for place in range(len(deal) - 256, len(deal), 64)}
    lines = [{**line, **entry(deal, places[line["commitment"]])} for line in lines if line["commitment"] in places]
    return {**files, name + ".manifest.json": manifest(lines)}


def scenes(rng):
    segment, third = (b"".join(node(rng) for _ in range(4)) for _ in range(2))
    first = b"".join(node(rng) for _ in range(8))
    _, _, _, old, owned = MODEL.book(bytes(1024), bytes(4), 1, first)
    _, _, _, new, owned_new = MODEL.book(old, owned, 2, segment)
    _, gap, owned_gap = MODEL.cancel(new, owned_new, 1, 768)
    spoilt = old[:768] + bytes([old[768] ^ 1]) + old[769:]
    record = MODEL.build(old, 58, 768)[1]
    files = {"segment": segment, "deal": old, "deal.owners": owned}
    book = lambda files: booked(files, segment, 2)
    words = "book", "deal", "segment", "--house", 2
    yield Scene("book", words, {**files, "deal.vz": sidecar(old)}, book, (0, 15))
    yield Scene("book, nothing known", words, files, book, (0, 15))
    yield Scene("book, no table", words, {"segment": segment, "deal": bytes(1024), "deal.vz": sidecar(old)}, book,
                (0, 15))
    cancel = lambda files: with_deal(files, *MODEL.cancel(*both(files), 1, 768)[1:])
    words, files = ("cancel", "deal", 768, "--house", 1), {"deal": new, "deal.owners": owned_new}
    yield Scene("cancel", words, {**files, "deal.vz": sidecar(new)}, cancel, (0, 16))
    yield Scene("cancel, nothing known", words, files, cancel, (0, 16))
    yield from logged_scenes(rng, first, segment)
    give = lambda files: {**files, "deal.owners": b"\2" + both(files)[1][1:]}
    yield Scene("owner", ("owner", "deal", 2, 768, "--instead-of", 1), files, give, (0,))
    yield Scene("owner, no table", ("owner", "deal", 2, 768), {"deal": old}, give, (0,))
    number = lambda files: {**files, "deal.vz": sidecar(files["deal"], 58)}
    files = {"deal": old, "deal.owners": owned}
    yield Scene("number", ("number", "deal", 58), {**files, "deal.vz": sidecar(old)}, number, (0,))
    yield Scene("number, nothing known", ("number", "deal", 58), files, number, (0,))
    collect = lambda files: with_deal(files, *MODEL.collect(*both(files), bytes(1024), bytes(4))[1:], "new", 58)
    before = {"segment": third, "deal": gap, "deal.owners": owned_gap, "deal.vz": sidecar(gap, 58)}
    yield Scene("collect", ("collect", "deal", "new"), before, collect, (0, IO), "new", 58)
    for name, number in (("new", None), ("new, numbered", 58)):
        words = "new", "deal", 1024, *(() if number is None else ("--number", number))
        made = lambda files, number=number: with_deal(files, bytes(1024), bytes(4), "deal", number)
        yield Scene(name, words, {"segment": segment}, made, (0, IO), "deal", number)
    raw = {"a": rng.randbytes(200), "b": rng.randbytes(100)}
    pack = lambda files: packed(files, raw, 2)
    before = {**raw, "deal": old, "deal.owners": owned, "deal.vz": sidecar(old, 58)}
    yield Scene("pack", ("pack", "a", "b", "--deal", "deal", "--house", 2), before, pack, (0,))
    listed = {**pack(before), "segment": third}
    without = lambda files: MODEL.cancel(*both(files), 2, 832)[1:]
    cancel = lambda files: with_deal(still_listed(files, without(files)[0]), *without(files))
    yield Scene("cancel, listed", ("cancel", "deal", 832, "--house", 2), listed, cancel, (0, 16))
    collected = lambda files: MODEL.collect(*both(files), bytes(1024), bytes(4))[1:]
    collect = lambda files: with_deal(still_listed(files, collected(files)[0], "new"), *collected(files), "new", 58)
    yield Scene("collect, listed", ("collect", "deal", "new"), cancel(listed), collect, (0, IO), "new", 58)
    close = lambda files: {**files, "deal.vz": sidecar(files["deal"], 58)
                           + b"closed %s\n" % MODEL.commitment(files["deal"])[1].hex().encode()}
    yield Scene("close", ("close", "deal"), {"deal": old, "deal.owners": owned, "deal.vz": sidecar(old, 58)}, close,
                (0,))
    repair = lambda files: {**with_deal(files, old, owned), "deal.before-repair": spoilt}
    yield Scene("repair", ("repair", "deal"), {"deal": spoilt, "deal.owners": owned}, repair, (0, 0))
    output = lambda files: {**files, "record": record}
    build = "build", "deal", 768, "-o", "record"
    yield Scene("output", (*build, "--number", 58), {"deal": old}, output, (0, 0))
    before = {"deal": old, "deal.vz": sidecar(old, 58), "record": b"before"}
    yield Scene("output, replaced", (*build, "--force"), before, output, (0, 0))
    before = {"deal": old, "deal.vz": sidecar(old, 58), "file": first}
    proof = lambda files: {**files, "proof": proofs.text(proofs.members(old, 58, 768, first, "file", "none")).encode()}
    yield Scene("proof", ("prove", "deal", "--segment", "file", "-o", "proof"), before, proof, (0, 0))


def logged_scenes(rng, first, segment):
    """Calls with a log: a line is added with the deal, alone by a call that is refused, to a log that is made, and to
    one elsewhere."""
    empty = {"deal": bytes(1024), "deal.owners": bytes(4), "deal.vz": sidecar(bytes(1024)), "segment": segment,
             "first": first}
    book = lambda log: lambda files: book_logged(files, segment, 2, log)
    words = "book", "deal", "segment", "--house", 2, "--log"
    one = book_logged(empty, first, 1)
    yield Scene("book, logged", (*words, "log"), one, book("log"), (0, 15), log="log")
    yield Scene("book, log made", (*words, "log"), empty, book("log"), (0, 15), log="log")
    elsewhere = book_logged(empty, first, 1, ELSEWHERE + "log")
    yield Scene("book, log elsewhere", (*words, ELSEWHERE + "log"), elsewhere, book(ELSEWHERE + "log"), (0, 15),
                log=ELSEWHERE + "log")
    yield Scene("book, log made elsewhere", (*words, ELSEWHERE + "log"), empty, book(ELSEWHERE + "log"), (0, 15),
                log=ELSEWHERE + "log")
    again = lambda files: book_logged(files, first, 1)
    yield Scene("book again, logged", ("book", "deal", "first", "--house", 1, "--log", "log"), one, again, (15,),
                status=15, log="log")
    nothing = lambda files: cancel_logged(files, 2, 768)
    yield Scene("cancel nothing, logged", ("cancel", "deal", 768, "--house", 2, "--log", "log"), one, nothing, (16,),
                status=16, log="log")
    raw = {"a": rng.randbytes(200), "b": rng.randbytes(100)}
    pack = lambda files: packed(files, raw, 2, "log")
    yield Scene("pack, logged", ("pack", "a", "b", "--deal", "deal", "--house", 2, "--log", "log"), {**one, **raw},
                pack, (0,), log="log")

    def cancel(files):
        after = cancel_logged(files, 2, 832)
        return still_listed(after, after["deal"]) if after["deal"] != files["deal"] else after

    yield Scene("cancel, listed, logged", ("cancel", "deal", 832, "--house", 2, "--log", "log"), pack({**one, **raw}),
                cancel, (0, 16), log="log")


class Faults:
    def __init__(self, place, counts):
        self.place, self.counts = place, counts

    def confirmed(self, scene):
        """Playback confirms the log, and its rows are the deal's entries."""
        status, out, err = self.place.run(("playback", 1024, scene.log, "--json"))
        check(status == 0, scene.name, "playback:", status, out, err)
        names = "place", "house", "offset", "size", "commitment"
        rows = [tuple(row[name] for name in names) for row in json.loads(out)["rows"]]
        check(rows == logs.rows(*both(self.place.state())), scene.name, "the log is not the deal's:", rows)

    def after_logged(self, scene, plain):
        """What was begun is ended, whole or not at all; then the command once more, undisturbed, which adds its own
        line."""
        status, _, err = self.place.run(("fsck", "deal"), plain=plain)
        check(status == 0, scene.name, "fsck:", status, err)
        state = self.place.state()
        if scene.log in state:
            self.confirmed(scene)
        scene.together(state)
        # What a kill has left aside goes with the next call that writes.
        state = {name: data for name, data in state.items() if name not in scene.litter(state)}
        status, _, err = self.place.run(scene.words, plain=plain)
        check(status in scene.again, scene.name, "run again:", status, err)
        now = self.place.state()
        check(now == scene.effect(state), scene.name, "after running again:", *sorted(now))
        self.confirmed(scene)

    def after(self, scene, plain):
        """The command once more, undisturbed: its end is the whole new state, and nothing is left."""
        if scene.log:
            return self.after_logged(scene, plain)
        status, _, err = self.place.run(scene.words, plain=plain)
        check(status in scene.again, scene.name, "run again:", status, err)
        state, after = self.place.state(), scene.after
        if scene.made:
            # What is known of a deal can be done without; the first booking puts it there, and removes what was left.
            # A number that was not kept was said not to be.
            check(state[scene.made] == after[scene.made], scene.name, "after running again")
            number = () if scene.number is None else (("number", scene.made, scene.number),)
            for words in (*number, ("book", scene.made, "segment", "--house", 1)):
                status, _, err = self.place.run(words, plain=plain)
                check(status == 0, scene.name, *words, "afterwards:", status, err)
            state, after = self.place.state(), booked(after, after["segment"], 1, scene.made)
        check(state == after, scene.name, "after running again:", *sorted(state))

    def kills(self, scene, plain):
        """Killed before each call; then looked at, by a command that ends what was begun; then run again."""
        for at in range(1, len(self.place.calls_of(scene, plain)) + 1):
            self.place.put(scene.before)
            status, *_ = self.place.run(scene.words, fault=fault(at, "kill 9"), plain=plain)
            check(status == -9, scene.name, at, "not killed:", status)
            state = self.place.state()
            scene.whole(state)
            self.counts["kills"] += 1
            if not scene.made:
                status, _, err = self.place.run(("fsck", "deal"), plain=plain)
                check(status in (0, DATA), scene.name, at, "fsck:", status, err)
                scene.together(self.place.state())
            self.after(scene, plain)

    def signals(self, scene, plain, numbers):
        """A signal before each call: nothing is left behind, without any later call."""
        for number in numbers:
            for at in range(1, len(self.place.calls_of(scene, plain)) + 1):
                self.place.put(scene.before)
                status, *_ = self.place.run(scene.words, fault=fault(at, f"kill {int(number)}"), plain=plain)
                check(status == -number, scene.name, at, "not ended by the signal:", status)
                state = self.place.state()
                scene.whole(state)
                check(not scene.litter(state), scene.name, at, number, "left:", *scene.litter(state))
                scene.tidy(state)
                if not scene.made:
                    scene.together(state)
                self.counts["signals"] += 1
                self.after(scene, plain)

    def ignored(self, scene, plain):
        """A signal that the process ignores stops nothing."""
        ignoring = {"preexec_fn": lambda: signal.signal(signal.SIGHUP, signal.SIG_IGN)}
        for at in range(1, len(self.place.calls_of(scene, plain)) + 1):
            self.place.put(scene.before)
            status, *_ = self.place.run(scene.words, fault=fault(at, f"kill {int(signal.SIGHUP)}"), plain=plain,
                                        **ignoring)
            check(status == scene.status and self.place.state() == scene.after, scene.name, at,
                  "stopped by an ignored signal:", status)
            self.counts["signals"] += 1

    def errors(self, scene, plain, numbers):
        """Each call fails: with exit status 0 all is done, with another one all or nothing is, and it says which."""
        names = self.place.calls_of(scene, plain)
        naming = ("linkat", "rename", "renameat2", "unlink")
        for what in [*(f"error {n}" for n in numbers), "short", f"late {errno.EIO}", f"late {errno.EEXIST}"]:
            for at, name in enumerate(names, 1):
                if (name == "fcntl" or what == "short" and name != "write"
                        or what.startswith("late") and name not in naming):
                    continue
                self.place.put(scene.before)
                status, out, err = self.place.run(scene.words, fault=fault(at, what), plain=plain)
                here = (scene.name, at, name, what, status, out, err)
                # A repair that cannot read the table mends the deal, and says what is left.
                unread = scene.name == "repair" and status == DATA and b"deal.owners: " in out
                check(status in (scene.status, IO) or unread, *here)
                check(status == scene.status or unread or err.startswith(b"vizhuthamen: ") and err.count(b"\n") == 1,
                      *here)
                state = self.place.state()
                scene.whole(state)
                scene.tidy(state)
                made = all(state.get(n) == scene.after[n] for n in scene.changed)
                # A size that is not beside a new deal is noted; a number that is not is an error.
                noted = scene.made and scene.number is None and b"could not be written" in err
                check(made or status != scene.status and not unread or noted, *here)
                check(b"nothing is changed" not in err or not made, *here)
                # A name that could not be removed, or a change that the next call ends, may be left for that.
                check(not scene.litter(state) or name == "unlink" or b"next call" in err, *here, *scene.litter(state))
                self.counts["errors"] += 1
                self.after(scene, plain)

    def breakdowns(self, scene, plain, numbers):
        """From one call on nothing can be written any more: what is there is whole, and all can be done later."""
        names = self.place.calls_of(scene, plain)
        for number in numbers:
            for at, name in enumerate(names, 1):
                if name not in ("write", "fsync", "ftruncate64", "linkat", "rename", "renameat2", "unlink"):
                    continue
                self.place.put(scene.before)
                status, _, err = self.place.run(scene.words, fault=fault(at, f"errors {number}"), plain=plain)
                state = self.place.state()
                scene.whole(state)
                made = all(state.get(n) == scene.after[n] for n in scene.changed)
                check(status == IO or status == scene.status and made, scene.name, at, name, number, status, err)
                check(b"nothing is changed" not in err or not made, scene.name, at, name, number, err)
                self.counts["errors"] += 1
                self.after(scene, plain)

    def recoveries(self, scene, plain, every):
        """Killed after a change of several files was decided; then whoever ends it is killed before each of its
        calls."""
        decided = []
        for at in range(1, len(self.place.calls_of(scene, plain)) + 1):
            self.place.put(scene.before)
            self.place.run(scene.words, fault=fault(at, "kill 9"), plain=plain)
            state = self.place.state()
            if ".deal.vz-journal" in state:
                decided.append((at, state))
        check(decided, scene.name, "no journal was seen")
        for words in (("fsck", "deal"), ("list", "deal")):
            for at, begun in decided if every else decided[:1]:
                self.recovered(scene, plain, at, begun, words)

    def recovered(self, scene, plain, at, begun, words):
        """A call that finds a decided change and ends it, killed or with an error before each of its calls."""
        self.place.put(begun)
        calls = len(self.place.calls(words, plain))
        check(scene.together(self.place.state()), scene.name, at, *words, "a decided change was not made")
        for what, again in ((what, n) for what in ("kill 9", f"error {errno.EIO}") for n in range(1, calls + 1)):
            self.place.put(begun)
            self.place.run(words, fault=fault(again, what), plain=plain)
            scene.whole(self.place.state())
            self.counts["kills" if what == "kill 9" else "errors"] += 1
            self.place.run(words, plain=plain)
            check(scene.together(self.place.state()), scene.name, at, again, what, "a decided change was not made")
            self.after(scene, plain)

    def pauses(self, scene, plain, other):
        """Stopped before each call while another process books; all files are then as if one call had come after the
        other."""
        words = ("book", "deal", "other", "--no-wait", "--house", 1, *(("--log", scene.log) if scene.log else ()))
        before = {**scene.before, "other": other}
        booking = lambda files: book_logged(files, other, 1, scene.log) if scene.log else booked(files, other, 1)
        ends = (booking(scene.effect(before)), scene.effect(booking(before)))
        for at in range(1, len(self.place.calls_of(scene, plain)) + 1):
            self.place.put(before)
            call = self.stopped(scene.words, at, plain, scene.name)
            status, out, err = self.place.run(words, plain=plain)
            check(status in (0, BUSY), scene.name, at, status, err)
            call.send_signal(signal.SIGCONT)
            mine, err = call.communicate(timeout=60)
            check(call.returncode == scene.status, scene.name, at, call.returncode, err)
            if status == BUSY:
                status, out, err = self.place.run(words, plain=plain)
                check(status == 0, scene.name, at, status, err)
            state = self.place.state()
            check(state in ends, scene.name, at, "lost or left:", *sorted(state))
            accounted(state, {told(out): (other, 1)})
            if scene.words[0] == "book" and scene.status == 0:
                accounted(state, {told(mine): (before["segment"], 2)})
            if scene.log:
                self.confirmed(scene)
            self.counts["pauses"] += 1

    def stopped(self, words, at, plain, name):
        """A call that is stopped before one of its calls to the system."""
        call = self.place.start(words, fault=fault(at, f"kill {int(signal.SIGSTOP)}"), plain=plain)
        info = os.waitid(os.P_PID, call.pid, os.WSTOPPED | os.WEXITED | os.WNOWAIT)
        check(info.si_code == os.CLD_STOPPED, name, at, "not stopped")
        return call

    def listed(self, files):
        """What `list` prints of these files."""
        self.place.put(files)
        status, out, err = self.place.run(("list", "deal"))
        check(status == 0, "list", status, err)
        return out

    def readers(self, scene, plain):
        """Deal and table are listed without the lock, and yet as they were at one moment: while the change is stopped
        before each of its calls, and with the reader stopped before each of its calls and the change made meanwhile,
        whole or in part."""
        reader = "list", "deal"
        lists = self.listed(scene.before), self.listed(scene.after)
        check(lists[0] != lists[1], scene.name, "the lists do not differ")
        for at in range(1, len(self.place.calls_of(scene, plain)) + 1):
            self.place.put(scene.before)
            call = self.stopped(scene.words, at, plain, scene.name)
            reading = self.place.start(reader, plain=plain)
            try:
                reading.wait(timeout=0.2)
            except subprocess.TimeoutExpired:
                pass  # it waits for the change
            call.send_signal(signal.SIGCONT)
            call.communicate(timeout=60)
            out, err = reading.communicate(timeout=60)
            check(reading.returncode == 0 and out in lists, scene.name, at, "listed:", out, err)
            self.counts["pauses"] += 1
        self.place.put(scene.before)
        renames = [at for at, name in enumerate(self.place.calls_of(scene, plain), 1) if name == "rename"]
        for at in range(1, len(self.place.calls(reader, plain)) + 1):
            # The change is made meanwhile, and it is begun and stopped between its first two files.
            for stop in (None, renames[1]):
                self.place.put(scene.before)
                reading = self.stopped(reader, at, plain, "list")
                call = (self.stopped(scene.words, stop, plain, scene.name) if stop
                        else self.place.start(scene.words, plain=plain))
                if not stop:
                    call.wait(timeout=60)
                reading.send_signal(signal.SIGCONT)
                try:
                    reading.wait(timeout=0.1)
                except subprocess.TimeoutExpired:
                    pass  # it waits for the change
                call.send_signal(signal.SIGCONT)
                _, err = call.communicate(timeout=60)
                check(call.returncode == 0, scene.name, at, stop, call.returncode, err)
                out, err = reading.communicate(timeout=60)
                check(reading.returncode == 0 and out in lists, scene.name, at, stop, "listed meanwhile:", out, err)
                self.counts["pauses"] += 1

    def log_readers(self, scene, plain):
        """A log is played back while a call that adds to it is stopped before each of its calls: it is the old log or
        the new one."""
        reader = "playback", 1024, scene.log
        played = []
        for files in (scene.before, scene.after):
            self.place.put(files)
            played.append(self.place.run(reader)[:2])
        check(played[0] != played[1] and played[1][0] == 0, scene.name, "played back:", *played)
        for at in range(1, len(self.place.calls_of(scene, plain)) + 1):
            self.place.put(scene.before)
            call = self.stopped(scene.words, at, plain, scene.name)
            reading = self.place.start(reader, plain=plain)
            try:
                reading.wait(timeout=0.1)
            except subprocess.TimeoutExpired:
                pass  # it waits for the change
            call.send_signal(signal.SIGCONT)
            call.communicate(timeout=60)
            out, err = reading.communicate(timeout=60)
            check((reading.returncode, out) in played, scene.name, at, "played back:", reading.returncode, out, err)
            self.counts["pauses"] += 1

    def decided(self, scene, plain):
        """The state of a call that was killed right after its journal was in place, with the log as it was."""
        for at in range(1, len(self.place.calls_of(scene, plain)) + 1):
            self.place.put(scene.before)
            self.place.run(scene.words, fault=fault(at, "kill 9"), plain=plain)
            state = self.place.state()
            if ".deal.vz-journal" in state:
                check(state.get(scene.log) == scene.before.get(scene.log), scene.name, "a line before its journal")
                # Both can be moved where the log lies below the deal's folder.
                name = str(self.place.path(scene.log)) if scene.log.startswith(ELSEWHERE) else scene.log
                check(name.encode().hex() in state[".deal.vz-journal"].decode().split(), scene.name,
                      "another name in the journal")
                return state
        raise Wrong(f"{scene.name}: no journal was seen")

    def torn_logs(self, scene, plain):
        """A kill or a power failure has left any part of the new lines, or zeros in their place: the next call
        completes them. What another hand has left there is not touched, and the change waits until the log is brought
        back."""
        begun, old = self.decided(scene, plain), scene.before.get(scene.log, b"")
        line = scene.after[scene.log][len(old):]
        torn = [old + line[:cut] + zeros for cut in range(len(line) + 1) for zeros in (b"", bytes(len(line) - cut))]
        for log in torn:
            self.place.put({**begun, scene.log: log})
            status, _, err = self.place.run(("fsck", "deal"), plain=plain)
            check(status == 0 and scene.together(self.place.state()), scene.name, log.hex(), status, err)
            self.confirmed(scene)
            self.counts["torn logs"] += 1
        foreign = [old + logs.cancelling(1, 704, 16), old + line[:5] + b"\xff", old + bytes(len(line) + 1), old + b"\3",
                   *((old[:-1], None) if old else ())]
        for log in foreign:
            self.place.put({**begun, scene.log: log} if log is not None
                           else {name: data for name, data in begun.items() if name != scene.log})
            before = self.place.state()
            for words in (("fsck", "deal"), ("list", "deal"), scene.words):
                status, _, err = self.place.run(words, plain=plain)
                check(status == IO and b"unfinished change" in err
                      and b"take the line that begins with `log` out of" in err, scene.name, status, err)
            check(self.place.state() == before, scene.name, "a log of another hand was touched")
            self.place.path(scene.log).write_bytes(old)
            self.after(scene, plain)
            self.counts["torn logs"] += 1

    def paused_makers(self, scene, plain):
        """Stopped before each call while another process makes the same deal: one of them does, and the deal has its
        table."""
        for at in range(1, len(self.place.calls_of(scene, plain)) + 1):
            self.place.put(scene.before)
            first = self.stopped(scene.words, at, plain, scene.name)
            second = self.place.start(scene.words, plain=plain)
            try:
                second.wait(timeout=0.1)
            except subprocess.TimeoutExpired:
                pass  # it waits for the first
            first.send_signal(signal.SIGCONT)
            ended = [(call.communicate(timeout=60)[1], call.returncode) for call in (first, second)]
            check(sorted(status for _, status in ended) == [0, IO], scene.name, at, "made by two:", ended)
            check(self.place.state() == scene.after, scene.name, at, "made by two:", *sorted(self.place.state()))
            self.counts["pauses"] += 1

    def abandoned_makers(self, scene):
        """One process has put the table in place and is killed, and the table is taken away; a second was stopped while
        it looked at that table; a third has put its own in place meanwhile. The third makes the deal, with its table,
        and the second does not."""
        links = [at for at, name in enumerate(self.place.calls_of(scene, 0), 1) if name == "linkat"]
        for at in range(links[0] - 12, links[0] + 8):
            self.place.put(scene.before)
            first = self.stopped(scene.words, links[1], 0, scene.name)
            second = self.stopped(scene.words, at, 0, scene.name)
            first.kill()
            first.communicate()
            self.place.path(scene.made + ".owners").unlink()
            third = self.stopped(scene.words, links[1], 0, scene.name)
            second.send_signal(signal.SIGCONT)
            try:
                second.wait(timeout=0.1)
            except subprocess.TimeoutExpired:
                pass  # it waits for the third
            third.send_signal(signal.SIGCONT)
            ended = [(call.communicate(timeout=60)[1], call.returncode) for call in (second, third)]
            check([status for _, status in ended] == [IO, 0], scene.name, at, "made by the third:", ended)
            check(self.place.state() == scene.after, scene.name, at, "made by the third:", *sorted(self.place.state()))
            self.counts["pauses"] += 1

    def paused_outputs(self, scene, plain, raw):
        """Stopped before each call, with a name in the way that a dead process has left, while another process writes
        the same output."""
        other = pad(raw, bytes(segment_length(len(raw))))[2]
        for at in range(1, len(self.place.calls_of(scene, plain)) + 8):
            self.place.put({**scene.before, "raw": raw, ".record.vz-new.0": b"dead"})
            first = self.place.start(scene.words, fault=fault(at, f"kill {int(signal.SIGSTOP)}"), plain=plain)
            os.waitid(os.P_PID, first.pid, os.WSTOPPED | os.WEXITED | os.WNOWAIT)
            second = self.place.start(("pad", "raw", "-o", "record", "--force"), plain=plain)
            try:
                second.wait(timeout=0.2)
            except subprocess.TimeoutExpired:
                pass  # it waits for the first
            first.send_signal(signal.SIGCONT)
            for call in (first, second):
                _, err = call.communicate(timeout=60)
                check(call.returncode == 0, scene.name, at, call.returncode, err)
            state = self.place.state()
            check(state["record"] in (scene.after["record"], other), scene.name, at, "torn: record")
            check(sorted(state) == sorted([*scene.after, "raw"]), scene.name, at, "left:", *sorted(state))
            self.counts["pauses"] += 1


class Resumes:
    """A stream that keeps its state: whatever ends it, the answer is that of an unbroken run, and nothing is left
    then."""

    # Every look at the clock finds ten seconds more gone, so that the state is kept after every piece.
    CLOCK = {"FAULT_CLOCK": "10"}

    def __init__(self, place, counts, words, data, plain):
        self.place, self.counts, self.words, self.data, self.plain = place, counts, words, data, plain
        status, self.answer, err = self.run()
        check((status, err) == (0, b""), *words, status, err)
        log = place.folder.parent / "log"
        log.unlink(missing_ok=True)
        self.start_anew()
        self.run("--state", "state", fault={"FAULT_LOG": str(log)})
        self.calls = log.read_text().split()
        self.furthest = 0

    def start_anew(self):
        self.place.put({"file": self.data})

    def run(self, *options, fault=None):
        self.place.path("file").exists() or self.start_anew()
        return self.place.run((*self.words, *options), fault={**self.CLOCK, **(fault or {})}, plain=self.plain)

    def taken(self):
        """How far the state is, which is whole if it is there; -1 where there is none."""
        try:
            lines = self.place.path("state").read_text().splitlines()
        except FileNotFoundError:
            return -1
        words = [line.split()[0] for line in lines]
        check(words == "vizhuthamen takes inode length modified taken state check".split(), "torn: state,", *words)
        taken = int(lines[5].split()[1])
        self.furthest = max(self.furthest, taken)
        return taken

    def go_on(self, fault=None):
        """The same call again, with --resume where a state was left."""
        return self.run("--state", "state", *(["--resume"] if self.taken() >= 0 else []), fault=fault)

    def end(self, *here):
        """Undisturbed: the answer is there, and nothing else."""
        status, out, err = self.go_on()
        check((status, out, err) == (0, self.answer, b""), *here, "gone on with:", status, out, err)
        check(list(self.place.state()) == ["file"], *here, "left:", *self.place.state())

    def kills(self, calls):
        """Killed before each of these calls, then killed again while it goes on, and gone on with."""
        for at in calls:
            self.start_anew()
            status, *_ = self.run("--state", "state", fault=fault(at, "kill 9"))
            check(status == -9, *self.words, at, "not killed:", status)
            first = self.taken()
            status, out, err = self.go_on(fault(7 + at // 2, "kill 9"))
            check(status == -9 or (status, out) == (0, self.answer), *self.words, at, status, err)
            # Once the answer is written the state goes, and a kill may come after that.
            check(out == self.answer or self.taken() >= first, *self.words, at, "the state went back")
            self.counts["kills"] += 1 + (status == -9)
            self.end(*self.words, at)
        check(self.furthest >= len(self.data) // 2, *self.words, "no state was far:", self.furthest)

    def signals(self, calls, number):
        """Ended by a signal before each of these calls: no file is left but the state."""
        for at in calls:
            self.start_anew()
            status, *_ = self.run("--state", "state", fault=fault(at, f"kill {int(number)}"))
            check(status == -number, *self.words, at, "not ended by the signal:", status)
            check(set(self.place.state()) <= {"file", "state"}, *self.words, at, "left:", *self.place.state())
            self.counts["signals"] += 1
            self.end(*self.words, at)

    def errors(self, calls, numbers):
        """Each of these calls fails: that a state cannot be kept is no reason to give up."""
        for what, at in ((what, at) for what in [*(f"error {n}" for n in numbers), "short"] for at in calls):
            name = self.calls[at - 1]
            if name == "fcntl" or what == "short" and name != "write":
                continue
            self.start_anew()
            status, out, err = self.run("--state", "state", fault=fault(at, what))
            here = (*self.words, at, name, what, status, err)
            check((status, out) == (0, self.answer) or status == IO and err.startswith(b"vizhuthamen: "), *here)
            left = set(self.place.state()) - {"file"}
            check(not left or name == "unlink" or status == IO and left == {"state"}, *here, *left)
            self.counts["errors"] += 1
            self.end(*here)


def told(out):
    """Offset and place of a booking's answer."""
    lines = dict(line.split() for line in out.decode().splitlines())
    return int(lines["offset"]), int(lines["place"])


def accounted(files, bookings):
    """Every booking is in the deal where it was told to be, with its entry, and its house is in the table."""
    deal, table = both(files)
    for (offset, place), (segment, house) in bookings.items():
        whole = filled(segment)
        check(deal[offset : offset + len(whole)] == whole, "a booking's bytes are lost: offset", offset)
        entry = MODEL.entry(MODEL.tree(whole)[-1][0], offset, len(segment))
        check(deal[place : place + 64] == entry, "a booking's entry is lost: place", place)
        check(table[(place - len(deal)) // 64] == house, "a booking's house is lost: place", place)


class Races:
    def __init__(self, place, counts, rng):
        self.place, self.counts, self.rng = place, counts, rng
        self.log = ()

    def prepare(self, size, bookings, log=()):
        self.log = log
        segments = {f"s{i}": b"".join(node(self.rng) for _ in range(self.rng.choice((4, 8, 16, 32))))
                    for i in range(bookings)}
        self.place.clean()
        for name, data in segments.items():
            self.place.path(name).write_bytes(data)
        check(self.place.run(("new", "deal", size))[0] == 0, "new")
        return segments

    def house(self, name):
        """The house that books a segment: one after the other."""
        return 1 + int(name[1:]) % 2

    def book(self, name):
        return "book", "deal", name, "--house", self.house(name), *self.log

    def end(self, segments, answers):
        """The deal keeps the segments that were answered, where they were told to be, and no others, and the table
        their houses; playback confirms the log, with these as its rows."""
        state = self.place.state()
        check(sorted(state) == sorted([*segments, "deal", "deal.owners", "deal.vz", *self.log[1:]]), "left:",
              *sorted(state))
        if self.log:
            status, out, err = self.place.run(("playback", len(state["deal"]), self.log[1], "--json"))
            check(status == 0, "playback:", status, out, err)
            rows = [(row["place"], row["house"], row["offset"]) for row in json.loads(out)["rows"]]
            check(rows == sorted((place, self.house(name), offset) for name, (offset, place) in answers.items()),
                  "the log is not the deal's:", rows)
            self.counts["raced lines"] += json.loads(out)["lines"]
        check(len(set(answers.values())) == len(answers), "a place was told twice:", answers)
        accounted(state, {where: (segments[name], self.house(name)) for name, where in answers.items()})
        check(MODEL.tally(state["deal"])[3] == len(answers), "a cancelled booking is there")
        check(sum(byte != 0 for byte in state["deal.owners"]) == len(answers),
              "the owner of a cancelled booking is there")
        check(self.place.run(("fsck", "deal"))[0] == 0, "fsck")

    def undisturbed(self, processes, bookings, size, plain):
        """Processes book different segments at once; where their number is even, with a log."""
        segments = self.prepare(size, bookings, () if processes % 2 else ("--log", "log"))
        names, answers = list(segments), {}
        while names:
            batch, names = names[:processes], names[processes:]
            calls = {name: self.place.start(self.book(name), plain=plain) for name in batch}
            for name, call in calls.items():
                out, err = call.communicate(timeout=120)
                check(call.returncode == 0, "booking", name, call.returncode, err)
                answers[name] = told(out)
        self.end(segments, answers)
        self.counts["races"] += 1
        self.counts["raced bookings"] += bookings

    def answered(self, words, statuses, rng, plain):
        """Repeats a call that is killed at random moments until it is answered."""
        while True:
            call = self.place.start(words, plain=plain)
            if rng.random() < 0.6:
                time.sleep(rng.random() * 0.03)
                call.kill()
            out, err = call.communicate(timeout=120)
            if call.returncode != -9:
                check(call.returncode in statuses, *words, call.returncode, err)
                return call.returncode, out
            with self.lock:
                self.counts["kills"] += 1

    def booked(self, name, segment, rng, plain):
        """Books until it is answered, and then cancels every third booking in the same way. Gives where it is, if it
        was not cancelled."""
        status, out = self.answered(self.book(name), (0, 15), rng, plain)
        where = told(b"\n".join(out.splitlines()[status == 15:]))
        if rng.randrange(3):
            return where
        commitment = MODEL.tree(filled(segment))[-1][0].hex()
        # One that was killed may have been done: then nothing of the house stands there (16), or another booking does
        # by now (65).
        words = "cancel", "deal", where[1], "--commitment", commitment, "--house", self.house(name), *self.log
        self.answered(words, (0, 16, DATA), rng, plain)
        with self.lock:
            self.counts["raced cancellations"] += 1
        return None

    def disturbed(self, processes, bookings, size, plain):
        """The same with workers that repeat a call until it is answered, while calls are killed at random moments;
        where their number is odd, with a log."""
        segments = self.prepare(size, bookings, ("--log", "log") if processes % 2 else ())
        queue, answers, failures, self.lock = list(segments), {}, [], threading.Lock()
        seeds = [self.rng.random() for _ in range(processes)]

        def work(seed):
            rng = random.Random(seed)
            try:
                while True:
                    with self.lock:
                        if not queue:
                            return
                        name = queue.pop()
                    answer = self.booked(name, segments[name], rng, plain)
                    with self.lock:
                        answers[name] = answer
            except Exception as error:  # told by the main thread
                failures.append(error)

        threads = [threading.Thread(target=work, args=(seed,)) for seed in seeds]
        for thread in threads:
            thread.start()
        for thread in threads:
            thread.join()
        check(not failures, *failures)
        # Whatever the last kill has left goes with the next booking.
        last = next(name for name in segments)
        status, out, _ = self.place.run(self.book(last))
        check(status == (15 if answers[last] else 0), "a booking is lost, or a cancelled one is not")
        answers[last] = answers[last] or told(out)
        self.end(segments, {name: where for name, where in answers.items() if where})
        self.counts["races"] += 1
        self.counts["raced bookings"] += bookings

    def makers(self, processes):
        """Processes make one deal at once: one of them does."""
        self.place.clean()
        calls = [self.place.start(("new", "deal", 1024)) for _ in range(processes)]
        statuses = sorted((call.communicate(), call.returncode)[1] for call in calls)
        check(statuses == [0] + [IO] * (processes - 1), "new, by several:", statuses)
        check(sorted(self.place.state()) == ["deal", "deal.owners", "deal.vz"], "left:", *sorted(self.place.state()))
        self.counts["races"] += 1

    def writers(self, processes):
        """Processes write one output at once: it is whole, and one of theirs. Without --force one of them writes it,
        and the others say that it is there."""
        self.place.clean()
        contents = [bytes([i]) * (1 << 16) for i in range(processes)]
        for i, data in enumerate(contents):
            self.place.path(f"raw{i}").write_bytes(data)
        for plain, force in ((False, False), (False, True), (True, False), (True, True)):
            if not force:
                self.place.path("out").unlink(missing_ok=True)
            words = [("pad", f"raw{i}", "-o", "out", *(("--force",) if force else ())) for i in range(processes)]
            calls = [self.place.start(call, plain=plain) for call in words]
            said = [call.communicate()[1] for call in calls]
            statuses = sorted(call.returncode for call in calls)
            check(statuses == [0] + ([0] if force else [IO]) * (processes - 1), "output, by several:", statuses, *said)
            state = self.place.state()
            check(sorted(state) == sorted([*(f"raw{i}" for i in range(processes)), "out"]), "left:", *sorted(state))
            status, out, _ = self.place.run(("unpad", 1 << 16, "out", "-o", "-"))
            check(status == 0 and out in contents, "output, by several: torn")
            self.counts["races"] += 1

    def random_kills(self, count, size, plain):
        """One process at a time, killed at a random moment: deal and table are the old ones or the new ones, and a new
        deal is whole and has its table."""
        segment = self.prepare(size, 1)["s0"]
        slots = max(4, size // 131072)
        place = size - 64 * slots
        empty = bytes(size), bytes(slots)
        full = MODEL.book(*empty, 2, segment)[3:]
        cancelled, collected = MODEL.cancel(*full, 2, place)[1:], MODEL.collect(*full, *empty)[1:]
        known = {"s0": segment, "deal.vz": sidecar(full[0])}
        kinds = [(("book", "deal", "s0", "--house", 2), "deal", empty, (empty, full)),
                 (("cancel", "deal", place, "--house", 2), "deal", full, (full, cancelled)),
                 (("collect", "deal", "new"), "new", full, (None, collected))]
        for number in range(count):
            words, name, before, ends = kinds[number % 3]
            self.place.put(with_deal(known, *before))
            began = time.monotonic()
            if number < 3:
                check(self.place.run(words, plain=plain)[0] == 0, *words)
                span = time.monotonic() - began
                continue
            call = self.place.start(words, plain=plain)
            time.sleep(self.rng.random() * 1.3 * span)
            call.kill()
            call.communicate()
            check(self.place.run(("fsck", "deal"))[0] == 0, "fsck")  # ends what was begun
            state = self.place.state()
            check((both(state, name) if name in state else None) in ends, "torn:", name)
            check(name == "deal" or name not in state or name + ".owners" in state, "a deal without its table")
            check(name == "deal" or both(state) == before, "the collected deal is changed")
            self.counts["kills"] += 1
            check(self.place.run(words, plain=plain)[0] in (0, 15, 16, IO), *words)
            check(both(self.place.state(), name) == ends[1], "after running again:", name)


def work(job):
    """One part of the test, in a folder of its own. Gives its counts and what it says."""
    kind, name, plain, options = job
    rng = random.Random(f"{options.seed}/{kind}/{name}/{plain}")
    made = [tempfile.TemporaryDirectory(prefix="vizhuthamen-faults-", dir=folder)
            for folder in (options.folder, options.outside)]
    with made[0] as folder, made[1] as outside:
        place = Place(Path(folder) / "place", Path(outside), options.shim)
        place.folder.mkdir()
        try:
            kinds = {"race": race, "resume": resume, "large": large, "disturb": disturb}
            return kinds[kind](place, rng, name, plain, options)
        except Wrong as wrong:
            raise Wrong(f"{name}, plain {plain}: {wrong}") from None


def disturb(place, rng, name, plain, options):
    """Every call of a command goes wrong in every way."""
    scene = next(scene for scene in scenes(random.Random(options.seed)) if scene.name == name)
    place.put(scene.before)
    names = place.calls(scene.words, plain)
    check(place.state() == scene.after, scene.name, "undisturbed:", *sorted(place.state()))
    check_flushed(names)
    place.calls_of = lambda scene, plain: names
    counts = Counter()
    faults = Faults(place, counts)
    faults.kills(scene, plain)
    faults.signals(scene, plain, SIGNALS if options.large else (rng.choice(SIGNALS),))
    every = options.large or (scene.name, plain) in EVERY_ERROR
    faults.errors(scene, plain, ERRORS if every else (errno.ENOSPC, errno.EIO))
    faults.breakdowns(scene, plain, BREAKDOWNS if options.large else BREAKDOWNS[:2] if plain else BREAKDOWNS[1:])
    recovered = ("book, nothing known", "repair", "pack", "book, log made elsewhere", "cancel, listed, logged",
                 "book again, logged")
    if scene.name in recovered or scene.name == "cancel, nothing known" and options.large:
        faults.recoveries(scene, plain, options.large)
    if scene.name in ("book", "cancel"):
        faults.readers(scene, plain)
    if scene.name == "book" and plain:
        faults.ignored(scene, plain)
    if scene.made:
        faults.paused_makers(scene, plain)
    if scene.name == "new" and plain == 0:
        faults.abandoned_makers(scene)
    if scene.name == "output, replaced":
        faults.paused_outputs(scene, plain, rng.randbytes(1000))
    if scene.name in ("book, logged", "book again, logged"):
        faults.log_readers(scene, plain)
    if scene.name in ("book, logged", "book, log made", "book, log elsewhere", "cancel nothing, logged"):
        faults.torn_logs(scene, plain)
    if scene.words[0] in ("book", "cancel", "number", "owner", "collect", "pack") and "deal.owners" in scene.before:
        faults.pauses(scene, plain, b"".join(node(rng) for _ in range(4)))
    mode = ("", ", no unnamed files", ", no unnamed files, no rename to a free name")[plain]
    return counts, f"{scene.name}{mode}: {len(names)} calls"


def race(place, rng, name, plain, options):
    """Several processes at once, and kills at random moments."""
    counts = Counter()
    races = Races(place, counts, rng)
    bookings, size = (32, 1 << 22) if options.large else (8, 1 << 20)
    for processes in range(2, 9):
        races.makers(processes)
        races.writers(processes)
        races.undisturbed(processes, bookings, size, plain)
        races.disturbed(processes, bookings, size, plain)
    races.random_kills(1000 if options.large else 40, 1 << 20, plain)
    return counts, f"races{', no unnamed files' if plain else ''}"


def resume(place, rng, name, plain, options):
    """Streams that keep their state: of bytes, 1 MiB at a time, and of a raw archive, 8323072 bytes at a time."""
    counts = Counter()
    raw = name == "stream --raw"
    words, size = (("stream", "--raw", "file"), 2 * MAX_RAW + 1000) if raw else (("stream", "file"), 1 << 21)
    data = b"".join(node(rng) for _ in range(128)) * (size // 4096) + rng.randbytes(size % 4096)
    resumes = Resumes(place, counts, words, data, plain)

    def some(step):
        """Every call, at the gate every so many-th, from a random one on."""
        return range(1, len(resumes.calls) + 1)[
            rng.randrange(step) if not options.large else 0 :: 1 if options.large else step]

    resumes.kills(some(9 if raw else 3 if plain else 2))
    if options.large or not (raw or plain):
        resumes.errors(some(3), ERRORS if options.large and not raw else (errno.EIO,))
        resumes.signals(some(3), rng.choice(SIGNALS))
    return counts, f"{name}{', no unnamed files' if plain else ''}: {len(resumes.calls)} calls"


def large(place, rng, name, plain, options):
    """A raw archive of 1 GiB of zeros, killed at random moments until it gets to its end."""
    counts = Counter()
    with open(place.path("file"), "wb") as file:
        file.truncate(1 << 30)
    root = bytes(32)
    for _ in range(26):  # its area has 2^31 bytes
        root = MODEL.h.node(root + root)
    began = time.monotonic()
    call = place.start(("stream", "--raw", "file"))
    out, err = call.communicate(timeout=600)
    unbroken = time.monotonic() - began
    check((call.returncode, out.decode()) == (0, root.hex() + "\n"), name, call.returncode, err)
    status = -9
    while status == -9:
        resume = ["--resume"] if place.path("state").exists() else []
        call = place.start(("stream", "--raw", "file", "--state", "state", *resume), fault=Resumes.CLOCK)
        time.sleep(rng.random() * unbroken / 5)
        call.kill()
        out, err = call.communicate(timeout=600)
        status = call.returncode
        counts["kills"] += status == -9
    check((status, out.decode()) == (0, root.hex() + "\n"), name, status, err)
    check([path.name for path in place.folder.iterdir()] == ["file"], name, "left:", *place.folder.iterdir())
    return counts, (f"{name}: {unbroken:.1f} s unbroken, {time.monotonic() - began - unbroken:.1f} s "
                    f"with {counts['kills']} kills")


# With unnamed files (0), without them (1), and without a rename to a free name too (2). At the gate a cancellation and
# a number, which change files as a booking does, a collection, which makes a deal as `new` does, a proof, which is an
# output, and calls with a log are run in some of these ways.
WAYS = {"book, nothing known": (0, 1, 2), "collect": (0, 1, 2), "new": (0, 1, 2), "new, numbered": (0, 1, 2),
        "output": (0, 1, 2), "proof": (0, 1, 2)}
WAYS_AT_THE_GATE = {**WAYS, "cancel": (0,), "cancel, nothing known": (1,), "number": (1,),
                    "number, nothing known": (0,), "collect": (0, 1), "new, numbered": (1, 2), "proof": (0,),
                    "cancel, listed": (0,), "collect, listed": (1,), "close": (1,), "book, logged": (0,),
                    "book, log made": (1,), "book, log elsewhere": (), "book, log made elsewhere": (0,),
                    "book again, logged": (1,), "cancel nothing, logged": (0,),
                    "pack, logged": (1,), "cancel, listed, logged": (0,)}
# Commands and ways that get every error at the gate: one file, several files, a new deal, a log.
EVERY_ERROR = (("book", 0), ("book, nothing known", 1), ("collect", 1), ("book, log made", 1))


def jobs(options):
    ways = WAYS if options.large else WAYS_AT_THE_GATE
    for scene in scenes(random.Random(options.seed)):
        for plain in ways.get(scene.name, (0, 1)):
            yield "disturb", scene.name, plain, options
    for plain in (0, 1):
        yield "resume", "stream", plain, options
    for plain in (0, 1) if options.large else (0,):
        yield "resume", "stream --raw", plain, options
    if options.large:
        yield "large", "stream --raw, 1 GiB", 0, options
    for plain in (0, 1):
        yield "race", "races", plain, options


def run(options):
    """All jobs, as many at a time as there are processors."""
    counts = Counter()
    with ProcessPoolExecutor(os.cpu_count()) as pool:
        try:
            for found, line in pool.map(work, jobs(options)):
                counts += found
                print(f"faults: {line}", flush=True)
        except Wrong:
            pool.shutdown(cancel_futures=True)
            raise
    return counts


def arguments():
    parser = argparse.ArgumentParser(description="Kills, signals, errors and races at the command line.")
    parser.add_argument("--large", action="store_true",
                        help="every signal and every error for every command, larger races, more kills")
    parser.add_argument("--seed", default=os.urandom(4).hex(),
                        help="seed of the random moments (default: a fresh one, which is printed)")
    parser.add_argument("--folder",
                        help="where the files are made (default: /dev/shm, or else the system's temporary folder)")
    options = parser.parse_args()
    if not options.folder and os.access("/dev/shm", os.W_OK):
        options.folder = "/dev/shm"
    # Another file system, where there is one.
    folders = [Path(tempfile.gettempdir()), ROOT / "target", Path("/dev/shm")]
    others = [folder for folder in folders
              if folder.is_dir() and folder.stat().st_dev != Path(options.folder or folders[0]).stat().st_dev]
    options.outside = str((others or folders)[0])
    return options


def main():
    options = arguments()
    if not BINARY.is_file():
        sys.exit(f"faults: {BINARY} is not there; run: cargo build --release --offline --manifest-path rust/Cargo.toml")
    print(f"faults: seed {options.seed}", flush=True)
    # A call started in the background, or by nohup, may ignore signals, and what it starts then does too.
    for number in SIGNALS:
        signal.signal(number, signal.default_int_handler if number == signal.SIGINT else signal.SIG_DFL)
    began = time.monotonic()
    with tempfile.TemporaryDirectory(prefix="vizhuthamen-faults-") as folder:
        options.shim = Path(folder) / "faults.so"
        compile_shim(options.shim)
        try:
            check_names(options.shim)
            counts = run(options)
        except Wrong as wrong:
            sys.exit(f"faults: seed {options.seed}: {wrong}")
    told_counts = ", ".join(f"{count} {what}" for what, count in counts.items())
    print(f"faults: {told_counts}; 0 lost, 0 torn, 0 left; {time.monotonic() - began:.0f} s")


if __name__ == "__main__":
    main()
