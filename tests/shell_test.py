"""The man page and the completions, each by the programs that read them: python3 tests/shell_test.py
(VIZHUTHAMEN names another binary).

Man page: groff, man and mandoc must have nothing to say of it. Completions: the scripts are read by the shells
themselves. bash and zsh get keys on a terminal, the tab key among them, and the call that they make of these must be
the expected one; fish is asked. Commands and options are those that --help lists. What is not installed is said to be
skipped; bash is needed.
"""
import os
import pty
import re
import select
import shutil
import subprocess
import sys
import tempfile
import time
from pathlib import Path

from cli_test import BINARY, COMMANDS

SKIPPED = []
FILES = "archive one", "deal", "deal.vz", "folder/inside"
PRINTS = "#!/bin/sh\nprintf '<%s>' \"$@\"\necho '!'\n"


def fail(*text):
    sys.exit("shell_test: " + " ".join(map(str, text)))


def same(what, *values):
    if any(value != values[0] for value in values):
        fail(f"{what}: got, expected:\n", "\n  ".join(map(repr, values)))


def ran(*command, **options):
    """What a program prints; its errors and warnings must be none."""
    done = subprocess.run(list(map(str, command)), capture_output=True, text=True, timeout=120, **options)
    if done.returncode or done.stderr:
        fail(*command, ": exit status", done.returncode, done.stdout[-500:], done.stderr[-500:])
    return done.stdout


def installed(name):
    if not shutil.which(name):
        SKIPPED.append(name)
    return shutil.which(name)


def told():
    """The options of each command, as its help lists them."""
    return {name: re.findall(r"^  --(\S+)", ran(BINARY, name, "--help").split("\nOptions:\n")[1], re.MULTILINE)
            for name in COMMANDS}


def man_page(folder):
    """No warning, and every command and option in what is shown."""
    page = folder / "vizhuthamen.1"
    page.write_text(ran(BINARY, "help", "--man"))
    checks = {"groff": ("-mandoc", "-ww", "-z", "-Tutf8"), "man": ("--warnings", "-l", "-Tutf8", "-Z"),
              "mandoc": ("-Tlint", "-Wwarning")}
    for program, words in checks.items():
        if installed(program):
            said = ran(program, *words, page)
            same(f"{program} says nothing of the page", said if program == "mandoc" else "", "")
    if not installed("groff"):
        return
    plain = re.sub(r"\x1b\[[0-9;]*m|.\x08", "", ran("groff", "-mandoc", "-Tutf8", "-P-cbou", page))
    for command, options in told().items():
        if not re.search(rf"^ +{command}( .*)?$", plain, re.MULTILINE):
            fail("the man page has no command", command)
        missing = [option for option in options if not re.search(rf"^ +--{option}\b", plain, re.MULTILINE)]
        same(f"options of {command} that the man page lacks", missing, [])


def operands():
    """For every operand of every command: keys with a tab after the beginning of a file's name there, and what comes of
    them. Names of files and folders are completed, numbers and commitments are not."""
    for command in COMMANDS:
        usage = ran(BINARY, command, "--help").splitlines()[0]
        usage = re.sub(r"\[--\w+\] |\|--\w+ \w+|\.\.\.", "", usage)
        for i, operand in enumerate(re.match(r"Usage: vizhuthamen \S+((?: \[?[A-Z_]+\]?)*)", usage).group(1).split()):
            before = [command, *["x"] * i]
            known = operand.strip("[]") in ("DEAL", "NEW", "FILE", "SEGMENT", "RAW", "RECORD", "PROOF", "LOG", "FOLDER")
            yield f"{' '.join(before)} fol\t", [*before, "folder" if known else "fol"]


class Terminal:
    """A shell on a terminal, in a folder with some files and a program that prints its words."""

    def __init__(self, folder, *command):
        env = {"PATH": f"{folder}:{os.environ['PATH']}", "TERM": "dumb", "HOME": str(folder), "LC_ALL": "C.UTF-8",
               "PS1": "$ "}
        pid, self.terminal = pty.fork()
        if pid == 0:
            os.chdir(folder)
            os.execvpe(command[0], command, env)
        self.pid = pid

    def typed(self, keys, until):
        """What is shown after these keys, up to a pattern."""
        os.write(self.terminal, keys.encode())
        shown, end = "", time.monotonic() + 60
        while not re.search(until, shown):
            if time.monotonic() > end or not select.select([self.terminal], [], [], 60)[0]:
                fail("nothing came of the keys", repr(keys), repr(shown))
            shown += os.read(self.terminal, 4096).decode(errors="replace")
        return shown

    def calls(self, keys):
        """The words of the calls that the shell makes of keys must be the expected ones; it may end a folder's name
        with a slash."""
        for typed, words in keys:
            shown = self.typed(f"vizhuthamen {typed}\r", r"<[^\n]*>!")
            made = re.search(r"<([^\n]*)>!", shown).group(1).split("><")
            same(f"the call of {typed!r}", [word.rstrip("/") for word in made], [word.rstrip("/") for word in words])

    def end(self):
        os.close(self.terminal)
        os.waitpid(self.pid, 0)


# Keys, and the words that a shell makes of them. Where nothing can be known, or nothing fits, a tab adds nothing.
KEYS = [("bo\t", ["book"]), ("tal\tde\t", ["tally", "deal"]), ("settle-\t", ["settle-deal"]),
        ("book deal arch\t", ["book", "deal", "archive one"]),
        ("book deal --forc\t", ["book", "deal", "--force"]), ("build --sl\t", ["build", "--slot"]),
        ("build deal --output arch\t", ["build", "deal", "--output", "archive one"]),
        ("salvage deal fol\t", ["salvage", "deal", "folder"]),
        ("new deal arch\t", ["new", "deal", "arch"]), ("new deal --number arch\t", ["new", "deal", "--number", "arch"]),
        ("check arch\t", ["check", "arch"]), ("check 00 512 arch\t", ["check", "00", "512", "archive one"]),
        ("help set\t-\t", ["help", "settle-deal"]), ("completions zs\t", ["completions", "zsh"]),
        ("list --no\t deal", ["list", "--no", "deal"]), ("--ver\t", ["--version"])]


def bash(folder):
    """By keys on a terminal; and asked for all that it would offer."""
    script = folder / "bash-completion"
    script.write_text(ran(BINARY, "completions", "bash"))
    shell = Terminal(folder, "bash", "--norc", "--noprofile", "-i")
    shell.typed("source bash-completion; bind 'set bell-style none'; echo read''y\r", "ready")
    keys = [*KEYS, ("build deal --output=arch\t", ["build", "deal", "--output=archive one"]),
            ("list -- arch\t", ["list", "--", "archive one"]),
            ("build deal --out\tarch\t", ["build", "deal", "--output", "archive one"])]
    shell.calls([*keys, *operands()])
    shell.end()
    ask = ('source "$1"; shift; COMP_WORDS=(vizhuthamen "$@"); COMP_CWORD=$#; _vizhuthamen; '
           'printf "%s\\n" "${COMPREPLY[@]}"')
    offered = lambda *words: ran("bash", "-c", ask, "bash", script, *words).split()
    same("the commands that bash offers", sorted(offered("")), sorted(COMMANDS))
    for command, options in told().items():
        same(f"the options of {command} that bash offers", sorted(offered(command, "--")),
             sorted(f"--{option}" for option in options))


def zsh(folder):
    """By keys on a terminal, from the folder where zsh looks for completions."""
    (folder / "functions").mkdir()
    (folder / "functions" / "_vizhuthamen").write_text(ran(BINARY, "completions", "zsh"))
    shell = Terminal(folder, "zsh", "-f", "-i")
    shell.typed("fpath=($PWD/functions $fpath); autoload -Uz compinit; compinit -D -u; unsetopt beep; echo read''y\r",
                "ready")
    shell.calls([*KEYS, ("build deal --out\tarch\t", ["build", "deal", "--output=archive one"]), *operands()])
    shell.end()


def fish(folder):
    """Asked for what it would offer."""
    script = folder / "vizhuthamen.fish"
    script.write_text(ran(BINARY, "completions", "fish"))
    env = {"PATH": os.environ["PATH"], "HOME": str(folder), "LC_ALL": "C.UTF-8"}

    def offered(line):
        out = ran("fish", "--no-config", "-c", f"source {script}; complete -C '{line}'", cwd=folder, env=env)
        return sorted(row.split("\t")[0] for row in out.splitlines())

    same("the commands that fish offers", offered("vizhuthamen "), sorted(COMMANDS))
    for command, options in told().items():
        same(f"the options of {command} that fish offers", offered(f"vizhuthamen {command} --"),
             sorted(f"--{option}" for option in options))
    same("the shells that fish offers", offered("vizhuthamen completions "), ["bash", "fish", "zsh"])
    for line in ("vizhuthamen book arch", "vizhuthamen pad deal --output arch"):
        same(f"fish, {line!r}", offered(line), ["archive one"])
    same("fish offers nothing for a number", offered("vizhuthamen new deal --number "), [])


def main():
    with tempfile.TemporaryDirectory(prefix="vizhuthamen-shell-") as name:
        folder = Path(name)
        man_page(folder)
        (folder / "folder").mkdir()
        for file in FILES:
            (folder / file).write_text("")
        (folder / "vizhuthamen").write_text(PRINTS)
        (folder / "vizhuthamen").chmod(0o755)
        shells = [shell for shell in (bash, zsh, fish) if installed(shell.__name__)]
        for shell in shells:
            shell(folder)
    skipped = ", ".join(sorted(set(SKIPPED))) or "nothing"
    print(f"shell_test: the man page; completions for {', '.join(shell.__name__ for shell in shells)}; skipped: "
          f"{skipped}")


if __name__ == "__main__":
    main()
