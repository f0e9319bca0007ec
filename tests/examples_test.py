"""The examples of README.md and docs/EXAMPLES.md: what they show is what the program prints.

    python3 tests/examples_test.py                     runs all of them and compares (VIZHUTHAMEN names another binary)
    python3 tests/examples_test.py --show FILE FOLDER  runs those of one document in FOLDER, which is made, and prints
                                                       them; they are compared too
    python3 tests/examples_test.py --write             writes into the documents what is printed now

An example is a block between lines of three back quotes whose first line begins with `$ `. Each line that begins so is
a command for bash; what follows is what it prints, on standard output and standard error together, and
`(exit status N)` where that is not 0. The blocks of a document run one after the other in one folder, so that a
document shows every file that it uses being made.
"""
import difflib
import os
import re
import subprocess
import sys
import tempfile
from pathlib import Path

from cli_test import BINARY, ROOT

DOCUMENTS = "README.md", "docs/EXAMPLES.md"
BLOCK = re.compile(r"^```\n(\$ .*?)^```$", re.MULTILINE | re.DOTALL)


def commands(block):
    return [line[2:] for line in block.splitlines() if line.startswith("$ ")]


def run(command, folder, env):
    """A command and all that it prints, as an example shows it."""
    ran = subprocess.run(["bash", "-c", command], cwd=folder, env=env, stdin=subprocess.DEVNULL, stdout=subprocess.PIPE,
                         stderr=subprocess.STDOUT, text=True, timeout=120)
    status = f"(exit status {ran.returncode})\n" if ran.returncode else ""
    return f"$ {command}\n{ran.stdout}{status}"


def played(block, folder, env, show):
    """A block as it is printed now. An empty line follows what a command prints, but for the last one."""
    text = ""
    for command in commands(block):
        part = run(command, folder, env)
        part += "\n" if part.count("\n") > 1 else ""
        show(part)
        text += part
    show("" if text.endswith("\n\n") else "\n")
    return text.rstrip("\n") + "\n"


def renewed(name, folder, show=lambda part: None):
    """The text of a document, and the same with what its examples print now. The program is found by its name."""
    text = (ROOT / name).read_text()
    with tempfile.TemporaryDirectory(prefix="vizhuthamen-examples-") as programs:
        (Path(programs) / "vizhuthamen").symlink_to(BINARY)
        env = {**os.environ, "PATH": f"{programs}:{os.environ['PATH']}", "LC_ALL": "C"}
        return text, BLOCK.sub(lambda block: f"```\n{played(block.group(1), folder, env, show)}```", text)


def compared(name, text, new):
    """How many commands a document has, whose examples must be as they are printed."""
    if text != new:
        shown = difflib.unified_diff(text.splitlines(), new.splitlines(), name, "what is printed", lineterm="", n=1)
        sys.exit("\n".join([*shown, f"examples_test: {name} shows what the program does not print; "
                                    "see it, and then: python3 tests/examples_test.py --write"]))
    return sum(len(commands(block)) for block in BLOCK.findall(text))


def in_new_folder(name):
    with tempfile.TemporaryDirectory(prefix="vizhuthamen-examples-") as folder:
        return renewed(name, folder)


def main(words):
    if not BINARY.is_file():
        sys.exit(f"examples_test: {BINARY} is not there; run: "
                 "cargo build --release --offline --manifest-path rust/Cargo.toml")
    if not words:
        counts = {name: compared(name, *in_new_folder(name)) for name in DOCUMENTS}
        if not all(counts.values()):
            sys.exit(f"examples_test: a document without examples: {counts}")
        print("examples_test: commands as they are shown:",
              ", ".join(f"{name} {count}" for name, count in counts.items()))
    elif words == ["--write"]:
        for name in DOCUMENTS:
            (ROOT / name).write_text(in_new_folder(name)[1])
    elif words[0] == "--show" and len(words) == 3:
        Path(words[2]).mkdir(parents=True)
        compared(words[1], *renewed(words[1], words[2], lambda part: print(part, end="", flush=True)))
    else:
        sys.exit(__doc__)


if __name__ == "__main__":
    main(sys.argv[1:])
