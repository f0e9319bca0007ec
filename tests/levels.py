"""Builds the C smoke program and the replay program with the library at every level of x86-64, and runs the first.
Refuses a library that needs other names from outside than memcpy and memset.

Run from anywhere, after tools/levels: python3 tests/levels.py

The levels are v1 (plain x86-64, the object of tools/library), v3, v4, and the archive that chooses by the processor. A
level that this processor lacks is skipped, which is said. tests/replay_levels runs all the replay programs.
"""
import json
import os
import shutil
import subprocess
import sys
from pathlib import Path

ROOT = Path(__file__).resolve().parent.parent
MADE = ROOT / "target" / "levels"
# All that the library may ask of the program that it is linked into.
FROM_OUTSIDE = {"memcpy", "memset"}
# The folder of each archive, by the level's name.
ARCHIVES = {"v1": MADE / "v1", "v3": MADE / "v3", "v4": MADE / "v4", "chosen": MADE}


def highest():
    """The highest level that this processor has."""
    try:
        return int(subprocess.run([MADE / "highest"], check=True, capture_output=True).stdout)
    except FileNotFoundError:
        sys.exit(f"levels: {MADE / 'highest'} is not there; run: tools/levels")


def levels():
    """The names of the levels that this processor has."""
    top = highest()
    return [name for name in ARCHIVES if name == "chosen" or int(name[1:]) <= top]


def replay(name):
    return MADE / f"replay-{name}"


def programs():
    """The replay program of each level, v1 first."""
    missing = [name for name in levels() if not replay(name).is_file()]
    if missing:
        sys.exit(f"levels: no replay program for {', '.join(missing)}; run: python3 tests/levels.py")
    return {name: replay(name) for name in levels()}


def smoke(name):
    """The C smoke program at a level, built and run: its output."""
    program = MADE / f"smoke-{name}"
    archive = ARCHIVES[name] / "libvizhuthamen.a"
    source = ROOT / "tests" / "c" / "smoke.c"
    subprocess.run(["gcc", "-Wall", "-Wextra", "-Werror", f"-I{ROOT / 'include'}", source, archive, "-o", program],
                   check=True)
    ran = subprocess.run([program], capture_output=True, text=True)
    if ran.returncode:
        sys.exit(f"levels: the C smoke program fails at level {name}:\n{ran.stdout}")
    return ran.stdout


def outside_names(name):
    """The names that the archive of one level needs from outside."""
    said = subprocess.run(["nm", "--undefined-only", "--format=just-symbols", ARCHIVES[name] / "libvizhuthamen.a"],
                          check=True, capture_output=True, text=True).stdout
    return {line for line in said.split() if not line.endswith(":")}


def build_replay(name):
    """The replay program at a level; Cargo says where it puts it."""
    built = subprocess.run(["cargo", "build", "--release", "--offline", "--quiet", "--manifest-path",
                            ROOT / "rust" / "Cargo.toml", "--example", "replay", "--target-dir",
                            ROOT / "rust" / "target" / "levels" / name, "--message-format", "json-render-diagnostics"],
                           env=os.environ | {"VIZHUTHAMEN_LIB": str(ARCHIVES[name])}, check=True,
                           stdout=subprocess.PIPE)
    said = map(json.loads, built.stdout.splitlines())
    made = next(each["executable"] for each in said if each.get("target", {}).get("name") == "replay")
    shutil.copy2(made, replay(name))


def main():
    has = levels()
    for name in ARCHIVES:
        if name not in has:
            print(f"levels: {name} skipped: this processor has no x86-64-{name}")
            continue
        more = set() if name == "chosen" else outside_names(name) - FROM_OUTSIDE
        if more:
            sys.exit(f"levels: {name}: the library newly needs from outside: {', '.join(sorted(more))}")
        answers = smoke(name)
        build_replay(name)
        print(f"levels: {name}: {len(answers.splitlines())} answers of the C smoke program are right; "
              "replay program built")


if __name__ == "__main__":
    main()
