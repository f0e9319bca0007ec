"""Runs the tests of the JavaScript module (tests/javascript) in node, and TypeScript over a program that uses its
types.

Run from anywhere, after make and tests/targets.py: python3 tests/javascript_test.py

What cannot be run here, since wasm-opt, node or tsc is missing, is said to be skipped.
"""
import re
import shutil
import subprocess
import sys

import targets
from header import ROOT

TESTS = ROOT / "tests" / "javascript"
# Both ways in which TypeScript looks for the types of a module.
RESOLUTIONS = (("--module", "nodenext", "--moduleResolution", "nodenext"),
               ("--module", "es2022", "--moduleResolution", "node"))


def ran(*command):
    done = subprocess.run(list(map(str, command)), capture_output=True, text=True)
    if done.returncode:
        sys.exit(f"javascript_test: {command[0]} fails:\n{done.stdout}{done.stderr}")
    return done.stdout


def main():
    missing = targets.missing("wasm")
    if missing:
        print(f"javascript_test: skipped: there is no {missing}")
        return
    said = ran("node", "--test", "--test-reporter=tap", *sorted(TESTS.glob("*.test.mjs")))
    count = int(re.search(r"^# pass (\d+)$", said, re.MULTILINE)[1])
    print(f"javascript_test: {count} tests in node {ran('node', '--version').strip()}")
    if not shutil.which("tsc"):
        print("javascript_test: types skipped: there is no tsc (Debian: node-typescript)")
        return
    for words in RESOLUTIONS:
        ran("tsc", "--noEmit", "--strict", "--target", "es2022", "--lib", "es2022,dom,dom.iterable", *words,
            TESTS / "typed.mts")
    print(f"javascript_test: the types are right for TypeScript {ran('tsc', '--version').split()[-1]}")


if __name__ == "__main__":
    main()
