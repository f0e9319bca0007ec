"""Builds the C replay program with the library of each machine, and the C smoke program with that of 64-bit Arm, and
runs the latter.

Run from anywhere, after tools/levels and tools/targets: python3 tests/targets.py

The machines are x86-64 (the archive that chooses a level; this tests the header), 64-bit Arm, whose programs qemu runs,
and WebAssembly, which node runs by the JavaScript module (tests/replay_node.mjs), without SIMD and with it. One for
which something is missing is skipped, which is said. tests/replay_levels runs all the replay programs.
"""
import json
import shutil
import subprocess
import sys

import header
from header import ROOT

MADE = ROOT / "target" / "targets"
# The compiler of each machine's C programs, its archive, and what runs its programs.
COMPILED = {"c": (["gcc"], ROOT / "target" / "levels" / "libvizhuthamen.a", []),
            "aarch64": (["aarch64-linux-gnu-gcc", "-static"], MADE / "aarch64" / "libvizhuthamen.a", ["qemu-aarch64"])}
MODULES = [MADE / "vizhuthamen.wasm", MADE / "vizhuthamen-simd.wasm"]
MACHINES = [*COMPILED, "wasm"]
# The Debian package of each tool.
PACKAGES = {"gcc": "gcc", "aarch64-linux-gnu-gcc": "gcc-aarch64-linux-gnu and libc6-dev-arm64-cross",
            "qemu-aarch64": "qemu-user", "node": "nodejs", "wasm-opt": "binaryen"}


def missing(name):
    """What is missing for a machine, in words; nothing where it can be tested."""
    if name in COMPILED:
        compiler, _, runner = COMPILED[name]
        tools = [compiler[0], *runner]
    else:
        tools = ["node"] if MODULES[0].is_file() else ["node", "wasm-opt"]
    return ", ".join(f"{tool} (Debian: {PACKAGES[tool]})" for tool in tools if not shutil.which(tool))


def machines():
    """The names of the machines that can be tested here."""
    if not MADE.is_dir():
        sys.exit(f"targets: {MADE} is not there; run: tools/targets")
    return [name for name in MACHINES if not missing(name)]


def program(kind, name):
    return MADE / f"{kind}-{name}"


def replay(name):
    """The command that answers calls by the library of a machine."""
    if name in COMPILED:
        return [*COMPILED[name][2], program("replay", name)]
    return ["node", ROOT / "tests" / "replay_node.mjs", *MODULES]


def programs():
    """The replay command of each machine that can be tested here."""
    unbuilt = [name for name in machines() if not replay(name)[-1].is_file()]
    if unbuilt:
        sys.exit(f"targets: nothing to replay with for {', '.join(unbuilt)}; run: "
                 "tools/targets && python3 tests/targets.py")
    return {name: replay(name) for name in machines()}


def compiled(kind, name):
    """A C program with the library of a machine: the command that runs it."""
    compiler, archive, runner = COMPILED[name]
    subprocess.run([*compiler, "-O2", "-std=c99", "-pedantic", "-Wall", "-Wextra", "-Werror", f"-I{ROOT / 'include'}",
                    ROOT / "tests" / "c" / f"{kind}.c", archive, "-o", program(kind, name)], check=True)
    return [*runner, program(kind, name)]


def smoke(name):
    """The number of answers of the C smoke program."""
    ran = subprocess.run(compiled("smoke", name), capture_output=True, text=True)
    if ran.returncode:
        sys.exit(f"targets: the C smoke program fails on {name}:\n{ran.stdout}{ran.stderr}")
    return len(ran.stdout.splitlines())


def main():
    can = machines()
    (MADE / "header.json").write_text(json.dumps(header.stated()))
    for name in MACHINES:
        if name not in can:
            print(f"targets: {name} skipped: there is no {missing(name)}")
        elif name in COMPILED:
            compiled("replay", name)
            print(f"targets: {name}: {smoke(name)} answers of the C smoke program are right; replay program built")


if __name__ == "__main__":
    main()
