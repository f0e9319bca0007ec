"""Installs all below a prefix, looks at what is there, and runs programs in C, Rust, Python and JavaScript with it, and
the command line.

Run from anywhere, after cargo build --release --examples: python3 tests/install_test.py

The shared library has the header's functions for others and no other name, each proved one as a choice of levels. The C
smoke program is linked with the shared and the static library by what pkg-config says. The programs of examples/ check
records of vectors/vectors.json, and must say the same. The JavaScript package is found by its name, and its module
beside it; without wasm-opt or node it is left out, which is said. The command line stands alone, chooses a level when
it starts, and its man page and completions, which lie where man and the shells look for them, are those that it prints.
"""
import json
import os
import re
import shutil
import subprocess
import sys
import sysconfig
import tempfile
from pathlib import Path

from header import ROOT, codes, defined, functions, routines
from vectors_test import data

VERSION = defined("VZ_VERSION")
SONAME = "libvizhuthamen.so." + VERSION.rsplit(".", 1)[0]
TEXTS = {"share/man/man1/vizhuthamen.1": ("help", "--man"),
         "share/bash-completion/completions/vizhuthamen": ("completions", "bash"),
         "share/zsh/site-functions/_vizhuthamen": ("completions", "zsh"),
         "share/fish/vendor_completions.d/vizhuthamen.fish": ("completions", "fish")}
PAGE = "share/vizhuthamen/vizhuthamen.html"
JAVASCRIPT = "share/javascript/vizhuthamen"
SCRIPT = "package.json", "vizhuthamen-simd.wasm", "vizhuthamen.d.mts", "vizhuthamen.mjs", "vizhuthamen.wasm"
CHECKED = ("no-fault", "p4", "p7", "p7-other-node", "fault-size", "fault-form", "fault-number", "fault-path-bits",
           "fault-segment-path", "fault-entry-path", "cut", "other-commitment")


def fail(text):
    sys.exit(f"install_test: {text}")


def ran(*command, **options):
    done = subprocess.run(list(map(str, command)), capture_output=True, text=True, **options)
    if done.returncode:
        fail(f"{' '.join(map(str, command))}: exit status {done.returncode}\n{done.stdout}{done.stderr}")
    return done.stdout


def installed(folder):
    """The names of all files below a folder."""
    return sorted(str(path.relative_to(folder)) for path in folder.rglob("*") if not path.is_dir())


def expected_files():
    package = Path(sysconfig.get_path("purelib", "posix_prefix", {"base": ""})).relative_to("/") / "vizhuthamen"
    modules = [str(package / path.name) for path in (ROOT / "python" / "vizhuthamen").iterdir() if path.is_file()]
    libraries = ["libvizhuthamen.a", "libvizhuthamen.so", SONAME, f"libvizhuthamen.so.{VERSION}",
                 "pkgconfig/vizhuthamen.pc"]
    script = [PAGE, *(f"{JAVASCRIPT}/{name}" for name in SCRIPT)] if shutil.which("wasm-opt") else []
    return sorted(["bin/vizhuthamen", *TEXTS, "include/vizhuthamen.h", *(f"lib/{name}" for name in libraries), *modules,
                   *script]), package.parent


def install(folder):
    """Below a prefix, and below DESTDIR for another prefix, which no file names."""
    make = "make", "--silent", "-C", ROOT, "install"
    ran(*make, f"PREFIX={folder / 'prefix'}")
    ran(*make, "PREFIX=/opt/house", f"DESTDIR={folder / 'stage'}")
    files, package = expected_files()
    for root in (folder / "prefix", folder / "stage" / "opt" / "house"):
        if installed(root) != files:
            fail(f"{root} has other files: {sorted(set(installed(root)) ^ set(files))}")
    if installed(folder / "stage") != ["opt/house/" + name for name in files]:
        fail("files are installed beside the prefix")
    described = (folder / "stage/opt/house/lib/pkgconfig/vizhuthamen.pc").read_text()
    if "prefix=/opt/house\n" not in described or str(folder) in described:
        fail(f"the pkg-config file is wrong:\n{described}")
    return folder / "prefix", package


def exported(library):
    """The names that a library has for others, and their kinds."""
    lines = ran("nm", "--dynamic", "--defined-only", library).splitlines()
    return {name: kind for _, kind, name in map(str.split, lines)}


def symbols(library):
    """The header's functions and no other name; each proved one is chosen by the processor ('i'), from the levels of
    the archive."""
    proved = set(routines())
    expected = {name: "i" if name in proved else "T" for name in functions()}
    if exported(library) != expected:
        fail(f"the shared library has other names: {sorted(set(exported(library).items()) ^ set(expected.items()))}")
    module = set(re.findall(r" T (\w+)", ran("nm", "--defined-only", ROOT / "target/staticlib/libvizhuthamen.a")))
    if module != proved:
        fail(f"the proved module and the header have not the same functions: {sorted(module ^ proved)}")
    if f"[{SONAME}]" not in ran("readelf", "--dynamic", library):
        fail(f"the soname is not {SONAME}")


class Prefix:
    """An installation, and how programs are made and run with it."""

    def __init__(self, root, package):
        self.root = root
        self.env = os.environ | {"PKG_CONFIG_PATH": str(root / "lib/pkgconfig"), "LD_LIBRARY_PATH": str(root / "lib"),
                                 "PYTHONPATH": str(root / package), "PYTHONDONTWRITEBYTECODE": "1"}
        self.env.pop("VIZHUTHAMEN_LIB", None)

    def flags(self, *words):
        return ran("pkg-config", *words, "vizhuthamen", env=self.env).split()

    def compiled(self, source, name, *words):
        program = self.root.parent / name
        ran("gcc", "-std=c99", "-pedantic", "-Wall", "-Wextra", "-Werror", ROOT / source,
            *self.flags("--cflags", "--libs"), *words, "-o", program)
        return program


def smoke(prefix):
    """The C smoke program, once with each library."""
    if prefix.flags("--modversion") != [VERSION]:
        fail("pkg-config tells another version")
    shared = prefix.compiled("tests/c/smoke.c", "smoke-shared")
    if SONAME not in ran("readelf", "--dynamic", shared):
        fail("the program was not linked with the shared library")
    answers = ran(shared, env=prefix.env)
    if ran(prefix.compiled("tests/c/smoke.c", "smoke-static", "-static")) != answers:
        fail("the C smoke program answers otherwise with the static library")
    return len(answers.splitlines())


def javascript(prefix):
    """Whether the JavaScript package is there and can be run: a program that knows its name alone, and that loads what
    lies beside it."""
    missing = [tool for tool in ("wasm-opt", "node") if not shutil.which(tool)]
    if missing:
        print(f"install_test: the JavaScript package skipped: there is no {' and no '.join(missing)}")
        return False
    program = prefix.root.parent / "program.mjs"
    (prefix.root.parent / "node_modules").mkdir()
    (prefix.root.parent / "node_modules" / "vizhuthamen").symlink_to(prefix.root / JAVASCRIPT)
    program.write_text('import { VERSION, load } from "vizhuthamen";\n'
                       'console.log(VERSION, (await load()).indexNumbers(512).start);\n')
    if ran("node", program) != f"{VERSION} 256\n":
        fail("the JavaScript package answers something else")
    if json.loads((prefix.root / JAVASCRIPT / "package.json").read_text())["version"] != VERSION:
        fail("the JavaScript package tells another version")
    return True


def examples(prefix):
    """Each program for each record: the code and its meaning, the code as exit status. The Python package finds its
    library itself."""
    programs = [[prefix.compiled("examples/check.c", "check")], [ROOT / "rust/target/release/examples/check"],
                [sys.executable, ROOT / "examples/check.py"]]
    if javascript(prefix):
        programs.append(["node", ROOT / "examples/check.mjs"])
    for source in (ROOT / "examples").iterdir():
        if len(source.read_text().splitlines()) > 15:
            fail(f"{source} has more than fifteen lines")
    meanings = {number: meaning for number, _, meaning in codes()}
    cases = {case["name"]: case for case in json.loads((ROOT / "vectors/vectors.json").read_text())["cases"]}
    for case in (cases[f"check/{name}"] for name in CHECKED):
        record = prefix.root.parent / "record"
        record.write_bytes(data(case["inputs"]["record"]))
        words = [data(case["inputs"]["commitment"]).hex(), case["inputs"]["size"], case["inputs"]["number"],
                 str(record)]
        expected = case["code"], f"code {case['code']}: {meanings[case['code']]}\n"
        for program in programs:
            env = {name: value for name, value in prefix.env.items()
                   if name != "LD_LIBRARY_PATH" or program[0] != sys.executable}
            done = subprocess.run([*program, *words], env=env, capture_output=True, text=True)
            if (done.returncode, done.stdout) != expected:
                fail(f"{program[-1]}, {case['name']}: {done.returncode} {done.stdout}{done.stderr}, "
                     f"expected {expected}")
    return len(programs)


def command_line(prefix):
    """The installed program needs no library of ours beside it, has the functions of the archive that chooses, and
    printed its texts; man finds its page below the prefix."""
    program = prefix.root / "bin/vizhuthamen"
    if f"vizhuthamen {VERSION}\n" != ran(program, "--version", env={}):
        fail("the command line tells another version")
    if "vizhuthamen" in ran("readelf", "--dynamic", program):
        fail("the command line needs the shared library")
    if not re.search(r" i vz_commitment$", ran("nm", program), re.MULTILINE):
        fail("the command line does not choose a level when it starts")
    for name, words in TEXTS.items():
        if (prefix.root / name).read_text() != ran(program, *words):
            fail(f"{name} is not what the command line prints")
    if shutil.which("man"):
        found = ran("man", "--where", "vizhuthamen",
                    env=os.environ | {"MANPATH": str(prefix.root / "share/man")}).strip()
        if found != str(prefix.root / "share/man/man1/vizhuthamen.1"):
            fail(f"man finds another page: {found}")


def licence():
    """One licence, by its name in LICENSE, the crate, the packages and the README."""
    texts = {"LICENSE": "SPDX-License-Identifier: 0BSD", "rust/Cargo.toml": 'license = "0BSD"', "README.md": "(0BSD)",
             "python/vizhuthamen/__init__.py": '__license__ = "0BSD"',
             "javascript/package.json.in": '"license": "0BSD"'}
    for name, part in texts.items():
        if part not in (ROOT / name).read_text():
            fail(f"{name} does not say: {part}")


def main():
    licence()
    with tempfile.TemporaryDirectory() as folder:
        root, package = install(Path(folder))
        symbols(root / "lib" / SONAME)
        prefix = Prefix(root, package)
        command_line(prefix)
        answers, programs = smoke(prefix), examples(prefix)
        print(f"install_test: {len(installed(root))} files; {len(functions())} functions; {answers} answers of the C "
              f"smoke program with either library; {len(CHECKED)} records checked by each of {programs} examples")


if __name__ == "__main__":
    main()
