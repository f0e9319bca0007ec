#!/usr/bin/env python3
"""Respells the names of definitions, lemmas and fields in snake case, as today's Rattle spells them.

usage: tools/respell.py [--list]     at the top of the repository, once, after port.py; --list prints what would be renamed

A name that crates/ declares in an .antt file is turned: isPower and is-power become is_power. Where two names would
fall together, the definition takes the plain name and the lemma gets `_lem`. Names of the kit's libraries, names that
Rattle makes of the source, types, modules and functions of src/ stay. The crate `log` becomes `clerk_log`, since the
kit has a library of that name. Edits in must-fail/ and code spans of the documents are turned likewise.
"""
import collections
import glob
import os
import re
import subprocess
import sys

NAME = r'[^\s(){}.;,@"«»`]+'
DECLARED = re.compile(
    r"^\s*(?:(?:abbrev|pub|unfoldable|private|opaque|instance|record|data|ruleset)\s+)*(" + NAME + r")"
    r"(?:\s+[({][^)}]*[)}])*\s+:(?:\s|$)"
)
BOUND = re.compile(r"[({]\s*((?:" + NAME + r"\s+)+):\s|λ ((?:" + NAME + r"\s*)+)\.")
LOCAL = re.compile(r"(?:\blet|^(?:pub )?ruleset)\s+(" + NAME + r")\s+[:=]\s")
MADE = re.compile(r":\s*(?:tie|goal)\.")
WORD = re.compile(NAME)
# a name in a comment: a name in camel case or with dashes
MENTION = re.compile(r"[^\s(){}.;,@\"«»`:?!]+(?:[A-Z-])[^\s(){}.;,@\"«»`:?!]+")
ENGLISH = {"well-formed"}
USE = re.compile(r"^(?:ghost )?use ([^\s;{]+?)(?:\.\{([^}]*)\})?;?\s*$")


def in_snake_case(name):
    if name[:1].islower():
        name = re.sub(r"(?<=[a-z0-9'])[A-Z]", lambda m: "_" + m[0].lower(), name)
    return name.replace("-", "_")


def read(path):
    with open(path, encoding="utf-8") as file:
        return file.read()


def texts(ending):
    return sorted(p for p in glob.glob("crates/**/*" + ending, recursive=True) if "/out/" not in p)


def of_a_function(path):
    """Whether the file is in the folder of one function's proof, where names that Rattle makes stand."""
    return os.path.basename(path) in ("Proof.antt", "Answers.antt", "Invariants.antt")


def declared(path):
    """The names that a file declares, without those that Rattle asks for."""
    for line in read(path).split("\n"):
        if line.lstrip().startswith("--"):
            continue
        found = DECLARED.match(line)
        if found and found[1] not in ("λ", "let", "in", "where", "_"):
            made = of_a_function(path) and MADE.search(line)
            if not made and not found[1].endswith("_spec"):
                yield found[1]
        for local in LOCAL.finditer(line):
            yield local[1]
        for bound in BOUND.finditer(line):
            yield from (bound[1] or bound[2]).split()


def imported_from_the_kit(text):
    found = set()
    for line in text.split("\n"):
        use = USE.match(line)
        if use and not own_path(use[1]):
            found.update(re.split(r"[\s,]+", use[2] or use[1].split(".")[-1]))
    return found


def plain_of_others(text, table, path):
    """Names without a dash or a capital that are no lemma's here: a field's, a variable's, or one of the source."""
    plain = {it for it in table if in_snake_case(it) == it}
    if path.endswith(".rt"):
        return plain
    here = set(declared(path))
    for line in text.split("\n"):
        use = USE.match(line)
        if use and use[2]:
            here.update(re.split(r"[\s,]+", use[2]))
    return plain - here


def own_path(path):
    steps = path.split(".")
    return steps[0] == "Rattle" and len(steps) > 1 and os.path.isdir("crates/" + steps[1])


def names():
    """Every name that is turned, with its new spelling."""
    all_names = collections.Counter()
    for path in texts(".antt"):
        all_names.update(declared(path))
    by_new = collections.defaultdict(set)
    for name in all_names:
        by_new[in_snake_case(name)].add(name)
    table = {}
    for new, olds in by_new.items():
        # the definition, in camel case or plain, keeps the plain spelling
        lemmas = [it for it in olds if "-" in it]
        plain = [it for it in olds if "-" not in it]
        for old in olds:
            # one in camel case is a definition: beside it a name that was plain already is a lemma's
            gives_way = old in lemmas and plain or len(plain) > 1 and old == new
            turned = new + "_lem" if gives_way else new
            if turned != old:
                table[old] = turned
    return table


def turned_code(text, table, path):
    """The text with its names respelled, but for comments and strings."""
    kept = imported_from_the_kit(text) | plain_of_others(text, table, path)
    made = of_a_function(path)
    lines = []
    for line in text.split("\n"):
        comment = "--" if path.endswith(".antt") else "//"
        code, mark, rest = line, "", ""
        at = 0
        while True:
            at = code.find(comment, at)
            if at < 0:
                break
            if at == 0 or code[at - 1] in " (":
                code, mark, rest = line[:at], comment, line[at + len(comment):]
                break
            at += 1
        rest = MENTION.sub(lambda m: m[0] if m[0] in ENGLISH else table.get(m[0], m[0]), rest)
        lines.append(turned_line(code, table, kept, made, path) + mark + rest)
    return "\n".join(lines)


def turned_line(code, table, kept, made, path):
    use = USE.match(code)
    if use and not own_path(use[1]):
        return code
    out, last = [], 0
    for word in WORD.finditer(code):
        name = word[0]
        before = code[word.start() - 1] if word.start() else " "
        if name not in table or name in kept:
            continue
        head = re.search(r"([^\s(){};,@]*)\.$", code[: word.start()])
        path_of = head[1] if head else ""
        if path_of.startswith(("Rattle.std", "mathlib", "lib.", "Prim", "borrow", "native", "core.")):
            continue
        if made and path_of.split(".")[0] in ("goal", "tie"):
            continue
        if path.endswith(".rt") and inside_string(code, word.start()):
            continue
        if path_of and in_snake_case(name) == name:
            continue
        # in a function's proof a name behind a dot may be a step's, which Rattle spells as the source does
        new = in_snake_case(name) if made and path_of and not path_of.startswith("Rattle.") else table[name]
        out.append(code[last: word.start()] + new)
        last = word.end()
    return "".join(out) + code[last:]


def inside_string(code, at):
    return code[:at].replace('\\"', "").count('"') % 2 == 1


def turned_document(text, table):
    """Code spans alone, outside of blocks."""
    def span(found):
        return "`" + WORD.sub(lambda m: table.get(m[0], m[0]), found[1]) + "`"

    parts = re.split(r"(?ms)(^```.*?^```$)", text)
    return "".join(it if it.startswith("```") else re.sub(r"`([^`\n]+)`", span, it) for it in parts)


def clashes(table):
    """Pairs of names that a file would no longer tell apart."""
    for path in texts(".antt") + texts(".rt"):
        text = read(path)
        kept = imported_from_the_kit(text)
        code = "\n".join(re.sub(r"(^|\s)(--|//).*", "", it) for it in text.split("\n"))
        here = collections.defaultdict(set)
        for name in set(WORD.findall(code)):
            here[name if name in kept else table.get(name, name)].add(name)
        for new, olds in here.items():
            if len(olds) > 1:
                yield path, new, sorted(olds)


def write(path, text):
    with open(path, "w", encoding="utf-8") as file:
        file.write(text)


def rename_log():
    """The kit has a library named log."""
    if os.path.isdir("crates/log"):
        subprocess.run(["git", "mv", "crates/log", "crates/clerk_log"], check=True)
    for path in texts(".antt") + texts(".rt") + texts(".edit"):
        text = read(path)
        new = re.sub(r"\bRattle\.log\.", "Rattle.clerk_log.", text)
        new = re.sub(r"(?<![\w:.])log::", "clerk_log::", new)
        if new != text:
            write(path, new)
    text = read("crates.txt")
    write("crates.txt", re.sub(r"(?m)^log:|(?<=[ ])log(?=[ \n])", lambda m: m[0].replace("log", "clerk_log"), text))


def main(words):
    table = names()
    if words == ["--list"]:
        for old, new in sorted(table.items()):
            print(old, new)
        for path, new, olds in clashes(table):
            print("clash:", path, new, *olds)
        return 0
    for path in texts(".antt") + texts(".rt"):
        text = read(path)
        new = turned_code(text, table, path)
        if new != text:
            write(path, new)
    for path in texts(".edit"):
        text = read(path)
        lines = [it if it.startswith("file:") else turned_line(it, table, set(), False, path) for it in text.split("\n")]
        write(path, "\n".join(lines))
    documents = [p for p in subprocess.run(["git", "ls-files", "*.md"], capture_output=True, text=True).stdout.split()]
    for path in documents:
        text = read(path)
        new = turned_document(text, table)
        if new != text:
            write(path, new)
    rename_log()
    return 0


if __name__ == "__main__":
    raise SystemExit(main(sys.argv[1:]))
