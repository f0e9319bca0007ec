"""The page that checks proofs, in a real browser: python3 tests/page_test.py
(VIZHUTHAMEN names another binary of the command line).

After `make`. The page is opened from disk and is given right and wrong files, forged records, deals of every kind. What
it says is what the command line says, to the word where both speak; proofs that it saves are those that `prove` writes.
Without a browser (tests/browser.py) that part is left out, which is said; likewise the part that runs the page's worker
in node. With --shots FOLDER pictures are left there.
"""
import base64
import json
import os
import re
import shutil
import subprocess
import sys
import tempfile
import time
import unittest
from pathlib import Path

import browser
import proofs
from cases import node
from cli_test import GIVEN, MODEL, NUMBER, OTHER, ROOT
from model import area, index_numbers, segment_length
from proof_test import Houses

PAGE = ROOT / "target/page/vizhuthamen.html"
MODULE = ROOT / "target/lib/vizhuthamen.wasm"
SHOTS = None
BROWSER = None
DOWNLOADS = Path(tempfile.gettempdir()) / f"vizhuthamen-page-{os.getpid()}"
LIGHTS = [(dark, width) for dark in (False, True) for width in (1000, 360)]
STATES = "blank", "damaged", "not standing", "overlapping", "wrong commitment", "kept"
# the step that fails, by the code of the check
STEPS = {1: 2, 2: 2, 21: 3, 4: 4, 5: 4, 6: 4, 7: 4, 8: 5, 19: 5, 9: 6, 10: 7}


def flipped(data, at, bits=1):
    return data[:at] + bytes([data[at] ^ bits]) + data[at + 1:]


def lower(text):
    """A sentence as the command line writes it: no capital letter, no full stop."""
    return re.sub(r"^(The|Both|Every|Some|Nothing)\b", lambda found: found[0].lower(), text.strip()).removesuffix(".")


def before_advice(text):
    """A condition without what to do about it, in which page and command line differ."""
    return text.partition("; give what you know")[0]


class Proofs(Houses):
    """A house with a few files, and proofs of one of them that are changed in many ways."""

    FILES = {"certificate.pdf": 1000, "128": 1000, "letter": 127}

    def setUp(self):
        super().setUp()
        self.deal, self.kept = self.house(size=4096, files=self.FILES)
        self.second = self.proved(self.deal, self.kept, "128")
        self.members = self.proved(self.deal, self.kept)
        self.root = self.members["deal_commitment"]

    def with_record(self, record):
        """A proof with another record, whose members all say what it says."""
        def number(at):
            return str(int.from_bytes(record[at : at + 8], "little"))

        commitment = record[3:35]
        return proofs.sealed({**self.members, "record": record.hex(), "segment_commitment": commitment.hex(),
                              "segment_cid": proofs.cid(commitment), "offset": number(38), "segment_size": number(49),
                              "place": number(60), "deal_number": number(len(record) - 8)})

    def forged(self):
        """Names, and proofs with a record that is changed in one place."""
        record = bytes.fromhex(self.members["record"])
        entry = 74 + 64  # the first byte of the entry path: 2 nodes of 32 bytes before it
        yield "commitment", self.with_record(flipped(record, 3))
        yield "commitment bits", self.with_record(flipped(record, 34, 0x80))
        yield "offset", self.with_record(flipped(record, 38))
        yield "other offset", self.with_record(flipped(record, 39, 4))
        yield "size", self.with_record(flipped(record, 51))
        yield "other size", self.with_record(flipped(record, 49))
        yield "place", self.with_record(flipped(record, 60))
        yield "other place", self.with_record(flipped(record, 60, 64))
        yield "segment path", self.with_record(flipped(record, 71))
        yield "segment bits", self.with_record(flipped(record, 102, 0x40))
        yield "entry path", self.with_record(flipped(record, entry))
        yield "entry bits", self.with_record(flipped(record, entry + 31, 0x80))
        yield "longer path", self.with_record(record[:69] + bytes([96]) + record[70:71] + bytes(32) + record[71:])
        yield "number", self.with_record(flipped(record, len(record) - 8))
        yield "record", {**self.members, "record": record[:-1].hex()}

    def command_line(self, *words, given=()):
        """What `verify` says: verdict, sentence, code, meaning, member, condition; or the error."""
        ran = subprocess.run([self.program, "verify", "--json", *words, *map(str, given)], cwd=self.folder,
                             capture_output=True)
        return json.loads(ran.stdout)


# Of members of proofs that are changed.
VALUES = ("", "0", "1", "00", "x", "ab" * 32, "AB" * 32, str(2**64), "é\n\"\\\u202e'",
          "e\u0301\u200b\u00a0\u00ad\0\x7f\U0001f600")


class Words(Proofs):
    """The code of the page's worker, in node, beside the command line."""

    def asked(self, questions):
        lines = "".join(json.dumps(question) + "\n" for question in questions)
        ran = subprocess.run(["node", ROOT / "tests/page_calls.mjs", MODULE], input=lines, capture_output=True,
                             text=True, check=True)
        return [json.loads(line) for line in ran.stdout.splitlines()]

    def dropped(self, name):
        return {"name": name, "bytes": base64.b64encode(self.get(name)).decode()}

    def changed_texts(self):
        text = proofs.text(self.members).encode()
        for name in proofs.MEMBERS:
            for value in (*VALUES, self.second[name], self.members[name].upper()):
                changed = {**self.members, name: value}
                yield proofs.text(changed).encode()
                if name in ("name", "length", "sha256", "padding"):
                    yield (proofs.text(proofs.sealed(changed)).encode() if changed["padding"] in ("Fr32", "none")
                           else b"{}")
            yield proofs.text(self.members, [other for other in proofs.MEMBERS if other != name]).encode()
            yield text.replace(b"{\n", b'{\n  "%s": "x",\n' % name.encode(), 1)
            yield text.replace(b'"%s": ' % name.encode(), b'"%s": 1, ' % name.encode())
        for i in range(160):
            at = self.rng.randrange(len(text))
            yield (flipped(text, at, 1 << self.rng.randrange(8)), text[:at] + text[at + 1:], text[:at],
                   text[:at] + bytes([self.rng.choice(b' \n"0a{,\\\xff')]) + text[at:])[i % 4]
        yield from (b"", b"{}", b"[]", b"%PDF-1.7", b"\xef\xbb\xbf{}", bytes(70000))
        yield from (b'{"a":"\\ud83d\\ude00"}', b'{"a":"\\ud83dx"}', b'{"a":"\\u12"}')

    def cases(self):
        """Proof file, file, and what is given."""
        root, other = self.root, flipped(bytes.fromhex(self.root), 0).hex()
        for text in self.changed_texts():
            yield text, "certificate.pdf", {}
        for _, members in self.forged():
            yield proofs.text(members).encode(), "certificate.pdf", {}
            yield (proofs.text(members).encode(), "certificate.pdf",
                   {"commitment": root, "size": "4096", "number": str(NUMBER)})
        text = proofs.text(self.members).encode()
        for file in ("certificate.pdf", "128", "letter", "empty", "long"):
            for padding in ("Fr32", "none"):
                yield proofs.text(proofs.sealed({**self.members, "padding": padding})).encode(), file, {}
        lie = {**self.second, "sha256": self.members["sha256"], "name": "x"}
        yield proofs.text(proofs.sealed(lie)).encode(), "certificate.pdf", {}
        for given in ({"commitment": root}, {"commitment": proofs.cid(bytes.fromhex(root))}, {"size": "4096"},
                      {"number": str(NUMBER)}, {"commitment": root, "size": "4096"},
                      {"commitment": root, "number": str(NUMBER)}, {"size": "4096", "number": str(NUMBER)},
                      {"commitment": root, "size": "4096", "number": str(NUMBER)},
                      {"commitment": other}, {"commitment": root[:-2]}, {"size": "8192"}, {"size": "1024"},
                      {"size": "1000"}, {"size": "0"}, {"number": str(OTHER)}, {"number": str(2**64 - 1)}):
            yield text, "certificate.pdf", given

    def test_every_verdict_is_that_of_the_command_line(self):
        self.put("empty", b"")
        self.put("long", bytes(1001))
        cases = list(self.cases())
        questions = []
        for i, (text, file, given) in enumerate(cases):
            self.put(f"p{i}", text)
            questions.append({"task": "verify", "files": {"proof": self.dropped(f"p{i}"), "file": self.dropped(file)},
                              "given": given})
        met = set()
        for i, ((text, file, given), said) in enumerate(zip(cases, self.asked(questions), strict=True)):
            options = [word for name, value in given.items() for word in (f"--{name}", value)]
            told = self.command_line(f"p{i}", file, given=options)
            met.add((told["code"], told["meaning"]))
            if "error" in told:
                self.assertEqual(said.get("fault"), told["error"], text)
                continue
            self.assertNotIn("fault", said)
            for name in ("verdict", "sentence", "code", "meaning", "member"):
                self.assertEqual(said.get(name), told.get(name), (name, text, file, given))
            self.assertEqual(before_advice(said.get("condition", "")), before_advice(told.get("condition", "")))
            failed = [i for i, step in enumerate(said["steps"]) if step["state"] == "failed"]
            self.assertEqual(failed == [], told["code"] == 0)
            if told["code"] in STEPS and "member" not in told and "record in it is refused" in told["sentence"]:
                self.assertEqual(failed, [STEPS[told["code"]]])
        # Not 8: before the check it is seen that the file has another commitment.
        self.assertEqual({code for code, _ in met} - {65, 66}, {0, 1, 2, 3, 4, 5, 6, 7, 9, 10, 11, 19, 21}, met)
        print(f"page_test: {len(cases)} proofs judged by the page's worker and by the command line, with one answer")

    def test_how_two_records_settle(self):
        self.answer("number", "deal", OTHER, "--instead-of", NUMBER)
        self.answer("build", "deal", 3840, "-o", "numbered")
        for i, name in enumerate(self.FILES):
            self.put(f"record{i}", MODEL.build(self.deal, NUMBER, self.kept[name][1])[1])
        names = ["record0", "record1", "numbered"]
        for i, (_, members) in enumerate(self.forged()):
            names.append(f"forged{i}")
            self.put(names[-1], bytes.fromhex(members["record"]))
        pairs = [(a, b) for a in names for b in names if "record0" in (a, b) or "record1" in (a, b)]
        terms = ([(self.root, 4096, NUMBER)] * len(pairs)
                 + [(self.root[2:], 4096, NUMBER), (self.root, 4097, NUMBER), (self.root, 4096, OTHER)])
        pairs += [("record0", "record0")] * 3
        given = [{"commitment": root, "size": str(size), "number": str(number)} for root, size, number in terms]
        questions = [{"task": "settle", "files": {"first": self.dropped(a), "second": self.dropped(b)}, "given": of}
                     for (a, b), of in zip(pairs, given, strict=True)]
        for (first, second), (root, size, number), said in zip(pairs, terms, self.asked(questions), strict=True):
            ran = subprocess.run([self.program, "settle", root, str(size), first, second, "--number", str(number)],
                                 cwd=self.folder, capture_output=True, text=True)
            lines = ran.stdout.splitlines()
            self.assertNotIn("fault", said)
            self.assertEqual((said["code"], f"code {said['code']}: {said['meaning']}"), (ran.returncode, lines[0]))
            if said["kind"] != "same":
                self.assertEqual(said["sentences"], lines[1:])


class Seen(Proofs):
    """The page in the browser."""

    def setUp(self):
        super().setUp()
        self.page = BROWSER
        self.page.look()
        self.page.open(PAGE)
        self.addCleanup(self.in_order)

    def in_order(self):
        """Whatever was done: nothing was asked for but the page and what it has made itself, and nothing went wrong."""
        asked = {url for url, _ in self.page.requests() if not url.startswith("blob:null/")}
        self.assertLessEqual(asked, {PAGE.as_uri()})
        self.assertEqual(self.page.run("return window.breaches"), [])
        self.assertEqual(self.page.errors(), [])

    def shown(self, name):
        """Of what is shown now: nothing is cut off, every text has contrast, in light and dark, wide and narrow."""
        for dark, width in LIGHTS:
            self.page.look(dark, width)
            self.assertLessEqual(self.page.run("return document.documentElement.scrollWidth"), width, (name, width))
            self.assertEqual(self.page.run(CONTRAST), [], (name, dark))
            if SHOTS:
                self.page.shot(SHOTS / f"{name}-{'dark' if dark else 'light'}-{width}.png")
        self.page.look()

    def verdict(self, panel):
        """The word and the sentences of an answer."""
        word = self.page.text(f"#{panel} .card h3").strip()
        return word, [lower(text)
                      for text in self.page.texts(f"#{panel} .card > p:not(.condition):not(.code-line):not(.hint)")]

    def choose(self, tab):
        self.page.run("document.getElementById(arguments[0]).click()", f"tab-{tab}")


# Texts that are not told well enough from what is behind them: less than 4.5 to 1 (WCAG 2, AA; large ones less than 3).
CONTRAST = """
const parse = (text) => text.match(/[\\d.]+/g).map(Number);
const light = ([r, g, b]) => [r, g, b].map((v) => (v /= 255) <= 0.04045 ? v / 12.92 : ((v + 0.055) / 1.055) ** 2.4)
  .reduce((sum, v, i) => sum + v * [0.2126, 0.7152, 0.0722][i], 0);
const behind = (e) => {
  const own = parse(getComputedStyle(e).backgroundColor);
  return own.length < 4 || own[3] > 0 ? own : e.parentElement ? behind(e.parentElement) : [255, 255, 255];
};
const found = [];
const walker = document.createTreeWalker(document.body, NodeFilter.SHOW_TEXT);
while (walker.nextNode()) {
  const e = walker.currentNode.parentElement;
  if (!walker.currentNode.data.trim() || !e.checkVisibility() || e.closest("svg, script, .skip, .unseen")) continue;
  const style = getComputedStyle(e), [a, b] = [light(parse(style.color)), light(behind(e))].sort((x, y) => y - x);
  const large = parseFloat(style.fontSize) >= 24 || (parseFloat(style.fontSize) >= 18.66 && style.fontWeight >= 700);
  const text = walker.currentNode.data.trim().slice(0, 40);
  if ((a + 0.05) / (b + 0.05) < (large ? 3 : 4.5)) found.push(`${text}: ${style.color} on ${behind(e)}`);
}
return found;
"""


class CheckAProof(Seen):
    def judged(self, proof, file, **given):
        fields = {f"verify_{name}": given.get(name, "") for name in ("commitment", "size", "number")}
        self.page.fill(verify_proof=self.path(proof), verify_file=self.path(file), **fields)
        self.page.press("#verify form")
        options = [word for name, value in given.items() for word in (f"--{name}", re.sub(r"\s", "", str(value)))]
        told = self.command_line(proof, file, given=options)
        word, sentences = self.verdict("verify")
        self.assertEqual(sentences, [told["sentence"]])
        conditional = "condition" in told
        self.assertEqual(word,
                         "\u2717 No" if told["code"] else "! Yes, on a condition" if conditional else "\u2713 Yes")
        conditions = self.page.texts("#verify .condition")
        expected = [f"Condition: {before_advice(told['condition'])}"] if conditional else []
        self.assertEqual([before_advice(text) for text in conditions], expected)
        return told

    def test_right_and_wrong_files(self):
        terms = {"commitment": self.root, "size": 4096, "number": NUMBER}
        self.assertEqual(self.judged("proof", "certificate.pdf", **terms)["code"], 0)
        self.assertEqual(len(self.page.all("#verify .steps .passed")), 9)
        self.assertEqual(self.page.texts("#verify .drawing .sign"), ["=", "="])
        self.shown("verify-yes")
        cid = proofs.cid(bytes.fromhex(self.root))
        self.assertEqual(self.judged("proof", "certificate.pdf", commitment=f" {cid[:20]} {cid[20:]} ")["code"], 0)
        self.assertEqual(self.judged("proof", "certificate.pdf")["code"], 0)
        self.shown("verify-condition")
        raw = self.kept["certificate.pdf"][0]
        self.put("changed", flipped(raw, 500))
        self.put("longer", raw + b"\0")
        for file in ("changed", "longer", "128", "letter"):
            self.assertEqual(self.judged("proof", file, **terms)["code"], 66)
            self.assertEqual(len(self.page.all("#verify .steps .failed")), 1)
            self.assertTrue(self.page.all("#verify .compare tr.bad"))
            # It is not the path that is wrong. Zeros at the end of a file change its size alone.
            self.assertEqual(self.page.texts("#verify .drawing .sign"),
                             ["=", "="] if file == "longer" else ["=", "\u2260", "="])
        self.shown("verify-other-file")

    def test_forged_records(self):
        marks = {}
        for name, members in self.forged():
            self.put("forged", proofs.text(members).encode())
            code = self.judged("forged", "certificate.pdf", commitment=self.root)["code"]
            signs = self.page.texts("#verify .drawing .sign")
            marks[name] = code, signs, len(self.page.all("#verify .drawing .node.bad"))
        self.assertEqual(marks["segment path"], (9, ["\u2260", "="], 1))
        self.assertEqual(marks["entry path"], (10, ["=", "\u2260"], 1))
        self.assertEqual(marks["segment bits"], (19, ["?", "="], 1))
        self.assertEqual(marks["entry bits"], (19, ["=", "?"], 1))
        self.assertEqual(marks["place"][0], 6)
        self.assertEqual(marks["commitment bits"][1:], (["?", "\u2260", "?"], 2))  # it, and the file, which has another
        self.assertEqual(marks["record"], (3, [], 0))
        self.put("forged", proofs.text(dict(self.forged())["entry bits"]).encode())
        self.judged("forged", "certificate.pdf", commitment=self.root)
        self.page.run("for (const one of document.querySelectorAll('#verify details')) one.open = true")
        self.assertIn("stray bits", self.page.text("#verify .way:nth-of-type(2) table"))
        self.shown("verify-stray")
        self.judged("proof", "certificate.pdf", commitment=flipped(bytes.fromhex(self.root), 3).hex())
        self.assertEqual(self.page.texts("#verify .drawing .sign"), ["\u2260", "\u2260"])
        self.shown("verify-no")

    def test_what_cannot_be_read(self):
        def fault(**fields):
            files = {"verify_proof": self.path("proof"), "verify_file": self.path("certificate.pdf")}
            self.page.fill(**{**files, "verify_commitment": "", **fields})
            self.page.press("#verify form")
            return self.page.text("#verify .answer"), self.page.run("return document.activeElement.id")

        words, focus = fault(verify_commitment="baga6ea4seaqxyz")
        self.assertTrue(words.startswith("no commitment in hex, and no piece CID ("), words)
        self.assertEqual((focus, self.page.one("#verify-commitment").get_attribute("aria-invalid")),
                         ("verify-commitment", "true"))
        self.shown("verify-fault")
        words, focus = fault(verify_size="4k")
        self.assertEqual((words, focus), ("not a decimal number below 2^64: 4k", "verify-size"))
        self.page.fill(verify_size="")
        words, _ = fault(verify_proof=self.path("certificate.pdf"), verify_file=self.path("proof"))
        self.assertIn("certificate.pdf is not a proof file, or is damaged: line 1", words)
        self.assertIn("proof is one: exchange the two files", words)
        name = "<img src=x onerror=alert(1)>\u202e.proof"
        self.put(name, b"{")
        words, _ = fault(verify_proof=self.path(name))
        self.assertTrue(words.startswith("<img src=x onerror=alert(1)>\\u{202e}.proof is not a proof file"), words)
        self.page.open(PAGE)
        self.page.press("#verify form")
        self.assertEqual(self.page.text("#verify .answer"), "The proof file is needed: drop it, or choose it.")
        with open(self.path("huge"), "wb") as file:
            file.truncate(1 << 33)
        self.page.fill(verify_proof=self.path("proof"), verify_file=self.path("huge"))
        self.page.press("#verify form")
        self.assertIn(f"huge is another file: it has {1 << 33} bytes, and the proof is of one of 1000",
                      self.page.text("#verify .answer"))

    def test_no_answer_outlives_its_question(self):
        """A verdict is gone as soon as something else is asked."""
        self.judged("proof", "certificate.pdf", commitment=self.root)
        self.page.one("#verify-commitment").send_keys("0")
        self.assertEqual([self.page.text(f"#verify .{place}") for place in ("answer", "more")], ["", ""])
        self.judged("proof", "certificate.pdf", commitment=self.root)
        self.page.fill(verify_file=self.path("128"))
        self.assertEqual(self.page.text("#verify .answer"), "")
        self.page.run("""
            document.querySelector("#verify button.main").click();
            document.getElementById("verify-size").dispatchEvent(new Event("input", { bubbles: true }));""")
        self.page.wait(lambda: not self.page.all("[aria-busy]"))
        self.assertEqual(self.page.text("#verify .answer"), "")

    def test_files_that_are_dropped(self):
        for field, name in (("verify-proof", "proof"), ("verify-file", "certificate.pdf")):
            self.page.run("""
                const bytes = Uint8Array.from(atob(arguments[2]), (c) => c.charCodeAt(0));
                const moved = new DataTransfer(), zone = document.getElementById(arguments[0]).closest(".drop");
                moved.items.add(new File([bytes], arguments[1]));
                for (const type of ["dragenter", "dragover", "drop"]) {
                  zone.dispatchEvent(new DragEvent(type, { dataTransfer: moved, bubbles: true, cancelable: true }));
                }""", field, name, base64.b64encode(self.get(name)).decode())
        self.page.fill(verify_commitment=self.root, verify_size=4096, verify_number=NUMBER)
        self.page.press("#verify form")
        self.assertEqual(self.verdict("verify")[0], "\u2713 Yes")


class SettleTwoRecords(Seen):
    def settled(self, first, second, **given):
        fields = {f"settle_{name}": value for name, value in given.items()}
        self.page.fill(settle_first=self.path(first), settle_second=self.path(second), **fields)
        self.page.press("#settle form")
        return self.verdict("settle") if self.page.all("#settle .card") else (self.page.text("#settle .answer"), [])

    def test_two_records(self):
        self.choose("settle")
        record, other = (MODEL.build(self.deal, NUMBER, self.kept[name][1])[1] for name in ("certificate.pdf", "128"))
        self.put("record", record)
        self.put("other", other)
        self.put("forged", flipped(record, 138))
        given = {"commitment": self.root, "size": 4096, "number": NUMBER}
        self.assertEqual(self.settled("record", "proof", **given)[0], "\u2713 They are the same")
        self.shown("settle-same")
        word, sentences = self.settled("record", "forged", **given)
        self.assertEqual(word, "\u2717 The second record is refused")
        told = self.answer("settle", self.root, 4096, "record", "forged", *GIVEN, status=10)
        self.assertEqual(sentences, told.splitlines()[1:])
        self.page.run("for (const one of document.querySelectorAll('#settle details.record')) one.open = true")
        self.shown("settle-forged")
        self.assertEqual(self.settled("forged", "other", **given)[0], "\u2717 The first record is refused")
        self.assertEqual(self.settled("forged", "forged", **given)[0], "\u2717 Both are refused")
        self.assertEqual(self.settled("record", "other", **given)[0], "\u2713 Both are accepted, of two entries")
        self.assertEqual(self.settled("record", "record", size=1000)[0], "! Nothing can be said")
        alone = self.settled("record", "record", commitment="", size="", number="")[0]
        self.assertEqual(alone, "the deal's commitment is needed: records alone do not say it")
        self.assertEqual(self.settled("proof", "record")[0], "\u2713 They are the same")
        self.assertIn(f"this holds for the deal whose commitment is {self.root}", self.page.text("#settle .condition"))

    def test_a_pair(self):
        """No pair is known: a page whose library says that it has one shows it."""
        root = self.folder / "copy"
        for name in ("page", "javascript", "tools"):
            shutil.copytree(ROOT / name, root / name)
        (root / "target/lib").mkdir(parents=True)
        for module in MODULE.parent.glob("*.wasm"):
            shutil.copy(module, root / "target/lib")
        library = root / "javascript/vizhuthamen.mjs"
        text = library.read_text()
        made = re.sub(r"settleRecords: \(.*?\) =>\n.*?,\n",
                      'settleRecords: () => ({ kind: "collision", left: new Uint8Array(64).fill(1), '
                      "right: new Uint8Array(64).fill(2) }),\n", text, flags=re.S, count=1)
        self.assertNotEqual(made, text)
        library.write_text(made)
        page = self.folder / "pair.html"
        subprocess.run([root / "tools/page", page], check=True, capture_output=True)
        self.page.requests()
        self.page.open(page)
        self.choose("settle")
        self.assertEqual(self.settled("proof", "proof")[0], "\u2717 Both are accepted, and they differ")
        shown = self.page.texts("#settle .more .scroll:first-of-type td code")
        self.assertEqual(shown[:2] + shown[3:5], ["01" * 32] * 2 + ["02" * 32] * 2)
        self.shown("settle-pair")
        self.page.requests()


class LookIntoADeal(Seen):
    def opened(self, name="deal"):
        self.choose("deal")
        self.page.fill(deal_deal=self.path(name))
        self.page.press("#deal-open")
        return self.page.text("#deal .answer")

    def found(self, name, number=NUMBER):
        self.page.fill(deal_file=self.path(name), deal_number=number)
        self.page.press("#deal-find")
        return self.page.text("#deal .found")

    def saved(self, name):
        """The bytes of the proof that the page gives to save."""
        path = DOWNLOADS / f"{name}.proof"
        path.unlink(missing_ok=True)
        self.page.one("#deal a.save").click()
        self.page.wait(path.exists)
        return path.read_bytes()

    def states(self):
        return [text.split()[1:] for text in self.page.texts("#deal .cells li")]

    def test_a_deal_and_its_files(self):
        self.opened()
        self.assertEqual(self.page.text("#deal-commitment"), self.answer("commit", "deal").strip())
        self.assertEqual(self.page.text("#deal-cid"), self.answer("commit", "deal", "--cid").strip())
        self.assertEqual([" ".join(state) for state in self.states()], ["kept", "kept", "kept", "blank"])
        for name, (raw, place) in self.kept.items():
            self.assertIn(f"{name} is kept by deal, in slot {(place - 3840) // 64} (place {place}): "
                          f"its {len(raw)} bytes", self.found(name))
            self.answer("prove", "deal", name, "-o", "own", "--force")
            proof = self.saved(name)
            self.assertEqual(proof, self.get("own"))
            self.put("saved", proof)
            self.answer("verify", "saved", name, "--commitment", self.root, "--size", 4096, *GIVEN)
            own = self.page.texts("#deal .own")
            self.assertEqual(len(own), 3)
            self.assertTrue(all("yours" in text for text in own))
        self.shown("deal-found")
        self.assertIn("the number of deal is not known", self.found("letter", ""))
        self.put("stranger", b"x")
        self.assertIn("deal does not keep stranger", self.found("stranger"))
        self.assertEqual(self.page.all("#deal .own"), [])
        raw = self.kept["letter"][0]
        self.put("zeros", raw + b"\0")
        self.assertEqual(segment_length(128), 130)
        self.put("segment", self.deal[:1008])
        self.assertIn("segment is kept by deal", self.found("segment"))
        self.assertIn("a segment as it is", self.page.text("#deal .found"))
        self.put("saved", self.saved("segment"))
        self.answer("verify", "saved", "segment", "--commitment", self.root, "--size", 4096, *GIVEN)

    def odd_deal(self):
        """A deal in which every state of an audit is met."""
        deal = bytearray(b"".join(node(self.rng) for _ in range(2**20 // 32)))
        start = index_numbers(len(deal))[2]
        deal[start:] = bytes(len(deal) - start)

        def own(offset, size):
            return MODEL.entry(MODEL.tree(bytes(deal[offset : offset + area(size)]))[-1][0], offset, size)

        rows = (own(0, 128), bytes(64), own(4096, 585), MODEL.entry(node(self.rng), 65536, 60000), own(0, 256),
                MODEL.entry(node(self.rng), 64, 128), flipped(own(8192, 200), 40), own(2**19, 2**17))
        for i, entry in enumerate(rows):
            deal[start + 64 * i : start + 64 * i + 64] = entry
        return bytes(deal), start

    def test_every_state(self):
        deal, _ = self.odd_deal()
        self.put("odd", deal)
        words = self.opened("odd")
        self.assertIn("Not in order", words)
        expected = ["kept", "blank", "kept", "wrong commitment", "overlapping", "not standing", "damaged", "kept"]
        self.assertEqual([" ".join(state) for state in self.states()], expected)
        self.assertEqual(set(expected), set(STATES))
        told = json.loads(self.answer("audit", "odd", "--json", status=65))
        self.assertEqual([slot["state"] for slot in told["slots"]], expected)
        self.assertIn("Some slots are neither blank nor kept", words)
        self.assertIn("its area is also that of slot 0", self.page.text("#deal .more"))
        self.assertIn("1 wrong commitment, 3 kept", self.page.text("#deal .more"))
        self.shown("deal-odd")

    def test_stray_bits(self):
        deal, start = self.odd_deal()
        deal = flipped(flipped(flipped(deal, 4096 + 31, 0x40), 2**18 + 63, 0xc0), start + 64 + 31, 0x80)
        self.put("odd", deal)
        words = self.opened("odd")
        self.assertIn("3 nodes have stray bits", words)
        lines = [line for line in self.answer("fsck", "odd", status=65).splitlines() if line.startswith("stray bits")]
        self.assertEqual(self.page.texts("#deal .strays li"), lines)
        states = [" ".join(state) for state in self.states()]
        expected = ["kept", "damaged", "wrong commitment", "wrong commitment", "overlapping", "not standing", "damaged",
                    "kept"]
        self.assertEqual(states, expected)
        self.assertEqual(len(self.page.all("#deal .scale .tick")), 3)
        self.shown("deal-stray")
        self.put("noise", self.rng.randbytes(2**16))
        self.assertIn("Not in order", self.opened("noise"))
        self.assertEqual(len(self.page.all("#deal .strays li")), 100)
        for length in (0, 511, 513, 2**24 + 1):
            self.put("odd", bytes(length))
            self.assertIn("a deal has a power of two from 512 to 16777216 bytes", self.opened("odd"))
            self.assertTrue(self.page.one("#deal-find").get_attribute("hidden"))

    def test_a_large_deal(self):
        """16 MiB: the page goes on while the worker works, tells how far it is, and gives the proof of a file of 5
        MB."""
        self.answer("new", "large", 2**24, *GIVEN)
        self.put("film", self.rng.randbytes(5_000_000))
        self.put("note", b"x" * 77)
        for name in ("film", "note"):
            self.answer("book", "large", "--raw", name, "--house", 1)
        self.choose("deal")
        self.page.run("""
            window.gap = 0; let last = performance.now(); window.seen = new Set();
            setInterval(() => { const now = performance.now(); gap = Math.max(gap, now - last); last = now; }, 5);
            new MutationObserver((all) => all.forEach(({ target }) => seen.add(target.textContent)))
              .observe(document.querySelector("#deal .progress span"), { childList: true });""")
        began = time.monotonic()
        self.opened("large")
        shown = time.monotonic() - began
        self.assertEqual(self.page.text("#deal-commitment"), self.answer("commit", "large").strip())
        seen, gap = self.page.run("return [[...seen], gap]")
        self.assertIn("hashing the deal \u2026", seen)
        page = float(self.page.one("#deal .card").get_attribute("data-milliseconds"))
        began = time.monotonic()
        self.answer("commit", "large")
        native = 1000 * (time.monotonic() - began)
        for name in ("film", "note"):
            self.found(name)
            self.answer("prove", "large", name, "-o", "own", "--force")
            self.assertEqual(self.saved(name), self.get("own"))
        self.assertEqual(len(self.states()), 128)
        self.shown("deal-large")
        print(f"page_test: 16 MiB committed in {page:.0f} ms by the page, "
              f"in {native:.0f} ms by the command line, start and reading "
              f"included; shown after {shown:.1f} s, in which the page was never busy for more than {gap:.0f} ms")


# What a screen reader needs a name of.
NAMED = ("button", "tab", "tabpanel", "textbox", "img", "image", "link", "table", "region", "columnheader", "rowheader",
         "heading", "DisclosureTriangle")


class ForEveryone(Seen):
    def focus(self):
        return self.page.run("const e = document.activeElement; return e.id || e.className || e.textContent.trim()")

    def test_by_the_keyboard(self):
        """Every tool is reached and used without a mouse, in the order in which it is read."""
        from selenium.webdriver.common.action_chains import ActionChains
        from selenium.webdriver.common.keys import Keys

        def body(*keys):
            ActionChains(self.page.driver).send_keys(*keys).perform()

        met = []
        for _ in range(9):
            body(Keys.TAB)
            met.append(self.focus())
        self.assertEqual(met, ["skip", "tab-verify", "verify-proof", "verify-file", "verify-commitment", "verify-size",
                               "verify-number", "main", "The modules in this page"])
        self.page.run("document.getElementById('tab-verify').focus()")
        for key, tab in ((Keys.ARROW_RIGHT, "settle"), (Keys.ARROW_RIGHT, "deal"), (Keys.ARROW_RIGHT, "verify"),
                         (Keys.ARROW_LEFT, "deal"),
                         (Keys.HOME, "verify"), (Keys.END, "deal"), (Keys.ARROW_LEFT, "settle"), (Keys.HOME, "verify")):
            body(key)
            self.assertEqual(self.focus(), f"tab-{tab}")
            self.assertEqual([panel.get_attribute("id") for panel in self.page.all("[role=tabpanel]")
                              if panel.is_displayed()], [tab])
        self.page.fill(verify_proof=self.path("proof"), verify_file=self.path("certificate.pdf"))
        self.page.one("#verify-commitment").send_keys(self.root, Keys.TAB, "4096")
        body(Keys.TAB)
        body(str(NUMBER), Keys.ENTER)
        self.page.wait(lambda: self.page.all("#verify .card"))
        self.assertEqual(self.verdict("verify")[0], "\u2713 Yes")
        body(Keys.TAB, Keys.TAB)
        self.assertEqual(self.page.run("return document.activeElement.getAttribute('aria-label')"),
                         "The file beside the proof")

    def test_for_a_screen_reader(self):
        """Landmarks, names of all that can be used or seen, live regions, tables with headers: as the browser tells
        them."""
        self.page.fill(verify_proof=self.path("proof"), verify_file=self.path("certificate.pdf"))
        self.page.press("#verify form")
        self.choose("deal")
        self.page.fill(deal_deal=self.path("deal"))
        self.page.press("#deal-open")
        for tab in ("verify", "settle", "deal"):
            self.choose(tab)
            self.page.run("for (const one of document.querySelectorAll('details')) one.open = true")
            tree = [node for node in self.page.command("Accessibility.getFullAXTree")["nodes"] if not node["ignored"]]
            named = [(node["role"]["value"], node.get("name", {}).get("value", "")) for node in tree]
            roles = {role for role, _ in named}
            self.assertLessEqual({"banner", "main", "contentinfo", "tablist", "tab", "tabpanel", "status", "heading",
                                  "button"}, roles)
            unnamed = [role for role, name in named if role in NAMED and not name.strip()]
            self.assertEqual(unnamed, [], (tab, named))
            self.assertEqual(len([name for role, name in named if role == "heading" and name == "Vizhuthamen"]), 1)
        self.assertEqual(self.page.all("table:not(:has(caption)), table:not(:has(thead th[scope=col]))"), [])
        ids = self.page.run("return [...document.querySelectorAll('[id]')].map((one) => one.id)")
        self.assertEqual(len(set(ids)), len(ids))

    def test_no_motion_for_those_who_ask_for_none(self):
        self.page.command("Emulation.setEmulatedMedia",
                          features=[{"name": "prefers-reduced-motion", "value": "reduce"}])
        self.assertEqual(self.page.run("""
            const moves = ({ transitionDuration, animationName }) =>
              transitionDuration !== "0s" || animationName !== "none";
            return [...document.querySelectorAll("*")].filter((one) => moves(getComputedStyle(one))).length"""), 0)


class Closed(Seen):
    """The page has no way out. Here ways out are tried, and must be shut."""

    def in_order(self):
        self.page.errors()
        self.page.requests()

    def test_nothing_leaves(self):
        made = "Object.assign(document.createElement('{}'), {{ onload, onerror, {} }})"
        loaded = f"new Promise((onload, onerror) => document.head.append({made}))"
        for way in ("fetch('https://example.org/')", loaded.format("img", "src: 'https://example.org/i.png'"),
                    loaded.format("script", "src: 'https://example.org/s.js'"),
                    loaded.format("link", "rel: 'stylesheet', href: 'https://example.org/s.css'"),
                    "import('data:text/javascript,1')",
                    "new Promise((onopen, onerror) => "
                    "Object.assign(new WebSocket('wss://example.org/'), { onopen, onerror }))",
                    "(async () => eval('1'))()"):
            tried = f"(async () => {way})().then(() => 'out', () => 'shut')"
            took = self.page.command("Runtime.evaluate", expression=tried, awaitPromise=True,
                                     allowUnsafeEvalBlockedByCSP=False)
            self.assertEqual(took["result"]["value"], "shut", way)
        self.assertGreaterEqual(len(self.page.run("return window.breaches")), 5)
        self.assertEqual([url for url, kept in self.page.requests()
                          if not kept and not url.startswith(("file:", "blob:null/"))], [])
        self.assertEqual(self.page.run("return [document.cookie, localStorage.length, sessionStorage.length]"),
                         ["", 0, 0])

    def test_one_file_that_cannot_be_changed(self):
        text = PAGE.read_text()
        self.assertEqual(re.findall(r"https?://[^\s\"'`<)]+", text), ["http://www.w3.org/2000/svg"])
        self.assertNotIn("unsafe-inline", text)
        self.assertNotIn(" style=", text)
        changed = self.put("changed.html", text.replace("startTabs();", "startTabs(); ", 1).encode())
        self.assertNotEqual(changed.decode(), text)
        self.assertIsNotNone(self.page.run("return document.documentElement.dataset.ready ?? null"))
        self.page.open(self.path("changed.html"))
        self.assertIsNone(self.page.run("return document.documentElement.dataset.ready ?? null"))

    def test_the_same_files_give_the_same_page(self):
        again = self.path("again.html")
        subprocess.run([ROOT / "tools/page", again], check=True, capture_output=True)
        self.assertEqual(again.read_bytes(), PAGE.read_bytes())


def runnable(browser_lacks):
    """The names of the tests that can be run here; of the others it is said why not."""
    cases = [] if browser_lacks else [case.__name__ for case in Seen.__subclasses__()]
    if browser_lacks:
        print(f"page_test: the browser's part skipped: {browser_lacks}")
    if not shutil.which("node"):
        print("page_test: the part in node skipped: there is no node (Debian: nodejs)")
        return cases
    return ["Words", *cases]


def main():
    global BROWSER, SHOTS
    if not PAGE.is_file():
        print(f"page_test: skipped: {PAGE.relative_to(ROOT)} is not there; make writes it where wasm-opt (Debian: "
              "binaryen) is")
        return
    lacks = browser.missing()
    words = sys.argv[1:]
    if "--shots" in words:
        at = words.index("--shots")
        SHOTS = Path(words[at + 1]).resolve()
        SHOTS.mkdir(parents=True, exist_ok=True)
        del words[at : at + 2]
    cases = runnable(lacks)
    if not cases:
        return
    try:
        BROWSER = None if lacks else browser.Browser(DOWNLOADS)
        ran = unittest.main(argv=[sys.argv[0], *(words or cases)], exit=False)
    finally:
        shutil.rmtree(DOWNLOADS, ignore_errors=True)
        if BROWSER:
            BROWSER.quit()
    sys.exit(not ran.result.wasSuccessful())


if __name__ == "__main__":
    main()
