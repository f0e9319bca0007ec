"""Plain files, piece CIDs and proof files through the command line: python3 tests/proof_test.py
(VIZHUTHAMEN names another binary).

The expected proof files are those of tests/proofs.py, written from docs/FORMAT.md over the independent model.
"""
import hashlib
import json
import resource
import signal
import subprocess
import unittest

import proofs
from cli_test import BINARY, DATA, GIVEN, IO, MODEL, NOT_PROVED, NUMBER, OTHER, USAGE, Calls
from model import MAX_RAW, index_numbers, pad, segment_length

# Files of a house: odd sizes and names.
FILES = {"certificate.pdf": 1000, "ein Brief \u00e4\u6587.txt": 127, "a\\b \"c\".bin": 1, "-dash": 2032, "128": 128}


def segment_of(raw):
    return pad(raw, bytes(segment_length(len(raw))))[2]


class Houses(Calls):
    """Two houses that have booked plain files into one deal with a number, by turns."""

    def house(self, size=1 << 20, files=FILES):
        """The model's deal, and of each file its bytes and its place."""
        self.answer("new", "deal", size, *GIVEN)
        deal, table, kept, self.owner = bytes(size), bytes(index_numbers(size)[1]), {}, {}
        for i, (name, length) in enumerate(files.items()):
            raw, house = self.put(name, self.rng.randbytes(length)), 1 + i % 2
            code, offset, place, deal, table = MODEL.book(deal, table, house, segment_of(raw))
            self.assertEqual(code, 0)
            told = self.answer("book", "deal", "--raw", name, "--house", house)
            commitment = deal[place : place + 32].hex()
            self.assertEqual(told,
                             f"offset {offset}\nplace {place}\nsize {segment_length(length)}\ncommitment {commitment}\n"
                             f"house {house}\n")
            kept[name], self.owner[name] = (raw, place), house
        self.assertEqual(self.both(), (deal, table))
        return deal, kept

    def proved(self, deal, kept, name="certificate.pdf"):
        """The members of the proof of a file, by the model; the proof is written too."""
        raw, place = kept[name]
        self.answer("prove", "deal", name, "-o", "proof", "--force")
        members = proofs.members(deal, NUMBER, place, raw, name)
        self.assertEqual(self.get("proof").decode(), proofs.text(members))
        return members

    def verdict(self, *words, status, **options):
        """The answer of verify with this status: the word and the sentence, as text and for programs."""
        first = self.answer("verify", *words, status=status, **options).splitlines()[0]
        value = json.loads(self.answer("verify", "--json", *words, status=status, **options))
        self.assertEqual((value["code"], f"{value['verdict']}: {value['sentence']}"), (status, first))
        self.assertEqual(value["verdict"], "no" if status else "yes")
        return value


class Story(Houses):
    def test_one_certificate_from_plain_file_to_verified_proof(self):
        deal, kept = self.house()
        root = MODEL.commitment(deal)[1]
        for name, (raw, place) in kept.items():
            offset = int.from_bytes(deal[place + 32 : place + 40], "little")
            found = self.answer("find", "deal", "--raw", name)
            self.assertEqual(found, f"offset {offset}\nsize {segment_length(len(raw))}\nplace {place}\n")
            self.answer("prove", "deal", "-o", f"{name}.proof", "--", name)
            shown = name.replace("\\", "\\\\")
            self.assertEqual(self.get(f"{name}.proof").decode(),
                             proofs.text(proofs.members(deal, NUMBER, place, raw, shown)))
        self.customer(root, kept)
        # Another booking: old proofs belong to the older commitment.
        self.put("late", self.rng.randbytes(500))
        self.answer("book", "deal", "--raw", "late", "--house", 2)
        new = self.answer("commit", "deal").strip()
        value = self.verdict("certificate.pdf.proof", "certificate.pdf", "--commitment", new, status=9)
        self.assertIn(f"the proof is for the commitment {root.hex()}, and {new} is given: ", value["sentence"])
        self.assertIn("every booking and every cancellation gives a deal a new commitment, "
                      "and a record that was built before belongs to the older one", value["sentence"])
        self.verdict("certificate.pdf.proof", "certificate.pdf", "--commitment", root.hex(), status=0)
        self.answer("prove", "deal", "certificate.pdf", "-o", "new.proof")
        self.verdict("new.proof", "certificate.pdf", "--commitment", new, status=0)

    def customer(self, root, kept):
        """Whoever has the file and the proof needs nothing else: the deal and what lies beside it are away."""
        for name in ("deal", "deal.owners", "deal.vz"):
            self.path(name).rename(self.path(f"{name}.away"))
        for name, (raw, place) in kept.items():
            value = self.verdict("--", f"{name}.proof", name, status=0)
            shown = name.replace("\\", "\\\\")
            self.assertTrue(value["sentence"].startswith(f"{shown} is in the deal with the number {NUMBER}: "
                                                         f"its {len(raw)} bytes, "))
            self.assertEqual((value["place"], value["deal_commitment"], value["name"]), (place, root.hex(), shown))
            self.assertEqual(value["from_proof"], ["commitment", "size", "number"])
            self.assertIn(f"this holds for the deal whose commitment is {root.hex()}; that commitment was read from",
                          value["condition"])
            self.assertIn("a source that you trust", value["condition"])
        for commitment in (root.hex(), proofs.cid(root)):
            known = "--commitment", commitment, "--size", 1 << 20, "--number", NUMBER
            value = self.verdict("certificate.pdf.proof", "certificate.pdf", *known, status=0)
            self.assertEqual((value["from_proof"], "condition" in value), ([], False))
            value = self.verdict("certificate.pdf.proof", "certificate.pdf", *known[:2], status=0)
            self.assertEqual(value["from_proof"], ["size", "number"])
            self.assertIn("the deal's size and number were read from", value["condition"])
        for name in ("deal", "deal.owners", "deal.vz"):
            self.path(f"{name}.away").rename(self.path(name))

    def test_the_example_of_the_format(self):
        self.put("first", b"\1" * 128)
        file = self.put("letter.txt", bytes.fromhex("02" * 31 + "82" + "80" * 31 + "20" * 32 + "08" * 4))
        self.answer("new", "deal", 512, "--number", 2026)
        self.answer("book", "deal", "first")
        self.answer("book", "deal", "--raw", "letter.txt")
        self.answer("prove", "deal", "letter.txt", "-o", "proof")
        self.assertEqual(self.get("proof").decode(),
                         proofs.text(proofs.members(self.get("deal"), 2026, 320, file, "letter.txt")))
        self.verdict("proof", "letter.txt", status=0)

    def test_a_segment_that_is_no_plain_file(self):
        deal, places = self.booked(1024, (256, 128))
        self.put("segment", deal[:256])
        self.answer("prove", "deal", "--segment", "segment", "-o", "proof", *GIVEN)
        self.assertEqual(self.get("proof").decode(),
                         proofs.text(proofs.members(deal, NUMBER, places[0], deal[:256], "segment", "none")))
        value = self.verdict("proof", "segment", status=0)
        self.assertIn("its 256 bytes, a segment as it is, stand at byte 0", value["sentence"])

    def test_the_largest_file_and_the_largest_deal(self):
        raw = self.put("raw", self.rng.randbytes(1 << 20) * 8)[:MAX_RAW]
        self.put("raw", raw)
        self.answer("new", "deal", 1 << 24, *GIVEN)
        self.answer("book", "deal", "--raw", "raw")
        self.answer("prove", "deal", "raw", "-o", "proof")
        self.verdict("proof", "raw", status=0)
        self.put("raw", raw[:-1] + bytes([raw[-1] ^ 1]))
        self.verdict("proof", "raw", status=NOT_PROVED)


class Lies(Houses):
    """Proof files that were changed: none verifies unless it says the same."""

    def judged(self, text, file="certificate.pdf"):
        """The exit status for a proof file of these bytes. No file ends in a crash, and none without a word on what is
        wrong."""
        self.put("changed", text if isinstance(text, bytes) else text.encode())
        ran = subprocess.run([self.program, "verify", "changed", file], capture_output=True, cwd=self.folder,
                             timeout=60)
        self.assertNotIn(b"panicked", ran.stderr)
        self.assertIn(ran.returncode, (*range(25), DATA, NOT_PROVED), ran)
        if ran.returncode == DATA:
            self.assertRegex(ran.stderr, rb"\Avizhuthamen: changed is not a proof file, or is damaged: [^\n]+\n\Z")
            self.assertEqual(ran.stdout, b"")
        else:
            self.assertTrue(ran.stdout.startswith(b"no: " if ran.returncode else b"yes: "), ran)
        return ran.returncode, (ran.stdout + ran.stderr).decode()

    def others(self, name, value, other):
        """Other values of a member: those of another proof, near ones, and some that are none."""
        values = [other, "", " ", value + " ", "0" + value, value[:-1], value + "0", value.upper(), value.lower(), "-1",
                  "x", "\0", "null"]
        if value.isdigit():
            number = int(value)
            values += [str(n % (1 << 64))
                       for n in (number - 1, number + 1, 2 * number, number + 64, number - 64, number ^ 1 << 63)]
            values += [str(1 << 64), "1e3", f"{number}.0"]
        else:
            for at in range(0, len(value), max(1, len(value) // 6)):
                values.append(value[:at] + ("1" if value[at] != "1" else "2") + value[at + 1:])
        return [changed for changed in dict.fromkeys(values) if changed != value]

    def test_every_member_changed(self):
        deal, kept = self.house()
        second = self.proved(deal, kept, "128")
        members = self.proved(deal, kept)
        self.assertEqual(self.judged(proofs.text(members))[0], 0)
        tried = 0
        for name in proofs.MEMBERS:
            for value in self.others(name, members[name], second[name]):
                tried += 1
                status, told = self.judged(proofs.text({**members, name: value}))
                self.assertNotEqual(status, 0, (name, value))
                if name in ("name", "claim", "check"):
                    self.assertEqual(status, NOT_PROVED)
                    self.assertIn(f"its member {'check' if name == 'name' else name} is not", told)
        self.assertGreater(tried, 300)

    def test_lies_that_are_sealed_anew(self):
        """Whoever changes a member and works out sentence and check value anew gets nothing by it."""
        deal, kept = self.house()
        second = self.proved(deal, kept, "128")
        members = self.proved(deal, kept)
        named = 0
        for name in proofs.MEMBERS[3:-1]:
            for value in self.others(name, members[name], second[name]):
                lie = {**members, name: value}
                if name == "padding" and value not in ("Fr32", "none"):
                    continue
                status, told = self.judged(proofs.text(proofs.sealed(lie)))
                if name == "name":
                    self.assertEqual(status, 0)  # nothing proves a name
                    continue
                self.assertNotEqual(status, 0, (name, value))
                if status != DATA and name not in ("record", "padding", "length", "sha256"):
                    self.assertEqual(status, NOT_PROVED)
                    self.assertIn("it contradicts itself: ", told)
                    self.assertIn(f"its member {name} ", told)
                    named += 1
        self.assertGreater(named, 60)
        status, told = self.judged(proofs.text(proofs.sealed({**members, "sha256": "ab" * 32})))
        self.assertEqual(status, NOT_PROVED)
        self.assertIn(f"its member sha256 says {'ab' * 32}, and certificate.pdf, of which its record is, "
                      f"has {members['sha256']}", told)
        status, told = self.judged(proofs.text(proofs.sealed({**members, "padding": "none"})))
        self.assertEqual(status, 11)  # as it is the file is no segment

    def test_a_record_of_another_file(self):
        """A proof whose members all agree, but whose record is that of another file of the deal."""
        deal, kept = self.house(files={"certificate.pdf": 1000, "128": 1000})
        second = self.proved(deal, kept, "128")
        members = self.proved(deal, kept)
        lie = proofs.sealed({**second, "sha256": members["sha256"], "name": members["name"]})
        status, told = self.judged(proofs.text(lie))
        self.assertEqual(status, NOT_PROVED)
        self.assertIn("the record in it is that of another file: it names the segment commitment", told)

    def test_every_member_removed_or_twice_or_more(self):
        deal, kept = self.house()
        members = self.proved(deal, kept)
        for name in proofs.MEMBERS:
            status, told = self.judged(proofs.text(members, [other for other in proofs.MEMBERS if other != name]))
            self.assertEqual(status, DATA)
            self.assertIn(f"member {name}", told)
            twice = proofs.text(members).replace("{\n", "{\n" + f'  "{name}": {json.dumps(members[name])},\n', 1)
            status, told = self.judged(twice)
            self.assertEqual(status, DATA)
            self.assertIn(f'the member "{name}" stands here a second time', told)
            for value in ("1", "null", "true", "[]", "{}", '["x"]', "-1", ""):
                status, told = self.judged(proofs.text(members).replace(
                    f'"{name}": {json.dumps(members[name], ensure_ascii=False)}', f'"{name}": {value}'))
                self.assertEqual(status, DATA)
                self.assertRegex(told, {"": rf'line \d+, column \d+: .* stands where the value of "{name}" is needed',
                                        "-1": r"line \d+, column \d+: the number here is no whole one"}.get(
                                            value, rf'the value of its member "{name}" is no text in quotation marks'))
        status, told = self.judged(proofs.text({**members, "note": "x"}, [*proofs.MEMBERS, "note"]))
        self.assertEqual(status, DATA)
        self.assertIn('it has the member "note", which no proof of version 1 has', told)

    def test_any_two_members_exchanged(self):
        deal, kept = self.house()
        second = self.proved(deal, kept, "128")
        members = self.proved(deal, kept)
        for name in proofs.MEMBERS[2:]:
            for other in proofs.MEMBERS[2:]:
                if members[name] != members[other]:
                    self.assertNotEqual(self.judged(proofs.text(
                        {**members, name: members[other], other: members[name]}))[0], 0)
        for _ in range(60):
            names = self.rng.sample(proofs.MEMBERS[2:-1], self.rng.randrange(1, 15))
            mixed = {**members, **{name: second[name] for name in names}}
            for proof in (mixed, proofs.sealed(mixed)):
                same = all(proof[name] == members[name] for name in proofs.MEMBERS
                           if name not in ("name", "claim", "check"))
                self.assertEqual(self.judged(proofs.text(proof))[0] == 0,
                                 same and proof["check"] == proofs.check(proof))

    def test_bytes_changed_lost_and_added(self):
        deal, kept = self.house()
        members = self.proved(deal, kept)
        text = self.get("proof")
        same = 0
        for i in range(500):
            at = self.rng.randrange(len(text))
            changed = (text[:at] + bytes([text[at] ^ 1 << self.rng.randrange(8)]) + text[at + 1:],
                       text[:at] + text[at + 1:], text[:at] + bytes([self.rng.choice(b' \n"0a{,\\\xff')]) + text[at:],
                       text[:at] + text[at + self.rng.randrange(2, 200):])[i % 4]
            status, told = self.judged(changed)
            if status == 0:
                self.assertEqual(json.loads(changed), members)
                same += 1
        self.assertLess(same, 50)
        for at in [*range(0, len(text) - 2, 29), len(text) - 2]:
            status, told = self.judged(text[:at])
            self.assertEqual(status, DATA)
            self.assertRegex(told, r"line \d+, column \d+: ")

    def test_texts_that_say_the_same(self):
        deal, kept = self.house()
        members = self.proved(deal, kept)
        turned = dict(reversed(members.items()))
        escape = "\\u{:04x}".format
        values = {name: "".join(escape(ord(c)) for c in value) for name, value in members.items()}
        escaped = "{" + ",".join(f'"{name}":"{value}"' for name, value in values.items()) + "}"
        for text in (json.dumps(members), json.dumps(turned, indent=8), "\n\t " + json.dumps(members) + "\r\n ",
                     escaped, proofs.text(members).replace("\n", "\r\n")):
            self.assertEqual(self.judged(text)[0], 0)

    def test_files_that_are_no_proof(self):
        deal, kept = self.house()
        members = self.proved(deal, kept)
        for text, why in ((b"", "line 1, column 1: the text ends where a JSON value is needed"),
                          (b"%PDF-1.7\n", "line 1, column 1: '%' stands where a JSON value is needed"),
                          (self.get("deal")[:300], "line 1"),
                          (b"\xff\xfe{", "line 1, column 1: a byte that is no text"),
                          (b"{}", "the member form, \"vizhuthamen proof\" in a proof, is missing"),
                          (b'{"a": "b"}', "a file of another kind"),
                          (b"[]", "it is no object"), (bytes(100000), "more than 65536 bytes"),
                          (proofs.text({**members, "form": "receipt"}).encode(), 'in a proof, says "receipt"'),
                          (proofs.text({**members, "version": "2"}).encode(),
                           'its version is "2", and this program reads version "1"')):
            status, told = self.judged(text)
            self.assertEqual(status, DATA)
            self.assertIn(why, told)
        error = self.failed(DATA, "verify", "certificate.pdf", "proof")
        self.assertIn("; proof is one: the proof comes first, and then the file", error)


class OtherFiles(Houses):
    def test_no_other_file_is_proved(self):
        deal, kept = self.house()
        members = self.proved(deal, kept)
        raw = kept["certificate.pdf"][0]
        for data in (b"", raw[:-1], raw + b"\0", raw + raw, b"x", bytes(1 << 20)):
            self.put("other", data)
            value = self.verdict("proof", "other", status=NOT_PROVED)
            self.assertIn(f"other is another file: it has {len(data)} bytes, and the proof is of one of 1000",
                          value["sentence"])
            self.assertNotIn("member", value)
        for at in (0, 31, 500, 999):
            data = self.put("other", raw[:at] + bytes([raw[at] ^ 1 << self.rng.randrange(8)]) + raw[at + 1:])
            value = self.verdict("proof", "other", status=NOT_PROVED)
            self.assertEqual(value["meaning"], "the proof is of another file")
            digests = hashlib.sha256(data).hexdigest(), members["sha256"]
            self.assertIn("but others: its SHA-256 is {}, and not {}".format(*digests), value["sentence"])
        self.verdict("proof", "-", status=0, stdin=raw)
        self.verdict("-", "certificate.pdf", status=0, stdin=self.get("proof"))
        with open(self.path("long"), "wb") as file:
            file.truncate(1 << 40)
        self.assertIn(f"it has {1 << 40} bytes", self.verdict("proof", "long", status=NOT_PROVED)["sentence"])
        for words in (("missing", "certificate.pdf"), ("proof", "missing"), (".", "certificate.pdf"), ("proof", ".")):
            self.failed(IO, "verify", *words)

    def test_what_the_reader_knows_of_the_deal(self):
        deal, kept = self.house()
        members = self.proved(deal, kept)
        words = "proof", "certificate.pdf"
        root = bytes.fromhex(members["deal_commitment"])
        other = bytes([root[0] ^ 1]) + root[1:]
        self.assertIn(f"and {other.hex()} is given",
                      self.verdict(*words, "--commitment", proofs.cid(other), status=9)["sentence"])
        self.verdict(*words, "--commitment", "00" * 31, status=1)
        value = self.verdict(*words, "--number", OTHER, status=21)
        self.assertIn(f"it names deal number {NUMBER}, and {OTHER} is asked for", value["sentence"])
        self.verdict(*words, "--size", 1000, status=2)
        value = self.verdict(*words, "--size", 1 << 21, status=6)
        self.assertIn(f"no entry stands at byte {members['place']} of a deal of {1 << 21} bytes", value["sentence"])
        # The proof names another commitment than its record leads to, and the reader knows the right one.
        lie = proofs.sealed({**members, "deal_commitment": other.hex(), "deal_cid": proofs.cid(other)})
        self.put("proof", proofs.text(lie).encode())
        self.verdict(*words, status=9)
        value = self.verdict(*words, "--commitment", root.hex(), status=NOT_PROVED)
        self.assertEqual(value["member"], "deal_commitment")
        self.assertIn(f"says {other.hex()}, and the record in it leads to {root.hex()}", value["sentence"])

    def test_a_deal_that_no_memory_holds(self):
        """A record of a deal of 2^36 bytes, whose other nodes are anything."""
        raw = self.put("file", self.rng.randbytes(100))
        commitment = proofs.commitment_of(segment_of(raw))
        size, place = 1 << 36, (1 << 36) - 64
        entry = MODEL.entry(commitment, 0, segment_length(100))
        nodes = [self.rng.randbytes(31) + b"\0" for _ in range(29)]
        left, right = commitment, MODEL.h.node(entry)
        for node in nodes[:28]:  # both halves of the deal, from their lowest level
            left = MODEL.h.node(left + node)
        for node in nodes:
            right = MODEL.h.node(node + right)
        root = MODEL.h.node(left + right)
        fields = ((1, commitment), (2, bytes(8)), (3, segment_length(100).to_bytes(8, "little")),
                  (4, place.to_bytes(8, "little")),
                  (5, b"".join(nodes[:28]) + right), (6, b"".join(nodes) + left), (7, NUMBER.to_bytes(8, "little")))
        record = b"".join(bytes([tag]) + len(content).to_bytes(2, "little") + content for tag, content in fields)
        self.assertEqual(MODEL.check(root, size, NUMBER, record), 0)
        self.put("proof", proofs.text(proofs.sealed({
            "form": "vizhuthamen proof", "version": "1", "name": "file", "padding": "Fr32", "length": "100",
            "sha256": hashlib.sha256(raw).hexdigest(), "segment_size": str(segment_length(100)),
            "segment_commitment": commitment.hex(), "segment_cid": proofs.cid(commitment), "offset": "0",
            "place": str(place), "deal_number": str(NUMBER), "deal_size": str(size),
            "deal_commitment": root.hex(), "deal_cid": proofs.cid(root), "record": record.hex()})).encode())
        value = self.verdict("proof", "file", "--commitment", root.hex(), "--size", size, "--number", NUMBER, status=0)
        self.assertEqual((value["deal_size"], value["place"]), (size, place))


class Proving(Houses):
    def test_outputs(self):
        deal, kept = self.house()
        text = proofs.text(proofs.members(deal, NUMBER, kept["128"][1], kept["128"][0], "128"))
        self.put("old", b"precious")
        error = self.failed(IO, "prove", "deal", "128", "-o", "old")
        self.assertIn("cannot write old: the file exists, with other bytes; "
                      "give another name, or --force to replace it", error)
        self.assertEqual(self.get("old"), b"precious")
        self.answer("prove", "deal", "128", "-o", "old", "--force")
        self.assertEqual(self.get("old").decode(), text)
        self.answer("prove", "deal", "128", "-o", "old")  # it has the very bytes
        self.assertEqual(self.answer("prove", "deal", "128", "-o", "-"), text)
        for name in ("deal", "128", "./128"):
            for option in ((), ("--force",)):
                self.assertIn(f"--output would replace {name}, which was read",
                              self.failed(USAGE, "prove", "deal", "128", "-o", name, *option))
        self.assertEqual((self.get("deal"), self.get("128")), (deal, kept["128"][0]))
        self.failed(USAGE, "prove", "deal", "128")
        self.failed(USAGE, "prove", "deal", "128", "-o", "-", "--json")
        self.failed(IO, "prove", "deal", "128", "-o", "no/such/folder")
        for words in (("missing", "128"), ("deal", "missing"), (".", "128"), ("deal", ".")):
            self.failed(IO, "prove", *words, "-o", "new", *GIVEN)
        value = json.loads(self.answer("prove", "deal", "128", "-o", "new", "--json", "--cid"))
        root = MODEL.commitment(deal)[1]
        self.assertEqual((value["deal_commitment"], value["deal_cid"], value["deal_number"]),
                         (root.hex(), proofs.cid(root), str(NUMBER)))
        self.assertEqual(self.files(), sorted(["deal", "deal.owners", "deal.vz", "new", "old", *FILES]))

    def test_of_a_deal_that_is_closed_and_of_one_that_is_not(self):
        deal, kept = self.house()
        prove = "prove", "deal", "certificate.pdf", "-o", "proof"
        self.assertEqual(self.call(*prove)[1],
                         "vizhuthamen: deal is not closed: "
                         "the next booking or cancellation gives it another commitment, "
                         "and this proof is then one of an older deal; it is closed by: vizhuthamen close deal\n")
        self.answer("close", "deal")
        self.assertEqual(self.call(*prove)[1], "")
        self.put("deal", deal[:-64] + MODEL.entry(bytes(32), 0, 128))
        self.put("proof", b"")
        error = self.failed(DATA, *prove, "--force")
        self.assertIn(f"deal was closed with the commitment {MODEL.commitment(deal)[1].hex()}, and has ", error)
        self.assertIn("; no proof is written; see: vizhuthamen fsck deal", error)
        self.assertEqual(self.get("proof"), b"")
        # Of a pipe nothing is known.
        piped = ("prove", "/dev/stdin", "certificate.pdf", "-o", "piped", *GIVEN)
        with subprocess.Popen(["cat", self.path("deal")], stdout=subprocess.PIPE) as cat:
            ran = subprocess.run([self.program, *map(str, piped)], cwd=self.folder, stdin=cat.stdout,
                                 capture_output=True)
        self.assertEqual((ran.returncode, ran.stderr), (0, b""))

    def test_a_file_that_is_in_the_manifest_alone(self):
        self.put("letter", b"letter")
        self.answer("pack", "letter", "--deal", "deal", "--number", 7)
        self.path("letter").unlink()
        error = self.failed(IO, "prove", "deal", "letter", "-o", "proof")
        self.assertTrue(error.endswith("; the manifest has it: vizhuthamen extract deal letter\n"), error)
        self.assertNotIn("manifest", self.failed(IO, "prove", "deal", "other", "-o", "proof"))
        self.answer("extract", "deal", "letter")
        self.answer("prove", "deal", "letter", "-o", "proof")

    def test_a_record_for_a_proof_and_a_proof_for_a_record(self):
        deal, kept = self.house()
        members = self.proved(deal, kept)
        self.put("record", bytes.fromhex(members["record"]))
        error = self.failed(DATA, "verify", "record", "certificate.pdf")
        self.assertIn("it is an inclusion record, which is checked by: "
                      "vizhuthamen check COMMITMENT SIZE record --number N", error)
        said = "it is a proof file and no record: whether it holds is said by: vizhuthamen verify PROOF FILE"
        self.assertIn(said, self.refused(3, "check", members["deal_commitment"], 1 << 20, "proof", *GIVEN))
        self.assertIn(said, self.refused(3, "settle-deal", "deal", "proof"))
        self.assertIn(said, self.refused(3, "settle", members["deal_commitment"], 1 << 20, "record", "proof", *GIVEN))

    def test_a_proof_is_written_whole_or_not_at_all(self):
        self.house(files={"128": 128})
        before = self.files()

        def limit(size, ignore):
            def limited():
                resource.setrlimit(resource.RLIMIT_FSIZE, (size, size))
                signal.signal(signal.SIGXFSZ, signal.SIG_IGN if ignore else signal.SIG_DFL)
            return {"preexec_fn": limited, "restore_signals": False}
        for size in (0, 1, 1000):
            self.assertIn("File too large", self.failed(IO, "prove", "deal", "128", "-o", "proof", **limit(size, True)))
            self.call("prove", "deal", "128", "-o", "proof", status=-signal.SIGXFSZ, **limit(size, False))
            self.assertEqual(self.files(), before)
        self.put("proof", b"old")
        self.failed(IO, "prove", "deal", "128", "-o", "proof", "--force", **limit(1000, True))
        self.assertEqual(self.get("proof"), b"old")

    def test_the_number(self):
        deal, places = self.booked(1024, (256, 128))
        self.put("segment", deal[:256])
        words = "prove", "deal", "--segment", "segment", "-o", "proof"
        self.assertIn("the number of deal is not known; give --number N", self.failed(DATA, *words))
        self.answer("number", "deal", NUMBER)
        self.assertIn("and --number says", self.failed(DATA, *words, "--number", OTHER))
        self.answer(*words)
        self.assertEqual(json.loads(self.get("proof"))["deal_number"], str(NUMBER))

    def noted(self, status, *words):
        out, err = self.call("prove", "deal", *words, "-o", "proof", status=status)
        self.assertTrue(out.startswith(f"code {status}: "), out)
        self.assertFalse(self.path("proof").exists())
        return err

    def test_files_that_the_deal_does_not_keep(self):
        deal, kept = self.house()
        raw, place = kept["certificate.pdf"]
        self.put("unknown", self.rng.randbytes(300))
        self.assertIn("deal does not keep unknown; what it keeps is shown by: vizhuthamen list deal",
                      self.noted(16, "unknown"))
        self.put("zeros", raw + b"\0\0")
        note = (f"at place {place} a file that differs in the zeros at its end alone: "
                "its segment has 1008 bytes, and that of zeros 1010")
        self.assertIn(note, self.noted(16, "zeros"))
        self.put("segment", segment_of(raw))
        self.assertIn("deal keeps segment as it is and not padded: prove takes such a segment with --segment",
                      self.noted(16, "segment"))
        self.assertIn("has stray bits, first in byte", self.noted(11, "--segment", "certificate.pdf"))
        self.put("text", b"text")
        self.answer("book", "deal", "--raw", "text", "--house", 2)
        self.assertIn("deal keeps text padded, as a plain file: prove takes it without --segment",
                      self.noted(16, "--segment", "text"))
        self.put("empty", b"")
        self.assertIn("empty has 0 bytes; an archive has from 1 to", self.noted(2, "empty"))
        self.put("long", bytes(MAX_RAW + 1))
        self.noted(2, "long")
        spoilt = bytearray(self.get("deal"))
        spoilt[int.from_bytes(spoilt[place + 32 : place + 40], "little")] ^= 1
        self.put("deal", bytes(spoilt))
        self.assertIn("has the entry of certificate.pdf, but the bytes in deal are no longer its own; see: "
                      "vizhuthamen fsck deal",
                      self.noted(16, "certificate.pdf"))
        spoilt[31] |= 0x40
        self.put("deal", bytes(spoilt))
        self.assertIn("vizhuthamen fsck deal", self.noted(11, "certificate.pdf"))

    def test_the_place_that_is_meant(self):
        """Two houses may have booked one segment, and one area may have two sizes."""
        raw = self.put("file", self.rng.randbytes(100))
        segment = segment_of(raw)
        deal = bytearray(MODEL.book(bytes(2048), bytes(4), 1, segment)[3])
        deal[256 : 256 + len(segment)] = segment
        commitment = proofs.commitment_of(segment)
        deal[1792:1856] = MODEL.entry(commitment, 0, len(segment) + 1)  # a longer one with zeros, in the lowest slot
        deal[1856:1920] = MODEL.entry(commitment, 256, len(segment))
        deal[1920:1984] = MODEL.entry(commitment, 0, len(segment))
        self.put("deal", bytes(deal))
        for option, place, offset in (((), 1856, 256), (("--place", 1856), 1856, 256), (("--place", 1920), 1920, 0),
                                      (("--slot", 1), 1856, 256), (("--slot", 2), 1920, 0)):
            out = self.answer("prove", "deal", "file", "-o", "made", "--force", *GIVEN, *option)
            self.assertIn(f"offset {offset}\nplace {place}\n", out)
            self.verdict("made", "file", status=0)
        self.assertEqual(self.answer("find", "deal", "--raw", "file"), f"offset 256\nsize {len(segment)}\nplace 1856\n")
        for option in (("--place", 1792), ("--place", 1984), ("--slot", 0), ("--slot", 3)):
            self.assertIn(f"without {option[0]} file is looked for in all of deal",
                          self.noted(16, "file", *GIVEN, *option))
        for option in (("--place", 1800), ("--slot", 4)):
            self.assertIn("an entry place here is a multiple of 64 from 1792 to 1984",
                          self.noted(6, "file", *GIVEN, *option))
        self.failed(USAGE, "prove", "deal", "file", "-o", "proof", *GIVEN, "--place", 1856, "--slot", 1)


class PlainFiles(Houses):
    def test_as_pad_and_the_plain_command(self):
        deal, kept = self.house()
        for name, (raw, place) in kept.items():
            self.put("padded", segment_of(raw))
            for option, file in (("--raw", name), (None, "padded")):
                words = ("book", "deal", option, file) if option else ("book", "deal", file)
                self.assertIn(f"place {place}\n", self.answer(*words, "--house", self.owner[name], status=15))
            commitment = proofs.commitment_of(segment_of(raw)).hex()
            self.assertEqual(self.answer("commit", "--raw", name), commitment + "\n")
            self.assertEqual(self.answer("find", "deal", "--raw", name), self.answer("find", "deal", commitment))
            self.answer("find", "deal", "--raw", name, "-o", "found", "--force")
            self.assertEqual(self.get("found"), segment_of(raw))
        self.assertIn("place", self.answer("find", "deal", "--raw", "-", stdin=kept["128"][0]))
        value = json.loads(self.answer("commit", "--raw", "128", "--json"))
        self.assertEqual((value["raw_length"], value["size"], value["area"]), (128, 130, 256))

    def test_a_plain_file_where_a_segment_is_wanted(self):
        self.house(size=4096, files={"128": 128})
        raw = self.put("plain", b"\xff" * 1000)
        deal = self.get("deal")
        out, err = self.call("book", "deal", "plain", status=11)
        self.assertIn("plain has stray bits, first in byte 31, and no segment has such; "
                      "a plain file is padded and booked by: vizhuthamen book deal --raw plain\n", err)
        self.assertEqual(self.get("deal"), deal)
        for status, size in ((2, 1000), (11, 512)):
            self.put("plain", raw[:size])
            run = "the commitment of a plain file is printed by: vizhuthamen commit --raw"
            self.assertIn(f"{run} plain\n", self.call("commit", "plain", status=status)[1])
            self.assertIn(f"{run} -\n", self.call("commit", "-", status=status, stdin=raw[:size])[1])
            self.assertIn("vizhuthamen stream --raw", self.call("stream", "plain", status=status)[1])
        self.put("plain", bytes(319) + b"\x40" + bytes(192))
        for words in (("commit", "plain"), ("stream", "plain"), ("stream", "-")):
            self.assertIn("has stray bits, first in byte 319", self.call(*words, status=11, stdin=self.get("plain"))[1])
        err = self.call("repair", "deal", "--segment", "plain", status=11)[1]
        self.assertIn("plain has stray bits, first in byte 319, and no segment has such; "
                      "a plain file is given with --raw\n", err)
        error = self.failed(USAGE, "find", "deal", "plain")
        self.assertIn("a commitment is needed, and plain is a file; a plain file is found by: "
                      "vizhuthamen find deal --raw plain;", error)
        error = self.failed(USAGE, "check", "plain", 512, "record", *GIVEN)
        self.assertIn("that of a plain file is printed by: vizhuthamen commit --raw plain;", error)
        self.put("long", bytes(2100))
        err = self.call("book", "deal", "--raw", "long", status=4)[1]
        self.assertIn("the segment of long has 2117 bytes; a segment here has 1 to 2048 bytes", err)
        self.put("empty", b"")
        self.assertIn("empty has 0 bytes; an archive has from 1 to",
                      self.call("book", "deal", "--raw", "empty", status=2)[1])
        self.assertIn("not keep long", self.call("find", "deal", "--raw", "long", status=16)[1])


class Cids(Calls):
    ZEROS = "baga6ea4seaqdomn3tgwgrh3g532zopskstnbrd2n3sxfqbze7rxt7vqn7veigmy"

    def test_known_values(self):
        self.put("zeros", bytes(128))
        self.assertEqual(self.answer("commit", "zeros", "--cid"), self.ZEROS + "\n")
        self.assertEqual(self.answer("stream", "zeros", "--cid"), self.ZEROS + "\n")
        value = json.loads(self.answer("commit", "zeros", "--cid", "--json"))
        self.assertEqual((value["cid"], value["commitment"]), (self.ZEROS, MODEL.commitment(bytes(128))[1].hex()))
        self.assertNotIn("cid", json.loads(self.answer("commit", "zeros", "--json")))
        self.put("raw", bytes(127))
        self.assertEqual(self.answer("commit", "--raw", "raw", "--cid"), self.ZEROS + "\n")

    def test_taken_wherever_a_commitment_is(self):
        deal, places = self.booked(1024, (256, 128))
        root, commitment = MODEL.commitment(deal)[1], deal[places[0] : places[0] + 32]
        record = self.put("record", MODEL.build(deal, NUMBER, places[0])[1])
        self.assertEqual(self.answer("find", "deal", proofs.cid(commitment)),
                         self.answer("find", "deal", commitment.hex()))
        self.answer("check", proofs.cid(root), 1024, "record", *GIVEN)
        self.answer("settle", proofs.cid(root), 1024, "record", "record", *GIVEN)
        self.refused(9, "check", proofs.cid(commitment), 1024, "record", *GIVEN)
        self.failed(DATA, "cancel", "deal", places[0], "--commitment", proofs.cid(root))
        self.answer("cancel", "deal", places[0], "--commitment", proofs.cid(commitment))
        spoilt = bytearray(deal)
        spoilt[places[0] + 50] ^= 1
        self.put("deal", bytes(spoilt))
        self.answer("repair", "deal", "--commitment", proofs.cid(commitment))
        self.assertEqual((self.get("deal"), self.get("record")), (deal, record))

    def test_shown_wherever_a_commitment_is(self):
        deal, places = self.booked(1024, (256, 128))
        self.put("record", MODEL.build(deal, NUMBER, places[0])[1])
        self.put("segment", deal[:256])
        table = self.get("deal.owners")
        cids = {deal[p : p + 32].hex(): proofs.cid(deal[p : p + 32]) for p in places}
        for words, status in ((("list", "deal"), 0), (("book", "deal", "segment"), 15), (("show", "record"), 0),
                              (("collect", "deal", "new"), 0), (("fsck", "deal"), 0), (("owner", "deal"), 0),
                              (("cancel", "deal", places[0]), 0)):
            if words[0] == "collect":
                plain = self.answer("collect", "deal", "other", status=status)
            elif words[0] == "cancel":
                plain = self.answer(*words, status=status)
                self.put("deal", deal)
                self.put("deal.owners", table)
            else:
                plain = self.answer(*words, status=status)
            expected = plain
            for hexed, cid in cids.items():
                expected = expected.replace(hexed, cid)
            self.assertEqual(self.answer(*words, "--cid", status=status), expected)
            self.assertEqual(expected != plain, words[0] != "fsck", words)
        self.put("deal", deal)
        # names of files
        self.assertEqual(self.answer("salvage", "deal", "out", "--cid"), self.answer("salvage", "deal", "out"))
        slots = json.loads(self.answer("list", "deal", "--json", "--cid"))["slots"]
        self.assertEqual({slot["commitment"]: slot["cid"] for slot in slots[:2]}, cids)
        self.assertNotIn("cid", slots[2])
        fields = json.loads(self.answer("show", "record", "--json", "--cid"))["fields"]
        self.assertEqual((fields[0]["content"], fields[0]["cid"]), tuple(cids.items())[0])

    def test_malformed_ones(self):
        self.put("record", b"")
        node = MODEL.commitment(bytes(128))[1]
        sealed = "b" + proofs.base64.b32encode(bytes.fromhex("0182e203922020") + node).decode().lower().rstrip("=")
        for text, why in ((self.ZEROS[:-1], "its last characters make no whole byte"),
                          (self.ZEROS + "a", "it is too long: 1 bytes follow"),
                          (self.ZEROS.upper(), "it does not begin with b"),
                          (self.ZEROS[:20] + "1" + self.ZEROS[21:], "'1', its character 21,"),
                          (sealed, "its codec is 0xf102, not fil-commitment-unsealed (0xf101)"),
                          ("bafkreigh2akiscaildcqabsyg3dfr6chu3fgpregiymsck7e7aqa4s52zy", "its codec is 0x55"),
                          ("QmYwAPJzv5CZsnA625s3Xf2nemtYgPpHdWEz79ojWKPbdG", "it does not begin with b"),
                          ("abc", "it does not begin with b")):
            for words in (("find", "deal", text), ("check", text, 512, "record", *GIVEN),
                          ("verify", "p", "f", "--commitment", text)):
                self.assertIn(f"no commitment in hex, and no piece CID ({why}", self.failed(USAGE, *words))


class Settling(Calls):
    def setUp(self):
        super().setUp()
        self.deal, self.places = self.booked(1024, (256, 128))
        self.root = MODEL.commitment(self.deal)[1].hex()
        record = self.put("right", MODEL.build(self.deal, NUMBER, self.places[0])[1])
        self.put("second", MODEL.build(self.deal, NUMBER, self.places[1])[1])
        self.put("number", MODEL.build(self.deal, OTHER, self.places[0])[1])
        self.put("cut", record[:-1])
        self.put("forged", record[:-12] + bytes([record[-12] ^ 1]) + record[-11:])
        older = MODEL.book(self.deal, self.get("deal.owners"), 2, b"\1" * 128)[3]
        self.put("older", MODEL.build(older, NUMBER, self.places[0])[1])

    REASONS = {"older": (9, "a record that was built before belongs to the older one"),
               "forged": (10, "the index entry is not"),
               "number": (21, f"it names deal number {OTHER}, and {NUMBER} is asked for"),
               "cut": (3, "not the fields of a record")}

    def sentence(self, which, name, place=None):
        if name in self.REASONS:
            return f"the {which} record, {name}, is refused with code {self.REASONS[name][0]}: "
        return f"the {which} record, {name}, is accepted, as that of the entry at place {self.places[name == 'second']}"

    def test_which_record_is_refused_and_why(self):
        names = ("right", *self.REASONS)
        for first in names:
            for second in names:
                refused = [(which, name) for which, name in (("first", first), ("second", second))
                           if name in self.REASONS]
                if not refused:
                    continue
                code, why = self.REASONS[refused[0][1]]
                words = "settle", self.root, 1024, first, second, *GIVEN
                _, *lines = self.refused(code, *words).splitlines()
                self.assertEqual(len(lines), 2)
                for line, which, name in zip(lines, ("first", "second"), (first, second)):
                    self.assertTrue(line.startswith(self.sentence(which, name)), line)
                    self.assertIn(self.REASONS.get(name, (0, ""))[1], line)
                value = json.loads(self.answer(*words, "--json", status=code))
                self.assertEqual(value["refused"], [which for which, _ in refused])
                self.assertEqual([r["sentence"] for r in value["verdicts"]], lines)
                self.assertEqual([r["code"] for r in value["verdicts"]],
                                 [self.REASONS.get(name, (0,))[0] for name in (first, second)])
                self.assertIn(why, value["hint"])
                self.assertEqual(value.get("record_number"), str(OTHER) if "number" in (first, second) else None)

    def test_two_entries(self):
        words = "settle", self.root, 1024, "right", "second", *GIVEN
        lines = self.refused(18, *words).splitlines()[1:]
        self.assertEqual(lines, [self.sentence("first", "right"), self.sentence("second", "second"),
                                 "both records are accepted: they are of two different entries, "
                                 "and neither speaks against the other"])
        value = json.loads(self.answer(*words, "--json", status=18))
        self.assertEqual((value["refused"], value["hint"]), ([], lines[2]))

    def test_nothing_to_settle_by(self):
        self.assertIn("nothing is said of the records: the deal's commitment that is given is not 32 bytes long\n",
                      self.refused(1, "settle", self.root[:-2], 1024, "right", "right", *GIVEN))
        self.assertIn("nothing is said of the records: 1000 is no size of a deal",
                      self.refused(2, "settle", self.root, 1000, "right", "right", *GIVEN))

    def test_check_and_settle_deal_say_why(self):
        for name, (code, why) in self.REASONS.items():
            for words in (("check", self.root, 1024, name, *GIVEN), ("settle-deal", "deal", name, *GIVEN)):
                out = self.refused(code, *words)
                self.assertEqual(out.count("\n"), 2)
                self.assertIn(why.removeprefix("it "), out)
                value = json.loads(self.answer(*words, "--json", status=code))
                self.assertEqual(value["hint"], out.splitlines()[1])


if __name__ == "__main__":
    if not BINARY.is_file():
        raise SystemExit(f"proof_test: {BINARY} is not there; run: "
                         "cargo build --release --offline --manifest-path rust/Cargo.toml")
    unittest.main()
