"""Piece CIDs and proof files, written from docs/FORMAT.md over Python's own library and the independent model."""
import base64
import hashlib
import json

from model import Model, filled, pad, segment_length

MODEL = Model()
HEAD = bytes.fromhex("0181e203922020")  # version 1, codec 0xf101, hash function 0x1012, length 32
MEMBERS = ("form", "version", "claim", "name", "padding", "length", "sha256", "segment_size", "segment_commitment",
           "segment_cid", "offset",
           "place", "deal_number", "deal_size", "deal_commitment", "deal_cid", "record", "check")


def cid(commitment):
    """The piece CID of a commitment."""
    return "b" + base64.b32encode(HEAD + commitment).decode().lower().rstrip("=")


def claim(of):
    """The sentence that the other members give."""
    padded = {"Fr32": f"padded (Fr32) to a segment of {of['segment_size']} bytes",
              "none": f"a segment of {of['segment_size']} bytes as it is"}[of["padding"]]
    return (f"The file of {of['length']} bytes with the SHA-256 {of['sha256']}, {padded}, "
            f"stands at byte {of['offset']} of the deal with the number {of['deal_number']}, "
            f"the size of {of['deal_size']} bytes and the commitment {of['deal_commitment']}, and its "
            f"entry in the index of that deal stands at byte {of['place']}.")


def check(of):
    """The check value of the other members."""
    return hashlib.sha256(b"".join(of[name].encode() + b"\0" for name in MEMBERS[:-1])).hexdigest()


def sealed(of):
    """The members with the sentence and the check value that belong to the others."""
    of = {**of, "claim": claim(of)}
    return {**of, "check": check(of)}


def commitment_of(segment):
    return MODEL.tree(filled(segment))[-1][0]


def members(deal, number, place, file, name, padding="Fr32"):
    """The members of the proof that a file is kept at a place of a deal."""
    segment = pad(file, bytes(segment_length(len(file))))[2] if padding == "Fr32" else file
    code, record = MODEL.build(deal, number, place)[:2]
    commitment, root = commitment_of(segment), MODEL.commitment(deal)[1]
    assert (code, record[3:35], int.from_bytes(record[49:57], "little")) == (0, commitment, len(segment))
    offset = int.from_bytes(record[38:46], "little")
    return sealed({"form": "vizhuthamen proof", "version": "1", "name": name, "padding": padding,
                   "length": str(len(file)), "sha256": hashlib.sha256(file).hexdigest(),
                   "segment_size": str(len(segment)), "segment_commitment": commitment.hex(),
                   "segment_cid": cid(commitment), "offset": str(offset), "place": str(place),
                   "deal_number": str(number), "deal_size": str(len(deal)), "deal_commitment": root.hex(),
                   "deal_cid": cid(root), "record": record.hex()})


def text(of, names=MEMBERS):
    """The proof file of members, as `prove` writes it: one to a line."""
    lines = [f"  {json.dumps(name)}: {json.dumps(of[name], ensure_ascii=False)}" for name in names if name in of]
    return "{\n" + ",\n".join(lines) + "\n}\n"
