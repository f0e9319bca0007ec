#!/usr/bin/env python3
"""Works out what crates/hash_test must print: its file `stdout` is this program's output.

SHA-256 is hashlib's; node hash, commitments and codes follow document 01, "Nodes and trees" and "Codes and their
order".
"""
import hashlib

LIMIT = 2 ** 24


def node_hash(pair):
    digest = bytearray(hashlib.sha256(pair).digest())
    digest[31] &= 0x3F
    return bytes(digest)


def sha256(message):
    return (0, hashlib.sha256(message).digest()) if len(message) <= LIMIT else (2, bytes(32))


def tree(run):
    if len(run) == 32:
        return run
    half = len(run) // 2
    return node_hash(tree(run[:half]) + tree(run[half:]))


def commitment(run):
    if len(run) not in [2 ** k for k in range(5, 25)]:
        return 2, bytes(32)
    if any(run[i] & 0xC0 for i in range(31, len(run), 32)):
        return 11, bytes(32)
    return 0, tree(run)


def show(label, answer):
    code, node = answer
    print(label, code, node.hex())


for message in [
    b"abc",
    b"abcdbcdecdefdefgefghfghighijhijkijkljklmklmnlmnomnopnopq",
    b"abcdefghbcdefghicdefghijdefghijkefghijklfghijklmghijklmnhijklmno"
    b"ijklmnopjklmnopqklmnopqrlmnopqrsmnopqrstnopqrstu",
] + [b"a" * n for n in [0, 1, 55, 56, 63, 64, 65, 119, 120, 128, 300]]:
    show(f"sha256 {len(message)}", sha256(message))

for pair in [bytes(64), b"\xff" * 64, b"\x01" * 32 + b"\x02" * 32]:
    show("node hash", (0, node_hash(pair)))

sound = bytes((7 * i + i // 64) % 61 for i in range(4096))
for n in [32, 64, 128, 256, 512, 4096, 0, 31, 33, 96]:
    show(f"commitment {n}", commitment(sound[:n]))
for last in [64, 128]:
    stray = sound[:511] + bytes([last]) + sound[512:]
    show("commitment 512", commitment(stray[:512]))
show("commitment 256", commitment(stray[:256]))

for level, position in [(0, 5), (3, 11), (6, 1)]:
    size = 32 * 2 ** level
    show(f"node at {level} {position}", (0, tree(sound[position * size : (position + 1) * size])))
