#!/usr/bin/env python3
"""Writes data/ and stdout of vault_search_most and vault_search_over, from document 01: the formats, and the direct search of the restored files.

The keywords are A and AA. Chunk 0 has 331 As, chunk 1 has one. File 0 names chunk 0 eleven times: 3,641 occurrences of A, and 3,640 of AA,
ten of them across a cut. File 1 is empty in vault_search_most, and names chunk 1 in vault_search_over.
"""
import pathlib

CHUNKS = [b"A" * 331, b"A"]
WORDS = [b"A", b"AA"]
ROOM = 65536


def number(n):
    return n.to_bytes(4, "little")


def key(c):
    return bytes([c + 1]) * 20


def store():
    at, entries = 8 + 28 * len(CHUNKS), b""
    for c, chunk in enumerate(CHUNKS):
        entries += key(c) + number(at) + number(len(chunk))
        at += len(chunk)
    return b"DV1\n" + number(len(CHUNKS)) + entries + b"".join(CHUNKS)


def words():
    return bytes([len(WORDS), 0]) + b"".join(bytes([len(w)]) + w for w in WORDS)


def recipes(files):
    return number(len(files)) + b"".join(number(len(f)) + b"".join(map(key, f)) for f in files)


def text(files):
    rows = []
    for f, names in enumerate(files):
        whole = b"".join(CHUNKS[c] for c in names)
        rows += [(f, at, k) for at in range(len(whole)) for k, w in enumerate(WORDS) if whole[at:at + len(w)] == w]
    if ROOM < 9 * len(rows):
        return "refused 18\n"
    return f"finds {len(rows)}\n" + "".join(f"{f} {at} {k}\n" for f, at, k in rows)


crates = pathlib.Path(__file__).resolve().parents[1]
for name, files in (("vault_search_most", [[0] * 11, []]), ("vault_search_over", [[0] * 11, [1]])):
    data = crates / name / "data"
    data.mkdir(exist_ok=True)
    (data / "store.bin").write_bytes(store())
    (data / "words.bin").write_bytes(words())
    (data / "recipes.bin").write_bytes(recipes(files))
    (crates / name / "stdout").write_text(text(files))
