#!/usr/bin/env python3
"""Brings the names of this repository's definitions, fields and lemmas to today's spelling, once, right after port.py.

usage: python3 tools/port_names.py [--check]      at the top of the repository

Words are in snake case: chunkCount -> chunk_count, leValue-lt -> le_value-lt. A part of a name that begins with a capital, as a type's or a
constructor's, stays, and so does every name of src/'s own code, every string, and each exported C name. It reads the .antt files, the .rt files
(where only clauses, ghost items and comments can have such a name) and the must-fail edits. It says which names fall together with one
that was there before; --check writes nothing.
"""
import os, re, sys

# Of the library: the old word stands in names of our own lemmas alone. `first_of` is a tactic of today's antt.
WORDS = {"getD": "get_or"}
# (A function of src/ of that name stays: it is called, or stands in a path.)
WHOLE = {"first_of": "first_number"}
# A lemma that would have its function's name.
LEMMAS = [
    ("crates/spec/proofs/JoinIsSearch.antt", "goes_on", "goes_on_lem"),
    ("crates/store/proofs/", "keys_from", "keys_from_lem"),
    ("crates/trie/proofs/Walks.antt", "moves_from", "moves_from_lem"),
    ("crates/plan/proofs/WantedLaws.antt", "all_wanted", "all_wanted_lem"),
    ("crates/join/proofs/AllFiles.antt", "all_wanted", "all_wanted_lem"),
]
# A field named as a tactic, in theory's records.
FIELD = (r"\bpub search :|(?<![\w-])search =(?= )|(?<!Rattle)\.search\b", lambda m: m[0].replace("search", "searches"))
FIELDS = ("crates/theory/", "crates/output/proofs/Bounds.antt")
TOKEN = re.compile(r"\"(?:[^\"\\\n]|\\.)*\"|[^\s(){}.;,@\"«»\[\]\\`:|&*'<>=]+'*")
# A comment, a string (of several lines too) or a character of a .rt file, or a name.
RUST = re.compile(r"//[^\n]*|\"(?:[^\"\\]|\\.)*\"|'(?:[^'\\\n]|\\.)'|" + TOKEN.pattern, re.S)
CAMEL = re.compile(r"^[a-z][a-z0-9]*[A-Z]")


def snake(part):
    if part in WORDS:
        return WORDS[part]
    if not CAMEL.match(part):
        return part
    return re.sub(r"(?<=[a-z0-9])([A-Z])", lambda m: "_" + m[1].lower(), part)


def turned(token):
    if token.startswith("//"):
        return "//" + TOKEN.sub(lambda m: turned(m[0]), token.lstrip("/")) if not token.startswith("///") else token
    if token.startswith(('"', "'")):
        return token
    if token in WHOLE:
        return WHOLE[token]
    return "-".join("_".join(snake(w) for w in part.split("_")) for part in token.split("-"))


def prepared(path, text):
    for where, old, new in LEMMAS:
        if path.startswith(where) or (where == path):
            text = re.sub(rf"(?<![\w.-]){old}(?![\w-])", new, text)
    if path.startswith(FIELDS):
        text = re.sub(*FIELD, text)
    return text


def of_source(path, text, m):
    """A function of src/ that has a word's name, and a parameter of files::inner_short, stay."""
    if m[0] in WHOLE:
        return text[m.end() : m.end() + 1] == "(" or text[m.start() - 1 : m.start()] == "."
    return m[0] == "innerLeast" and path.startswith(("./crates/files/src/", "./crates/files/proofs/inner_short/", "./crates/files/must-fail/"))


def files(top):
    for folder, dirs, names in os.walk(os.path.join(top, "crates")):
        dirs[:] = sorted(d for d in dirs if d not in ("out", "data"))
        for n in sorted(names):
            if n.endswith((".antt", ".rt", ".edit")):
                yield os.path.join(folder, n)


def main(argv):
    before = {p: open(p, encoding="utf-8").read() for p in files(".")}
    texts = {p: prepared(p[2:], t) for p, t in before.items()}
    seen, map_ = set(), {}
    for p, t in texts.items():
        if p.endswith(".edit"):
            continue
        for m in (RUST if p.endswith(".rt") else TOKEN).finditer(t):
            seen.add(m[0])
    for w in seen:
        n = turned(w)
        if n != w:
            map_[w] = n
    back = {}
    for w, n in sorted(map_.items()):
        if n in back:
            print(f"fall together: {w} and {back[n]}")
        back[n] = w
    for p, t in texts.items():
        words = set() if p.endswith(".edit") else {m[0] for m in TOKEN.finditer(t)}
        for w in sorted(words & set(map_)):
            if map_[w] in words:
                print(f"in one file: {w} and {map_[w]}: {p}")
    changed = 0
    for p, t in texts.items():
        n = (RUST if p.endswith(".rt") else TOKEN).sub(lambda m: m[0] if of_source(p, t, m) else turned(m[0]), t)
        if n != before[p]:
            changed += 1
            if "--check" not in argv:
                open(p, "w", encoding="utf-8").write(n)
    print(f"{len(map_)} names, {changed} files")


main(sys.argv[1:])
