#!/usr/bin/env python3
"""Brings the repository's own definitions and lemmas to the library's spelling, once, after port.py.

usage: python3 tools/port_names.py [--list]      at the top of a checkout in which port.py has run

Functions, lemmas, fields and labels are in snake case; types and facts keep their capital; a prime is an apostrophe. A dash joins two names, as
`find-set`; a plain word is added with `_`, as `set_at`. What a source file of src/ declares keeps its name. Names of the library keep theirs.
The names are read off specs/ and proofs/; they are turned there, in the clauses of src/, and in must-fail/. --list prints old and new and writes nothing.
"""

import os
import re
import subprocess
import sys

CRATES = "crates"
DECLARED = re.compile(r"^\s*(?:(?:abbrev|unfoldable|pub|opaque|private)\s+)*(?:(?:ruleset|data|record)\s+)?([^\s(){}\[\];,.\"]+)\s*(?::|=|\(|where\b)")
SIGNED = re.compile(r"^\s*(?:(?:abbrev|unfoldable|pub)\s+)*([^\s(){}\[\];,.\"=:]+)\s+:\s")
RULES = re.compile(r"^\s*(?:pub\s+)?(?:ruleset|data|record)\s+([^\s(){}\[\];,.\"=:]+)")
LOCAL = re.compile(r"(?:\blet\s+|^\s+)([^\s(){}\[\];,.\"=:]+)\s+(?::|=)\s")
USE = re.compile(r"^\s*(?:pub\s+)?use\s+([^\s{]+?)\.?\{([^}]*)\}")
TOKEN = re.compile(r"[^\s(){}\[\];,.\"`⌜⌝]+")
KEEP = {"Need", "goal", "tie"}
# `allows as Slots·allows`
ALIAS = re.compile(r"^[A-Z][a-z]+·([a-zA-Z]+)$")
# what port.py has turned in the crates, and leaves in must-fail/
OLDER = {
    "classOf": "class_of", "factsOf": "facts_of", "areBytes": "are_bytes", "bytesOf": "bytes_of", "oneOf": "one_of", "noRow": "no_row", "noRows": "no_rows",
    "rowAt": "row_at", "movedRow": "moved_row", "setRow": "set_row", "withRow": "with_row", "newRow": "new_row", "isByte": "is_byte", "isBare": "is_bare",
    "isTaken": "is_taken", "addressOf": "address_of", "byteAt": "byte_at", "byteOf": "byte_of", "bodyOf": "body_of", "cellAt": "cell_at", "cellsOf": "cells_of",
    "entryAt": "entry_at", "readingOf": "reading_of", "runOf": "run_of", "stepOf": "step_of", "callsOf": "calls_of", "answerOf": "answer_of",
    "rowLine": "row_line", "rowLines": "row_lines", "onesIn": "ones_in", "zipWith": "zip_with", "getD": "get_or", "_+_": "◌+◌", "_-_": "◌-◌", "_*_": "◌*◌",
    "_/_": "◌/◌", "_%_": "◌%◌", "_^_": "◌^◌", "_<_": "◌<◌", "_≤_": "◌≤◌", "_≡_": "◌≡◌", "_∷_": "◌∷◌", "_++_": "◌++◌", "_&&_": "◌&&◌", "_||_": "◌||◌",
}
# laws with the name of a definition that another name becomes
HERE = {
    "crates/records/proofs/Inverse.antt": {"write_byte": "write_byte_lem"},
    "crates/demand/proofs/ReadBack.antt": {"go_on": "go_on_lem"},
    "crates/machine/proofs/Laws.antt": {"answer_at": "answer_at_lem"},
    "crates/machine/proofs/answered/Proof.antt": {"answer_at": "answer_at_lem"},
}


def files(suffixes):
    for folder, dirs, names in os.walk(CRATES):
        dirs[:] = sorted(d for d in dirs if d != "out")
        for name in sorted(names):
            if name.endswith(suffixes):
                yield os.path.join(folder, name)


def read(path):
    with open(path, encoding="utf-8") as f:
        return f.read()


def of_function(path):
    """A file of one function's proof: its answers are named after goals."""
    return os.path.basename(path) in ("Proof.antt", "Answers.antt", "Invariants.antt") and "/proofs/" in path


def gather():
    own, library = set(), set()
    for path in files((".antt",)):
        text = read(path)
        for line in text.split("\n"):
            use = USE.match(line)
            if use and not use.group(1).startswith("Rattle.") or use and use.group(1).startswith("Rattle.std"):
                for item in use.group(2).split(","):
                    item = item.strip()
                    library.add(item.split(" as ")[0].strip())
                continue
            if of_function(path):
                continue
            code = line.split("--")[0] if not line.lstrip().startswith("--") else ""
            for pattern in (SIGNED, RULES, LOCAL):
                for found in pattern.finditer(code):
                    own.add(found.group(1))
    return own, library


def snake(word):
    return re.sub(r"(?<=[a-z0-9])([A-Z])", lambda m: "_" + m.group(1).lower(), word)


def turned(name, words):
    """The new spelling of a name; words are the names that a dash may join."""
    name = name.replace("′", "'")
    parts = name.split("-")
    parts = [p if p[:1].isupper() else snake(p) for p in parts]
    return ("-" if all(p in words for p in parts) else "_").join(parts)


def is_word(name):
    return re.fullmatch(r"[A-Za-z][A-Za-z0-9_·'′-]*", name) is not None


def main():
    own, library = gather()
    own = {n for n in own if is_word(n) and n not in KEEP and "·" not in n}
    # what a dash may join: the functions and types that definitions and laws speak of
    defined = set()
    for path in files((".antt",)):
        if "/specs/" in path:
            for line in read(path).split("\n"):
                found = SIGNED.match(line) if re.match(r"\s*(abbrev|unfoldable)\s", line) else None
                if found:
                    defined.add(snake(found.group(1)))
    defined |= {"length", "take", "drop", "set", "map", "append", "replicate", "get_or", "suc", "cond", "not"}
    names = {}
    for n in sorted(own):
        if n in library and n not in defined:
            continue
        new = turned(n, defined)
        if new != n:
            names[n] = new
    for n, new in list(names.items()):
        # a law that would have its definition's name
        if "-" in n and (new in own or new in (names[m] for m in names if m != n)):
            names[n] = new + "_lem"
    news = {}
    for n, new in names.items():
        news.setdefault(new, set()).add(n)
    for new, olds in sorted(news.items()):
        if len(olds) > 1 or new in library or (new in own and new not in names):
            print("together:", new, sorted(olds | ({new} & own)))
    if "--list" in sys.argv:
        for n in sorted(names):
            print(n, names[n])
        return
    for path in files((".antt", ".rt", ".edit")):
        write(path, respelled(path, read(path), names))
    for folder in (".", "docs"):
        for page in sorted(f for f in os.listdir(folder) if f.endswith(".md")):
            path = os.path.join(folder, page)
            write(path, re.sub(r"`[^`\n]+`", lambda m: respelled("a.edit", m.group(0), names), read(path)))
    for crate in sorted(os.listdir(CRATES)):
        subprocess.run(["rt", "fmt"], cwd=os.path.join(CRATES, crate), stdout=subprocess.DEVNULL, check=True)


def respelled(path, text, names):
    """A file's text in the new spelling."""
    known = names | HERE.get(path, {})
    if path.endswith(".edit"):
        known = OLDER | {old: known.get(new, new) for old, new in OLDER.items()} | known

    def turn(match):
        token = match.group(0)
        if "·" in token:
            token = ALIAS.sub(lambda m: m.group(1), token)
        if path.endswith(".rt") and not re.search(r"[a-z][A-Z]", token):
            return token
        return known.get(token, token)

    text = TOKEN.sub(turn, text)
    # an alias that only puts the module before the name
    text = re.sub(r"\b([a-z_0-9]+) as \1\b", r"\1", text)
    return text


def write(path, text):
    if text != read(path):
        with open(path, "w", encoding="utf-8") as f:
            f.write(text)


main()
