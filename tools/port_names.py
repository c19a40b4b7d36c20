#!/usr/bin/env python3
"""Brings the names of this repository's own definitions, fields and lemmas to snake case: `digitsFrom` and `first-there` become `digits_from` and `first_there`.

usage: tools/port_names.py, once, at the top of the repository, right behind the kit's port.py

It reads which names the files of specs/ and proofs/ declare, and turns each of them there, in clauses, in edits and, between backticks, in comments.
Types and facts keep their capitals; functions of src/, strings, and names that a file takes from a library are not touched. Where a definition and a
lemma about it would fall together in one file, the lemma gets `_lem`, as the kit's own do.
"""

import collections
import glob
import os
import re

CRATES = set(os.listdir("crates"))
MARKS = r"(?:(?:pub|abbrev|unfoldable|private|opaque)\s+)*"
DECLARED = re.compile(rf"^ {{0,4}}{MARKS}(?:(?:record|data)\s+)?([^\s:(){{}},]+)(?:\s*[({{][^\n]*?)?\s*:(?!=)\s*([^\n]*)", re.M)
TOKEN = re.compile(r"[^\s.(){}\[\]:,;⟨⟩⟦⟧λ→×≡≤<>=+*/%^&|∷\"`?@#!∙¬⊎↔≢]+")
WORDS = {"let", "in", "use", "module", "if", "then", "else", "elim", "rw"}

# Lemmas that would fall together with a definition in a file that names both. An empty list: in every crate, else in these.
LEMMAS = {
    "all_digits": [], "all-word": [], "answered-row": [], "by-kind": [], "byte-size": [], "byte-value": [], "cut-told": [], "dwords-bytes": [],
    "entry-body": [], "entry_row": [], "field-bytes": [], "fields-from": [], "fwd-record": [], "is-record": ["units"], "key-found": [], "key-numbered": [],
    "line-dwords": [], "line-told": [], "lowered-of": [], "neither-row": [], "no-word": [], "one_more": ["whole_output"], "place-told": [], "range_at": ["field"],
    "record-bytes": [], "refused-row": [], "same-four": [], "some_byte": ["packet"], "starts-a1": [], "task-size": [], "told_back": ["capi"],
    "totals-row": [], "type-at": [], "unit-told": [], "with-entry": [], "word_row": ["unanswered_rows"], "word-size": [], "word_value": ["record"],
    "bit-or": ["book"],
}


def antt_files():
    return [f for part in ("specs", "proofs") for f in sorted(glob.glob(f"crates/*/{part}/**/*.antt", recursive=True))]


def plain(text):
    return re.sub(r"--[^\n]*", "", text)


def snake(name):
    name = name.replace("′", "'")
    if name[0].isupper():
        return name
    name = name.replace("-", "_")
    return re.sub(r"(?<=[a-z0-9'_])([A-Z])", lambda m: ("" if m.string[m.start() - 1] == "_" else "_") + m[1].lower(), name) if not re.search("_[A-Z]", name) else name


def imported(text):
    """The names that a file takes from libraries."""
    names = set()
    for m in re.finditer(r"^(?:ghost )?use ([^\s{]+?)\.\{([^}]*)\}", text, re.M):
        parts = m[1].split(".")
        if parts[0] != "Rattle" or parts[1] not in CRATES:
            names |= {n.strip().split(" as ")[0].strip() for n in m[2].split(",")}
    return names


def declared():
    own = collections.Counter()
    for file in antt_files():
        text = plain(open(file, encoding="utf-8").read())
        for m in DECLARED.finditer(text):
            if m[1] not in WORDS and not (file.endswith("/Proof.antt") and "tie." in m[2]):
                own[m[1]] += 1
    return own


def turned(text, own, crate, kept, code):
    def one(m):
        word = m[0]
        start = m.string[m.start() - 1] if m.start() else ""
        behind = m.string[m.end() : m.end() + 1]
        lemma = word in LEMMAS and (not LEMMAS[word] or crate in LEMMAS[word])
        if lemma and start != "." and behind != "." and not code:
            return snake(word) + "_lem"
        if word in own and word not in kept:
            return snake(word)
        return word

    return TOKEN.sub(one, text)


def antt(text, own, crate):
    kept = imported(text)
    lines = []
    for line in text.split("\n"):
        m = re.search(r"--(?=\s|$|-)", line)
        body, comment = (line[: m.start()], line[m.start() :]) if m else (line, "")
        comment = re.sub(r"`[^`]*`|\b[a-z]+[A-Z][A-Za-z0-9]*\b", lambda c: turned(c[0], own, crate, kept, True), comment)
        lines.append(turned(body, own, crate, kept, False) + comment)
    return "\n".join(lines)


def source(text, own, crate):
    """Of a source only what is ghost has such names: they are camel case or have a dash, as nothing else of the text has, but for strings."""
    kept = imported(text)
    pieces = re.split(r'(b?"(?:\\.|[^"\\])*"|\'\\?.\')', text)
    for at in range(0, len(pieces), 2):
        lines = []
        for line in pieces[at].split("\n"):
            m = re.search(r"//", line)
            body, comment = (line[: m.start()], line[m.start() :]) if m else (line, "")
            comment = re.sub(r"`[^`]*`|\b[a-z]+[A-Z][A-Za-z0-9]*\b", lambda c: turned(c[0], own, crate, kept, True), comment)
            lines.append(turned(body, own, crate, kept, True) + comment)
        pieces[at] = "\n".join(lines)
    return "".join(pieces)


def edit(text, own, crate):
    lines, file = [], ""
    for line in text.split("\n"):
        m = re.match(r"(file|old|new): ?", line)
        if m and m[1] == "file":
            file = line
        elif m:
            line = line[: m.end()] + (source if ".rt" in file else antt)(line[m.end() :], own, crate)
        lines.append(line)
    return "\n".join(lines)


def main():
    own = {n for n in declared() if snake(n) != n}
    jobs = [(f, antt) for f in antt_files()]
    jobs += [(f, source) for f in sorted(glob.glob("crates/*/src/**/*.rt", recursive=True))]
    jobs += [(f, edit) for f in sorted(glob.glob("crates/*/must-fail/*.edit") + glob.glob("tests/edits/*/*.edit"))]
    changed = 0
    for file, turn in jobs:
        with open(file, encoding="utf-8", newline="") as f:
            was = f.read()
        now = turn(was, own, file.split("/")[2 if file.startswith("tests/") else 1])
        if now != was:
            changed += 1
            with open(file, "w", encoding="utf-8", newline="") as f:
                f.write(now)
    print(f"port_names: {len(own)} names, {changed} files changed")


main()
