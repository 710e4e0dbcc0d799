#!/usr/bin/env python3
"""Respells this repository's own words in snake case: sameBy becomes same_by, in definitions, lemmas, clauses and edits.

usage: python3 tools/respell.py [ROOT]

A word is turned where a definition, a field, a binder or an import of specs/ or proofs/, or a clause's import in src/, gives it that
name. Types, modules, constructors, functions of src/ and strings keep theirs. It stops where two names would fall together: such a name is
listed in OTHERS.
"""

import os
import re
import sys

WORD = re.compile(r"(?<![\w'·-])[A-Za-zμ][\w'-]*")
CAMEL = re.compile(r"[a-z0-9][A-Z]")
DEFINED = re.compile(r"^\s*(?:(?:abbrev|unfoldable|pub|data|record|ruleset) )*([^\s(){};:λ=,.]+)\s*(?:(?:\([^()]*\)|\{[^{}]*\})\s*)*:(?= |$)")
# Where the plain turn of a name is a function's of src/, or a module's.
OTHERS = {
    "bytesLine": "line_of_bytes",
    "coversOld": "covers_kept",
    "digestOf": "snapshot_digest",
    "flagLine": "line_of_flag",
    "hexByte": "hex_of_byte",
    "kindLine": "line_of_kind",
    "numberLine": "line_of_number",
    "samePaper": "same_papers",
    "sameQuorum": "same_quorums",
    "standIn": "stand_in_signature",
    "stepsLine": "line_of_steps",
    "writePaper": "bytes_of_paper",
}
RENAMED = re.compile(r"\bas ([a-z][\w'-]*)")


def files(root):
    for folder, dirs, names in os.walk(os.path.join(root, "crates")):
        dirs[:] = sorted(d for d in dirs if d not in ("out", "target", "data"))
        for name in sorted(names):
            if name.endswith((".antt", ".rt", ".edit")):
                yield os.path.join(folder, name)


def snake(part):
    """One part of a name: lower case where a small letter is followed by a capital, unless the part is a type's name."""
    if not part[:1].islower() or not CAMEL.search(part):
        return part
    return re.sub(r"(?<=[a-z0-9])([A-Z]+)", lambda m: "_" + m.group(1).lower(), part)


def turned(word):
    if word in OTHERS:
        return OTHERS[word]
    return "-".join(snake(p) for p in word.split("-"))


def main(root):
    texts = {p: open(p, encoding="utf-8").read() for p in files(root)}
    names, words = set(), set()
    for path, text in texts.items():
        if path.endswith(".edit"):
            continue
        ghost = [l for l in text.split("\n") if path.endswith(".antt") or l.lstrip().startswith("ghost use")]
        for line in ghost:
            words.update(WORD.findall(line))
            for found in RENAMED.findall(line):
                names.add(found)
            if path.endswith(".antt") and not line.lstrip().startswith(("use ", "pub use ", "--")):
                m = DEFINED.match(line)
                if m:
                    names.add(m.group(1))
    table = {n: turned(n) for n in names if turned(n) != n}
    clashes = {n: t for n, t in table.items() if t in names or t in words}
    for n, t in sorted(clashes.items()):
        print(f"falls together: {n} and {t}")
    if clashes:
        return 1
    changed = 0
    for path, text in texts.items():
        new = WORD.sub(lambda m: table.get(m.group(0), m.group(0)), text)
        if new != text:
            open(path, "w", encoding="utf-8").write(new)
            changed += 1
    print(f"{len(table)} names, {changed} files")
    return 0


if __name__ == "__main__":
    raise SystemExit(main(next((a for a in sys.argv[1:] if not a.startswith("-")), ".")))
