#!/usr/bin/env python3
"""Spells the repository's own definitions and lemmas in snake case, as the library's are: `putMove` becomes `put_move`, and a dash still joins
two names (`all-slotAt`, `all-slot_at`). Types and modules keep their capitals.

usage: tools/spell.py            at the top of the repository, once, after port.py

Clauses, specs, proofs and the edits' texts turn alike. Where a lemma already had the spelling that a definition gets, the lemma gets `_lem` (`LEMMAS`).
"""
import os
import re
import sys

TOKEN = re.compile(r"[^\s(){}.;,@\"«»⌜⌝`'/]+'*")
CAMEL = re.compile(r"[a-z][a-z0-9_]*[A-Z]")
# A name of the library that the crates' own names are made with.
OF_LIBRARY = {"getD": "get_or"}
# A lemma that would have its definition's name: the folders or files where the name is the lemma's.
LEMMAS = {
    "crates/bucket/proofs": ["room_of"],
    "crates/lines_model/proofs": ["line_ok", "lines_ok"],
    "crates/tree_model/proofs/Path.antt": ["node_ok", "read_ok"],
    "crates/tree_model/proofs/Promises.antt": ["node_ok"],
    "crates/cluster_clock_level/proofs/Testing.antt": ["node_in"],
    "crates/cluster_clock_level/proofs/Tested.antt": ["node_in"],
    "crates/front_model/proofs": ["all_held"],
    "crates/ports/proofs/Pool.antt": ["whole_by", "room_by"],
    "crates/ports/proofs/Returns.antt": ["whole_by", "room_by"],
    "crates/trace_model/proofs/Bytes.antt": ["cut_record"],
    "crates/tree_model/proofs/Words.antt": ["step_words"],
    "crates/tree_model/proofs/Laws.antt": ["step_words"],
    "crates/tree_clock_model/proofs/Turn.antt": ["step_words"],
    "crates/card_cluster/proofs/ClockedCluster.antt": ["clear_told"],
    "crates/card_cluster/proofs/stages/clear_told/Proof.antt": ["clear_told"],
    "crates/card_tree_clock/proofs/Clocked.antt": ["clear_told"],
}


def spelled(word):
    parts = []
    for part in word.split("-"):
        part = OF_LIBRARY.get(part, part)
        if CAMEL.match(part):
            part = re.sub(r"(?<=[a-z0-9])[A-Z]", lambda m: "_" + m[0].lower(), part)
        parts.append(part)
    return "-".join(parts)


def lemmas_of(path):
    return [n for where, names in LEMMAS.items() if path == where or path.startswith(where + "/") for n in names]


def turned(path, text):
    for name in lemmas_of(path):
        # not behind a dot, where it is a step of the code, a field or a module
        text = re.sub(rf"(?<![\w.:'-]){name}(?![\w'-])(?!\.)", name + "_lem", text)
    return TOKEN.sub(lambda m: spelled(m[0]), text)


def main():
    if not os.path.isfile("crates.txt"):
        sys.exit("spell: run it at the top of the repository")
    count = 0
    for folder, dirs, files in os.walk("crates"):
        dirs[:] = sorted(d for d in dirs if d not in ("out", "target"))
        for f in sorted(files):
            if not f.endswith((".antt", ".rt", ".edit")):
                continue
            path = os.path.join(folder, f)
            with open(path, encoding="utf-8") as file:
                old = file.read()
            new = turned(path, old)
            if new != old:
                with open(path, "w", encoding="utf-8") as file:
                    file.write(new)
                count += 1
    print(f"spell: {count} files")


main()
