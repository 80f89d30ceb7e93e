#!/usr/bin/env python3
"""After port.py: writes the repository's own definitions, lemmas, fields and variables in snake case, as `stateIn` to `state_in`, in src/, specs/
and proofs/ of every crate, in the texts of must-fail edits, and in the lists and pages that name them. A word that the kit's library has too stays.

usage: python3 tools/port/snake.py [--list]      at the top of the repository; --list writes the words alone
"""
import collections
import pathlib
import re
import sys

KIT = pathlib.Path("/opt/rattle/rattle")
# Lemmas that would have the name of a definition that their file cites get `_lem`.
LEMMAS = {
    "ending/proofs/Calls.antt": "ended_by",
    "store/proofs/Counting.antt": "free_vector",
    "store/proofs/InUse.antt": "free_vector",
    "store/proofs/Recounting.antt": "in_frame",
    "soundness/proofs/Taken.antt": "same_bytes",
    "joins/proofs/Runs.antt": "step_in",
    "joins/proofs/Joining.antt": "in_bounds",
    "turning/proofs/Locating.antt": "version_of",
    "running/proofs/Locating.antt": "version_of",  # where it stood before there was a crate turning
    "runs/proofs/History.antt": "last_step",
    "moves/proofs/Numbers.antt": "all_are",
}
# Words that the kit has too, and that are the repository's own here; and lemmas that name words of the kit in its older spelling.
OURS = {
    "setOf": "set_of",
    "countOn": "count_on",
    "getD-from": "get_or-from",
    "getD-none": "get_or-none",
    "getD-up_to": "get_or-up_to",
    "getElem?-up_to": "get_elem?-up_to",
}
WORD = re.compile(r"[^\s(){}.;,@\"«»\[\]\\`|/:*<>&!?=]+")
PART = re.compile(r"[a-z][a-z0-9_]*[A-Z][A-Za-z0-9_₀-₉']*")


def texts(root, below):
    for path in sorted(root.glob(below)):
        if path.is_file() and "out" not in path.parts:
            yield path, path.read_text(encoding="utf-8", errors="replace")


def words(text):
    found = {part for word in WORD.findall(text) for part in word.split("-") if PART.fullmatch(part)}
    return {it for it in found if not re.search("_[A-Z]", it)}


def snake(word):
    return re.sub(r"(?<=[a-z0-9])([A-Z])", r"_\1", word).lower()


def main():
    top = pathlib.Path(".")
    own = [it for end in ("rt", "antt") for it in texts(top, f"crates/*/*/**/*.{end}")]
    found = set().union(*(words(text) for _, text in own))
    kit = set().union(*(words(text) for _, text in texts(KIT, "**/*.antt")))
    table = {it: snake(it) for it in sorted(found - kit)}
    kept = sorted(found & kit)
    by_new = collections.defaultdict(list)
    for old, new in table.items():
        by_new[new].append(old)
    for new, olds in by_new.items():
        if len(olds) > 1:
            print("falls together:", new, olds)
    if "--list" in sys.argv:
        plain = re.compile(r"[^\s(){}.;,@\"«»\[\]\\`|/:*<>&!?=-]+")
        has = collections.defaultdict(set)
        for path, text in own:
            for it in set(plain.findall(text)):
                has[it].add(str(path))
        for old, new in table.items():
            both = has[old] & has[new]
            if both:
                print("beside:", old, new, len(both), sorted(both)[:3])
        print("kept:", *kept)
        print(len(table), "words")
        return
    for path, lemma in LEMMAS.items():
        path = top / "crates" / path
        # (only where the definition has its older name, so that a second run changes nothing)
        camel = re.sub("_([a-z])", lambda it: it[1].upper(), lemma)
        if not path.exists() or not re.search(r"(?<![\w'.-])" + camel + r"(?![\w'-])", path.read_text(encoding="utf-8")):
            continue
        path.write_text(re.sub(r"(?<![\w'.-])" + lemma + r"(?![\w'-])", lemma + "_lem", path.read_text(encoding="utf-8")), encoding="utf-8")
    own = [(path, path.read_text(encoding="utf-8")) for path, _ in own]
    ours = re.compile(r"(?<![\w'₀-₉])(" + "|".join(map(re.escape, OURS)) + r")(?![\w'₀-₉])")
    turn = re.compile(r"(?<![\w'₀-₉])(" + "|".join(sorted(map(re.escape, table), key=len, reverse=True)) + r")(?![\w'₀-₉])")
    pages = [it for below in ("crates/*/must-fail/*.edit", "docs/*.md", "*.md", "tests/traceability/rules/*.txt") for it in texts(top, below)]
    for path, text in own + pages:
        new = turn.sub(lambda it: table[it[1]], text) if table else text
        new = ours.sub(lambda it: OURS[it[1]], new)
        if new != text:
            path.write_text(new, encoding="utf-8")


main()
