#!/usr/bin/env python3
"""Brings the lists of tests/traceability to the folders of proofs that are there. A function whose folder is gone, since the check proves it with none,
moves from its line `proof` to a line `found`; one that has a folder now moves back. What is named nowhere in src/ is printed.

usage: python3 tools/port/found.py      at the top of the repository; then cargo run -p traceability
"""
import pathlib
import re

CRATES = pathlib.Path("crates")


def code_of(crate, module, name):
    """The file of src/ that declares the function with a contract, for a folder proofs/MODULE/NAME."""
    files = [module + ".rt"] if module else ["lib.rt", "main.rt"]
    for file in files:
        path = CRATES / crate / "src" / file
        if path.is_file():
            lines = path.read_text(encoding="utf-8").split("\n")
            at = next((i for i, line in enumerate(lines) if re.search(rf"\bfn {name}\b", line)), None)
            while at is not None and at < len(lines):
                if lines[at].strip().startswith("ensures"):
                    return f"{crate}/src/{file}"
                if lines[at].endswith("{"):
                    break
                at += 1
    return None


def turned(line):
    word, path, *names = line.split(" ")
    crate, below = path.split("/", 1)
    if word == "found":
        module = re.sub(r"(^|/)(lib|main)$", "", below[len("src/") : -len(".rt")])
        folder = "/".join(filter(None, [crate, "proofs", module]))
        back = [it for it in names if (CRATES / folder / it).exists()]
        out = [f"proof {folder}/{it}" if not module else f"proof {folder} {it}" for it in back]
        left = [it for it in names if it not in back]
        return out + ([" ".join([word, path, *left])] if left else [])
    if path.endswith(".antt"):
        if not (CRATES / path).is_file():
            print("no file:", line)
        return [line]
    whole = CRATES / path
    if not names:
        if whole.exists():
            return [line]
        *above, name = below.split("/")[1:]
        file = code_of(crate, "/".join(above), name)
        if not file:
            print("no function:", line)
            return [line]
        return [f"found {file} {name}"]
    left, out, module = [], {}, "/".join(below.split("/")[1:])
    for name in names:
        file = None if (whole / name).exists() else code_of(crate, module, name)
        if file:
            out.setdefault(file, []).append(name)
        else:
            left.append(name)
            if not (whole / name).exists():
                print("no function:", path, name)
    return ([" ".join([word, path, *left])] if left else []) + [" ".join(["found", file, *its]) for file, its in out.items()]


for path in sorted(pathlib.Path("tests/traceability/rules").glob("*.txt")):
    lines = []
    for line in path.read_text(encoding="utf-8").split("\n"):
        lines += turned(line) if line.startswith(("proof ", "found ")) else [line]
    # functions of one file in one line, where the lines stand one below the other
    joined = []
    for line in lines:
        before = joined[-1].split(" ") if joined else [""]
        now = line.split(" ")
        if now[0] == before[0] == "found" and now[1] == before[1]:
            joined[-1] = " ".join([*before, *[it for it in now[2:] if it not in before[2:]]])
        else:
            joined.append(line)
    path.write_text("\n".join(joined), encoding="utf-8")
