#!/usr/bin/env python3
"""Before port.py: in walks by hand that name an item `given`, the item is called `handed`, since port.py's scripts read a lone `given` in a
list of items as a word of their own and never end.

usage: python3 tools/port/before.py      at the top of the repository
"""
import pathlib
import re

for path in sorted(pathlib.Path("crates").glob("*/proofs/**/Proof.antt")):
    text = path.read_text(encoding="utf-8")
    if re.search(r"(?m)^\s+abbrev given :", text):
        path.write_text(re.sub(r"(?<![\w'′.-])given(?![\w'′-])", "handed", text), encoding="utf-8")
        print("before:", path)
