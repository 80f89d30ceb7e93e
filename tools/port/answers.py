#!/usr/bin/env python3
"""Turns proofs that close a function by its tie, `proofs/F/Proof.antt`, to `Invariants.antt` and `Answers.antt`, by the names that rattle lists.

usage: python3 tools/port/answers.py CRATE      at the top of the repository, where the crates below CRATE are proved

Runs `rt check --generated DIR --old-names` in the crate. An answer that only says `search rules` is left out. Prints a line `look:` for each place that
it could not turn; a function whose file it cannot read at all keeps its Proof.antt.
"""
import json
import pathlib
import re
import shutil
import subprocess
import sys
import tempfile

END = r"(?![\w'₀-₉-])"
BEGIN = r"(?<![\w'.₀-₉-])"


def norm(word):
    return re.sub("-+", "-", word.replace("_", "-")).lower()


def look(path, text):
    print(f"look: {path}: {text}")


def names_of(crate):
    with tempfile.TemporaryDirectory() as folder:
        said = subprocess.run(["rt", "check", "--generated", folder + "/g", "--old-names"], cwd=crate, capture_output=True, text=True)
        try:
            return json.loads(pathlib.Path(folder, "g", "names.json").read_text(encoding="utf-8"))
        except OSError:
            sys.exit("answers: no names:\n" + (said.stdout + said.stderr)[-3000:])


def blocks(text):
    """The declarations of a file: comments and lines that begin in column 0 open one, a clause stays with its signature."""
    out, lines = [], text.split("\n")
    at = 0
    while at < len(lines):
        line = lines[at]
        if not line.strip():
            at += 1
            continue
        if line.startswith(("use ", "pub use ", "--")):
            out.append([line])
            at += 1
            continue
        block = [line]
        at += 1
        name = re.match(r"(?:abbrev |unfoldable |pub )*([^\s:]+)", line)[1]
        while at < len(lines):
            line = lines[at]
            if not line.strip() or line.startswith((" ", ")", "]", "}")) or line.startswith(("unfolding ", "unfolding\n")):
                block.append(line)
                at += 1
            elif re.match(re.escape(name) + r"(?=[\s=]|$)", line):
                block.append(line)
                at += 1
            else:
                break
        while block and not block[-1].strip():
            block.pop()
        out.append(block)
    return out


def lent(callee):
    """The parameters of a function that are a `&mut`, in order."""
    crate, *_, name = callee.split("::")
    for path in sorted(pathlib.Path("crates", crate, "src").glob("**/*.rt")):
        found = re.search(r"fn " + re.escape(name) + r"(?:<[^>]*>)?\(((?:[^()]|\([^()]*\))*)\)", path.read_text(encoding="utf-8"))
        if found:
            return re.findall(r"(\w+): &(?:'\w+ )?mut ", found[1])
    return []


def clauses(callee):
    """The names of a function's clauses of each kind, where they have some."""
    crate, *_, name = callee.split("::")
    for path in sorted(pathlib.Path("crates", crate, "src").glob("**/*.rt")):
        found = re.search(r"fn " + re.escape(name) + r"(?:<[^>]*>)?\((?:[^()]|\([^()]*\))*\)[^{]*?\n((?:    +[^\n]*\n)+)\{", path.read_text(encoding="utf-8"))
        if found:
            return {kind: re.findall(r"(?m)^    " + kind + r" (\w+) \{", found[1]) for kind in ("requires", "ensures")}
    return {}


def parts(text):
    """The parts of a tuple, or none."""
    text = text.strip()
    if not text.startswith("(") or not text.endswith(")"):
        return []
    out, depth, last = [], 0, 1
    for at, it in enumerate(text):
        depth += it in "([{"
        depth -= it in ")]}"
        if depth == 0 and at < len(text) - 1:
            return []
        if depth == 1 and it == ",":
            out.append(text[last:at].strip())
            last = at + 1
    out.append(text[last:-1].strip())
    return [it for it in out if it]


def clause(names, rest):
    """A path that begins with the number of a clause, by its name: three clauses and more were a pair, and a pair in its second part."""
    at = 0
    while len(names) - at > 2 and rest[:1] == ["1"] and rest[1:2] in (["0"], ["1"]):
        at, rest = at + 1, rest[1:]
    return [names[at + int(rest[0])], *rest[1:]]


def flat(text, count):
    """The parts of a tuple of so many clauses, which was a pair in the second part of a pair."""
    out = parts(text)
    while 2 <= len(out) < count and parts(out[-1]):
        out = [*out[:-1], *parts(out[-1])]
    return out


class Function:
    def __init__(self, of, path, own=""):
        self.path = path
        self.own = clauses(own) if own else {}
        self.callees = {it[0]: it[3] for it in of["places"]}
        self.places = {it[0]: (it[1], it[2], index) for index, it in enumerate(of["places"])}
        self.arms = of["arms"]
        self.needs, self.at = {}, {}
        for (old, new), (place, _) in zip(of["needs"], of["asked_at"]):
            self.needs.setdefault(norm(old), new)
            self.at.setdefault(norm(old), place)
        self.settled = {norm(it) for it in of["settled"]}
        self.loops = {norm(old): (new, live, changed) for ((old, new), live), changed in zip(of["loops"], of["changed"])}

    def up(self, place):
        out = []
        while place is not None and place in self.places:
            out.append(place)
            place = self.places[place][0]
        return out

    def step(self, chain, depth, rest, where):
        rest = [{"well-formed": "well_formed", "pre": "requires"}.get(it, it) for it in rest[:1]] + rest[1:]
        word = norm(rest[0])
        rest = rest[:1] + [{"left": "false", "taken": "true"}.get(it, it) if rest[0].startswith(("if", "loop")) else it for it in rest[1:2]] + rest[2:]
        if word == "requires" and rest[1:2] and rest[1].isdigit() and self.own.get("requires"):
            rest = [rest[0], *clause(self.own["requires"], rest[1:])]
        if word in ("args", "requires", "ranges", "lifetimes", "well-formed", "type-inv"):
            return "c." + ".".join(rest)
        fits = [k for k, it in enumerate(chain) if norm(self.places[it][1][0]) == word]
        if not fits:
            word = re.sub(r"-?\d+$", "", word)
            fits = [k for k, it in enumerate(chain) if norm(self.places[it][1][0]) == word]
        if not fits:
            look(self.path, f"{where}: no step {rest[0]}")
            return "c." + ".".join(rest)
        best = min(fits, key=lambda k: abs(k - depth))
        _, steps, index = self.places[chain[best]]
        if rest[1:2] == ["new"] and len(rest) > 2 and rest[2].isdigit() and self.callees[chain[best]]:
            params = lent(self.callees[chain[best]])
            if int(rest[2]) < len(params):
                rest = [*rest[:2], params[int(rest[2])], *rest[3:]]
        if rest[1:2] == ["ensures"] and len(rest) > 2 and rest[2].isdigit() and self.callees[chain[best]]:
            named = clauses(self.callees[chain[best]]).get("ensures")
            if named:
                rest = [*rest[:2], *clause(named, rest[2:])]
        arm = self.arms[index]
        if arm:
            for field, old, way in arm[2]:
                if norm(old) == word and [norm(it) for it in rest[1 : 1 + len(way)]] == [norm(it) for it in way]:
                    after = rest[1 + len(way) :]
                    return ".".join([f"c.{arm[0]}.{field}", *after])
        return ".".join([f"c.{steps[1]}", *rest[1:]])

    def body(self, text, need):
        chain = self.up(self.at[need])
        alias = re.compile(r"let ([\w'-]+) = \(?(c(?:\s*\.before)*)\)? in\s*")
        found = alias.search(text)
        while found:
            text = text[: found.start()] + re.sub(BEGIN + re.escape(found[1]) + END, found[2], text[found.end() :])
            found = alias.search(text)

        def one(found):
            parts = [it for it in re.split(r"\s*\.", found[2]) if it]
            depth = 0
            while parts and parts[0] == "before":
                parts.pop(0)
                depth += 1
            if not parts:
                look(self.path, f"{need}: c itself, {depth} up")
                return "c"
            return self.step(chain, depth, parts, need)

        text = re.sub(BEGIN + r"(\(c\)|c)((?:\s*\.[\w'-]+)+)", one, text)
        # The test of `if !x` says what x is, and no more what its negation is.
        return re.sub(r"not-(?:true|false) (?:_|c\.[\w.'-]+) (c\.if-not-[\w'-]+\.(?:true|false))", r"\1", text)


def used(lines, text):
    out = []
    words = set(re.findall(r"[^\s(){}.;,\"\[\]]+", text))
    for line in lines:
        found = re.match(r"(use \S+?)\.\{(.*)\}$", line)
        if found:
            items = [it.strip() for it in found[2].split(",")]
            keep = []
            for it in items:
                name = it.split(" as ")[-1].strip()
                parts = [p for p in name.split("◌") if p]
                if name in ("[]",) or name in words or all(p in words for p in parts):
                    keep.append(it)
            if keep:
                out.append(f"{found[1]}.{{{', '.join(keep)}}}")
            continue
        name = line.split()[-1].split(".")[-1]
        if re.search(BEGIN + re.escape(name) + r"\.", text):
            out.append(line)
    return out


def turn(path, of, crate, module):
    function = Function(of, path, crate + "::" + module.replace(".", "::"))
    text = path.read_text(encoding="utf-8")
    uses, head, answers, invariants, others = [], [], [], [], []
    comment = []
    for block in blocks(text):
        whole = "\n".join(block)
        if whole.startswith("use "):
            if not re.search(r"\.(Statement|Tie|Reads|Lts)(\.\{statement\})?( as \S+)?$", whole):
                uses.append(whole)
            continue
        if whole.startswith("--"):
            if not re.match(r"-- src/", whole):
                (comment if uses else head).append(whole)
            continue
        if re.search(r"\btie\.close\b", whole):
            comment = []
            continue
        found = re.match(r"(abbrev )?(pub )?(\S+) :\s+tie\.(\S+)([^\n]*)", whole)
        if not found:
            others.append("\n".join([*comment, whole]))
            comment = []
            continue
        name, kind = found[3], found[4]
        rest = whole[found.end() :]
        if kind.startswith(("invariant-", "decreases-")):
            word, old = kind.split("-", 1)
            loop = function.loops.get(norm(old))
            clause = re.search(r"\n" + re.escape(name) + r"([^=]*)=((?:.|\n)*)$", rest)
            if not loop or not clause:
                look(path, f"{name}: no such loop")
                others.append(whole)
                continue
            new, live, changed = loop
            params = clause[1].split()
            wanted = [("l.initial." if c else "l.") + v for v, c in zip(live, changed)] + ["l." + v for v, c in zip(live, changed) if c]
            if len(params) != len(wanted):
                look(path, f"{name}: {len(params)} parameters, wanted {len(wanted)}: {wanted}")
                by_name = {}
                for v, c in zip(live, changed):
                    by_name[v + "₀"] = "l.initial." + v
                    by_name[v] = "l." + v
                wanted = [by_name.get(p, "l." + p) for p in params]
            table = {p: w for p, w in zip(params, wanted) if p != "_"}
            names = "|".join(sorted(map(re.escape, table), key=len, reverse=True))
            said = re.sub(BEGIN + f"({names})" + END, lambda it: table[it[1]], clause[2]) if table else clause[2]
            between = rest[: clause.start()]
            invariants.append("\n".join(comment) + ("\n" if comment else "") + f"abbrev pub {word}-{new} : goal.{word}-{new}{between}\n{word}-{new} l ={said}")
            comment = []
            continue
        need = norm(re.sub(r"^Need-", "", kind))
        need = next((it for it in (need, re.sub(r"^(overflow|nonzero)-", "", need), norm(name)) if it in function.needs), need)
        if need not in function.needs:
            if not re.search(r"=\s*search rules\s*$", rest):
                look(path, f"{kind}: no such goal" + (" (settled)" if need in function.settled else "") + ": " + " ".join(rest.split())[:200])
            comment = []
            continue
        new = function.needs[need]
        if re.search(r"=\s*search rules\s*$", rest) and "unfolding" not in rest:
            comment = []
            continue
        clause = re.search(r"\n" + re.escape(name) + r"([^=]*)=((?:.|\n)*)$", rest)
        if not clause:
            look(path, f"{name}: no clause")
            continue
        between = rest[: clause.start()]
        params = [it for it in clause[1].split() if it != "κs"]
        if params[:1] != ["c"]:
            look(path, f"{name}: parameters {params}")
        said = function.body(clause[2], need)
        asks = next((it for it in of["params"] if new.startswith(it.split("::")[-1]) and "requires" in new), None)
        named = clauses(asks).get("requires") if asks else None
        if named and len(flat(said, len(named))) == len(named):
            said = " record { " + "; ".join(f"{a} = {b}" for a, b in zip(named, flat(said, len(named)))) + " }"
        answers.append("\n".join(comment) + ("\n" if comment else "") + f"pub {new} : goal.{new}{between}\n{new} {' '.join(params)} ={said}")
        comment = []
    folder = path.parent
    if invariants:
        own = others if any(re.search(BEGIN + re.escape(re.match(r"(?:--[^\n]*\n)*(?:abbrev |unfoldable |pub )*([^\s:]+)", it)[1]) + END, "\n".join(invariants)) for it in others) else []
        if own:
            look(path, "helpers that the invariants name")
        said = "\n\n".join(own + invariants)
        text = "\n".join([*head, *used(uses, said), f"use Rattle.{crate}.proofs.{module}.Given as goal"]) + "\n\n" + said + "\n"
        (folder / "Invariants.antt").write_text(text, encoding="utf-8")
        head = []
    if answers:
        said = "\n\n".join(others + answers)
        # The width that its argument no more shows: the numbers of these crates have 64 bits.
        said = re.sub(r"\bto_z-of_z \((?=search|rw|omega|grind)", "to_z-of_z {w = w64} (", said)
        if "{w = w64}" in said and not re.search(r"\{[^}]*\bw64\b", "\n".join(uses)):
            uses.append("use mir.Syntax.{w64}")
        text = "\n".join([*head, *used(uses, said), f"use Rattle.{crate}.proofs.{module}.Goals as goal"]) + "\n\n" + said + "\n"
        (folder / "Answers.antt").write_text(text, encoding="utf-8")
    path.unlink()
    if not any(folder.iterdir()):
        folder.rmdir()


def main():
    crate = sys.argv[1]
    top = pathlib.Path("crates", crate)
    names = names_of(top)
    for path in sorted(top.glob("proofs/**/Proof.antt")):
        if " as tie" not in path.read_text(encoding="utf-8"):
            look(path, "no tie: stays")
            continue
        module = ".".join(path.parent.relative_to(top / "proofs").parts)
        of = names.get(f"Rattle-{crate}-proofs.{module}.Lts")
        if of is None:
            look(path, f"no names for {module}")
            continue
        try:
            turn(path, of, crate, module)
        except Exception as e:  # noqa: BLE001
            look(path, f"not turned: {e!r}")


main()
