#!/usr/bin/env python3
"""Brings the repository's own antt names to one spelling: types and facts in camel case, everything else in snake case.

usage: python3 tools/respell.py        at the top of the repository, once

It looks for the names that the repository defines (in specs/ and proofs/: definitions, fields, parameters, bound names),
turns those with a dash, and leaves the names of the library, the names that the prover makes, and comments. No name of src/
has a dash, so of src/ only clauses change; a string there that held such a word would change too (none does). It prints names
that would fall together, and then turns none.
"""
import os
import re
import sys

TOKEN = re.compile(r"(?<![\w'’.-])[A-Za-z_][\w']*(?:-[\w']+)*")
WORD = re.compile(r"[A-Za-z_◌][\w'◌]*(?:-[\w']+)*")
MODIFIERS = r"(?:abbrev |unfoldable |pub |data |record )*"
DEFINED = re.compile(r"^\s*(?:let )?" + MODIFIERS + r"((?:[A-Za-z_][\w'-]*)(?: [A-Za-z_][\w'-]*)*)\s*(?:\([^)]*\) ?|\{[^}]*\} ?)*:(?!:)")
BOUND = re.compile(r"[({]((?:[A-Za-z_][\w'-]*)(?: [A-Za-z_][\w'-]*)*) : ")
LAMBDA = re.compile(r"λ ((?:[A-Za-z_][\w'-]*)(?: [A-Za-z_][\w'-]*)*)\.")
LET = re.compile(r"\blet ([A-Za-z_][\w'-]*) (?::|=)")
PATTERN = re.compile(r"^\s*[A-Za-z_][\w'-]* ([^=]*) = ")
# Names that are spelled otherwise: one has a name of the older library in it, two are facts and so begin with a capital, and the
# rest would have the names of functions that their own contracts are about.
SPECIAL = {
    "getD-first": "get_or_first",
    "dense-allows": "DenseAllows",
    "ticks-allows": "TicksAllows",
    "look-over": "look_over_answer",
    "look-model": "look_model_answer",
    "look-list": "look_list_answer",
    "may-stand": "may_stand_here",
    "atom-of": "atom_of_words",
    "condition-of": "condition_of_words",
    "booleans-after": "booleans_after_command",
    "by-zone": "settled_by_zone",
}
# Names that are there already, of other things, where no text can mean both.
APART = {"command-fits", "few-booleans", "few-clocks", "is-atom", "is-done", "keeps-all", "zone-fits"}


def texts():
    for folder, dirs, files in os.walk("crates"):
        dirs[:] = sorted(d for d in dirs if d not in ("out", "target"))
        for f in sorted(files):
            if f.endswith((".rt", ".antt")):
                yield os.path.join(folder, f)


def code(line, mark):
    at = line.find(mark)
    return (line, "") if at < 0 else (line[:at], line[at:])


def camel(name):
    return "".join(p[:1].upper() + p[1:] for p in name.split("-"))


def respelled(name):
    if name in SPECIAL:
        return SPECIAL[name]
    return camel(name) if name[0].isupper() else name.replace("-", "_")


def plain_all():
    """The fact of each element, by recursion, stands under its own name: `All` is another definition of today's library."""
    for p in texts():
        with open(p, encoding="utf-8") as f:
            old = f.read()
        if "AllByRecursion as All" in old:
            mark = "--" if p.endswith(".antt") else "//"
            new = re.sub(r"AllByRecursion as All\b", "AllByRecursion", old)
            lines = (code(l, mark) for l in new.split("\n"))
            new = "\n".join(re.sub(r"(?<![\w'.-])All(?![\w'-])", "AllByRecursion", a) + b for a, b in lines)
            with open(p, "w", encoding="utf-8") as f:
                f.write(new)


def main():
    plain_all()
    own, foreign, made, every = set(), set(), set(), set()
    for p in texts():
        with open(p, encoding="utf-8") as f:
            lines = f.read().split("\n")
        mark = "--" if p.endswith(".antt") else "//"
        for line in lines:
            line = code(line, mark)[0]
            use = re.match(r"\s*(?:ghost )?use (Rattle\.(\w+)\.[\w.-]+)(?:\.\{(.*)\})?", line)
            if use:
                own.update(re.findall(r" as ([A-Za-z_][\w'-]*)", line))
                if use[2] in ("std", "core"):
                    foreign.update(WORD.findall(use[3] or ""))
                continue
            every.update(t for t in TOKEN.findall(line))
            every.update(t for t in re.findall(r"\.([a-z_][\w'-]*)", line))
            if not p.endswith(".antt"):
                continue
            for m in [DEFINED.match(line)] if DEFINED.match(line) else []:
                if re.search(r":\s*goal\.", line):
                    made.update(m[1].split())
                else:
                    own.update(m[1].split())
            for pattern in (BOUND, LAMBDA, LET):
                for m in pattern.finditer(line):
                    own.update(m[1].split())
            m = PATTERN.match(line)
            if m:
                own.update(TOKEN.findall(m[1]))
            made.update(re.findall(r"\b(?:goal|c|l|w|g|record)\.([A-Za-z_][\w'-]*)", line))
    turn = {n: respelled(n) for n in own if "-" in n and n not in foreign}
    for n in sorted(n for n in turn if n in made):
        print(f"look: {n} is also a name that the prover makes")
    taken = every | foreign
    fall = [(n, t) for n, t in sorted(turn.items()) if t in taken and n not in APART]
    to = {}
    for n, t in sorted(turn.items()):
        if t in to:
            fall.append((n, t))
        to[t] = n
    for n, t in fall:
        print(f"look: {n} would become {t}, which is there")
    if "--names" in sys.argv:
        print("\n".join(f"{n} {t}" for n, t in sorted(turn.items())))
        return 0
    if fall and "--anyway" not in sys.argv:
        return 1
    name = re.compile(r"(?<![\w'-])(" + "|".join(re.escape(n) for n in sorted(turn, key=len, reverse=True)) + r")(?![\w'-])")
    count = 0
    for p in texts():
        mark = "--" if p.endswith(".antt") else "//"
        with open(p, encoding="utf-8") as f:
            old = f.read()
        new = "\n".join(name.sub(lambda m: turn[m[1]], a) + b for a, b in (code(l, mark) for l in old.split("\n")))
        if new != old:
            count += 1
            with open(p, "w", encoding="utf-8") as f:
                f.write(new)
    print(f"respell: {len(turn)} names, {count} files")
    return 0


if __name__ == "__main__":
    raise SystemExit(main())
