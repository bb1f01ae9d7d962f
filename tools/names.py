#!/usr/bin/env python3
"""Brings this repository's own definitions to the spelling of today's Rattle: words and fields in snake case.
usage: python3 tools/names.py    (at the top, once, after the kit's port.py; it lists what it renames, and stops where names would fall together)

Definitions, told answers and record fields are respelled, in specs/, proofs/, src/ and must-fail/, and where the pages cite them. Names of facts and types keep
their capital, and a lemma keeps the dashes that join the names it speaks of. Functions of src/ and exported names are not touched."""
import pathlib
import re
import sys

ROOT = pathlib.Path(__file__).resolve().parent.parent
# a word that would fall together with another gets a name of its own
OWN = {"zeroF": "zero_float", "goesOn": "going_on", "saidAt": "heard_at"}
FIELDS = {"by-calls": "by_calls", "by-chunks": "by_chunks", "there-are": "there_are", "length-ahead": "length_ahead", "sum-ahead": "sum_ahead"}
DECLARED = re.compile(r"^\s*(?:(?:abbrev|unfoldable|pub)\s+)*([a-z][\w']*)(?:\s+[a-z][\w']*)*\s+:\s", re.M)
PAGES = [*ROOT.glob("*.md"), *(ROOT / "docs").rglob("*.md")]


def texts():
    for end in ("*.rt", "*.antt", "*.edit"):
        yield from (p for p in sorted((ROOT / "crates").rglob(end)) if "out" not in p.relative_to(ROOT).parts)


def snake(name):
    name = re.sub(r"([a-z0-9])([A-Z])", r"\1_\2", name)
    return name.lower()


def token(name):
    return re.compile(r"(?<![\w'₀-₉-])" + re.escape(name) + r"(?![\w'₀-₉-])")


def main():
    files = {p: p.read_text(encoding="utf-8") for p in texts()}
    declared = {n for p, t in files.items() if p.suffix == ".antt" for n in DECLARED.findall(t) if re.search("[A-Z]", n)}
    names = {n: OWN.get(n, snake(n)) for n in declared} | FIELDS
    # what a file speaks of in its lines of code; a part of a path is no word, and a function of src/ may have its definition's name
    words = {p: set(re.findall(r"(?<![\w'₀-₉.-])[\w'₀-₉-]+(?![\w'₀-₉.-])", re.sub("--.*", "", t))) for p, t in files.items() if p.suffix == ".antt"}
    # a step of a proof that is named after a call
    together = sorted({(n, names[n], str(p.relative_to(ROOT))) for p, has in words.items() for n in has & names.keys() if names[n] in has and n != "headOf"})
    if len(set(names.values())) < len(names) or together:
        sys.exit(f"names fall together: {together}")
    one = re.compile(r"(?<![\w'₀-₉-])(" + "|".join(map(re.escape, sorted(names, key=len, reverse=True))) + r")(?![\w'₀-₉-])")
    for p, t in [*files.items(), *((p, p.read_text(encoding="utf-8")) for p in PAGES)]:
        new = one.sub(lambda m: names[m.group(1)], t)
        if new != t:
            p.write_text(new, encoding="utf-8")
    print("\n".join(f"{n} {names[n]}" for n in sorted(names)))


main()
