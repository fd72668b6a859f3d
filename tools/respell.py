#!/usr/bin/env python3
"""Spells the definitions and lemmas of this repository as the library does: words in snake case, types in camel case.

usage: python3 tools/respell.py        at the top of the repository, once, right after the kit's own script

A name of specs/ or proofs/ with dashes gets underscores for them (`limits-answer` becomes `limits_answer`); one that begins with a capital is a type and gets
camel case (`Row-laws` becomes `RowLaws`). A dash stays in a lemma where it joins the names of two functions, as in `zeros-append`, since that is the library's
own spelling; a lemma that would meet a function of src/ gets `_lem`. Functions, fields and constants of src/, exported names, strings, inputs and outputs keep their names, and so do the names that Rattle makes for
goals. It prints each change, and stops where two names would fall together.
"""

import pathlib
import re
import sys

NAME = r"[^\s(){}.;,@\"«»]+"
DECLARED = re.compile(rf"(?m)^( *)((?:(?:abbrev|unfoldable|pub|data|record) +)*)({NAME})((?: +(?:\([^()\n]*\)|\{{[^{{}}\n]*\}}))*) *:(?= |$)(.*)")
GENERATED = re.compile(r"^\s*(goal|needs|need|given)\.")
HEADS = ("goal.", "c.", "w.", "l.", "g.")
# The functions whose names a lemma joins by a dash.
JOINED = {"append", "count", "fine", "joined", "length", "measured", "plus", "row", "split", "zeros"}
FUNCTION = re.compile(r"\bfn (\w+)")


def files(top, *kinds):
    return [p for p in sorted((top / "crates").rglob("*")) if p.suffix in kinds and "out" not in p.parts]


def declared(top):
    """The names that specs/ and proofs/ declare, each with True where it is a definition and no lemma."""
    found = {}
    for path in files(top, ".antt"):
        for _, heads, name, _, kind in DECLARED.findall(path.read_text(encoding="utf-8")):
            if GENERATED.match(kind) or name.startswith("--"):
                continue
            found[name] = found.get(name, False) or "abbrev" in heads or "unfoldable" in heads
    return found


def called(top):
    """The names of the functions of src/."""
    return {name for path in files(top, ".rt") for name in FUNCTION.findall(path.read_text(encoding="utf-8"))}


def respelled(name, is_definition, functions):
    if "-" not in name.strip("-"):
        return name
    parts = name.split("-")
    if name[0].isupper():
        return "".join(part[:1].upper() + part[1:] for part in parts)
    if not is_definition and all(part in JOINED for part in parts):
        return name
    to = "_".join(parts)
    return to + "_lem" if to in functions else to


def swap(text, table):
    def one(match):
        before = text[max(0, match.start() - 5):match.start()]
        if before.endswith(tuple(HEADS)) and not re.search(r"[\w'-](c|w|l|g|goal)\.$", before):
            return match.group(0)
        return table.get(match.group(0), match.group(0))

    return re.sub(NAME, one, text)


def main():
    top = pathlib.Path.cwd()
    names = declared(top)
    functions = called(top)
    table = {n: respelled(n, names[n], functions) for n in names}
    table = {n: to for n, to in table.items() if n != to}
    together = {to for to in table.values() if to in names or sum(other == to for other in table.values()) > 1}
    if together:
        sys.exit(f"names that would fall together: {sorted(together)}")
    for path in files(top, ".antt", ".rt", ".edit"):
        text = path.read_text(encoding="utf-8")
        to = swap(text, table)
        if to != text:
            path.write_text(to, encoding="utf-8")
    for name in sorted(table):
        print(f"{name} -> {table[name]}")


main()
