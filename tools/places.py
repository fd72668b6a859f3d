#!/usr/bin/env python3
"""Lists the places of a tree that a reader of docs/DESIGN-PASS.md has to judge, point by point.

usage: python3 tools/places.py [FOLDER]

Reads FOLDER/crates/*/src and, for point 8, FOLDER/crates/*/proofs. It finds shapes, and not what they mean: each line that it prints is a place to read.
"""
import collections
import difflib
import glob
import itertools
import os
import re
import sys

FOLDER = sys.argv[1] if len(sys.argv) > 1 else "."
NUMBER = r"(?:u8|u16|u32|u64|usize|i16|i32)"


def sources():
    for path in sorted(glob.glob(f"{FOLDER}/crates/*/src/**/*.rt", recursive=True)):
        with open(path) as file:
            yield os.path.relpath(path, FOLDER), file.read()


def bare(text):
    """The text without comments and clauses, line for line."""
    lines = []
    for line in text.split("\n"):
        stripped = line.strip()
        ghost = re.match(r"(//|ghost\b|requires\b|ensures\b)", stripped)
        lines.append((";" if stripped.endswith(";") and not stripped.startswith("//") else "") if ghost else line)
    return "\n".join(lines)


class Function:
    def __init__(self, path, line, name, params, result, clauses, body):
        self.path, self.line, self.name = path, line, name
        self.params, self.result, self.clauses, self.body = params, result, clauses, body

    def at(self):
        return f"{self.path}:{self.line} {self.name}"


def split_params(text):
    depth, part, parts = 0, "", []
    for c in text:
        depth += (c in "(<[") - (c in ")>]")
        if c == "," and depth == 0:
            parts.append(part)
            part = ""
        else:
            part += c
    parts.append(part)
    return [re.sub(r"\s+", " ", p).strip() for p in parts if p.strip()]


def functions():
    for path, text in sources():
        code = bare(text)
        for m in re.finditer(r"\bfn (\w+)[^(]*\(", code):
            depth, end = 1, m.end()
            while depth and end < len(code):
                depth += (code[end] == "(") - (code[end] == ")")
                end += 1
            params = split_params(code[m.end() : end - 1])
            head_end = end
            depth = 0
            while head_end < len(code) and (depth or code[head_end] not in "{;"):
                depth += (code[head_end] in "([") - (code[head_end] in ")]")
                head_end += 1
            result = re.sub(r"\s+", " ", code[end:head_end]).strip()
            body = ""
            if code[head_end : head_end + 1] == "{":
                depth, i = 1, head_end + 1
                while depth and i < len(code):
                    depth += (code[i] == "{") - (code[i] == "}")
                    i += 1
                body = code[head_end:i]
            first = code[: m.start()].count("\n") + 1
            last = code[: head_end].count("\n") + 1
            clauses = [x.strip() for x in text.split("\n")[first - 1 : last] if re.match(r"\s*(requires|ensures)\b", x)]
            yield Function(path, first, m.group(1), params, result, clauses, body)


def point(number, title, places):
    places = list(places)
    print(f"\n## {number} {title}: {len(places)}")
    for place in places:
        print("  ", place)


def point_1(found):
    for f in found:
        if "bool" in f.result and any("&mut self" in p for p in f.params):
            yield f"flag for a value that is changed: {f.at()}"
        if re.search(rf"Result<.*,\s*{NUMBER}>", f.result):
            yield f"a bare number as the error: {f.at()}"
        if not f.params and re.search(rf"-> {NUMBER}$", f.result) and "Self::" not in f.body:
            yield f"a number that means nothing: {f.at()}"
    for path, text in sources():
        for i, line in enumerate(bare(text).split("\n"), 1):
            if re.search(r"\b255\b|NO_EDGE\b|\.edges == 0|\.code\(\)|\bplace < edges\.len|edges\.len\(\)$", line) and "use " not in line:
                yield f"a number for none, for a kind or for a refusal: {path}:{i} {line.strip()}"
        for m in re.finditer(r"enum (\w+)[^{]*\{(.*?)\n\}", bare(text), re.S):
            variants = re.findall(r"^    (\w+)([({]?)", m.group(2), re.M)
            if len(variants) == 2 and any(v[1] for v in variants):
                yield f"an enum of two cases: {path} {m.group(1)}"


def tokens(f):
    text = f.body
    text = re.sub(r'"[^"]*"', "S", text)
    found = re.findall(r"[A-Za-z_]\w*|\d[\d_]*|[^\s\w]", text)
    return ["T" if t[0].isupper() else "N" if t[0].isdigit() else t for t in found]


def point_2(found):
    bodies = [(f, tokens(f)) for f in found if f.body]
    for (f, a), (g, b) in itertools.combinations(bodies, 2):
        if min(len(a), len(b)) < 12 or abs(len(a) - len(b)) > 0.3 * max(len(a), len(b)):
            continue
        ratio = difflib.SequenceMatcher(None, a, b, autojunk=False).ratio()
        if ratio >= 0.86:
            yield f"{ratio:.2f} {f.at()} / {g.at()}"


def point_3():
    for path, text in sources():
        for i, line in enumerate(bare(text).split("\n"), 1):
            if re.search(r"^\s*(for|while|loop)\b", line):
                counted = re.search(r"for \w+ in [^{]*\.\.|while [^l]|enumerate\(\)", line)
                yield f"{'counted' if counted else 'plain  '} {path}:{i} {line.strip()}"


def point_4(found):
    for path, text in sources():
        for i, line in enumerate(text.split("\n"), 1):
            if re.match(r"impl.*\b(PartialEq|Eq|PartialOrd|Ord|Clone|Copy|From|TryFrom|Display|Debug|Hash|Default)\b.* for ", line):
                yield f"an impl: {path}:{i} {line.strip()}"
    for f in found:
        if "Ordering" in f.result and f.name not in ("cmp", "partial_cmp"):
            yield f"an order: {f.at()}"
        if f.name in ("refusal", "code") or re.search(r"_(before|named)$", f.name):
            yield f"a conversion or an order as a function: {f.at()}"
        if re.search(r"match writeln!|Err\(AllocError\)", f.body):
            yield f"an error turned by hand: {f.at()}"


def point_5(found):
    taken = {}
    for f in found:
        named = {re.sub(r"&(mut )?", "&", re.sub(r"^mut ", "", p)) for p in f.params if ":" in p and "self" not in p}
        taken[f.at()] = frozenset(p for p in named if p.split(":")[0] not in ("rt", "f", "fmt"))
    groups = set()
    for three in itertools.combinations(taken.values(), 3):
        group = frozenset.intersection(*three)
        if len(group) >= 2:
            groups.add(group)
    for group in sorted(groups, key=lambda g: (-len(g), sorted(g))):
        users = [at for at, params in taken.items() if group <= params]
        yield f"{len(users)} functions take {'; '.join(sorted(group))}"
    facts = collections.defaultdict(set)
    for f in found:
        for clause in f.clauses:
            fact = re.sub(r"^(requires|ensures)\s*\w*\s*", "", clause)
            fact = re.sub(r"\.(old|new|now|entry)\b", "", fact)
            facts[fact].add(f.at())
    for fact, s in sorted(facts.items()):
        if len(s) >= 3 and "result" not in fact:
            yield f"{len(s)} contracts say {fact}"


def point_6(found):
    for path, text in sources():
        for m in re.finditer(r"struct (\w+)[^{;]*\{(.*?)\n\}", bare(text), re.S):
            fields = re.findall(r"^    (?:pub )?(\w+): (.*),$", m.group(2), re.M)
            if any("[" in t for _, t in fields) and any(t == "usize" for _, t in fields):
                yield f"a buffer and its length: {path} {m.group(1)}"
            same = collections.Counter(t for _, t in fields)
            for t, n in same.items():
                if n >= 3 and (t in ("u64",) or "[" in t):
                    yield f"{n} fields side by side of the type {t}: {path} {m.group(1)}"
    for f in found:
        names = [p.split(":")[0] for p in f.params]
        if "len" in names and any("[" in p for p in f.params):
            yield f"a list and its length: {f.at()}"


def point_7():
    for path, text in sources():
        for m in re.finditer(r"match [^{]*\{(.*?)\n    \}", bare(text), re.S):
            arms = re.findall(r"=>\s*\{?\s*(?:let _ = )?([a-z_\.]+)\(", m.group(1))
            if len(set(arms)) >= 2 and len(arms) >= 3:
                line = text[: m.start()].count("\n") + 1
                yield f"{path}:{line} {', '.join(arms)}"
        for i, line in enumerate(bare(text).split("\n"), 1):
            if re.search(r"\bfn\(|dyn |impl Fn|: F\b", line):
                yield f"{path}:{i} {line.strip()}"


def point_8():
    for crate in sorted(glob.glob(f"{FOLDER}/crates/*")):
        answers = glob.glob(f"{crate}/proofs/**/Answers.antt", recursive=True)
        count = sum(len(re.findall(r"^pub .*: goal\.", open(p).read(), re.M)) for p in answers)
        lemmas = 0
        for path in glob.glob(f"{crate}/proofs/*.antt"):
            lemmas += len(re.findall(r"^ *(?:pub )?[a-z][\w'-]* : ", open(path).read(), re.M))
        lines = sum(open(p).read().count("\n") for p in glob.glob(f"{crate}/proofs/**/*.antt", recursive=True))
        if answers or lemmas:
            yield f"{os.path.basename(crate)}: {len(answers)} files of answers with {count} answers, {lemmas} lemmas, {lines} lines"


def main():
    found = list(functions())
    point(1, "own options, flags, numbers", point_1(found))
    point(2, "twins", point_2(found))
    point(3, "loops", point_3())
    point(4, "by hand", point_4(found))
    point(5, "facts and parameters together", point_5(found))
    point(6, "buffers, parallel arrays", point_6(found))
    point(7, "switches", point_7())
    point(8, "proofs", point_8())


main()
