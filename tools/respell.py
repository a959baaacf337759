#!/usr/bin/env python3
"""Respells this repository's own names of specs/ and proofs/: words in snake case, an apostrophe for a prime, no middle dot.

usage: python3 tools/respell.py [--dry]    at the top of the repository, once, right after the toolchain's port.py

Types, modules and statements keep their capitals; functions of src/, exported names and strings keep theirs. Where a new name already
stands in a file that has the old one, or is an item of the .rt file that imports it, it is listed; a lemma that would take its definition's name ends in `_lem` (FALLS).
"""

import collections
import os
import re
import sys

# a test's name says what it tells
TESTS = {
    "ends?": "does_end", "both?": "are_both", "hits?": "does_hit", "fits?": "does_fit", "gives?": "does_give",
    "reach?": "does_reach", "serves?": "does_serve",
}
# a lemma that would fall together with its definition
LEMMAS = (
    "all-served apart-written bits-line digits_in distance-told drawn-told form-of head-lines head-room input-line "
    "line-with list_length listed-room most-targets odd-parts one-row out_line out-lines out-width outcome-of outs-from prefix-row "
    "prefix-rows printed-told products-from ready-values report-line row_count row-line row-lines rows_written target-product "
    "target-products targets-line text-room unsigned-text valid-rows over-at first_some"
).split()
FALLS = {n: n.replace("-", "_") + "_lem" for n in LEMMAS} | {"eq→eqb": "eqb_of_eq", "byWidth": "by_width"}
WORD = re.compile(r"(?P<path>\.?)(?P<word>[^\s(){}\[\];:,.λ→«»\\\"`]+)")
DEFINED = re.compile(r"^(?P<in>\s*)(?:(?:pub|abbrev|unfoldable)\s+)*(?P<name>[^\s(){}\[\];:,.λ→«»\\]+)(?:\s+\{[^}]*\})*\s+:\s")
KIND = re.compile(r"^(?P<in>\s*)(?:(?:pub|abbrev|unfoldable)\s+)*(?P<kind>record|data)\s+(?P<name>[^\s(){}\[\];:,.]+)")
IMPORT = re.compile(r"^\s*(?:pub\s+)?(?:ghost\s+)?use\s+(?P<path>[^\s{;]+?)(?:\.\{(?P<names>[^}]*)\})?\s*(?:as\s+\S+)?;?\s*$")


def respelled(name):
    if name in FALLS:
        return FALLS[name]
    if name in TESTS:
        return TESTS[name]
    if name.endswith("?"):
        return "is_" + respelled(name[:-1])
    name = name.replace("getD", "get_or").replace("′", "'")
    if name[0].isupper() and "·" not in name and "-" not in name:
        return name
    name = re.sub(r"(?<=[a-z0-9])([A-Z])(?![a-z]*-is)", lambda m: "_" + m.group(1).lower(), name) if name[0].islower() else name
    name = name.replace("-", "_")
    if "·" in name:
        first, rest = name.split("·", 1)
        name = first.lower() + "_" + respelled(rest)
    return name


def own_crates(root):
    return sorted(c for c in os.listdir(os.path.join(root, "crates")) if os.path.isdir(os.path.join(root, "crates", c, "src")))


def files(root):
    for folder, dirs, names in os.walk(os.path.join(root, "crates")):
        dirs[:] = sorted(d for d in dirs if d not in ("out", ".git"))
        for n in sorted(names):
            if n.endswith((".antt", ".rt")):
                yield os.path.join(folder, n)


def collect(paths):
    """The names that the repository defines: those of definitions, and those of fields."""
    names, fields = set(), set()
    for p in paths:
        if not p.endswith(".antt"):
            continue
        inside = None
        for line in open(p, encoding="utf-8"):
            if line.strip().startswith("--") or not line.strip():
                continue
            depth = len(line) - len(line.lstrip())
            if inside is not None and depth <= inside[0]:
                inside = None
            k = KIND.match(line)
            if k:
                names.add(k["name"])
                inside = (len(k["in"]), k["kind"])
                continue
            d = DEFINED.match(line)
            if not d or "tie.Need" in line:
                continue
            (fields if inside and inside[1] == "record" else names).add(d["name"])
    return names, fields


def foreign(text, own):
    """The names that a file imports from outside the repository, and its aliases."""
    out, aliases = set(), set()
    for line in text.splitlines():
        m = IMPORT.match(line)
        if not m or not m["names"]:
            continue
        mine = any(m["path"].startswith(f"Rattle.{c}.") for c in own) or m["path"].startswith("Rattle\u00b7")
        for item in m["names"].split(","):
            words = item.split()
            if len(words) == 3 and words[1] == "as":
                aliases.add(words[2])
            if words and not mine:
                out.add(words[0])
    return out, aliases


def items(text):
    return set(re.findall(r"(?m)^\s*(?:pub\s+)?(?:fn|const|struct|enum|mod)\s+(\w+)", text))


def parts(path, text):
    """The parts of a file in which names of contracts stand: all of an .antt file, imports and clauses of an .rt file."""
    if path.endswith(".antt"):
        return [(0, len(text))]
    found = []
    for m in re.finditer(r"(?m)^\s*ghost use [^;]*;", text):
        found.append((m.start(), m.end()))
    for m in re.finditer(r"(?m)^\s*(?:requires|ensures|invariant|decreases)\*?\b[^{\n]*\{", text):
        depth, i = 1, m.end()
        while depth:
            depth += {"{": 1, "}": -1}.get(text[i], 0)
            i += 1
        found.append((m.end(), i))
    return sorted(found)


def turned(path, text, names, fields, own):
    not_mine, aliases = foreign(text, own)
    falls, made = set(), {}
    stands = set()
    for a, b in parts(path, text):
        stands |= {m["word"] for m in WORD.finditer(text[a:b])}
    if path.endswith(".rt"):
        stands |= items(text)

    # a field of tender's conditions, and elsewhere a lemma beside the definition
    def one(m):
        dot, word = m["path"], m["word"]
        if not dot and re.match(r"^--", word):
            return m.group(0)
        mine = word in fields if dot else (word in names or word in fields or "·" in word and word in aliases)
        if "·" in word and word not in aliases:
            mine = mine and False
        if not mine or word in not_mine:
            return m.group(0)
        new = respelled(word)
        if word == "few-rows" and "tender" not in path:
            new = "few_rows_lem"
        if new != word and new in stands and respelled(new) == new:
            falls.add((word, new))
        if not dot and made.setdefault(new, word) != word:
            falls.add((made[new] + ", " + word, new))
        return dot + new

    out, at = [], 0
    for a, b in parts(path, text):
        out += [text[at:a], WORD.sub(one, text[a:b])]
        at = b
    return "".join(out) + text[at:], falls


def main(argv):
    root = os.getcwd()
    own = own_crates(root)
    paths = list(files(root))
    names, fields = collect(paths)
    names.add("byWidth")
    new = collections.defaultdict(set)
    for n in names | fields:
        new[respelled(n)].add(n)
    for n, olds in sorted(new.items()):
        if len(olds) > 1:
            print(f"fall together: {sorted(olds)} -> {n}")
    changed = 0
    for p in paths:
        text = open(p, encoding="utf-8").read()
        after, falls = turned(p, text.replace("eq→eqb", "eqb_of_eq"), names, fields, own)
        for old, n in sorted(falls):
            print(f"stands already: {os.path.relpath(p, root)}: {old} -> {n}")
        if after != text:
            changed += 1
            if "--dry" not in argv:
                open(p, "w", encoding="utf-8").write(after)
    print(f"respell: {len(names)} names, {len(fields)} fields, {changed} files changed")


if __name__ == "__main__":
    main(sys.argv[1:])
