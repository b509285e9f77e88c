#!/usr/bin/env python3
"""Gives the repository's own definitions and lemmas the library's spelling: words in snake case.

usage: python3 tools/respell.py [--check]    in the repository's root, once, after the toolchain's own scripts

A name declared in specs/ or proofs/ that has a dash or a capital inside (`radixOf`, `byte-there`) is rewritten
wherever it stands as a whole word: in specs/, in proofs/, in the clauses of src/ and in the code spans of docs/.
Names of types keep their capitals. Names of goals, which the check makes out of the source, keep their dashes.
--check writes nothing and lists each old and new name, and those that would fall together with another.
"""
import collections
import os
import re
import sys

DECLARED = re.compile(r"^(\s*)(?:(?:abbrev|unfoldable)\s+)*(?:pub\s+)?([^\s(){}.;,@\"«»:]+)\s*:\s")
RECORD = re.compile(r"^(?:pub\s+)?record\b.*\bwhere\s*$")
GOAL = re.compile(r":\s*goal\.")
TOKEN = re.compile(r"[^\s(){}.;,@\"«»\[\]`|]+")
SPAN = re.compile(r"`[^`\n]+`")
WORDS = re.compile(r"^--   (\S+(?:, \S+)*) {2,}(\S.*)$")
CLAUSE = re.compile(r"(?:ensures|requires)\s+(\w+)\s*\{")
# lemmas that would have the name of the definition that they are about
LEMMAS = {
    n: n.replace("-", "_") + "_lem"
    for n in (
        "byte-of symbol-of first-of above-by as-symbols asked-text end-form first-form on-lane start-form sub-bytes"
        " words-ask xor-word"
    ).split()
}
# a field beside a definition, and definitions beside a clause
LEMMAS |= {"most-layers": "most_layers_read"}
LEMMAS |= {
    "keptOverFirst": "kept_over_first_pile",
    "nonzeroOverKept": "nonzero_over_kept_pile",
    "nonzeroOverLuhn": "nonzero_over_luhn_pile",
}
ALONE = {
    "formats": {"below_by": "below_by_lem", "belowBy": "below_by"},
    "block_cipher": {"from_bits": "from_bits_lem", "sub_word": "sub_word_lem"},
}


def files(top, ends):
    for folder, dirs, names in os.walk(top):
        dirs[:] = sorted(d for d in dirs if d not in ("out", ".git", "target"))
        for name in sorted(names):
            if name.endswith(ends):
                yield os.path.join(folder, name)


def read(path):
    with open(path, encoding="utf-8") as f:
        return f.read()


def snake(name):
    if name[0].islower():
        name = re.sub(r"(?<=[a-z0-9'])[A-Z]", lambda m: "_" + m.group().lower(), name)
    return name.replace("-", "_")


def declared():
    """Each declared name with the files that declare it, and the names that are fields of a record."""
    where, fields = collections.defaultdict(set), set()
    for path in files("crates", ".antt"):
        inside = False
        for line in read(path).splitlines():
            if RECORD.match(line):
                inside = True
                continue
            if line and not line.startswith(" "):
                inside = False
            m = DECLARED.match(line)
            if not m or GOAL.search(line):
                continue
            where[m.group(2)].add(path)
            if inside:
                fields.add(m.group(2))
    return where, fields


def clauses():
    """The names of clauses in src/, as an older toolchain spelled them in proofs."""
    found = set()
    for path in files("crates", ".rt"):
        found |= {c for c in CLAUSE.findall(read(path)) if "_" in c}
    return {c.replace("_", "-"): c for c in found}


def turn(text, names, fields):
    def word(m):
        old = m.group()
        behind_dot = m.start() > 0 and text[m.start() - 1] == "."
        if behind_dot and old not in fields:
            return old
        return names.get(old, old)

    return TOKEN.sub(word, text)


def lined_up(text):
    """The list of words at the head of a file in specs/, with their meanings in one column."""
    lines = text.split("\n")
    rows = [(i, WORDS.match(line)) for i, line in enumerate(lines[:60]) if WORDS.match(line)]
    width = max((len(m.group(1)) for _, m in rows), default=0)
    for i, m in rows:
        lines[i] = "--   " + m.group(1).ljust(width) + "  " + m.group(2)
    return "\n".join(lines)


def older(span, where):
    """The words of a code span that the toolchain's scripts respelled in the code, but not in the docs."""
    return {w: snake(w) for w in TOKEN.findall(span) if w[0].islower() and w not in where and snake(w) in where}


def main(check):
    where, fields = declared()
    odd = [n for n in where if n[0].islower() and ("-" in n or re.match(r"[a-z][^A-Z]*[A-Z]", n))]
    names = {n: LEMMAS.get(n, snake(n)) for n in odd} | {k: v for k, v in clauses().items() if k not in where}
    fields |= set(clauses())
    if check:
        for old, new in sorted(names.items()):
            print(old, new, "FALLS TOGETHER" if new in where or sum(v == new for v in names.values()) > 1 else "")
        return
    for path in files("crates", (".antt", ".rt")):
        crate = path.split(os.sep)[1]
        text = read(path)
        new = turn(text, names | ALONE.get(crate, {}), fields)
        if path.endswith(".antt") and "/specs/" in path:
            new = lined_up(new)
        if new != text:
            with open(path, "w", encoding="utf-8") as f:
                f.write(new)
    for path in list(files("docs", ".md")) + ["README.md"]:
        text = read(path)
        new = SPAN.sub(lambda m: turn(m.group(), names | older(m.group(), where), fields), text)
        if new != text:
            with open(path, "w", encoding="utf-8") as f:
                f.write(new)


main("--check" in sys.argv)
