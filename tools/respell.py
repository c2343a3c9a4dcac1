#!/usr/bin/env python3
"""Brings this repository's own definitions, laws and fields to snake case, once: `ruleOfEach` and `rounded-is` become `rule_of_each` and `rounded_is`.

usage: tools/respell.py [--check]

Run at the top, after the kit's own scripts and before any edit by hand. It takes the names that .antt files below crates/ declare, and turns
each in every .antt file, in .rt files and must-fail edits, and in backquotes in pages. A name that a file takes from the library stays there.
It stops, and writes nothing, where two names of one file would fall together. --check only says what it would do.
"""

import collections
import glob
import os
import re
import sys

WORD = r"[^\s(){}.;,@\"«»\[\]\\`]+"
TOKEN = re.compile(r"--[^\n]*|//[^\n]*|\"(?:[^\"\\]|\\.)*\"|" + WORD)
DECLARED = re.compile(r"^\s*(?:(?:abbrev|unfoldable|pub|data|record|ruleset|private)\s+)*(" + WORD + r")(?:\s+\([^)]*\))*\s*:(?!=)\s", re.M)
USE = re.compile(r"^\s*(?:pub\s+|ghost\s+)*use\s+([^\s.{;]+(?:\.[^\s.{;]+)*)(?:\.\{([^}]*)\})?", re.M)
# Laws that would have the name of the definition that they are about.
LAWS = ["is-marked", "renamed-names", "on-grid", "all-rings", "table-words", "word-of", "walkable-faces", "tree-words", "shown-names", "seen-fault", "observer-fault", "room-name", "range-words", "node-words", "lowest-same", "loop-start", "lines-to", "leaf-words", "kept-name", "inner-words", "in-header", "handed-over", "entry-at", "start-by", "word_byte", "room_of", "has_room", "map_at"]
OTHER = {n: re.sub("-", "_", n) + "_lem" for n in LAWS}
# A help in one proof, and a step that is called as its function is.
OTHER["bytes-of"] = "bytes_of_lem"
ALIKE = {"is_full"}


def snake(name):
    """The name in snake case; a type's name keeps its capitals, and an operator is no word."""
    if "◌" in name:
        return name
    parts = []
    for part in name.split("-"):
        if not re.match(r"[A-Z]", part):
            part = re.sub(r"(?<=[a-z0-9])(?=[A-Z])|(?<=[A-Z])(?=[A-Z][a-z])", "_", part)
            part = "_".join(w.lower() if re.fullmatch(r"[A-Z][A-Za-z0-9]*'*", w) else w for w in part.split("_"))
        parts.append(part)
    return "_".join(parts)


def read(path):
    with open(path, encoding="utf-8") as it:
        return it.read()


def antt():
    return sorted(p for p in glob.glob("crates/*/specs/**/*.antt", recursive=True) + glob.glob("crates/*/proofs/**/*.antt", recursive=True) if "/out/" not in p)


def own_crates():
    return {os.path.basename(p) for p in glob.glob("crates/*")}


def from_library(text, crates):
    """The names that the file takes from a library that is not this repository's."""
    taken = set()
    for m in USE.finditer(text):
        path = m.group(1).split(".")
        if path[0] == "Rattle" and len(path) > 1 and path[1] in crates:
            continue
        for one in (m.group(2) or "").split(","):
            for word in one.split(" as "):
                taken.add(word.strip())
    return taken


def functions():
    """The names of src/: a definition may have its function's name, and so may a field of a plain statement a field of a struct."""
    text = "".join(read(p) for p in glob.glob("crates/*/src/**/*.rt", recursive=True))
    return set(re.findall(r"\bfn (\w+)", text)) | set(re.findall(r"^    (?:pub )?(\w+): ", text, re.M))


def declared(paths):
    names = set()
    for p in paths:
        for m in DECLARED.finditer(re.sub(r"--[^\n]*", "", read(p))):
            names.add(m.group(1))
    return names


def turned(text, new, keep, seen):
    def in_comment(text):
        return re.sub(r"`[^`\n]*`", lambda m: TOKEN.sub(word, m.group(0)), text)

    def word(m):
        it = m.group(0)
        if it.startswith("--") or it.startswith("//"):
            return it[:2] + in_comment(it[2:])
        if it.startswith('"'):
            return it
        to = it if it in keep else new.get(it, it)
        seen[to].add(it)
        return to

    return TOKEN.sub(word, text)


def pages():
    return sorted(glob.glob("*.md") + glob.glob("docs/*.md") + glob.glob("docs/notes/*.md"))


def main(argv):
    crates = own_crates()
    names = declared(antt())
    new = {n: OTHER.get(n, snake(n)) for n in names if OTHER.get(n, snake(n)) != n}
    files, clashes, source = {}, [], functions()
    for p in antt() + sorted(glob.glob("crates/*/src/**/*.rt", recursive=True)):
        text = read(p)
        seen = collections.defaultdict(set)
        # a function of src/ keeps its name, whatever a law of that name is called now
        files[p] = turned(text, new, from_library(text, crates) | (set(LAWS) if p.endswith(".rt") else set()), seen)
        clashes += [f"{p}: {' and '.join(sorted(of))} -> {to}" for to, of in seen.items() if len(of) > 1 and not (to in of and to in source and len(of) == 2) and to not in ALIKE]
    for p in sorted(glob.glob("crates/*/must-fail/*.edit")):
        files[p] = turned(read(p), new, set(), collections.defaultdict(set))
    for p in pages():
        files[p] = re.sub(r"`[^`\n]*`", lambda m: TOKEN.sub(lambda w: new.get(w.group(0), w.group(0)), m.group(0)), read(p))
    print("\n".join(clashes))
    print(f"{len(new)} names, {len(clashes)} clashes")
    if clashes or "--check" in argv:
        return 1
    for p, text in files.items():
        if text != read(p):
            with open(p, "w", encoding="utf-8") as it:
                it.write(text)
    return 0


if __name__ == "__main__":
    sys.exit(main(sys.argv[1:]))
