#!/usr/bin/env python3
"""Counts, in the sources of every crate, the places that docs/DESIGN-PASS.md speaks of: one line for each kind of place, with
its point there. `tools/design_places.py -v` names each place; `tools/design_places.py FOLDER` counts in another checkout."""
import glob
import os
import re
import sys

VERBOSE = "-v" in sys.argv
FOLDERS = [a for a in sys.argv[1:] if a != "-v"]
ROOT = FOLDERS[0] if FOLDERS else os.path.join(os.path.dirname(os.path.abspath(__file__)), "..")


def sources():
    for path in sorted(glob.glob(os.path.join(ROOT, "crates/*/src/*.rt"))):
        yield os.path.relpath(path, ROOT), open(path, encoding="utf-8").read().split("\n")


def lines(pattern, but=None):
    """The lines that have the pattern, comments aside."""
    found = []
    for path, text in sources():
        for number, line in enumerate(text, 1):
            if line.lstrip().startswith("//"):
                continue
            if re.search(pattern, line) and not (but and re.search(but, line)):
                found.append("%s:%d: %s" % (path, number, line.strip()))
    return found


def structs(test):
    """The structs whose text passes, with the line before each `struct` that is no comment and no derive."""
    found = []
    for path, text in sources():
        for number, line in enumerate(text):
            if re.match(r"(pub )?struct \w+", line):
                end = next(i for i in range(number, len(text)) if text[i].startswith("}") or ";" in text[i])
                above = " ".join(text[max(0, number - 3):number])
                if test(above, "\n".join(text[number:end])):
                    found.append("%s:%d: %s" % (path, number + 1, line.strip()))
    return found


def functions():
    """Each function: its place, its name, its parameters, what it answers, its clauses."""
    for path, text in sources():
        whole = "\n".join(text)
        for m in re.finditer(r"^\s*(?:pub(?:\(crate\))? )?(?:extern \"C\" )?fn (\w+)(?:<[^{]*?>)?\(", whole, re.M):
            i, depth = m.end(), 1
            while depth:
                depth += {"(": 1, ")": -1}.get(whole[i], 0)
                i += 1
            body = re.search(r"^\s*\{|\{\s*$", whole[i:], re.M)
            head = whole[i:i + body.start()] if body else whole[i:i + 2000]
            clauses = re.findall(r"(?:requires|ensures)\s+\w*\s*\{(.*?)\}\s*$", whole[i:i + 4000].split("\n{")[0], re.M | re.S)
            answer = re.match(r"\s*->\s*([^\n{]+)", head)
            yield "%s:%d" % (path, whole[:m.start()].count("\n") + 1), m.group(1), whole[m.end():i - 1], answer.group(1).strip() if answer else "", clauses


def facts():
    """The facts of `requires` and `ensures` that three or more functions of one crate state, with how many do."""
    seen = {}
    for place, name, _, _, clauses in functions():
        here = set()
        for clause in clauses:
            for fact in re.split(r"\s×\s", clause):
                here.add(fact.strip().strip("()").strip())
        for fact in here:
            seen.setdefault((place.split("/")[1], fact), set()).add(name)
    plain = [(c, f, n) for (c, f), n in seen.items() if len(n) >= 3 and "result" not in f and re.search(r"[A-Z]\w+ ", f)]
    return ["%s: %d functions: %s" % (c, len(n), f) for c, f, n in sorted(plain)]


def many_parameters():
    return ["%s: %s with %d parameters" % (place, name, parameters.count(":")) for place, name, parameters, _, _ in functions() if parameters.count(":") >= 6]


def with_a_length():
    """A slice and how many of it count, as two parameters."""
    return ["%s: %s" % (place, name) for place, name, parameters, _, _ in functions() if re.search(r"(starts|journal): &(mut )?\[\w+\],\s*(n|f): \w+", parameters)]


KINDS = [
    ("1", "a function that answers a verdict as a number and a place", lambda: lines(r"-> Answer\b", r"extern \"C\"")),
    ("1", "a function that answers a fault as a number", lambda: lines(r"fn \w*fault\(.*-> u32")),
    ("1", "a test of a refusal's number against 0", lambda: lines(r"if (\w+\.(number|fault)|fault|f) (!=|==) 0 \{")),
    ("1", "a refusal made by its number", lambda: lines(r"(first|then)_rule\(\w*(,\s*)?\d+|\bnumber: [1-9]\d*,|return [2-4]\d;|^\s*[2-4]\d$|refused_\w+\((bytes, )?[1-9]\d*,")),
    ("1", "a struct that is a flag and a value", lambda: structs(lambda above, s: re.search(r"\b(on|ok|found): bool", s))),
    ("1", "a struct that is a refusal or a value, not of the C interface", lambda: structs(lambda above, s: "repr(C)" not in above and re.search(r"\b(number|fault): u32", s))),
    ("1", "a search that answers a number past the last for none", lambda: ["%s: %s" % (p, n) for p, n, _, a, c in functions() if re.match(r"(first|find)_", n) and a == "usize"]),
    ("1", "a section, table or tag as a number: a parameter", lambda: ["%s: %s" % (p, n) for p, n, q, _, _ in functions() if re.search(r"\b(k|sect|tag): (usize|u8)\b", q)]),
    ("3", "a loop that is no `for`", lambda: lines(r"^\s*(while\b|loop \{)")),
    ("3", "`for`", lambda: lines(r"^\s*for\b")),
    ("3", "an iterator's method", lambda: lines(r"\.(find|any|all|position|take_while|filter|fold|zip|map|count|fill|copy_from_slice|copy_within)\(")),
    ("4", "an equality, an order or a copy written by hand", lambda: ["%s: %s" % (p, n) for p, n, _, _, _ in functions() if re.match(r"(larger|smaller|copy_part|same_word|close_up)$", n)]),
    ("5", "a fact that three or more functions of a crate state", facts),
    ("5", "a function of six or more parameters", many_parameters),
    ("6", "a slice with a count beside it, as parameters", with_a_length),
    ("7", "a boxed closure, `dyn` or function pointer", lambda: lines(r"\bdyn\b|\bfn\(")),
    ("8", "a proof that walks the code, Proof.antt", lambda: [os.path.relpath(p, ROOT) for p in sorted(glob.glob(os.path.join(ROOT, "crates/*/proofs/**/Proof.antt"), recursive=True))]),
]

for point, kind, find in KINDS:
    places = find()
    print("%s  %4d  %s" % (point, len(places), kind))
    if VERBOSE:
        for place in places:
            print("        " + place)
