#!/usr/bin/env python3
"""Gives the steps, places and goals that a Proof.antt names the names that today's Rattle gives them.

usage: tools/rename_walks.py NAMES.json CRATE_FOLDER COMMIT [FUNCTION ..]

NAMES.json is what `rt check --generated DIR --old-names` writes for the crate: the old name and the new one of each step, place and goal.
COMMIT has the proofs as they were before the kit's scripts: an old name is read there, since the scripts respell some.
It rewrites proofs/**/Proof.antt in place, and says which names it could not tell. Run it once for each function.
"""

import glob
import json
import os
import re
import subprocess
import sys

WORD = r"[^\s(){}.;,@\"«»\[\]\\`]+"
NEED = re.compile(r"(?<![^\s(])(tie|[\w-]+-lts)\s?\.Need-(" + WORD + ")")
PATH = re.compile(r"([\w'₀-₉)\]-])((?:\.(?:" + WORD + "))+)")
OLD_FIELD = re.compile(r"(?<=[\s\w'₀-₉)\]-])\.(" + WORD + ")")


def plain(name):
    return name.replace("_", "-")


def entries(names):
    """By the path of a function, what the check says of it; a cycle has one for each of its functions."""
    out = {}
    for module, of in json.load(open(names)).items():
        if ".Lts" in module:
            path = module.split(".", 1)[1].split(".Lts")[0]
            out.setdefault(path, []).append(of)
    return out


def tables(of):
    steps, places, goals, loops = {}, {}, {}, {}
    for each in of:
        for (old, _, (was, now), *_rest), name in zip(each["places"], each["places_by_name"]):
            steps.setdefault(plain(was), set()).add(now)
            places[plain(old)] = name
        for old, new in each["needs"]:
            goals[plain(old)] = new
        for (old, new), _ in each["loops"]:
            loops[plain("invariant-" + old)] = "invariant-" + new
            loops[plain("decreases-" + old)] = "decreases-" + new
            steps.setdefault(plain(old), set()).add(new)
    return steps, places, goals, loops


def code(text):
    """The lines without imports and comments."""
    return [l for l in text.split("\n") if not l.startswith("use ") and not l.lstrip().startswith("--")]


def turned(text, was, of, said):
    steps, places, goals, loops = tables(of)
    by_new = {plain(new): new for new in goals.values()}
    old_needs = [m.group(2) for m in NEED.finditer("\n".join(code(was)))]
    if len(old_needs) != len(NEED.findall("\n".join(code(text)))):
        said.append(f"goals: {len(old_needs)} before, now others")
        old_needs = None
    of_old = re.sub(r"(?<![^\s(])(tie|[\w-]+-lts)\s?\." + WORD, "", "\n".join(code(was)))
    of_now = re.sub(r"(?<![^\s(])(tie|[\w-]+-lts)\s?\." + WORD, "", "\n".join(code(text)))
    old_fields = [m.group(1) for m in OLD_FIELD.finditer(of_old) if m.group(1) != "now"]
    now_fields = [m.group(1) for m in OLD_FIELD.finditer(of_now) if m.group(1) != "now"]
    if len(old_fields) != len(now_fields):
        said.append(f"fields: {len(old_fields)} before, {len(now_fields)} now")
        old_fields = None
    counts = {"need": 0, "field": 0}

    def of_tie(m):
        dotted, name = m.group(1), m.group(2)
        key = plain(name)
        if key.startswith("Need-"):
            short = re.sub("^(overflow|nonzero|slice|offset)-", "", key[5:])
            old = plain(old_needs[counts["need"]]) if old_needs else key[5:]
            counts["need"] += 1
            new = goals.get(old) or goals.get(key[5:]) or by_new.get(key[5:]) or goals.get(short)
            if new is None:
                said.append(f"goal {name}")
                return m.group(0)
            return f"{dotted}.Need-{new}"
        if key in loops:
            return f"{dotted}.{loops[key]}"
        if key in places:
            return f"{dotted}.{places[key]}"
        if name not in ("close", "spec"):
            said.append(f"place {name}")
        return m.group(0)

    def of_path(m):
        """Along a path: a step stands after a place, and what follows it is the step's own."""
        parts, out, at_place = m.group(2).split(".")[1:], [], True
        for name in parts:
            key = plain(re.sub("_lem$", "", name))
            if old_fields and name != "now":
                key = plain(old_fields[counts["field"]])
                counts["field"] += 1
            if at_place and key in steps:
                if len(steps[key]) > 1:
                    said.append(f"step {name}: {sorted(steps[key])}")
                    out.append(name)
                else:
                    out.append(next(iter(steps[key])))
                at_place = False
            else:
                out.append(name)
                at_place = at_place and name == "before"
        # A place has the steps before it, and so no way back need be named in front of one.
        text = "." + ".".join(out)
        return m.group(1) + re.sub(r"^(?:\.before)+(?=\.(?!before(?:\.|$)))", "", text)

    lines = []
    for line in text.split("\n"):
        if not line.startswith("use ") and not line.lstrip().startswith("--"):
            ties = []

            def aside(m):
                ties.append(of_tie(m))
                return f"\x00{len(ties) - 1}\x01"

            line = re.sub(r"(?<![^\s(])(tie|[\w-]+-lts)\.(" + WORD + ")", aside, line)
            line = PATH.sub(of_path, line)
            line = re.sub("\x00(\\d+)\x01", lambda m: ties[int(m.group(1))], line)
        lines.append(line)
    return "\n".join(lines)


def main(argv):
    names, folder, commit, only = argv[0], argv[1], argv[2], argv[3:]
    by_path = entries(names)
    for path in sorted(glob.glob(folder + "/proofs/**/Proof.antt", recursive=True)):
        fn = os.path.relpath(os.path.dirname(path), folder + "/proofs").replace("/", ".")
        if only and fn not in only:
            continue
        if fn not in by_path:
            print(f"{fn}: no names")
            continue
        said = []
        text = open(path, encoding="utf-8").read()
        at = os.path.relpath(os.path.realpath(path), subprocess.check_output(["git", "rev-parse", "--show-toplevel"], text=True).strip())
        was = subprocess.run(["git", "show", f"{commit}:{at}"], capture_output=True, text=True).stdout
        new = turned(text, was, by_path[fn], said)
        if new != text:
            open(path, "w", encoding="utf-8").write(new)
        for it in sorted(set(said)):
            print(f"{fn}: {it}")


if __name__ == "__main__":
    main(sys.argv[1:])
