#!/usr/bin/env python3
"""Brings this repository's own definitions and lemmas to the spelling of today's Rattle: snake case.

usage: python3 tools/respell.py            at the top, once, directly after the kit's port.py
       python3 tools/respell.py --list     only prints the table, old name and new name

camelCase and names-with-dashes that are declared in specs/ and in the lemma files of proofs/ are turned, wherever they
stand: in .antt files, in the clauses, ghost use lines and comments of .rt files, in must-fail edits, and in back quotes
in the pages. Functions of src/, exported names, strings, inputs and outputs keep their names. Where a definition and a
lemma would fall together, the lemma's name ends in _lem.
"""

import collections
import os
import re
import sys

ROOT = os.path.dirname(os.path.dirname(os.path.abspath(__file__)))
CRATES = os.path.join(ROOT, "crates")
NAME = re.compile(r"(?<![\w'◌₀-₉-])[A-Za-zΑ-ω_][\w'₀-₉]*(?:-[\w'₀-₉]+)*(?![\w'-])")
DECLARED = re.compile(
    r"^\s*(?:(?:pub|abbrev|unfoldable|record|data) )*([^\s():{};,.]+)(?: +[({][^\n]*?)?(?: [^\s():{};,.]+)* : ", re.M
)
# Lemmas that the kit's script has turned already, and that a definition turned now would fall together with.
TURNED = ["by_place", "first_below", "own_turn", "at_slots", "room_after"]


def files(ends):
    for folder, dirs, names in os.walk(CRATES):
        dirs[:] = sorted(d for d in dirs if d != "out")
        for name in sorted(names):
            if name.endswith(ends):
                yield os.path.join(folder, name)


def read(path):
    with open(path, encoding="utf-8") as f:
        return f.read()


def code(text):
    return re.sub(r"(?m)(^|\s)--.*", "", text)


def old_form(name):
    return "-" in name or re.match(r"[a-z][a-z0-9_']*[A-Z]", name) is not None


def snake(name):
    name = name.replace("-", "_")
    return re.sub(r"(?<=[a-z0-9'])([A-Z]+)", lambda m: "_" + m.group(1).lower(), name)


def library_names():
    """Names that come by a use line from elsewhere than this repository's crates."""
    own = set(os.listdir(CRATES))
    found = set()
    for path in files((".antt", ".rt")):
        for m in re.finditer(r"(?m)^\s*(?:ghost )?use ([\w.+'-]+?)\.\{([^}]*)\}", read(path)):
            parts = m.group(1).split(".")
            if parts[0] == "Rattle" and parts[1] in own:
                continue
            for name in m.group(2).split(","):
                found.add(name.strip().split(" as ")[0])
    return found


def locals_of(text):
    """Names that a λ, a let or a pattern binds: each name of a lemma file that has an old form and comes from nowhere else."""
    return {m.group(0) for m in NAME.finditer(code(text)) if old_form(m.group(0))}


def table():
    library = library_names()
    declared = set()
    for path in files(".antt"):
        if not path.endswith("/Proof.antt"):
            declared |= set(DECLARED.findall(code(read(path))))
    groups = collections.defaultdict(set)
    for name in declared:
        groups[snake(name)].add(name)
    to = {}
    for name in declared - library:
        if not old_form(name) or not re.match(r"[a-z]", name):
            continue
        together = len(groups[snake(name)]) > 1
        to[name] = snake(name) + ("_lem" if together and "-" in name else "")
    for name in TURNED:
        to[name] = name + "_lem"
    return to, library, declared


def turned(name, to, declared):
    """What a name is now, where it may be one that the kit's script has turned in code alone: in edits, comments and pages."""
    if name in to:
        return to[name]
    if name.endswith("-spec") or old_form(name) and re.match(r"[a-z]", name) and snake(name) in declared:
        return snake(name)
    return name


def generated(text):
    """Names that Rattle makes for the goals of a Proof.antt: its own top-level declarations, and what follows `tie.`."""
    return (
        set(re.findall(r"(?m)^(?:abbrev |pub )*([^\s():{}]+) : tie\.", text))
        | set(re.findall(r"tie\.([^\s()]+)", text))
        | {"tie"}
    )


def turn(path, text, put, said):
    """Turns code everywhere, and comments in back quotes alone: their prose has hyphens of its own."""
    mark = {"antt": r"(^|\s)--(\s|$)", "rt": r"(^|\s)//", "edit": r"^#"}[path.rsplit(".", 1)[1]]
    lines = []
    for line in text.split("\n"):
        m = re.search(mark, line)
        at = m.start() if m else len(line)
        lines.append(NAME.sub(put, line[:at]) + re.sub(r"`[^`]*`", lambda q: NAME.sub(said, q.group(0)), line[at:]))
    return "\n".join(lines)


def turn_pages(to, declared):
    """A name alone in back quotes, or Record.field, in README.md and docs/: all else there are words, paths and commands."""
    changed = 0
    pages = [os.path.join(ROOT, "README.md")]
    for folder, _, names in os.walk(os.path.join(ROOT, "docs")):
        pages += [os.path.join(folder, n) for n in sorted(names) if n.endswith(".md")]
    for path in pages:
        text = read(path)

        def span(m):
            if re.search(r"\.(list|edit|md|rt|report|txt|antt|rs)$", m.group(1)):
                return m.group(0)
            return "`" + NAME.sub(lambda n: turned(n.group(0), to, declared), m.group(1)) + "`"

        new = re.sub(r"`([A-Za-z][\w.'-]*)`", span, text)
        if new != text:
            changed += 1
            with open(path, "w", encoding="utf-8") as f:
                f.write(new)
    return changed


def main(argv):
    to, library, declared = table()
    if argv == ["--list"]:
        for a, b in sorted(to.items()):
            print(a, b)
        return 0
    changed = 0
    for path in files((".antt", ".rt", ".edit")):
        text = read(path)
        skip = generated(text) if path.endswith("/Proof.antt") else set()
        local = {}
        if path.endswith(".antt") and not path.endswith("/Proof.antt"):
            local = {n: snake(n) for n in locals_of(text) - library - set(to) if re.match(r"[a-z]", n)}

        def put(m):
            name = m.group(0)
            before = m.string[max(0, m.start() - 12) : m.start()]
            if name in skip or before.endswith("tie.") or re.search(r"\b(proofs|specs)\.$", before):
                return name
            if skip and before.endswith("."):  # a step of the code, named after a function, or a field
                return snake(name) if name in to and old_form(name) else name
            return to.get(name) or local.get(name) or name

        said = lambda m: turned(m.group(0), to, declared)
        new = turn(path, text, said if path.endswith(".edit") else put, said)
        if new != text:
            changed += 1
            with open(path, "w", encoding="utf-8") as f:
                f.write(new)
    pages = turn_pages(to, declared)
    print(f"respell: {len(to)} names, {changed} files of crates/, {pages} pages")
    return 0


if __name__ == "__main__":
    raise SystemExit(main(sys.argv[1:]))
