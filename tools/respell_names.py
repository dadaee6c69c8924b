#!/usr/bin/env python3
"""Respells this repository's own definitions and lemmas: words in snake case, facts in camel case.

usage: python3 tools/respell_names.py [--dry]     at the top, once, after the kit's port.py

A name of ours that has a dash, as first-fault or Accepted-keeps, is found where it is defined in specs/ or proofs/
(a definition, a lemma or a field of a record) and turned everywhere: first_fault, AcceptedKeeps. Names that the check
makes keep their spelling: goals (defined with the type goal.NAME), steps and their fields (what follows c. or a step),
and what is imported from a module that is not ours. Functions of src/ and strings have no dashes and stay.
"""

import os
import re
import sys

WORD = re.compile(r"(?<![\w'·◌-])[A-Za-z][\w'·◌]*(?:-[\w'·◌]+)+(?![\w'·◌-])")
DEFINED = re.compile(r"^(?P<indent>\s*)(?:(?:abbrev|unfoldable|data|record|pub)\s+)*(?P<name>[A-Za-z][\w'·◌-]*)(?:\s*[({][^(){}]*[)}])*\s*:(?:\s(?P<type>.*))?$")
IMPORT = re.compile(r"^\s*(?:pub\s+)?(?:ghost\s+)?use\s+(?P<path>[^{;\s]+?)\.\{(?P<names>[^}]*)\}")
GOAL = re.compile(r"^(?:goal|need|Goals|Given)\.")


def files(root, ends):
    for folder, dirs, names in os.walk(os.path.join(root, "crates")):
        dirs[:] = sorted(d for d in dirs if d != "out")
        for n in sorted(names):
            if n.endswith(ends):
                yield os.path.join(folder, n)


def read(path):
    with open(path, encoding="utf-8") as f:
        return f.read()


def new_name(name):
    if name[0].isupper():
        return "".join(part[0].upper() + part[1:] for part in name.split("-"))
    return name.replace("-", "_")


def ours(path, crates):
    parts = path.split(".")
    made = "Goals" in parts or "Given" in parts or "contracts" in parts
    return len(parts) > 1 and parts[0] == "Rattle" and parts[1] in crates and not made


def definitions(root):
    """The names with a dash that specs/ and proofs/ define, and those of them that are fields of records."""
    names, fields = {}, set()
    for path in files(root, ".antt"):
        for line in read(path).split("\n"):
            m = DEFINED.match(line)
            if not m or "-" not in m["name"] or GOAL.match((m["type"] or "").strip()):
                continue
            names.setdefault(m["name"], []).append(path)
            if m["indent"] and line.strip().startswith("pub "):
                fields.add(m["name"])
    return names, fields


def foreign(text, crates):
    """Names that this file imports from elsewhere, or defines as goals."""
    out = set()
    for line in text.split("\n"):
        m = IMPORT.match(line)
        if m and not ours(m["path"], crates):
            out |= {n.strip() for n in m["names"].split(",")}
        m = DEFINED.match(line)
        if m and GOAL.match((m["type"] or "").strip()):
            out.add(m["name"])
    return out


def respelled(text, names, fields, crates):
    skipped = foreign(text, crates)

    def turn(m):
        word = m.group(0)
        if word not in names or word in skipped:
            return word
        before = text[: m.start()]
        if before.endswith("."):
            path = re.search(r"([\w'◌-]+)\.$", before)
            in_module = path is not None and path.group(1)[0].isupper()
            if not in_module and word not in fields:
                return word
        return new_name(word)

    return WORD.sub(turn, text)


def main():
    root = os.getcwd()
    crates = set(os.listdir(os.path.join(root, "crates")))
    names, fields = definitions(root)
    changed = 0
    for path in files(root, (".antt", ".rt", ".edit")):
        old = read(path)
        new = respelled(old, names, fields, crates)
        if new != old:
            changed += 1
            if "--dry" not in sys.argv:
                with open(path, "w", encoding="utf-8") as f:
                    f.write(new)
    print(f"{len(names)} names of our own have a dash, {len(fields)} of them fields; {changed} files hold some")


if __name__ == "__main__":
    main()
