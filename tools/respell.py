#!/usr/bin/env python3
"""Respells this repository's own definitions and lemmas in snake case, after the kit's port.py.

usage: python3 tools/respell.py            at the top of the repository, once, after port.py

A name of our own is one that a file of specs/ or a file right in proofs/ states: a definition, a lemma, a field, a constructor. Those that
begin with a small letter and hold a capital or a dash are respelled, there and wherever they are cited: in specs/, in proofs/, in clauses
and in `ghost use` lines. A capital letter that follows a small one begins a word, and a dash is a `_`; a lemma that would have the name of
a definition gets `_lem`. Names of types, of functions of src/, of the library, and names that the kit makes (a dash joins their parts) stay.
The script stops before it writes where two names would fall together, or where a name of ours is also one of the library's.
"""

import os
import re
import sys

TOKEN = re.compile(r"(?<![\w'.·-])[^\W\d][\w'-]*|(?<=\.)[^\W\d][\w'-]*")
STATED = re.compile(r"^ *(?:abbrev |unfoldable )?(?:pub )?([a-z][\w'-]*(?: [a-z][\w'-]*)*) :(?= |$)")
USED = re.compile(r"^(?:pub )?use ([\w.'-]+)\.\{([^}]*)\}")
GHOST = re.compile(r"^(\s*)(ghost use|requires|ensures|ghost )")


def snake(name):
    return re.sub(r"(?<=[a-z0-9])(?=[A-Z])", "_", name.replace("-", "_")).lower()


def files(root):
    for folder, dirs, names in os.walk(os.path.join(root, "crates")):
        dirs[:] = sorted(d for d in dirs if d not in ("out", "target"))
        for name in sorted(names):
            yield os.path.join(folder, name)


def is_ours(path):
    parts = path.split(os.sep)
    at = parts.index("crates")
    room = parts[at + 2]
    return path.endswith(".antt") and (room == "specs" or (room == "proofs" and len(parts) == at + 4))


def without_comment(line):
    return line.split("--", 1)[0]


def stated_and_taken(root):
    stated, taken, crates = set(), set(), set(os.listdir(os.path.join(root, "crates")))
    for path in files(root):
        if not path.endswith((".antt", ".rt")):
            continue
        for line in open(path, encoding="utf-8"):
            used = USED.match(line.strip().removeprefix("ghost "))
            if used and (not used[1].startswith("Rattle.") or used[1].split(".")[1] not in crates):
                taken.update(n.split(" as ")[0].strip() for n in used[2].split(","))
            if is_ours(path):
                found = STATED.match(without_comment(line))
                if found:
                    stated.update(found[1].split())
    return stated, taken


def respell(text, names):
    return TOKEN.sub(lambda m: names.get(m[0], m[0]), text)


def respell_source(text, names):
    """In a .rt file, the `ghost use` lines and the clauses."""
    out, depth = [], 0
    for line in text.split("\n"):
        if depth or GHOST.match(line):
            depth += line.count("{") - line.count("}")
            line = respell(line, names)
            if line.rstrip().endswith(";"):
                depth = 0
        out.append(line)
    return "\n".join(out)


def respell_edit(text, names):
    """In an edit of a definition, its lines of text; an edit of code has no name of ours."""
    if "file: specs/" not in text:
        return text
    return "\n".join(respell(l, names) if l.startswith(("old:", "new:")) else l for l in text.split("\n"))


def main(root):
    stated, taken = stated_and_taken(root)
    plain = {n for n in stated if "-" not in n}
    defined = {snake(n) for n in plain}
    names = {n: snake(n) + ("_lem" if n not in plain and snake(n) in defined else "") for n in stated}
    names = {n: to for n, to in names.items() if n != to}
    both = sorted(set(names) & taken)
    together = {}
    for name in stated:
        together.setdefault(names.get(name, name), []).append(name)
    clash = sorted(sorted(c) for c in together.values() if len(c) > 1)
    hidden = sorted(n for n in names if names[n] in taken)
    for label, found in (("of the library too", both), ("fall together", clash), ("hides one of the library", hidden)):
        if found:
            print(f"respell: {label}: {found}", file=sys.stderr)
    if both or clash or hidden:
        raise SystemExit(2)
    changed = 0
    for path in files(root):
        turn = next((t for e, t in ((".antt", respell), (".rt", respell_source), (".edit", respell_edit)) if path.endswith(e)), None)
        if turn is None:
            continue
        with open(path, encoding="utf-8") as f:
            old = f.read()
        new = turn(old, names)
        if new != old:
            with open(path, "w", encoding="utf-8") as f:
                f.write(new)
            changed += 1
    print(f"respell: {len(names)} names, {changed} files")


main(sys.argv[1] if len(sys.argv) > 1 else ".")
