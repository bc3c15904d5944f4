#!/usr/bin/env python3
"""Brings the names of definitions, fields, constructors and lemmas to one spelling.

usage: respell.py [--check] FOLDER      FOLDER holds crates/

Words are in snake case; types and modules, whose names begin with a capital, keep theirs. A definition of
specs/, a field and a constructor have no dash; in the name of a lemma a dash still joins two names.
Functions of src/, strings and comments of src/ keep their names: there only clauses and ghost items are read.
It prints each old name with its new one, and stops where two names would fall together.
"""

import os
import re
import sys

NAME = r"[A-Za-z][A-Za-z0-9_'′-]*"
TOKEN = re.compile(r"(?<![A-Za-z0-9_'′·-])" + NAME)
HEAD = re.compile(r"^(\s*)(?:pub )?(?:record|data) ")
DECLARED = re.compile(r"^(\s*)(?:(?:abbrev|unfoldable) )?(?:pub )?((?:" + NAME + r" )+):(?: |$)")
# A name that Rattle makes keeps its spelling.
MADE = re.compile(r":\s*(?:goal|need|given)\.")
# What would fall together with another name; the lemmas named after it follow.
BY_HAND = {
    "edgeForEach": "edge_for_each_type",
    "inBrackets": "kind_in_brackets",
    "inStep": "is_in_step",
    "isAtom": "is_atom_of",
    "noAction": "absent_action",
    "noAtom": "absent_atom",
    "oneMore": "one_step_more",
    "getD": "get_or",
}


def words(name):
    """The camel case words of a name, with underscores between them."""
    return re.sub(r"(?<=[a-z0-9'])([A-Z])", lambda m: "_" + m.group(1).lower(), name)


def spelled(name, whole):
    if name[0].isupper():
        return name.replace("′", "'")
    turned = "-".join(BY_HAND.get(part) or words(part) for part in name.split("-")).replace("′", "'")
    return turned.replace("-", "_") if whole else turned


def files(root, ending):
    for folder, dirs, names in os.walk(os.path.join(root, "crates")):
        dirs[:] = sorted(d for d in dirs if d not in ("out", ".git"))
        for f in sorted(names):
            if f.endswith(ending):
                yield os.path.join(folder, f)


def declared(path):
    """The names that a file declares, each with whether it loses its dashes."""
    in_specs = "/specs/" in path
    inside = None
    with open(path, encoding="utf-8") as f:
        for line in f:
            if not line.strip():
                continue
            indent = len(line) - len(line.lstrip())
            if inside is not None and indent <= inside:
                inside = None
            m = HEAD.match(line)
            if m:
                inside = len(m.group(1))
                continue
            m = DECLARED.match(line)
            if m and not MADE.search(line):
                for name in m.group(2).split():
                    yield name, in_specs or inside is not None


def table(root):
    turned = {}
    for path in files(root, ".antt"):
        for name, whole in declared(path):
            if name in ("pub", "abbrev", "where", "use", "module", "let", "in"):
                continue
            new = spelled(name, whole)
            if new != name:
                turned.setdefault(name, set()).add(new)
    return turned


def ghost_parts(text):
    """The spans of a source file that are clauses or ghost items: from the word to the end of its braces or line."""
    for m in re.finditer(r"(?m)^\s*(?:pub )?(ghost use [^;]*;|ghost \w+|requires\*?|ensures\*?)", text):
        if m.group(1).startswith("ghost use"):
            yield m.start(), m.end()
            continue
        at = text.find("{", m.end())
        semi = text.find("\n\n", m.end())
        if at < 0 or (0 <= semi < at):
            continue
        depth, i = 0, at
        while i < len(text):
            depth += {"{": 1, "}": -1}.get(text[i], 0)
            i += 1
            if depth == 0:
                break
        yield m.start(), i


def main(argv):
    check = "--check" in argv
    root = [a for a in argv if not a.startswith("--")][0]
    turned = table(root)
    both = {k: v for k, v in turned.items() if len(v) > 1}
    one = {k: sorted(v, key=lambda n: n.count("-"))[0] for k, v in turned.items()}
    taken = {}
    for old, new in one.items():
        taken.setdefault(new, []).append(old)
    bad = {n: olds for n, olds in taken.items() if len(olds) > 1}
    here = set()
    for path in files(root, ".antt"):
        here |= {n for n, _ in declared(path)}
    bad.update({n: olds + [n] for n, olds in taken.items() if n in here and n not in one})
    for path in list(files(root, ".antt")) + list(files(root, ".rt")):
        with open(path, encoding="utf-8") as f:
            found = set(TOKEN.findall(f.read()))
        for old in sorted(found & set(one)):
            if one[old] in found:
                print(f"look: {path}: {one[old]} stands beside {old}")
    for old in sorted(one):
        print(f"{old} -> {one[old]}" + (f"    (declared in both ways: {both[old]})" if old in both else ""))
    for n in sorted(bad):
        print(f"fall together: {' and '.join(bad[n])} as {n}")
    if bad and not check:
        return 1
    if check:
        return 0

    def turn(text):
        return TOKEN.sub(lambda m: one.get(m.group(0), m.group(0)), text)

    for path in files(root, ".antt"):
        with open(path, encoding="utf-8") as f:
            old = f.read()
        new = turn(old)
        if new != old:
            with open(path, "w", encoding="utf-8") as f:
                f.write(new)
    for path in files(root, ".rt"):
        with open(path, encoding="utf-8") as f:
            old = f.read()
        out, at = [], 0
        for a, b in ghost_parts(old):
            if a < at:
                continue
            out += [old[at:a], turn(old[a:b])]
            at = b
        new = "".join(out) + old[at:]
        if new != old:
            with open(path, "w", encoding="utf-8") as f:
                f.write(new)
    return 0


if __name__ == "__main__":
    raise SystemExit(main(sys.argv[1:]))
