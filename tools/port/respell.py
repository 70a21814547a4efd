#!/usr/bin/env python3
"""Respells the repository's own names of specs and proofs: words in snake case, a lemma's words joined by underscores.

usage: python3 tools/port/respell.py [TOP]

Run once, at the top of the repository, on what port.py made. Functions of src/, types, modules, strings and expected outputs keep their
names. It goes by names, not by lines: each old name has one new name, and no two old names get the same one. A dash stays where a name
is those of two definitions, as in `length-append`. A lemma that would get the name of a definition or of another lemma gets `_lem`.
"""

import os
import re
import sys

NAME = re.compile(r"[A-Za-z_0-9\u2080-\u2089'\u207a\u2190\u2192\u21a6\u2264\u2262\u22a2\u00b7\-]+")
HUMP = re.compile(r"(?<=[a-z0-9\u2080-\u2089])([A-Z])")
DECLARED = re.compile(r"^\s*(?:(?:abbrev|unfoldable|pub|opaque) )*([a-z][^\s:]*) :(?!=)")
# names that the rule alone would spell oddly
BY_HAND = {"callGWith": "call_g_with", "getD-sets-in": "get_or-sets_in", "getD-sets-out": "get_or-sets_out", "anything": "Anything"}
# words of the library that a lemma's name may join to one of ours
WORDS = {"length", "append", "take", "drop", "map", "get_or", "replicate", "set", "sets", "reverse", "sum", "mod", "div", "cond"}
# names that a file takes from the library
TAKEN = re.compile(r"^(?:pub )?(?:ghost )?use (?!Rattle\.(?:%s)\.)(\S+?)\.\{([^}]*)\}", re.M)
# paths whose parts the toolchain names
MADE = re.compile(r"Rattle\.\w+\.(?:proofs|specs\.contracts|specs\.declared)\.")


def files(top, *endings):
    for folder, dirs, names in os.walk(top):
        dirs[:] = sorted(d for d in dirs if d not in ("out", "target", ".git"))
        for n in sorted(names):
            if n.endswith(endings):
                yield os.path.join(folder, n)


def read(path):
    with open(path, encoding="utf-8") as f:
        return f.read()


def code_of(line):
    """The part of a line before its comment."""
    at = re.search(r"(^|\s)--(\s|$)", line)
    return line[: at.start()] if at else line


def from_library(crates, text):
    """The names that a file imports from modules that are not of the repository."""
    pattern = re.compile(TAKEN.pattern % "|".join(sorted(os.listdir(crates))), re.M)
    return {n.split(" as ")[-1].strip() for m in pattern.finditer(text) for n in m.group(2).split(",")}


def snake(name):
    return HUMP.sub(lambda m: "_" + m.group(1).lower(), name)


def respelled(crates):
    """The table from old names to new ones."""
    seen, declared, lemmas, library = set(), set(), set(), set()
    for path in files(crates, ".antt"):
        walk = os.path.basename(path) == "Proof.antt" or "/Proof/" in path
        library |= from_library(crates, read(path))
        for line in read(path).splitlines():
            code = code_of(line)
            seen.update(m.group(0) for m in NAME.finditer(code))
            found = DECLARED.match(code)
            if found and not walk:
                (lemmas if "/proofs/" in path else declared).add(found.group(1))
    table = dict(BY_HAND)
    for name in sorted(seen):
        if re.match(r"[a-z]", name) and HUMP.search(name) and "-" not in name and name not in table and name not in library:
            table[name] = snake(name)
    taken = set(table.values())
    # lemmas that have a definition's new name already
    for name in sorted(lemmas & taken):
        table[name] = name + "_lem"
    taken.update(table.values())
    known = WORDS | {table.get(n, n) for n in declared}
    for name in sorted(lemmas):
        if "-" not in name or name in table or name in library:
            continue
        parts = [snake(p) for p in name.replace("getD", "get_or").split("-")]
        new = "-".join(parts) if len(parts) == 2 and known.issuperset(parts) else "_".join(parts)
        if new in taken or (new != name and new in seen):
            new += "_lem"
        if new in taken or (new != name and new in seen):
            raise SystemExit("two names fall together: " + new)
        table[name] = new
        taken.add(new)
    table = {old: new for old, new in table.items() if old != new}
    back = {}
    for old, new in table.items():
        if back.setdefault(new, old) != old:
            raise SystemExit("two names fall together: %s and %s" % (old, back[new]))
    return table


def turned_before(crates, paths):
    """Old names in pages and edits, which port.py leaves, of what it respelled in specs and proofs."""
    now = set()
    for path in files(crates, ".antt"):
        now.update(m.group(0) for line in read(path).splitlines() for m in NAME.finditer(code_of(line)))
    table = {}
    for path in paths:
        for m in NAME.finditer(read(path)):
            name = m.group(0)
            if re.match(r"[a-z]", name) and HUMP.search(name) and name not in now and snake(name) in now:
                table[name] = snake(name)
    return table


def made_here(text, start, walk):
    """Whether the name that begins at start is one that the toolchain makes: a part of its paths, or a step or a goal of a proof."""
    if start == 0 or text[start - 1] != ".":
        return False
    head = re.search(r"[^\s(){}\[\],;`]*$", text[:start]).group(0)
    if MADE.match(head):
        return True
    root = head.split(".")[0]
    return walk and root in ("tie", "ctx", "lts", "c", "w", "d", "l", "goal", "g", "bounds")


def turn(path, table, comments, ghost):
    text = read(path)
    walk = os.path.basename(path) == "Proof.antt" or "/Proof/" in path
    lines = text.split("\n")
    for i, line in enumerate(lines):
        end = len(code_of(line)) if path.endswith(".antt") else len(line)

        def new(m):
            name = m.group(0)
            if walk and name.endswith("-spec") and not made_here(line, m.start(), walk):
                return name.replace("-", "_")
            if name not in table:
                return name
            humped = bool(HUMP.search(name))
            if m.start() >= end and not (humped and comments):
                return name
            if ghost and not humped:
                return name
            if not humped and made_here(line, m.start(), walk):
                return name
            # a path of a module that has a definition's name begins with a capital: those are not in the table
            return table[name]

        lines[i] = NAME.sub(new, line)
    after = "\n".join(lines)
    if after != text:
        with open(path, "w", encoding="utf-8") as f:
            f.write(after)
        return 1
    return 0


def main():
    top = sys.argv[1] if len(sys.argv) > 1 else "."
    crates = os.path.join(top, "crates")
    table = respelled(crates)
    turned = 0
    for path in files(crates, ".antt"):
        turned += turn(path, table, True, False)
    # clauses and edits name definitions, and no lemma
    for path in files(crates, ".rt"):
        turned += turn(path, table, True, True)
    pages = [os.path.join(top, "README.md"), os.path.join(top, "tests/pages/run")]
    pages += list(files(os.path.join(top, "docs"), ".md")) + list(files(os.path.join(top, "tools/cycle"), ".ans", ".py"))
    pages = [p for p in pages if os.path.exists(p)] + list(files(crates, ".edit"))
    humped = {old: new for old, new in table.items() if HUMP.search(old)}
    humped.update({old: new for old, new in turned_before(crates, pages).items() if old not in humped})
    for path in pages:
        turned += turn(path, humped, True, True)
    print("respelled: %d names, %d files" % (len(table), turned))
    if os.environ.get("RESPELL_TABLE"):
        with open(os.environ["RESPELL_TABLE"], "w", encoding="utf-8") as f:
            for old, new in sorted(table.items()):
                f.write("%s %s\n" % (old, new))


if __name__ == "__main__":
    main()
