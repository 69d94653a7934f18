#!/usr/bin/env python3
"""Brings the names of definitions and lemmas to snake case: words are in snake case, types and modules in camel case.

usage: tools/respell.py [--list]     at the top of the repository, once, after the library's own script has run

It renames what specs/*.antt and proofs/*.antt of the crates declare: definitions, lemmas, constructors, fields of records, and the names by which
a file brings a module. It writes the new names in every .antt file, in the clauses and ghost items of every .rt file and in the must-fail edits.
Functions of src/, exported names, strings and outputs keep theirs. A name that a function's own proof file declares stays with that file.
--list prints the table and writes nothing. It stops where two names of one file would fall together.
"""

import collections
import os
import re
import sys

STOP = r"\s(){}\[\],.;«»\"⟦⟧⌜⌝`"
TOKEN = re.compile(rf'"(?:[^"\\]|\\.)*"|--[^\n]*|//[^\n]*|«[^»\n]*»|[^{STOP}]+')
WORD = re.compile(r"[a-z][A-Za-z0-9_'\-→≡≢≤∷↔⊎₀-₉]*\Z")
MIXED = re.compile(r"[A-Z][A-Za-z0-9_']*-[A-Za-z0-9_'\-→≡]+\Z")
KEYWORDS = {"use", "unfolding", "where", "in", "let", "elim", "record", "data", "abbrev", "unfoldable", "pub", "mod", "ruleset", "syntax"}


def snake(name):
    name = re.sub(r"(?<=[a-z0-9])([A-Z])(?=[a-z0-9]|\b|$)", lambda m: "_" + m[1].lower(), name)
    return name.replace("-", "_")


def wanted(name):
    if name in KEYWORDS:
        return False
    if WORD.match(name):
        return snake(name) != name
    return bool(MIXED.match(name))


def read(path):
    with open(path, encoding="utf-8") as f:
        return f.read()


def files():
    for top, folders, names in os.walk("crates"):
        folders[:] = sorted(d for d in folders if d != "out")
        for n in sorted(names):
            yield os.path.join(top, n)


def shared(path):
    """Whether it is a file of definitions or lemmas, and not of one function's proof."""
    return path.endswith(".antt") and len(path.split("/")) == 4


def declared(text):
    """The names that a file declares at its left edge, the names of fields and constructors, and the names of modules that it brings."""
    tops, fields, brought = set(), set(), set()
    inside = None
    margin = ""
    for line in text.split("\n"):
        if line[:1].strip():
            margin = "  " if line.startswith("module ") else ""
            inside = None
        if line.startswith("module ") or margin and line.startswith(margin) and line[2:3].strip():
            line = line[2:] if line.startswith("  ") else ""
        elif margin and line.startswith("    "):
            line = line[2:]
        if line[:1].strip():
            head = re.match(r"(?:(?:abbrev|unfoldable|opaque|pub|ruleset) )*(record |data )?([^\s:(){]+)", line)
            inside = head[1] if head else None
            if head and not inside and not line.startswith(("--", "use ", "pub use", "mod ", "pub mod", "unfolding", "syntax")):
                tops.add(head[2])
        elif inside:
            found = re.match(r"  (?:pub )?([^\s:(){}]+(?: [^\s:(){}]+)*) :", line)
            if found:
                (fields if inside == "record " else tops).update(found[1].split())
        found = re.match(r"(?:pub )?use \S+ as ([^\s;]+)", line)
        if found:
            brought.add(found[1])
    return tops, fields, brought


def main():
    paths = list(files())
    tops, fields = collections.defaultdict(set), collections.defaultdict(set)
    for p in paths:
        if shared(p):
            a, b, c = declared(read(p))
            for n in a | c:
                tops[n].add(p)
            for n in b:
                fields[n].add(p)
    kept = {n for n in tops if not wanted(n)}
    camel = {snake(n) for n in tops if wanted(n) and "-" not in n}

    # Lemmas that were respelled already, and a definition takes their name now.
    freed = {"list_back", "step_back", "read_back", "first_back", "goes_on", "is-nan"}

    def target(n):
        # A lemma that would take a definition's name says that it is its law.
        new = snake(n)
        return new + "_law" if n in freed or "-" in n and (new in kept or new in camel) else new

    names = {n: target(n) for n in tops if wanted(n) or n in freed}
    members = {n: target(n) for n in fields if wanted(n)}
    if "--list" in sys.argv:
        for n in sorted(names):
            print(n, names[n])
        for n in sorted(members):
            print("." + n, members[n])
        return 0

    trouble = []

    def turned(text, path, in_code):
        own = set()
        if path.endswith(".antt") and not shared(path):
            own = {n for n in re.findall(r"(?m)^(?:(?:abbrev|pub) )*([^\s:(){}]+)", text) if not n.startswith("--")}
        out, last, used = [], 0, collections.defaultdict(set)
        for m in TOKEN.finditer(text):
            t = m[0]
            out.append(text[last : m.start()])
            last = m.end()
            new = t
            if t.startswith(("--", "//")):
                new = re.sub(r"`([^`]+)`", lambda k: "`" + names.get(k[1], members.get(k[1], k[1])) + "`", t)
            elif t[0] not in "\"«":
                before = text[m.start() - 1] if m.start() else ""
                if before == ".":
                    owner = re.search(rf"([^{STOP}]*)\.\Z", text[: m.start()])
                    of_module = bool(owner and owner[1][:1].isupper())
                    line = text[text.rfind("\n", 0, m.start()) + 1 : m.start()]
                    of_field = not of_module
                    if re.match(r"(pub |ghost )*use ", line):
                        # only the last word of a path is a name of ours
                        of_module = of_module and not text[m.end() : m.end() + 1] == "."
                        of_field = False
                    if of_module and t in names:
                        new = names[t]
                    elif of_field and t in members:
                        new = members[t]
                elif t not in own:
                    if t in names:
                        new = names[t]
                    elif t in members and re.match(r" (?::|=)(?!=)| [a-z0-9_'\- ]+ :", text[m.end() :]):
                        new = members[t]
                if before != "." and text[m.end() : m.end() + 1] != ".":
                    used[new].add(t)
            out.append(new)
        out.append(text[last:])
        for new, old in used.items():
            if len(old) > 1 and (path, new) != ("crates/warnings/proofs/Examples.antt", "no_text"):
                trouble.append(f"{path}: {' and '.join(sorted(old))} fall together as {new}")
        return "".join(out)

    def ghosts(text, path):
        """The clauses and ghost items of a source file."""

        def part(m):
            return turned(m[0], path, True)

        return re.sub(r"(?ms)^ghost use .*?;|^[ \t]*(?:requires|ensures)\*? ?[\w-]* ?\{.*?\}[ \t]*$|^[ \t]*ghost [^;{]*\{.*?\}", part, text)

    def edit(text, path):
        """The lines of an edit: those of a source file by the names alone, since only a part of a line stands there."""
        out = []
        for line in text.split("\n"):
            found = re.match(r"(old|new): (.*)\Z", line, re.S)
            out.append(f"{found[1]}: {turned(found[2], path, False)}" if found else line)
        return "\n".join(out)

    written = {}
    for p in paths:
        text = read(p) if p.endswith((".antt", ".rt", ".edit")) else ""
        if p.endswith(".antt"):
            new = turned(text, p, False)
        elif p.endswith(".rt"):
            new = ghosts(text, p)
        elif p.endswith(".edit"):
            spec = re.search(r"(?m)^file: (specs|proofs)/", text)
            new = edit(text, p) if spec else text
        else:
            continue
        if new != text:
            written[p] = new
    if trouble:
        print("\n".join(trouble))
    if trouble and "--anyway" not in sys.argv:
        return 1
    for p, text in written.items():
        with open(p, "w", encoding="utf-8") as f:
            f.write(text)
    print(f"respelled: {len(names)} names and {len(members)} fields, in {len(written)} files")
    return 0


if __name__ == "__main__":
    raise SystemExit(main())
