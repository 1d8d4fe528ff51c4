#!/usr/bin/env python3
"""Brings the repository's own definitions, lemmas and fields to one spelling: words in snake case.

usage: python3 tools/respell.py [--dry]     at the top of the repository, once, after port.py

A name counts as the repository's own where a file of specs/, or a lemma file right in proofs/, defines it. It is
renamed wherever it stands as a whole word: in specs/, proofs/ and the sources' clauses. Types, modules, the
functions of src/, what Rattle makes (returns-2, loop-i-preserved) and names of a library stay. Where a file that
reads the name has the new one already (a function of src/, a variable, a definition beside its lemma), the new one
gets `_lem` at its end.
"""

import os
import re
import sys

TOKEN = re.compile(r"[^\s(){}\[\].,;:λ⌜⌝|↦\"`]+")
DEFINES = re.compile(r"^\s*(?:abbrev |unfoldable |axiom )?(?:pub )?(?:record |data |abbrev )?([^\s(){}\[\].,;:λ]+)\s*(?:\([^)]*\)\s*|\{[^}]*\}\s*)*:\s")
CAMEL = re.compile(r"[a-z][a-z0-9]*[A-Z]")


def files(kinds):
    for folder, dirs, names in os.walk("crates"):
        dirs[:] = sorted(d for d in dirs if d != "out")
        for n in sorted(names):
            if n.endswith(kinds):
                yield os.path.join(folder, n)


def lemma_file(path):
    parts = path.split(os.sep)
    return path.endswith(".antt") and len(parts) == 4 and parts[2] in ("specs", "proofs")


def snake(name):
    name = re.sub(r"(?<=[a-z0-9'])([A-Z])", lambda m: "_" + m.group(1).lower(), name)
    return name.replace("-", "_")


def own_names(texts):
    found = set()
    for path, text in texts.items():
        if not lemma_file(path):
            continue
        for line in text.splitlines():
            m = DEFINES.match(line)
            if m and m.group(1)[0].islower():
                found.add(m.group(1))
            m = re.match(r"(?:pub )?ruleset (?:pub )?(\S+)", line)
            if m:
                found.add(m.group(1))
            if line.startswith("use Rattle."):
                found |= {w for w in re.findall(r" as ([a-z]\w*)", line) if CAMEL.match(w)}
    return found


def library_names(texts):
    found = set()
    for text in texts.values():
        for m in re.finditer(r"use (Rattle\.(?:std|core|check|bytes|io|libc|os|borrow)[^{;\n]*|borrow[^{;\n]*|Prim[^{;\n]*)\.\{([^}]*)\}", text):
            found |= {w.split(" as ")[0].strip() for w in m.group(2).split(",")}
    return found


def split_comment(path, line):
    mark = "//" if path.endswith(".rt") else "--"
    i = line.find(mark)
    return (line, "") if i < 0 else (line[:i], line[i:])


def main(argv):
    texts = {p: open(p, encoding="utf-8").read() for p in files((".antt", ".rt"))}
    library = library_names(texts)
    own = {n for n in own_names(texts) if ("-" in n or CAMEL.match(n)) and n not in library}
    words = {p: set(TOKEN.findall("\n".join(split_comment(p, l)[0] for l in t.splitlines()))) for p, t in texts.items()}
    table = {}
    # a definition in camel case keeps the plain name, and the lemma beside it, which was spelled with a dash, does not
    for old in sorted(own, key=lambda n: ("-" in n, n)):
        new = snake(old)
        if new in table.values() or any(old in w and new in w for w in words.values()):
            new += "_lem"
        if new in table.values() or any(old in w and new in w for w in words.values()):
            print(f"{old}: {new} is taken too")
            return 1
        table[old] = new
    changed = 0
    for p, text in texts.items():
        lines = []
        for line in text.split("\n"):
            code, comment = split_comment(p, line)
            code = TOKEN.sub(lambda m: table.get(m.group(0), m.group(0)), code)
            # in a comment only what cannot be plain words: a name in camel case, or one in backquotes
            comment = re.sub(r"`[^`]*`", lambda m: TOKEN.sub(lambda k: table.get(k.group(0), k.group(0)), m.group(0)), comment)
            comment = TOKEN.sub(lambda m: table[m.group(0)] if m.group(0) in table and CAMEL.match(m.group(0)) else m.group(0), comment)
            lines.append(code + comment)
        new = "\n".join(lines)
        if new != text:
            changed += 1
            if "--dry" not in argv:
                with open(p, "w", encoding="utf-8") as f:
                    f.write(new)
    print(f"respell: {len(table)} names, {changed} files")
    if "--table" in argv:
        for old, new in sorted(table.items()):
            print(old, new)
    return 0


if __name__ == "__main__":
    raise SystemExit(main(sys.argv[1:]))
