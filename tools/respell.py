#!/usr/bin/env python3
"""Brings the repository's own names to snake case, as today's Rattle spells them.

usage: python3 tools/respell.py [--list]      at the top of the repository, once, after the kit's port.py

A definition, a lemma or a field that a file of specs/ or proofs/ declares in camel case, or with dashes between plain words, gets underscores:
'bufferNumber' becomes 'buffer_number', 'fill-next' 'fill_next'. A dash stays between two names of definitions, as in 'half-length'. Types keep their capitals, a prime
becomes an apostrophe, and what the library or the source declares keeps its name. Every file of crates/ that says such a name is rewritten, must-fail edits too.
--list only prints the old names, each with its new one, and what falls together.
"""
import os
import re
import sys

NAME = r"[A-Za-zΑ-ωμ_][\w₀-₉'′-]*"
TOKEN = re.compile(r"(?<![\w'′₀-₉-])" + NAME)
SIGNATURE = re.compile(r"^\s*(?:(?:abbrev|unfoldable|instance|pub)\s+)*((?:%s\s+)*%s)\s:(?:\s|$)" % (NAME, NAME))
USE = re.compile(r"^\s*(?:ghost )?(?:pub )?use ([\w.·+-]+)\.\{([^}]*)\}")
WORDS = {"where", "let", "in", "module", "record", "use", "pub", "abbrev", "unfoldable", "data", "elim", "rw", "simp", "at"}


def files(root):
    for folder, dirs, names in os.walk(os.path.join(root, "crates")):
        dirs[:] = sorted(d for d in dirs if d != "out")
        for name in sorted(names):
            if name.endswith((".rt", ".antt", ".edit")):
                yield os.path.join(folder, name)


def read(path):
    with open(path, encoding="utf-8") as f:
        return f.read()


def declared(paths):
    """The names that files of specs/ and proofs/ declare, and those that they take from the library."""
    own, foreign, definitions = set(), set(), set()
    for path in paths:
        if path.endswith(".edit"):
            continue
        goals = os.path.basename(path) == "Proof.antt" and os.sep + "proofs" + os.sep in path
        for line in read(path).splitlines():
            line = line.split("--")[0] if path.endswith(".antt") and line.lstrip().startswith("--") else line
            used = USE.match(line)
            if used:
                if not used.group(1).startswith("Rattle.") or used.group(1).startswith("Rattle.std"):
                    foreign |= {w.strip().split(" as ")[0].strip() for w in used.group(2).split(",")}
                continue
            if path.endswith(".rt"):
                continue
            said = SIGNATURE.match(line)
            if said:
                names = said.group(1).split()
                if WORDS & set(names):
                    continue
                if not goals:
                    own |= set(names)
                    if os.sep + "specs" + os.sep in path:
                        definitions |= set(names)
    return own, foreign, definitions


def snake(word):
    word = re.sub(r"(?<=[a-z0-9₀-₉])([A-Z])", lambda m: "_" + m.group(1).lower(), word)
    return word[0].lower() + word[1:] if word and word[0].isupper() else word


def respelled(name, names):
    parts = name.replace("′", "'").split("-")
    kept = parts[0] if parts[0][:1].isupper() else snake(parts[0])
    done = parts[0]
    for part in parts[1:]:
        dash = done in names and part in names
        kept += ("-" if dash else "_") + (part if part[:1].isupper() else snake(part))
        done = done + "-" + part if not dash else part
    return kept


def turned(root):
    paths = list(files(root))
    own, foreign, definitions = declared(paths)
    names = definitions | {"length", "take", "drop", "set", "replicate", "get_or"}
    table = {}
    for name in sorted(own - foreign):
        new = respelled(name, names)
        if new != name:
            table[name] = new
    # a lemma that would have its definition's name
    definers = [n for n in table if "-" not in n] + [n for n in own if n in definitions and n not in table]
    taken = {table.get(n, n) for n in definers}
    for name, new in table.items():
        if "-" in name and new in taken:
            table[name] = new + "_lem"
    return paths, own, foreign, table


def main(arguments):
    paths, own, foreign, table = turned(".")
    made = {}
    for old, new in table.items():
        made.setdefault(new, []).append(old)
    for new, olds in sorted(made.items()):
        if len(olds) > 1 or new in own or new in foreign:
            print("together: %s from %s%s" % (new, ", ".join(olds), " (declared already)" if new in own else " (of the library)" if new in foreign else ""))
    if "--list" in arguments:
        for old, new in sorted(table.items()):
            print(old, new)
        return 0
    for path in paths:
        text = read(path)
        # the names that Rattle makes in a proof that walks the code are the source's, and stay
        new = TOKEN.sub(lambda m: table.get(m.group(0), m.group(0)), text) if not path.endswith(".rt") else "\n".join(
            clause(line, table) for line in text.split("\n"))
        if new != text:
            with open(path, "w", encoding="utf-8") as f:
                f.write(new)
    return 0


def clause(line, table):
    """A line of a source file: a comment and a string keep their words."""
    if line.lstrip().startswith("//"):
        return line
    return TOKEN.sub(lambda m: table.get(m.group(0), m.group(0)), line)


if __name__ == "__main__":
    raise SystemExit(main(sys.argv[1:]))
