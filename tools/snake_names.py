#!/usr/bin/env python3
"""Spells the repository's own definitions and lemmas in snake case.

    python3 tools/snake_names.py [--report]

Run once, at the top, after the kit's port.py. A name that a file of specs/ or proofs/ declares loses its dashes and inner capitals;
types and facts keep theirs. The numbers of the refusals, which were in capitals, end in _number, since the source has constants of the
plain names. Functions of src/, and names that a file imports from a library, keep their spelling. The pages follow, in backquotes.
"""
import re
import sys
from pathlib import Path

TOKEN = re.compile(r"[A-Za-z_][\w'′-]*")
DECLARED = re.compile(r"^\s*(?:(?:abbrev|unfoldable|data|record|pub)\s+)*([A-Za-z_][\w'′-]*) :", re.M)
IMPORT = re.compile(r"^\s*(?:ghost )?(?:pub )?use\s+([^\s{]+)\.\{([^}]*)\}", re.M)


# lemmas that would have their definition's name
LEMMAS = {
    name: name.replace("-", "_") + "_lem"
    for name in "header-bytes word-bytes section-at end_step section-step answer-of in-newer hit-in list_length text-bound same-list".split()
}


def snake(name):
    if name in LEMMAS:
        return LEMMAS[name]
    if re.fullmatch(r"[A-Z]+(-[A-Z]+)*", name) and len(name) > 1:
        return name.lower().replace("-", "_") + "_number"
    if name[0].isupper():
        return name
    name = name.replace("-", "_").replace("′", "'")
    name = re.sub(r"([a-z0-9])([A-Z])", r"\1_\2", name)
    return name.lower()


def library_names(text):
    """The names that a file imports from elsewhere than the repository's crates."""
    names = set()
    for path, inner in IMPORT.findall(text):
        if path.split(".")[0] == "Rattle" and path.split(".")[1] in CRATES:
            continue
        for item in inner.split(","):
            words = item.split()
            if words:
                names.add(words[-1])
    return names


def turned(text, names, skip=frozenset()):
    return TOKEN.sub(lambda m: names.get(m[0], m[0]) if m[0] not in skip else m[0], text)


def turned_late(text, names, new):
    """The same for texts that port.py leaves alone, which have the old spelling of the names that port.py turned."""

    def one(m):
        if m[0] in names:
            return names[m[0]]
        late = snake(m[0])
        return late if late in new else m[0]

    return TOKEN.sub(one, text)


CRATES = [line.split(":")[0] for line in Path("crates.txt").read_text().splitlines() if ":" in line]


def main():
    report = "--report" in sys.argv
    files = [f for c in CRATES for f in sorted(Path("crates", c).rglob("*.antt")) if "out" not in f.parts]
    own = {}
    for f in files:
        if f.name in ("Proof.antt", "Lib.antt"):
            continue
        for name in DECLARED.findall(f.read_text()):
            own[name] = snake(name)
    names = {a: b for a, b in own.items() if a != b}
    new = {b for b in own.values() if "_" in b}

    # names that fall together, in one file
    for f in files:
        text = f.read_text()
        skip = library_names(text)
        seen = {}
        for token in sorted(set(TOKEN.findall(text))):
            late = token if token in skip else names.get(token, token)
            if late in seen and seen[late] != token:
                print(f"{f}: {seen[late]} and {token} are both {late}")
            seen[late] = token
    if report:
        for a, b in sorted(names.items()):
            print(a, b)
        return

    for f in files:
        text = f.read_text()
        f.write_text(turned(text, names, library_names(text)))
    # in the source a word in capitals is a constant
    in_source = {a: b for a, b in names.items() if not re.fullmatch(r"[A-Z_]+", a) and a not in LEMMAS}
    for f in sorted(Path("crates").rglob("*.rt")):
        if "out" not in f.parts:
            f.write_text(turned(f.read_text(), in_source))
    for f in sorted(Path("crates").rglob("must-fail/*.edit")):
        lines, source = [], False
        for line in f.read_text().splitlines(True):
            if line.startswith("file:"):
                source = line.strip().endswith(".rt")
            elif re.match(r"(old|new):", line):
                line = turned_late(line, in_source if source else names, new)
            lines.append(line)
        f.write_text("".join(lines))
    for f in [Path("README.md"), *sorted(Path("docs").glob("*.md"))]:
        f.write_text(re.sub(r"`[^`\n]+`", lambda m: turned_late(m[0], names, new), f.read_text()))


main()
