#!/usr/bin/env python3
"""Brings the repository's own names in specs/ and proofs/ to the spelling of the language's library, once, after the
kit's port.py: facts and types in upper camel case, other names in snake case, a dash only between two names.

    tools/respell.py [FOLDER]      changes the checkout at FOLDER, or here

The renamings stand in respell.txt beside this file, an old name and a new one a line. They are applied to .antt files,
to the clauses of .rt files, and to the edits in must-fail/, but not to strings and comments. Functions and other names
of src/ have no dash, so none of them is touched. A new name that the checkout has already is told, since two names may
fall together there.
"""
import pathlib
import re
import sys

DASHED = re.compile(r"[A-Za-z][A-Za-z0-9_']*(?:-[A-Za-z0-9_']+)+")
STRING_OR_COMMENT = re.compile(r'("(?:[^"\\]|\\.)*"|(?://|-- ).*$)', re.MULTILINE)


def renamings():
    table = pathlib.Path(__file__).with_name("respell.txt")
    return dict(line.split() for line in table.read_text(encoding="utf-8").splitlines())


def respelled(text, new):
    parts = STRING_OR_COMMENT.split(text)
    return "".join(part if k % 2 else DASHED.sub(lambda m: new.get(m[0], m[0]), part) for k, part in enumerate(parts))


def main():
    new = renamings()
    top = pathlib.Path(sys.argv[1] if len(sys.argv) > 1 else ".")
    files = [p for p in sorted((top / "crates").rglob("*")) if p.suffix in (".antt", ".rt", ".edit") and "out" not in p.parts]
    texts = {p: p.read_text(encoding="utf-8") for p in files}
    declared = re.compile(r"^\s*(?:(?:abbrev|unfoldable|data|record|pub)\s+)*([A-Za-z][A-Za-z0-9_'-]*)\s*:", re.MULTILINE)
    there = {name for p, text in texts.items() if p.suffix == ".antt" for name in declared.findall(text)}
    for old, name in sorted(new.items()):
        if old in there and name in there:
            print(f"{old} and {name} fall together")
    for p, text in texts.items():
        changed = respelled(text, new)
        if changed != text:
            p.write_text(changed, encoding="utf-8")


main()
