#!/usr/bin/env python3
"""Respells the repository's own definitions and lemmas, where the kit's porting script left a dash.

usage: python3 tools/respell.py [FOLDER]        rewrites FOLDER (this folder) in place; run it once, right after port.py

Functions, fields, lemmas and variables go to snake case (`first-no` to `first_no`), facts and types to upper camel case
(`Fair-copy-law` to `FairCopyLaw`). The names are read off specs/ and the lemma files, so a name of the library's, or one that
Rattle makes of the source (as `returns-in_ok`), is left alone. Comments are prose and stay as they are.
"""

import glob
import os
import re
import sys

NAME = re.compile(r"[^\W\d][\w'·-]*(?<!-)")
LIBRARY = re.compile(r"^(?:ghost )?use Rattle\.std\.\S+?\.\{([^}]*)\}", re.M)
# What would get the name of a word of the library's, or of a ghost field (which is read behind a dot and keeps it).
APART = {
    "Is-some": "HasSome",
    "in-order": "are_in_order",
    "in_order": "are_in_order",
}


def read(path):
    with open(path, encoding="utf-8") as f:
        return f.read()


def code(line):
    return line.split("--")[0]


def respelt(name):
    if name in APART:
        return APART[name]
    if name[0].isupper():
        return "".join(part[:1].upper() + part[1:] for part in name.split("-"))
    return name.replace("-", "_")


def own_names(root):
    """Each name with a dash that specs/ and the lemma files have, but for those that they take from the library."""
    found, library, taken = set(), set(), set()
    for path in glob.glob(f"{root}/crates/*/specs/**/*.antt", recursive=True) + glob.glob(f"{root}/crates/*/proofs/*.antt"):
        text = read(path)
        for listed in LIBRARY.findall(text):
            library.update(item.split()[0] for item in listed.split(",") if item.split())
        for line in text.split("\n"):
            for name in NAME.findall(code(line)):
                (found if "-" in name else taken).add(name)
    return found - library, library | taken


def turn(text, names):
    def one(found):
        name = found.group(0)
        is_field = text[: found.start()].endswith(".") and name == "in_order"
        return name if is_field else names.get(name, name)

    return NAME.sub(one, text)


def turn_antt(text, names):
    lines = []
    for line in text.split("\n"):
        kept = code(line)
        lines.append(turn(kept, names) + line[len(kept):])
    return "\n".join(lines)


def turn_source(text, names):
    """Only what contracts and proofs see: imports, clauses, and ghost members and fields."""
    lines, inside = [], False
    for line in text.split("\n"):
        word = line.strip().split(" ")[0]
        ghost = word in ("ghost", "requires", "ensures") or line.strip().startswith("pub ghost ")
        if inside or ghost:
            open_braces = line.count("{") - line.count("}")
            inside = open_braces > 0 or inside and open_braces == 0
            field = re.match(r"(\s*(?:pub )?ghost )([a-z_]+)( ?[:=].*)$", line)
            line = field.group(1) + field.group(2) + turn(field.group(3), names) if field else turn(line, names)
        lines.append(line)
    return "\n".join(lines)


def turn_edit(text, names):
    return "\n".join(turn(line, names) if line.startswith(("old:", "new:")) else line for line in text.split("\n"))


def turn_page(text, names):
    """Names in a page of prose stand between backquotes."""
    return re.sub(r"`[^`\n]+`", lambda m: turn(m.group(0), names), text)


def main():
    root = sys.argv[1] if len(sys.argv) > 1 else "."
    found, taken = own_names(root)
    names = {name: respelt(name) for name in found}
    names.update(APART)
    together = {}
    for name, new in names.items():
        together.setdefault(new, []).append(name)
    for new, olds in sorted(together.items()):
        if new in taken or len(olds) > 1 and new != "are_in_order":
            print(f"fall together: {', '.join(olds)} -> {new}")
    for kind, work in ((".antt", turn_antt), (".rt", turn_source), (".edit", turn_edit), (".md", turn_page)):
        for folder, dirs, files in os.walk(root):
            dirs[:] = [d for d in dirs if d not in (".git", "out")]
            for name in sorted(files):
                path = os.path.join(folder, name)
                if name.endswith(kind) and not os.path.islink(path):
                    old = read(path)
                    new = work(old, names)
                    if new != old:
                        with open(path, "w", encoding="utf-8") as f:
                            f.write(new)


if __name__ == "__main__":
    main()
