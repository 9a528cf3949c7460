#!/usr/bin/env python3
"""Brings the repository's own definitions, lemmas, fields and constructors from dashes to snake case, and facts and types to camel case.

usage: python3 tools/snake_names.py      at the top, once, right after /opt/rattle/port/port.py

Own names are those that an .antt file of crates/ declares, but for answers to goals, which Rattle names.
They are turned in .antt and .rt files outside comments and strings, in .edit files, and between the backticks of .md files.
A name that a file imports from another library is left alone in that file.
"""

import os
import re
import sys

ID = r"[A-Za-z_][\w'·]*(?:-[\w'·]+)*"
DECLARED = re.compile(r"\s*(?:(?:abbrev|unfoldable|pub|private) )*(" + ID + r"(?: " + ID + r")*) :(?: |$)(.*)")
TYPE = re.compile(r"\s*(?:pub )?(?:record|data) (" + ID + r") (.*)")
# A fact is in camel case; this one would fall together with the controller of that name.
NAMED = {"First-come": "IsFirstCome"}
IMPORT = re.compile(r"use ([\w.']+)\.\{([^}]*)\}")


def files(root, endings):
    for folder, dirs, names in os.walk(root):
        dirs[:] = sorted(d for d in dirs if d not in ("out", ".git", "target"))
        for name in sorted(names):
            if name.endswith(endings):
                yield os.path.join(folder, name)


def read(path):
    with open(path, encoding="utf-8") as f:
        return f.read()


def own_names(crates):
    own = set()
    for path in files("crates", (".antt",)):
        of_a_function = re.match(r"crates/\w+/proofs/[^/]+/", path)
        for line in re.sub(r"--[^\n]*", "", read(path)).split("\n"):
            m = TYPE.match(line) or DECLARED.match(line)
            if not m or of_a_function and not line.startswith(" ") and re.match(r"goals?\.|Goals", m[2]):
                continue
            own.update(n for n in m[1].split() if "-" in n)
    return own


def foreign_names(text, crates):
    names = set()
    for m in IMPORT.finditer(text):
        parts = m[1].split(".")
        if parts[0] == "Rattle" and parts[1] in crates:
            continue
        for item in m[2].split(","):
            names.update(item.strip().split(" as "))
    return names


def new_name(name):
    if name in NAMED:
        return NAMED[name]
    if name[0].isupper():
        return "".join(part[0].upper() + part[1:] for part in name.split("-"))
    return name.replace("-", "_")


def turned(text, own):
    return re.sub(ID, lambda m: new_name(m[0]) if m[0] in own else m[0], text)


def outside(text, skipped, own):
    """Turns what lies outside the parts that match `skipped`."""
    out, at = [], 0
    for m in skipped.finditer(text):
        out += [turned(text[at : m.start()], own), m[0]]
        at = m.end()
    return "".join(out) + turned(text[at:], own)


ANTT_SKIPPED = re.compile(r"--[^\n]*")
RT_SKIPPED = re.compile(r"//[^\n]*|b?\"(?:\\.|[^\"\\])*\"|b?'(?:\\.|[^'\\\n])'")
MD_TURNED = re.compile(r"`[^`\n]*`")


def main():
    crates = set(os.listdir("crates"))
    own = own_names(crates)
    together = {}
    for n in own:
        together.setdefault(new_name(n), set()).add(n)
    for names in together.values():
        if len(names) > 1:
            print("fall together:", sorted(names))
            return 1
    for path in files("crates", (".antt", ".rt", ".edit")):
        text = read(path)
        here = own - foreign_names(text, crates)
        words = set(re.findall(ID, text))
        for n in sorted(here & words):
            if new_name(n) in foreign_names(text, crates) | (words if path.endswith(".antt") or n[0].isupper() else set()):
                print("look:", path, n)
        skipped = ANTT_SKIPPED if path.endswith(".antt") else RT_SKIPPED
        new = turned(text, here) if path.endswith(".edit") else outside(text, skipped, here)
        if new != text:
            with open(path, "w", encoding="utf-8") as f:
                f.write(new)
    for path in ["README.md", *files("docs", (".md",))]:
        text = read(path)
        new = MD_TURNED.sub(lambda m: turned(m[0], own), text)
        if new != text:
            with open(path, "w", encoding="utf-8") as f:
                f.write(new)
    print(len(own), "names turned")
    return 0


if __name__ == "__main__":
    sys.exit(main())
