#!/usr/bin/env python3
"""Lists the places in src/ where the code has an older form than today's Rattle allows.

usage: python3 tools/places.py [DIR]   the checkout to read, else the one at hand

Each list is found by its pattern alone; docs/DESIGN-PASS.md says which of its lines are meant, and what became of them.
"""

import collections
import glob
import os
import re
import sys

ROOT = sys.argv[1] if len(sys.argv) > 1 else os.path.join(os.path.dirname(__file__), "..")
FILES = sorted(glob.glob(os.path.join(ROOT, "crates/*/src/**/*.rt"), recursive=True))
TEXTS = {os.path.relpath(f, os.path.join(ROOT, "crates")): open(f, encoding="utf-8").read() for f in FILES}


def show(title, places):
    print(f"== {title}: {len(places)}")
    for place in places:
        print("   " + place)


def lines(pattern, but=None):
    """The lines that match, without comments."""
    found = []
    for name, text in TEXTS.items():
        for number, line in enumerate(text.split("\n"), 1):
            code = line.split("//")[0]
            if re.search(pattern, code) and not (but and re.search(but, code)):
                found.append(f"{name}:{number}: {line.strip()}")
    return found


def comments(pattern):
    return [
        f"{name}:{number}: {line.strip()}"
        for name, text in TEXTS.items()
        for number, line in enumerate(text.split("\n"), 1)
        if "//" in line and re.search(pattern, line)
    ]


def spans(pattern):
    """The places that match over several lines."""
    found = []
    for name, text in TEXTS.items():
        for match in re.finditer(pattern, text):
            number = text.count("\n", 0, match.start()) + 1
            found.append(f"{name}:{number}: " + " ".join(match.group(0).split()))
    return found


def enums():
    """Enums with one variant that holds nothing, and one or two that hold something."""
    found = []
    for name, text in TEXTS.items():
        for match in re.finditer(r"enum (\w+)[^{]*\{(.*?)\n\}", text, re.S):
            variants = re.findall(r"^    (\w+)(\(|,| \{| =)", match.group(2), re.M)
            empty = [v for v, mark in variants if mark == ","]
            full = [v for v, mark in variants if mark in ("(", " {")]
            if len(empty) == 1 and len(full) in (1, 2):
                found.append(f"{name}: {match.group(1)} {{ {', '.join(v for v, _ in variants)} }}")
    return found


def signatures():
    """Each function with its parameters, self left out, as (place, name, [parameter])."""
    for name, text in TEXTS.items():
        for match in re.finditer(r"\bfn (\w+)(?:<[^(]*>)?\(([^)]*(?:\([^)]*\)[^)]*)*)\)", text):
            parts = [p.strip() for p in re.split(r",(?![^<\[(]*[>\])])", match.group(2))]
            parts = [p for p in parts if p and "self" not in p.split(":")[0]]
            yield name, match.group(1), parts


def travelling():
    """Parameters of one name and type that stand side by side in three functions or more."""
    places = collections.defaultdict(list)
    for name, function, parts in signatures():
        for first, second in zip(parts, parts[1:]):
            places[(first, second)].append(f"{name} {function}")
    return [f"({a}), ({b}): {len(p)}: " + "; ".join(p) for (a, b), p in sorted(places.items()) if len(p) >= 3]


def facts():
    """Facts of clauses, names of variables aside, that three functions or more have."""
    places = collections.defaultdict(list)
    for name, text in TEXTS.items():
        for match in re.finditer(r"^\s+(?:requires|ensures) (?:\w+ )?\{ (.*) \}$", text, re.M):
            fact = match.group(1)
            if re.search(r"≡|↔|→", fact) and "capacity" not in fact:
                continue
            plain = re.sub(r"\b\w+\.(old|new|now)\b", r"_.\1", fact)
            plain = re.sub(r"\b(self|list|events|held|entries)\b", "_", plain)
            number = text.count("\n", 0, match.start()) + 1
            places[plain].append(f"{name}:{number}")
    return [f"{fact}: {len(p)}: " + "; ".join(p) for fact, p in sorted(places.items()) if len(p) >= 3]


KEYWORDS = set("fn let mut if else match for while loop in return break Some None Ok Err true false self as pub impl struct ref".split())


def bodies():
    """Function bodies of three lines or more that differ in names and numbers alone."""
    places = collections.defaultdict(list)
    for name, text in TEXTS.items():
        for match in re.finditer(r"^( *)(?:pub(?:\(crate\))? )?fn (\w+).*?^\1\{\n(.*?)^\1\}$", text, re.S | re.M):
            body = match.group(3)
            if body.count("\n") < 3:
                continue
            plain = re.sub(r"//[^\n]*", "", body)
            plain = re.sub(r"\b[A-Za-z_]\w*\b", lambda m: m.group(0) if m.group(0) in KEYWORDS else "x", plain)
            plain = " ".join(re.sub(r"\b\d[\d_]*\b", "0", plain).split())
            plain = re.sub(r"x(::x)+", "x", plain)
            places[plain].append(f"{name} {match.group(2)}")
    return ["; ".join(p) for p in places.values() if len(p) >= 2]


def types():
    """Structs and enums whose fields or variants have one shape, names of the types aside."""
    places = collections.defaultdict(list)
    for name, text in TEXTS.items():
        for match in re.finditer(r"^pub (struct|enum) (\w+)[^{;]*\{(.*?)\n\}", text, re.S | re.M):
            fields = re.findall(r"^    (?:pub )?(\w+.*?),$", re.sub(r"//[^\n]*", "", match.group(3)), re.M)
            if len(fields) >= 2:
                places[(match.group(1), tuple(f.strip() for f in fields))].append(f"{name} {match.group(2)}")
    return ["; ".join(p) for p in places.values() if len(p) >= 2]


def views():
    """Definitions through which the clauses of three functions or more see self."""
    places = collections.defaultdict(set)
    for name, text in TEXTS.items():
        for match in re.finditer(r"\b([a-z_]\w*)((?: \w+\.(?:\w+\.)?state)*) self\.(?:old|new|now)\b", text):
            before = text.rfind("fn ", 0, match.start())
            function = re.match(r"fn (\w+)", text[before:])
            if function:
                places[(name.split("/")[0], match.group(1))].add(function.group(1))
    return [f"{crate}: {view}: {len(f)} functions" for (crate, view), f in sorted(places.items()) if len(f) >= 3]


show("1 enums of the shape of Option", enums())
show("1 refusals as options", lines(r"-> Option<(\w*)Refusal>|^\) -> Option<(\w*)Refusal>"))
show("1 the length in place of none", comments(r"or (else )?the length"))
show("1 flags", lines(r"^\s+(pub )?\w+: bool,|Result<bool|\(usize, bool\)"))
show("1 numbers of refusals and faults by hand", lines(r"^\s+\w+::\w+(\(_\))? => \d+,|^\s+pub number: u8"))
show("2 bodies of one shape", bodies())
show("2 types of one shape", types())
show("3 while and loop", lines(r"^\s*('\w+: )?(while|loop)\b"))
show("3 ranges", lines(r"\bfor \w+ in [^{]*\.\."))
show("3 loops that only look for one", spans(r"for [^\n]*\{\n\s+if [^\n]*\{\n\s+return [^\n]*;\n\s+\}\n\s+\}\n\s+(?!Some|Err)[^\n]*"))
show("3 counted against a number", spans(r"\.enumerate\(\) \{\n\s+if \w+ < count"))
show("4 made, compared or printed by hand", lines(r"\bfn (name_of|text_of|show_|kind_of|policy_of|same|is_alike|is_match|lane_refusal|token|form|length|early|low|accepted|taken|ticked)\w*\b.*\(", r"ensures|fn (form|token_fault|taken_)\b"))
show("5 parameters that travel together", travelling())
show("5 values seen through a definition", views())
show("5 facts of three clauses or more", facts())
show("6 bounds tested by hand", lines(r"\bif .*(<|>=) (self\.)?\w+\.len\(\)"))
show("6 a buffer with a count beside it", lines(r"\bcount: usize"))
show("6 the first of a Vec removed", lines(r"\.remove\(0\)"))
