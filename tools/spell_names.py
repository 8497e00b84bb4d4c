#!/usr/bin/env python3
"""Respells the definitions and lemmas of specs/ and proofs/: facts and records in upper camel case, all else in snake case.

usage: python3 tools/spell_names.py [--list]     at the top of the repository

Functions, fields and constants of src/, and names that the check makes, keep their spelling.
With --list it only prints each old name with its new one.
"""

import os
import re
import sys

NAME = r"[A-Za-z][A-Za-z0-9_']*(?:-[A-Za-z0-9_']+)+"
TOKEN = re.compile(r"(?<![A-Za-z0-9_'◌-])" + NAME + r"(?![A-Za-z0-9_'◌≡≤-])")
DEFINED = re.compile(r"^\s*(?:(?:pub|abbrev|unfoldable|record|data)\s+)*(" + NAME + r")\s*(?:[({:]|$)")
BOUND = re.compile(r"[({λ,]\s*((?:[A-Za-z][A-Za-z0-9_'-]*\s+)*?)(" + NAME + r")\s+(?=(?:[A-Za-z][A-Za-z0-9_'-]*\s+)*:)")
LET = re.compile(r"\blet\s+(" + NAME + r")\s+(?::|=)")
LAMBDA = re.compile(r"λ ([^.]*)\.")
PATTERN = re.compile(r"^[a-z][A-Za-z0-9_'-]* ([^=:]*) =(?: |$)")
# names that stand in answers and invariants are made by the check
MADE = re.compile(r"^(?:abbrev\s+)?(?:pub\s+)?(" + NAME + r")\s*:\s*(?:goal|given|needed)\.")
LIBRARY = re.compile(r"^\s*(?:pub\s+)?(?:ghost\s+)?use\s+(?:Rattle\.std|native|mathlib|Prim|lib|logic)\b")

# labels of src/ and a parameter that are spelt otherwise in proofs/ and specs/
OTHERS = {"begins-rise": "begins_rise", "ends-rise": "ends_rise", "Going-on": "going_on"}


def files(ends):
    for folder, dirs, names in os.walk("crates"):
        dirs[:] = sorted(d for d in dirs if d != "out")
        for name in sorted(names):
            if name.endswith(ends):
                yield os.path.join(folder, name)


def read(path):
    with open(path, encoding="utf-8") as f:
        return f.read()


def code(line):
    return line.split("--")[0] if "--" in line else line


def defined():
    own, not_own = set(), set()
    for path in files((".antt", ".rt")):
        for line in read(path).splitlines():
            if LIBRARY.match(line):
                not_own.update(TOKEN.findall(line))
            if not path.endswith(".antt"):
                continue
            made = MADE.match(line)
            if made:
                not_own.add(made.group(1))
                continue
            for pattern in (DEFINED, LET):
                own.update(pattern.findall(code(line)))
            own.update(b[1] for b in BOUND.findall(code(line)))
            for pattern in (LAMBDA, PATTERN):
                for names in pattern.findall(code(line)):
                    own.update(TOKEN.findall(names))
    return own - not_own


def respelled(name):
    if name[0].isupper():
        return "".join(part[0].upper() + part[1:] for part in name.split("-"))
    return name.replace("-", "_")


def turned(text, names, legend):
    lines = []
    for line in text.split("\n"):
        new = TOKEN.sub(lambda m: names.get(m.group(0), m.group(0)), line)
        entry = re.match(r"^--   (\S+)( {2,})", line)
        new = re.sub(r"^(--   [a-z]+)-\*", r"\1_*", new)
        if legend and entry and entry.group(1) in names:
            short = names[entry.group(1)]
            new = new.replace(short + "  ", short + " " * (2 + len(entry.group(1)) - len(short)), 1)
        lines.append(new)
    return "\n".join(lines)


def main(argv):
    names = {name: respelled(name) for name in sorted(defined())} | OTHERS
    if argv == ["--list"]:
        for old, new in names.items():
            print(old, new)
        return 0
    for path in files((".antt", ".rt")):
        text = read(path)
        new = turned(text, names, True)
        if new != text:
            with open(path, "w", encoding="utf-8") as f:
                f.write(new)
    return 0


if __name__ == "__main__":
    raise SystemExit(main(sys.argv[1:]))
