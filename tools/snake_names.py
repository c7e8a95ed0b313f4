#!/usr/bin/env python3
"""Respells the repository's own names in proofs and contracts, after the kit's port.py: words in snake case, facts in camel case.

usage: python3 tools/snake_names.py [FOLDER] [--list]     FOLDER: the top of a checkout (this one, if none); --list: say what would change, and change nothing

A name of this repository's own is one that a file of specs/ or proofs/ defines or binds: a definition, a lemma, a field, a variable.
`sets-below` becomes `sets_below`, `Sets-below` becomes `SetsBelow`, an alias `inLines` becomes `in_lines`. A name stays where the file imports it from elsewhere, and where
Rattle makes it (a goal, a step, a part of one). Run once; a second run changes nothing.
"""

import os
import re
import sys
from collections import defaultdict

WORD = r"[A-Za-z_][\w']*(?:-[\w']+)+"
NAME = re.compile(r"(?<![\w'\-≤≥≡<>+*∷↔])(" + WORD + r")(?![\w'\-≤≥≡<>+*∷↔])")
USE = re.compile(r"^[ \t]*(?:ghost[ \t]+|pub[ \t]+)*use[ \t]+((?:«?[\w'-]+»?\.)*«?[\w'-]+»?)(?:\.\{([^}]*)\})?(?:[ \t]+as[ \t]+([\w'-]+))?", re.M)
SIGNATURE = re.compile(r"^[ \t]*(?:pub |abbrev |unfoldable )*(" + WORD + r")(?:[ \t]+[({].*)? :(?=\s|$)")
HEAD = re.compile(r"^[ \t]*(?:pub )*(?:record|data)[ \t]+(" + WORD + r")(?=[\s:({])")
FIELD = re.compile(r"^[ \t]+pub (" + WORD + r") :(?=\s|$)")
BINDER = re.compile(r"[({]((?:[\w'-]+ )+): ")
LAMBDA = re.compile(r"λ ([\w' -]+)\.")
LET = re.compile(r"\blet (" + WORD + r")\b")
ARM = re.compile(r"[\[|] *[\w'.-]+((?: [\w'-]+)+) ↦")
GOAL = re.compile(r"^(?:pub |abbrev )*(" + WORD + r") : goal\.", re.M)
CAMEL = re.compile(r" as ([a-z]+(?:[A-Z][a-z]+)+)\b")
# what a function of src/ has the name of already
TAKEN = {"size-at": "size_at_lem"}
STRING = re.compile(r'b?"(?:[^"\\]|\\.)*"')


def respelled(name):
    if name in TAKEN:
        return TAKEN[name]
    if name[0].isupper():
        return "".join(part[:1].upper() + part[1:] for part in name.split("-"))
    return name.replace("-", "_")


class File:
    def __init__(self, path, text, crates):
        self.path, self.text = path, text
        self.elsewhere, self.aliases = set(), set()
        for m in USE.finditer(text):
            parts = m.group(1).split(".")
            own = len(parts) > 1 and parts[0] == "Rattle" and parts[1] in crates and "declared" not in parts
            made = "Goals" in parts or "Given" in parts
            if m.group(2) is None:
                if own and not made:
                    self.aliases.add(m.group(3) or parts[-1])
                continue
            for item in m.group(2).split(","):
                item = item.strip()
                if not own or made:
                    self.elsewhere.add(item.split(" as ")[-1].strip())
        self.elsewhere |= set(GOAL.findall(text))

    def defined(self):
        """The names that the file defines or binds, and those of them that are fields."""
        words, fields = set(), set()
        if not self.path.endswith(".antt"):
            return words, fields
        for line in self.text.split("\n"):
            if line.lstrip().startswith("--"):
                continue
            for pattern in (SIGNATURE, HEAD, LET):
                words |= set(pattern.findall(line))
            fields |= set(FIELD.findall(line))
            for pattern in (BINDER, LAMBDA, ARM):
                for group in pattern.findall(line):
                    words |= {w for w in group.split() if "-" in w}
        return words - self.elsewhere, fields

    def turned(self, words, fields):
        def turn(m):
            name, before = m.group(1), self.text[: m.start()]
            if name in self.elsewhere:
                return name
            if before.endswith("."):
                path = re.search(r"([\w'«»-]+(?:\.[\w'«»-]+)*)\.$", before)
                parts = path.group(1).split(".") if path else []
                module = parts[:1] == ["Rattle"] and "Goals" not in parts or (len(parts) == 1 and parts[0] in self.aliases)
                return respelled(name) if (module and name in words) or name in fields else name
            return respelled(name) if name in words or name in fields else name

        if self.path.endswith(".antt"):
            return NAME.sub(turn, self.text)
        quoted = [(m.start(), m.end()) for m in STRING.finditer(self.text)]
        text = NAME.sub(lambda m: m.group(0) if any(a <= m.start() < b for a, b in quoted) else turn(m), self.text)
        for word in set(CAMEL.findall(text)):
            text = re.sub(r"\b%s\b" % word, re.sub(r"[A-Z]", lambda m: "_" + m.group(0).lower(), word), text)
        return text


def files(root):
    crates = set(os.listdir(os.path.join(root, "crates")))
    for folder, dirs, names in os.walk(os.path.join(root, "crates")):
        dirs[:] = sorted(d for d in dirs if d != "out")
        for name in sorted(names):
            if name.endswith((".antt", ".rt")):
                path = os.path.join(folder, name)
                with open(path, encoding="utf-8") as f:
                    yield File(path, f.read(), crates)


def main():
    args = [a for a in sys.argv[1:] if not a.startswith("--")]
    root = os.path.abspath(args[0] if args else ".")
    everything = list(files(root))
    words, fields, where = set(), set(), defaultdict(list)
    for f in everything:
        w, x = f.defined()
        words |= w
        fields |= x
    spelled = re.compile(r"[\w']+")
    together = 0
    for f in everything:
        new = f.turned(words, fields)
        if new == f.text:
            continue
        there = set(spelled.findall(f.text))
        for name in sorted({m.group(1) for m in NAME.finditer(f.text)}):
            if respelled(name) in there and (name in words or name in fields) and name not in f.elsewhere:
                print(f"look: {os.path.relpath(f.path, root)}: {name} falls together with {respelled(name)}")
                together += 1
        where[f.path] = new
    if "--list" in sys.argv:
        print("\n".join(sorted(words | fields)))
        return
    for path, new in where.items():
        with open(path, "w", encoding="utf-8") as f:
            f.write(new)
    print(f"snake_names: {len(words | fields)} names, {len(where)} files, {together} to look at")


main()
