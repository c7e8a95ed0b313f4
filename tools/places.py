#!/usr/bin/env python3
"""Lists places in src/ that today's forms would write otherwise: a pattern for each kind, `file:line  text`, and a count.

    tools/places.py [--count] [REVISION]      of a revision, or with none of the files as they lie here

A row is a place to look at and no verdict: a pattern goes by text.
"""
import re, subprocess, sys
from pathlib import Path

PATTERNS = [
    ("1 a value missing or wrong is handed on by hand", r"else \{\s*return (?:None|Err\([^;]*?\));\s*\}"),
    ("1 an arm that hands on what is missing or wrong", r"\n\s*(?:None => (?:None|false|Err\()|Err\(\w+\) => (?:Err|Ok\(\(\)\)|0\b)|Some\((\w+)\) => (?:Some|Ok)\(\1\))"),
    ("1 one or zero for yes or no", r"\{ (?:0 \} else \{ 1|1 \} else \{ 0) \}|return 0;\s*\}\s*\}\s*1\n"),
    ("1 a number that says nothing", r"-> u8\n(?:    ensures [^\n]*\n)+\{\n    0\n\}"),
    ("1 a number for a refusal", r"Refused\(u8\)|-> Option<u8> \{|Some\([12]\);"),
    ("3 a loop with a condition", r"(?m)^\s*while [^\n]*\{"),
    ("3 a loop over a range", r"(?m)^\s*(?:'\w+: )?for \w+ in [^\n{]*\.\.[^\n{]*\{"),
    ("4 an operation of the language by hand", r"(?m)^impl(?:<[^>]*>)? (?:PartialEq|Eq|PartialOrd|Ord|Hash|Clone|Copy|From|TryFrom|(?:std::)?fmt::Display)\b[^\n]*"),
    ("4 digits by hand", r"b'0' \+"),
    ("6 an array in a struct", r"(?m)^    (?:pub(?:\([a-z]+\))? )?\w+: \[[^\n]*\],"),
    ("6 a slice in a struct", r"(?m)^    (?:pub(?:\([a-z]+\))? )?\w+: &'a (?:mut )?\[[^\n]*\],"),
    ("7 a function as a value", r"\bfn\(|\bdyn |impl Fn|F: Fn"),
]

def sources(revision):
    if revision is None:
        for path in sorted(Path("crates").glob("*/src/**/*.rt")):
            yield str(path), path.read_text()
        return
    names = subprocess.run(["git", "ls-tree", "-r", "--name-only", revision, "crates"], capture_output=True, text=True, check=True).stdout.split()
    for name in sorted(names):
        if re.match(r"crates/[^/]*/src/.*\.rt$", name):
            yield name, subprocess.run(["git", "show", f"{revision}:{name}"], capture_output=True, text=True, check=True).stdout

def flags(text):
    for m in re.finditer(r"\bstruct (\w+)(?:<[^>]*>)? \{\n(.*?)\n\}", text, re.S):
        for field in re.findall(r"(?m)^    (?:pub(?:\([a-z]+\))? )?(\w+: bool),", m.group(2)):
            yield m.start(), m.group(1) + " { " + field + " }"

def enums(text):
    for m in re.finditer(r"\benum (\w+)(?:<[^>]*>)? \{\n(.*?)\n\}", text, re.S):
        cases = re.findall(r"^    (\w+)( \{|\()?", m.group(2), re.M)
        full = [c for c in cases if c[1]]
        if len(cases) == 2 and full:
            yield m.start(), m.group(1) + ": " + ", ".join(c[0] for c in cases)

def parameters(texts):
    """Runs of three parameters, by name, that three or more functions of a crate share."""
    seen = {}
    for name, text in texts:
        crate = name.split("/")[1]
        for m in re.finditer(r"\bfn (\w+)(?:<[^(]*>)?\(([^()]*(?:\([^()]*\)[^()]*)*)\)", text):
            names = [p.split(":")[0].strip().split()[-1] for p in m.group(2).split(",") if ":" in p]
            for i in range(len(names) - 2):
                seen.setdefault((crate, tuple(names[i:i + 3])), []).append(m.group(1))
    for (crate, names), functions in sorted(seen.items()):
        if len(set(functions)) >= 3:
            yield crate, names, sorted(set(functions))

def ensures(text):
    for m in re.finditer(r"\bensures(?: \w+)? \{", text):
        depth, at = 1, m.end()
        while depth:
            depth += {"{": 1, "}": -1}.get(text[at], 0)
            at += 1
        yield " ".join(text[m.end():at - 1].split())

def clauses(texts):
    """Premises, and runs of four words that carry a dot, that three or more clauses of a crate repeat."""
    seen = {}
    for name, text in texts:
        crate = name.split("/")[1]
        for clause in ensures(text):
            clause = re.sub(r"\.(?:now|old|new)\b", "", clause)
            keys = {p.strip() for p in clause.split(" → ")[:-1]}
            keys |= set(re.findall(r"\w+\.\w+\.kept \w+\.\w+\.content \w+\.\w+\.kept \w+\.\w+\.content", clause))
            for key in keys:
                if " " in key and not re.fullmatch(r"(?:\([^()]*\) ?)+", key):
                    seen.setdefault((crate, key), []).append(name)
    for (crate, key), places in sorted(seen.items()):
        if len(places) >= 3:
            yield crate, key, len(places)

def main():
    words = [w for w in sys.argv[1:] if w != "--count"]
    terse = "--count" in sys.argv
    texts = list(sources(words[0] if words else None))
    found = []
    for name, text in texts:
        found += [("1 a flag among the fields", name, text[:at].count("\n") + 1, what) for at, what in flags(text)]
        found += [("1 an enum of two cases", name, text[:at].count("\n") + 1, what) for at, what in enums(text)]
    for kind, pattern in PATTERNS:
        for name, text in texts:
            for m in re.finditer(pattern, text):
                line = text[:m.start()].count("\n") + 1 + (m.group(0).startswith("\n"))
                found.append((kind, name, line, " ".join(m.group(0).split())[:100]))
    for kind in sorted({f[0] for f in found}):
        rows = [f for f in found if f[0] == kind]
        print(f"{kind}: {len(rows)}")
        for _, name, line, what in [] if terse else rows:
            print(f"    {name}:{line}  {what}")
    runs = list(parameters(texts))
    print(f"5 parameters that travel together: {len(runs)}")
    for crate, names, functions in [] if terse else runs:
        print(f"    {crate}: {', '.join(names)} in {', '.join(functions)}")
    premises = list(clauses(texts))
    print(f"5 premises that clauses repeat: {len(premises)}, {sum(p[2] for p in premises)} times")
    for crate, key, n in [] if terse else premises:
        print(f"    {crate}: {n} times  {key[:150]}")

main()
