#!/usr/bin/env python3
"""Brings the repository's own definitions and lemmas to today's spelling: words in snake case.

    tools/respell.py          respells every crate, the must-fail edits and the documents, once
    tools/respell.py --names  prints the old and the new name of each

A name of a definition, a lemma or a field with a dash or a capital inside is written with `_`.
A lemma that would get the name of a definition has `_lem` behind it. Names of functions of src/
stay. It runs once, on what the script port.py of the kit leaves.
"""
import collections
import os
import re
import sys

ROOT = os.path.dirname(os.path.dirname(os.path.abspath(__file__)))
TOKEN = re.compile(r"[^\s(){}\[\].,;`\"]+")
WORD = r"[^\s(){}\[\].,;:]+"
MARKS = r"(?:(?:abbrev|unfoldable|opaque|pub|record|data|ruleset)\s+)*"
DEFINED = re.compile(rf"^\s*{MARKS}({WORD})\s*(?:\{{[^}}]*\}}\s*|\([^)]*\)\s*)*:\s")
NAMED = re.compile(rf"^\s*(?:pub\s+)?(?:record|data|abbrev|unfoldable)\s+(?:pub\s+)?({WORD})")
# a name that a file gives to what it imports
ALIAS = re.compile(r" as ([a-z]+[A-Z][A-Za-z]*)(?=[,}])")

# lemmas whose name port.py wrote as a definition's is written now
LEMMAS = ["bits_below", "edge_test", "item_ok", "ready_at", "start_fits"]
# the library has this name too
KEPT = ["and-true"]


def snake(name):
    name = name.replace("-", "_")
    if name[:1].islower():
        name = re.sub(r"(?<=[a-z0-9'])([A-Z])", lambda m: "_" + m.group(1).lower(), name)
    return name


def files(kinds):
    for folder, _, names in os.walk(os.path.join(ROOT, "crates")):
        if "out" in folder.split("/"):
            continue
        for name in sorted(names):
            if name.endswith(kinds):
                yield os.path.join(folder, name)


def beside_functions(path):
    """Whether a file lies in proofs/F/, beside the proof of a function."""
    parts = os.path.relpath(path, ROOT).split("/")
    return parts[2] == "proofs" and len(parts) > 4


def renamed():
    own = set()
    for path in files((".antt",)):
        if beside_functions(path):
            continue
        for line in open(path):
            if line.lstrip().startswith("--"):
                continue
            for found in (DEFINED.match(line), NAMED.match(line)):
                if found:
                    own.add(found.group(1))
            own.update(ALIAS.findall(line))
    new = {}
    alike = collections.defaultdict(set)
    for name in own:
        alike[snake(name)].add(name)
    for name in own:
        to = snake(name)
        if to == name or name in KEPT or not re.search("[A-Za-z]", name):
            continue
        if "-" in name and len(alike[to]) > 1:
            to += "_lem"
        new[name] = to
    for name in LEMMAS:
        if name in own:
            new[name] = name + "_lem"
    return new


def respell(text, new, keep=()):
    def turn(found):
        word = found.group(0)
        return new.get(word, word) if word not in keep else word

    return TOKEN.sub(turn, text)


def in_ticks(text, new, keep=()):
    return re.sub(r"`[^`\n]*`", lambda m: respell(m.group(0), new, keep), text)


def turned(path, text, new):
    rust = path.endswith((".rt", ".edit"))
    lines = []
    for line in text.split("\n"):
        if rust and path.endswith(".edit") and line.startswith("file:"):
            lines.append(line)
        elif line.lstrip().startswith(("//", "--")):
            lines.append(in_ticks(line, new, LEMMAS))
        else:
            lines.append(respell(line, new, LEMMAS if rust else ()))
    return "\n".join(lines)


def main():
    new = renamed()
    if "--names" in sys.argv[1:]:
        for name in sorted(new):
            print(name, new[name])
        return
    for path in files((".antt", ".rt", ".edit")):
        text = open(path).read()
        after = turned(path, text, new)
        if after != text:
            open(path, "w").write(after)
    documents = [os.path.join(ROOT, "README.md"), os.path.join(ROOT, "CHANGELOG.md")]
    for folder, _, names in os.walk(os.path.join(ROOT, "docs")):
        documents += [os.path.join(folder, n) for n in names if n.endswith(".md")]
    for path in documents:
        text = open(path).read()
        after = in_ticks(text, new, LEMMAS)
        if after != text:
            open(path, "w").write(after)


main()
