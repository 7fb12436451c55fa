#!/usr/bin/env python3
"""Brings the names of this repository's own definitions and lemmas to today's spelling, in the crates below the folder given.

usage: respell_names.py [--try] FOLDER

Run once, after the kit's port.py. A definition, a field and a constructor of specs/, and each part of a lemma's name, is a word in snake
case: `padOf` becomes `pad_of`, `osc-decode` of specs/ `osc_decode`. The names of Rust functions, exported names and strings stay. What
falls together with another name of the same file is printed; with --try nothing is written.
"""
import os
import re
import sys
from collections import defaultdict

NAME = r'[^\s(){};,.@"`«»\[\]:]+'
TOKEN = re.compile(rf'(?<![^\s(){{}};,.@"`«»\[\]:]){NAME}(?![^\s(){{}};,.@"`«»\[\]:])')
CAMEL = re.compile(r"^[a-z][a-z0-9_]*[A-Z]")
DECLARED = re.compile(r"^(?:(?:abbrev|unfoldable|opaque|pub|rec) )*(" + NAME + r")(?: " + NAME + r")* :(?= )", re.M)
FIELD = re.compile(r"^\s+(?:pub )?(" + NAME + r") :(?= )", re.M)


# Names that would meet another name in snake case: the file that holds them ("" for every file), the old name and the new one.
APART = [
    ("", "cue-told", "told_cue"),
    ("", "told-answer", "told_an_answer"),
    ("", "told-refusal", "told_a_refusal"),
    ("", "told-stop", "told_a_stop"),
    ("", "since-last", "kept_since_last"),
    ("tool_walks/proofs/Runs.antt", "reads_on", "read_on"),
    ("", "goes_on", "goes_further"),
    ("packet/proofs/Items.antt", "start-of", "start_there"),
    ("survey/proofs/Arguments.antt", "array_kind", "is_array"),
]


def apart(path, text):
    for where, old, new in APART:
        if path.endswith(".antt") and path.endswith(where):
            text = TOKEN.sub(lambda m: new if m.group(0) == old else m.group(0), text)
            text = text.replace("Walk, read_on, stops}", "Walk, reads_on as read_on, stops}")
    return text


def snake(word):
    word = re.sub(r"(?<=[a-z0-9])([A-Z])", lambda m: "_" + m.group(1).lower(), word)
    return re.sub(r"(?<=_[a-z])([A-Z])", lambda m: "_" + m.group(1).lower(), word)


def spelled(name):
    """The name with each part in snake case: the parts that are no words of a type."""
    return "-".join(snake(p) if CAMEL.match(p) else p for p in name.split("-"))


def texts(root):
    for folder, dirs, files in os.walk(root):
        dirs[:] = sorted(d for d in dirs if d != "out")
        for f in sorted(files):
            if f.endswith((".antt", ".rt", ".edit")):
                yield os.path.join(folder, f)


def main(argv):
    dry = argv[0] == "--try"
    root = argv[-1]
    read = {}
    for p in texts(root):
        with open(p, encoding="utf-8") as f:
            read[p] = apart(p, f.read())
    dashed = set()
    for p, t in read.items():
        if p.endswith(".antt") and "/specs/" in p:
            for m in list(DECLARED.finditer(t)) + list(FIELD.finditer(t)):
                name = m.group(1)
                if "-" in name and re.match(r"[a-z]", name) and re.search("[a-zA-Z0-9]-[a-zA-Z0-9]", name):
                    dashed.add(name)
    table = {}
    for p, t in read.items():
        if p.endswith(".antt"):
            for m in TOKEN.finditer(re.sub(r'"[^"\n]*"', '""', t)):
                name = m.group(0)
                if name in dashed:
                    table[name] = spelled(name).replace("-", "_")
                elif spelled(name) != name:
                    table[name] = spelled(name)
    meets = defaultdict(set)
    for p, t in read.items():
        tokens = set(TOKEN.findall(t))
        for old in tokens & set(table):
            if table[old] in tokens:
                meets[table[old]].add(p)
    for new in sorted(meets):
        print("meets:", new, *sorted(meets[new]))

    def turned(m):
        return table.get(m.group(0), m.group(0))

    strings = re.compile(r'("[^"\n]*")')
    changed = 0
    for p, t in read.items():
        lines = []
        for line in t.split("\n"):
            if p.endswith(".antt"):
                parts = strings.split(line)
                lines.append("".join(x if i % 2 else TOKEN.sub(turned, x) for i, x in enumerate(parts)))
            else:
                # In Rust's text only names in camel case are ours, and a dash is a minus, but in clauses.
                ghost = re.search(r"ghost use|requires|ensures|λ|≡|old: pub|^(old|new):", line)
                parts = strings.split(line)
                sub = turned if ghost else (lambda m: table[m.group(0)] if m.group(0) in table and CAMEL.match(m.group(0)) else m.group(0))
                lines.append("".join(x if i % 2 else TOKEN.sub(sub, x) for i, x in enumerate(parts)))
        new = "\n".join(lines)
        with open(p, encoding="utf-8") as f:
            t = f.read()
        if new != t:
            changed += 1
            if not dry:
                with open(p, "w", encoding="utf-8") as f:
                    f.write(new)
    old = os.path.join(root, "apart", "specs", "Contracts.antt")
    if os.path.exists(old) and not dry:
        # A kit's module of specs/ has this name, so that none of ours may.
        os.rename(old, os.path.join(root, "apart", "specs", "CContracts.antt"))
        for p in texts(root):
            with open(p, encoding="utf-8") as f:
                t = f.read()
            new = t.replace("Rattle.apart.specs.Contracts.", "Rattle.apart.specs.CContracts.")
            if p.endswith(os.path.join("apart", "specs", "Lib.antt")):
                new = new.replace("pub mod Contracts", "pub mod CContracts")
            new = new.replace("file: specs/Contracts.antt", "file: specs/CContracts.antt") if f"{os.sep}apart{os.sep}" in p else new
            if new != t:
                with open(p, "w", encoding="utf-8") as f:
                    f.write(new)
    print(f"{len(table)} names, {len(dashed)} of them with a dash in specs/; {changed} files")
    for old in sorted(table):
        print(f"  {old} {table[old]}")


if __name__ == "__main__":
    main(sys.argv[1:])
