#!/usr/bin/env python3
"""Brings the repository's own definitions and lemmas to today's spelling: snake case, types in camel case.

usage: python3 tools/respell.py [--dry]     at the top of the repository, once, after the kit's own script

Renamed are the names that specs/ and proofs/ declare, and the labels of clauses. Names that the toolchain makes (goals,
steps), names that a file takes from std or the logic, functions of src/, strings and local variables stay. A dash stays in a lemma that is named after
two names, as all_called-append. --dry prints the renamings and changes nothing.
"""
import glob
import re
import sys

# what std's names contribute to a lemma that is named after two names
STD = {"append", "suc", "zero", "take", "drop", "length", "set", "map", "reverse"}
TOKEN = re.compile(r"[^\s(){}\[\];,.`\"]+")
DECLARED = re.compile(r"^\s*(?:(?:pub|abbrev|unfoldable)\s+)*(?:(?:data|record)\s+)?([^\s(){};,.:λ]+)(?:\s+[({].*)?\s+:(\s|$)")
GOAL = re.compile(r"^\s*(?:(?:pub|abbrev)\s+)*(\S+)\s+:\s+(?:goal|need|given)\.")
TAKEN = re.compile(r"^\s*(?:ghost )?use ([^\s{]+)\.\{([^}]*)\}", re.M)
LABEL = re.compile(r"\b((?:ensures|requires)\*?) ([a-z]\w*) \{")


def read(path):
    with open(path, encoding="utf-8") as f:
        return f.read()


def camel(name):
    parts = re.split(r"-", name)
    return "".join(p[:1].upper() + p[1:] for p in parts).replace("·", "_")


def snake(name, words):
    name = name.replace("·", "_").replace("′", "'")
    parts = name.split("-")
    for k in range(len(parts) - 1, 0, -1):
        head, tail = "-".join(parts[:k]), "-".join(parts[k:])
        if head in words and (tail in words or tail in STD):
            return head.replace("-", "_").lower() + "-" + tail.replace("-", "_").lower()
    return "_".join(parts).lower()


def label(name):
    return re.sub(r"[A-Z]", lambda m: "_" + m.group().lower(), name)


def main():
    antt = sorted(glob.glob("crates/*/specs/**/*.antt", recursive=True) + glob.glob("crates/*/proofs/**/*.antt", recursive=True))
    source = sorted(glob.glob("crates/*/src/**/*.rt", recursive=True))
    goals, declared, words, defined = set(), {}, set(), set()
    for path in antt:
        for line in read(path).split("\n"):
            m = GOAL.match(line)
            if m:
                goals.add(m.group(1))
    for path in antt:
        for line in read(path).split("\n"):
            m = DECLARED.match(line)
            if not m:
                continue
            name = m.group(1)
            if "/specs/" in path:
                words.add(name)
            if name not in goals:
                declared.setdefault(name, set()).add(path)
    own = {path.split("/")[1] for path in source}
    taken = set()
    for path in antt + source:
        for module, names in TAKEN.findall(read(path)):
            parts = module.split(".")
            if parts[0] != "Rattle" or parts[1] not in own:
                taken |= {name.strip() for name in names.split(",")}
    turned = {}
    for name, paths in declared.items():
        if name in taken:
            print("has the name of one of the library, and stays:", name, sorted(paths))
            continue
        if name[0].isupper():
            new = camel(name) if re.search(r"[-·′]", name) else name
        elif re.search(r"[-·′]", name):
            new = snake(name, words if any("/proofs/" in p for p in paths) else set())
        else:
            continue
        if new != name:
            turned[name] = new
    labels = {}
    for path in source:
        for _, name in LABEL.findall(read(path)):
            if re.search("[A-Z]", name):
                labels[name] = label(name)
    back = {}
    for old, new in sorted({**turned, **labels}.items()):
        back.setdefault(new, []).append(old)
    present = set()
    for path in antt + source:
        present |= set(TOKEN.findall(read(path)))
    for new, olds in sorted(back.items()):
        if len(olds) > 1:
            print("falls together:", new, olds)
        if new in present:
            print("stands already:", new, olds)
    if "--dry" in sys.argv:
        for old, new in sorted(turned.items()):
            print(old, "->", new)
        for old, new in sorted(labels.items()):
            print("label", old, "->", new)
        return

    def turn(text, fields):
        table = {**turned, **fields}
        return TOKEN.sub(lambda m: table.get(m.group(), m.group()), text)

    for path in antt:
        text = read(path)
        new = turn(text, labels)
        if new != text:
            with open(path, "w", encoding="utf-8") as f:
                f.write(new)
    for path in source:
        text = read(path)
        out, ghost = [], False
        for line in text.split("\n"):
            # clauses and ghost items are antt; everything else of src/ stays
            if re.match(r"\s*(ghost\b|requires\b|ensures\b)", line):
                ghost = True
            elif ghost and (re.match(r"\s*(\{|\}|pub |fn |use |//|#|mod |let |[a-z_]+: [A-Z&\[].*,$)", line) or line.strip() == ""):
                ghost = False
            if ghost:
                line = turn(line, {})
                line = LABEL.sub(lambda m: f"{m.group(1)} {labels.get(m.group(2), m.group(2))} {{", line)
            out.append(line)
        new = "\n".join(out)
        if new != text:
            with open(path, "w", encoding="utf-8") as f:
                f.write(new)


main()
