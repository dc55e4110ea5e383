#!/usr/bin/env python3
"""Respells the repository's own definitions and lemmas as the library spells its own.

usage: python3 tools/spell.py FOLDER     FOLDER has crates/, edits/ and docs/; files are rewritten in place

Functions, fields and lemmas get snake case; types and facts keep their capital. A dash stays where it joins two
names (`length-altered`), and becomes `_` before a plain word (`altered_inside`). What Rattle makes, and what comes
from another library, keeps its name. Run it once, after the spelling of the library itself is turned.
"""

import os
import re
import sys

# Names that the turn of the library's own spelling took for the library's.
MENDED = {"get_d_tabulate": "get_or-tabulate", "looks-equal": "implies_looks_equal"}

# Words of the library that a lemma's name can begin with or end in.
WORDS = {"length", "get_or", "set", "take", "drop", "append", "replicate", "map", "sum", "filter", "reverse", "min", "max", "get_d"}

# Rattle makes these names.
MADE = re.compile(r"(invariant|decreases)-")

TOKEN = re.compile(r"[^\s(){}\[\],;.«»]+")
DEFINED = re.compile(r"^\s*(?:(?:abbrev|unfoldable|pub|data|record)\s+)*([^\s:(){}.,;λ→=|\[\]«»]+)\s*(?:[({].*)?:(?:\s|$)", re.M)
FIELD = re.compile(r"^\s+pub ([^\s:(){}.,;]+)\s*:\s", re.M)
RECORD = re.compile(r"^(?:abbrev |unfoldable )?(?:pub )?record .*?(?=^\S)", re.M | re.S)
USED = re.compile(r"^\s*(?:pub )?(?:ghost )?use\s+([^\s{;]+?)\.?\{([^}]*)\}", re.M)
SPOKEN = re.compile(r"`[^`\n]+`")


def texts(root, folders, endings):
    for folder in folders:
        for where, inner, files in os.walk(os.path.join(root, folder)):
            inner[:] = sorted(d for d in inner if d not in ("out", "target", ".git"))
            for file in sorted(files):
                if file.endswith(endings):
                    yield os.path.join(where, file)


def read(path):
    with open(path, encoding="utf-8") as file:
        return file.read()


def without_comments(text):
    return re.sub(r"--[^\n]*", "", text)


def snake(word):
    return re.sub(r"(?<=[a-z0-9])([A-Z])", lambda m: "_" + m.group(1).lower(), word) if word[0].islower() else word


def own_names(root):
    """All names that specs/ and proofs/ define, the fields among them, and those that are functions or facts of specs/."""
    names, fields, functions = set(), set(), set()
    for path in texts(root, ["crates"], (".antt",)):
        text = without_comments(read(path)) + "\n."
        found = set(DEFINED.findall(text))
        names |= found
        if "/specs/" in path:
            functions |= {name for name in found if "-" not in name}
        for record in RECORD.findall(text):
            fields |= set(FIELD.findall(record))
    return names | fields, fields, functions


def respelt(name, functions):
    if name in MENDED:
        return MENDED[name]
    if MADE.match(name) or re.fullmatch(r"returns(-\d+)?", name):
        return name
    name = name.replace("′", "'")
    parts = [snake(part) for part in name.split("-") if part]
    if len(parts) < 2 or name.startswith("-") or name.endswith("-"):
        return snake(name) if len(parts) == 1 and "-" not in name else name
    said = parts[0]
    joined = parts[0]
    for part in parts[1:]:
        both = joined in functions and part in functions and name.split("-")[-1] != "spec"
        said += ("-" if both else "_") + part
        joined = part if both else joined + "_" + part
    return said


def crates(root):
    return {d for d in os.listdir(os.path.join(root, "crates"))}


def imported(text, own):
    """The names that a file takes from other libraries."""
    names = set()
    for module, items in USED.findall(text):
        parts = module.split(".")
        if parts[0] == "Rattle" and len(parts) > 1 and parts[1] in own:
            continue
        names |= {item.strip() for item in re.split(r"[,\s]+", items) if item.strip()}
    return names


def turn(text, table, fields, kept):
    def one(match):
        word = match.group(0)
        before = text[match.start() - 1] if match.start() else " "
        if word not in table or (word in kept and before != "."):
            return word
        if before == "." and ("-" in word or table[word].endswith("_lem")) and word not in fields:
            return word
        return table[word]

    return TOKEN.sub(one, text)


def turned_antt(text, table, fields, kept):
    said = []
    for line in text.split("\n"):
        code, dash, comment = line.partition("--") if re.search(r"(^|\s)--", line) else (line, "", "")
        said.append(turn(code, table, fields, kept) + dash + SPOKEN.sub(lambda m: turn(m.group(0)[1:-1], table, fields, set()).join("``"), comment))
    return "\n".join(said)


def main():
    root = sys.argv[1]
    names, fields, functions = own_names(root)
    functions = {snake(name) for name in functions} | WORDS
    table = {name: respelt(name, functions) for name in names} | {name: snake(respelt(name, set())) for name in fields}
    # a lemma that would have its function's name
    taken = {new for old, new in table.items() if "-" not in old and old != new}
    table = {old: new + "_lem" if new in taken and ("-" in old or old == new) else new for old, new in table.items()}
    table = {old: new for old, new in table.items() if old != new}
    own = crates(root)
    camel = {old: new for old, new in table.items() if "-" not in old}
    for path in texts(root, ["crates"], (".antt",)):
        text = read(path)
        kept = imported(text, own)
        words = {w for w in TOKEN.findall(without_comments(text))}
        for new in sorted({table[w] for w in words if w in table and w not in kept}):
            olds = sorted({w for w in words if table.get(w, w) == new})
            if len(olds) > 1:
                print(f"fall together: {os.path.relpath(path, root)}: {' '.join(olds)} -> {new}")
        after = turned_antt(text, table, fields, kept)
        if after != text:
            with open(path, "w", encoding="utf-8") as file:
                file.write(after)
    for path in texts(root, ["crates"], (".rt",)):
        text = read(path)
        words = set(re.findall(r"\w+", text))
        for old in sorted(words & camel.keys()):
            if camel[old] in words:
                print(f"look: {os.path.relpath(path, root)}: {old} -> {camel[old]}, which stands there too")
        after = turn(text, camel, fields, set())
        if after != text:
            with open(path, "w", encoding="utf-8") as file:
                file.write(after)
    for path in texts(root, ["crates", "edits"], (".edit",)):
        text = read(path)
        after = turn(text, camel, fields, set())
        if after != text:
            with open(path, "w", encoding="utf-8") as file:
                file.write(after)
    for path in [os.path.join(root, "README.md"), *texts(root, ["docs"], (".md",))]:
        text = read(path)
        after = SPOKEN.sub(lambda m: turn(m.group(0)[1:-1], table, fields, set()).join("``"), text)
        if after != text:
            with open(path, "w", encoding="utf-8") as file:
                file.write(after)
    print(f"{len(table)} names respelt")


main()
