#!/usr/bin/env python3
"""Brings the repository's own definitions and lemmas to one spelling: words in snake case, types in camel case.

tools/respell.py        at the top of the repository, after the toolchain's own porting script, once

A name counts as ours where a file of specs/, or a lemma file right in proofs/, declares it and nothing of the standard
library of that name is imported anywhere. Functions, strings and comments of src/, inputs and outputs stay as they are.
Names that would fall together with another name of the same file are printed, and nothing is written.
"""

import os
import re
import sys

DECLARED = re.compile(
    r"^\s*(?:(?:abbrev|opaque|unfoldable|pub|instance)\s+)*(?:(record|data|ruleset)\s+)?([A-Za-z][^\s(){}:=|\[\],.]*)(?=[^=\n]*?:|\s*=)",
    re.M,
)
IMPORTED = re.compile(r"use\s+Rattle\.(?:std|core)[^\s{;]*\.\{([^}]*)\}")
WORD_END = r"(?![\w'-])"
WORD_START = r"(?<![\w'-])"

# what would bear the name of a function of src/ that stands in the same file
APART = {
    "domainOf": "domain_written",
    "fieldNamed": "named_field",
    "operationAt": "operation_in_field",
    "operationNamed": "named_operation",
    "vanishingOnTransmitted": "transmitted_vanishing",
    "basis-element": "basis_element_or_zero",
    "point-of": "cantor_point",
    "row-bytes": "bytes_of_row",
}

# members of a record may bear it
MEMBERS = {"log-bits"}

# what the porting script took for a member of a type and capitalised
GARBLED = {"Sum-self": "sum_self"}


def texts(top):
    for folder, folders, files in os.walk(os.path.join(top, "crates")):
        folders[:] = sorted(f for f in folders if f not in ("out", "must-fail"))
        for name in sorted(files):
            if name.endswith((".antt", ".rt")):
                yield os.path.join(folder, name)


def read(path):
    with open(path, encoding="utf-8") as file:
        return file.read()


def without_comments(text):
    return re.sub(r"--.*", "", text)


def declares(path):
    """Whether a file declares definitions or lemmas: one of specs/, or one right in proofs/."""
    parts = path.split(os.sep)
    return path.endswith(".antt") and (parts[-2] in ("specs", "proofs") and parts[-1] != "Lib.antt")


def is_type(name):
    return name[0].isupper()


def snake(name):
    name = re.sub(r"(?<=[a-z0-9])([A-Z])", lambda m: "_" + m[1].lower(), name)
    return name.replace("-", "_")


def camel(name):
    return "".join(word[:1].upper() + word[1:] for word in re.split(r"[-_]", name))


def respelled(name):
    if name in APART:
        return APART[name]
    return camel(name) if is_type(name) else snake(name)


def names_of(files):
    """Our names that change, each with its new spelling."""
    ours, theirs = set(), set()
    for path, text in files.items():
        bare = without_comments(text) if path.endswith(".antt") else text
        for found in IMPORTED.finditer(bare):
            for item in found[1].split(","):
                theirs.add(item.strip().split(" as ")[0].strip())
        if declares(path):
            ours.update(found[2] for found in DECLARED.finditer(bare))
        if path.endswith(".rt"):
            # a name that is imported under another
            for line in re.findall(r"ghost use [^;]*;", bare):
                ours.update(re.findall(r" as ([A-Za-z][\w'-]*)", line))
    return {name: respelled(name) for name in ours - theirs if respelled(name) != name}


def pattern(names):
    words = "|".join(re.escape(name) for name in sorted(names, key=len, reverse=True))
    return re.compile(f"{WORD_START}(?:«({words})»|({words})){WORD_END}")


def turned(path, text, names, find):
    for old, new in GARBLED.items():
        text = re.sub(rf"(?<=\.){re.escape(old)}{WORD_END}", new, text)
    if path.endswith(".rt"):
        # comments and strings of the sources stay
        pieces = re.split(r'("(?:\\.|[^"\\])*"|//[^\n]*)', text)
        return "".join(p if i % 2 else find.sub(lambda m: names[m[1] or m[2]], p) for i, p in enumerate(pieces))
    return find.sub(lambda m: names[m[1] or m[2]], text)


def clashes(files, names, find):
    for path, text in sorted(files.items()):
        bare = without_comments(text) if path.endswith(".antt") else re.sub(r"//[^\n]*", "", text)
        here = {m[1] or m[2] for m in find.finditer(bare)}
        seen = {}
        for name in sorted(here):
            new = names[name]
            if name in MEMBERS:
                continue
            if re.search(WORD_START + re.escape(new) + WORD_END, bare):
                yield f"{path}: {name} would be {new}, which stands there"
            if new in seen:
                yield f"{path}: {name} and {seen[new]} would both be {new}"
            seen[new] = name


def main():
    files = {path: read(path) for path in texts(".")}
    names = names_of(files)
    if not names:
        print("nothing to respell")
        return 0
    find = pattern(names)
    fallen = list(clashes(files, names, find))
    print("\n".join(fallen))
    if fallen:
        return 1
    changed = 0
    for path, text in files.items():
        new = turned(path, text, names, find)
        if new != text:
            with open(path, "w", encoding="utf-8") as file:
                file.write(new)
            changed += 1
    print(f"{len(names)} names respelled in {changed} files")
    return 0


sys.exit(main())
