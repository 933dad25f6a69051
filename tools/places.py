#!/usr/bin/env python3
"""Lists the places in src/ that an older language shaped, by kind, each with its file and line.

tools/places.py            at the top of the repository: a count for each kind
tools/places.py --list     and the places

It goes by text: a place is one to look at, and not yet one to change.
"""

import collections
import glob
import os
import re
import sys

TOP = os.path.join(os.path.dirname(os.path.abspath(__file__)), "..")


def sources():
    for path in sorted(glob.glob(os.path.join(TOP, "crates/*/src/**/*.rt"), recursive=True)):
        with open(path, encoding="utf-8") as file:
            yield os.path.relpath(path, os.path.join(TOP, "crates")), file.read()


def line_of(text, at):
    return text.count("\n", 0, at) + 1


def found(pattern, flags=re.M):
    return [
        f"{path}:{line_of(text, m.start())} {' '.join(m.group(0).split())[:90]}"
        for path, text in sources()
        for m in re.finditer(pattern, text, flags)
    ]


FUNCTION = re.compile(r"^( *)(?:pub(?:\([a-z]+\))? )?fn (\w+)(?:<.*?>)?\((.*?)\)", re.M | re.S)


def functions():
    """Each function: its path, its line, whether it is a method, its name and its parameters."""
    for path, text in sources():
        for m in FUNCTION.finditer(text):
            yield path, line_of(text, m.start()), bool(m.group(1)), m.group(2), m.group(3)


def structs():
    for path, text in sources():
        for m in re.finditer(r"^(?:pub(?:\([a-z]+\))? )?struct (\w+)[^;{]*\{(.*?)^\}", text, re.M | re.S):
            yield path, line_of(text, m.start()), m.group(1), m.group(2)


def own_options():
    out = []
    for path, text in sources():
        for m in re.finditer(r"^(?:pub )?enum (\w+)[^{]*\{(.*?)^\}", text, re.M | re.S):
            if re.search(r"^    (Nothing|Unknown|Missing|Absent|Invalid|Ok|Err)\b", m.group(2), re.M):
                out.append(f"{path}:{line_of(text, m.start())} enum {m.group(1)}")
    return out


def same_names(kind):
    at = collections.defaultdict(list)
    if kind == "function":
        for path, line, is_method, name, _ in functions():
            if not is_method and name not in ("main", "run"):
                at[name].append(f"{path}:{line}")
    else:
        for path, text in sources():
            for m in re.finditer(r"^(?:pub(?:\([a-z]+\))? )?(?:struct|enum) (\w+)", text, re.M):
                at[m.group(1)].append(f"{path}:{line_of(text, m.start())}")
    return [f"{name}: {', '.join(places)}" for name, places in sorted(at.items()) if len(places) > 1]


def repeated_clauses():
    at = collections.defaultdict(set)
    for path, text in sources():
        crate = path.split("/")[0]
        name = None
        for line in text.split("\n"):
            m = re.match(r" *(?:pub(?:\([a-z]+\))? )?fn (\w+)", line)
            if m:
                name = m.group(1)
            m = re.match(r" *(?:requires|ensures)(?: \w+)? \{ (.*) \}$", line)
            if m and name:
                for fact in m.group(1).split(" × "):
                    at[crate, fact.strip("() ")].add(name)
    return [f"{crate}: {fact[:90]}: {', '.join(sorted(names))}" for (crate, fact), names in sorted(at.items()) if len(names) >= 3]


def parameters_together():
    at = collections.defaultdict(set)
    for path, _, _, name, parameters in functions():
        crate = path.split("/")[0]
        fields = [" ".join(p.split()) for p in re.split(r",\s*(?![^<(\[]*[>)\]])", parameters) if ":" in p]
        for i in range(len(fields)):
            for j in range(i + 1, len(fields)):
                at[crate, fields[i], fields[j]].add(name)
    return [f"{crate}: {a}, {b}: {', '.join(sorted(names))}" for (crate, a, b), names in sorted(at.items()) if len(names) >= 3]


def buffers_with_length():
    return [
        f"{path}:{line} struct {name}"
        for path, line, name, body in structs()
        if re.search(r": \[[^\]]*;", body) and re.search(r": usize", body)
    ]


def proofs():
    files = [p for p in glob.glob(os.path.join(TOP, "crates/*/proofs/**/*.antt"), recursive=True)]
    answers = 0
    lines = 0
    for path in files:
        with open(path, encoding="utf-8") as file:
            text = file.read()
        lines += text.count("\n")
        if path.endswith("Answers.antt"):
            answers += len(re.findall(r"^pub [^\n]* : goal\.", text, re.M))
    return [f"{len([f for f in files if f.endswith('Answers.antt')])} files of answers, {answers} answers, {len(files)} files, {lines} lines"]


KINDS = [
    ("1 own enums with a case for nothing", own_options),
    ("1 results in results", lambda: found(r"Result<(?:Result|Option)<|Option<Result<")),
    ("1 a number answered that says nothing", lambda: found(r"^\{\n    0\n\}")),
    ("1 matches that hand on a None or an Err", lambda: found(r"None => (?:return )?None\b|None => Ok\(None\)|Err\(\w+\) => (?:return )?(?:Ok\()?Err\(\w+\)|Err\(_\) => (?:return )?(?:None|Err)")),
    ("1 matches that wrap what Some holds", lambda: found(r"Some\((\w+)\) => Some\((?!\1\)).*$|Some\(\w+\) => \{$")),
    ("1 flags in structs", lambda: found(r"^    (?:pub )?\w+: bool,")),
    ("1 numbers for kinds", lambda: found(r"^ *(?:pub )?(?:place|kind|code|number): (?:u8|u16|usize),")),
    ("2 functions of one name in several files", lambda: same_names("function")),
    ("2 types of one name in several files", lambda: same_names("type")),
    ("3 loops over a range of numbers", lambda: found(r"^ *for \w+ in [^{]*\.\.[^{]*\{")),
    ("3 while and loop", lambda: found(r"^ *(?:while|loop)\b.*$")),
    ("3 loops with an index beside the item", lambda: found(r"^ *for \(\w+, \w+\) in .*enumerate\(\) \{")),
    ("4 equality, copying by hand", lambda: found(r"fn equals\b.*|^impl.* (?:Clone|Copy|PartialEq|Eq|PartialOrd|Ord) for .*")),
    ("4 conversion by hand", lambda: found(r"fn (?:from_code|\w+_named|named_\w+|question_of|number_of)\b.*")),
    ("4 printing by hand", lambda: found(r"fn (?:print_\w+|\w*text)\b.*")),
    ("5 facts in the contracts of three or more functions", repeated_clauses),
    ("5 parameters that three or more functions take together", parameters_together),
    ("6 buffers with a length beside them", buffers_with_length),
    ("7 bool parameters", lambda: [f"{p}:{l} fn {n}" for p, l, _, n, a in functions() if re.search(r"\w+: bool\b", a)]),
    ("7 tables searched by a loop", lambda: found(r"^const \w+: \[\(.*")),
    ("8 proofs", proofs),
]


def main():
    for name, places in KINDS:
        got = places()
        if name.startswith("8"):
            print(f"{name}: {got[0]}")
            continue
        print(f"{name}: {len(got)}")
        if "--list" in sys.argv:
            for place in got:
                print("    " + place)


main()
