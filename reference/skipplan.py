#!/usr/bin/env python3
"""A second skipplan, written from docs/ in another language, for the expected output of the gate.

    python3 reference/skipplan.py < crates/skipplan/stdin > crates/skipplan/stdout

Nothing here is taken from the proved program: degrees and arities are counted by multiplying the
rules out, dimensions by trying one after another, and lengths by building lists and taking theirs.
"""
import re
import sys

LIMIT = 16384
WORD = 2 ** 64 - 1
BITS = 8  # the byte field

TEXTS = ["a", "a*a + a", "a*b + c", "g*(a*b + c)"]


def multiplied_out(text):
    """The monomials of a rule text, each a sorted string of operand names."""
    if "(" in text:
        gate, inner = re.fullmatch(r"(\w)\*\((.*)\)", text).groups()
        return ["".join(sorted(gate + m)) for m in multiplied_out(inner)]
    return ["".join(sorted(term.strip().replace("*", ""))) for term in text.split("+")]


def extra(degree):
    if degree == 0:
        return None
    e = 1
    while 2 ** e < degree:
        e += 1
    return e


def lines(data):
    """Each line's bytes with its number; one CR before LF is dropped."""
    parts = data.split(b"\n")
    last = parts.pop()
    for number, part in enumerate(parts, 1):
        yield number, part[:-1] if part.endswith(b"\r") else part
    if last:
        yield len(parts) + 1, last


def words(line):
    """The words of a line, none where it is passed over, False where it is unreadable."""
    if line[:1] == b"#" or line.strip(b" ") == b"":
        return None
    if len(line) > LIMIT or any(byte < 32 or byte > 126 for byte in line):
        return False
    return [w for w in line.split(b" ") if w]


def shape(found):
    if found is False or len(found) != 3:
        return None
    if any(re.fullmatch(rb"[0-9]+", w) is None or int(w) > WORD for w in found):
        return None
    return [int(w) for w in found]


def refusal(log_size, degree):
    """The first cause of construction, as it is printed, or the extension's dimensions."""
    more = extra(degree)
    log_extended = log_size if more is None else min(log_size + more, WORD)
    limit = min(BITS, 63)
    if log_extended <= log_size:
        return f"1 EmptyExtension: log_size {log_size}, log_extended {log_extended}"
    if log_extended > limit:
        return f"2 ExtensionTooWide: log_extended {log_extended}, limit {limit}"
    if log_extended > 16:
        return f"3 ExtensionBeyondLimit: log_extended {log_extended}"
    if log_size < 3:
        return f"4 SubspaceTooNarrow: log_size {log_size}"
    return log_extended


def plan(log_size, degree, code):
    """The lines under a shape, and whether it was planned."""
    if code >= len(TEXTS):
        return [f"no rule has code {code}"], False
    monomials = multiplied_out(TEXTS[code])
    arity = len(set("".join(monomials)))
    rule_degree = max(len(m) for m in monomials)
    log_extended = refusal(log_size, degree)
    if isinstance(log_extended, str):
        return [f"refused {log_extended}"], False
    if log_size + extra(rule_degree) > log_extended:
        return [f"refused 8 DegreeNotAdmitted: degree {rule_degree}"], False
    points = range(2 ** log_extended)
    skipped = [j for j in points if j < 2 ** log_size]
    transmitted = [j for j in points if j not in range(2 ** log_size)]
    n, row_bytes = len(transmitted), len(skipped[::8])
    return [
        f"rule {TEXTS[code]}: operands {arity}, degree {rule_degree}",
        f"domain: dimensions {log_extended}, skipped {len(skipped)}, transmitted {n}, row bytes {row_bytes}",
        f"round polynomial: degree at most {sum(len(skipped) - 1 for _ in range(rule_degree))}, carried below {len(points)}",
        f"lengths: points {len(points)}, extension table {len([1 for _ in range(256) for _ in transmitted])}, "
        f"message {n}, selector table {len([1 for _ in range(256) for _ in range(row_bytes)])}, vector {len(skipped)}",
        f"scratch: row call {len([1 for _ in range(arity) for _ in range(n + 1)])}, claim call {arity}, "
        f"evaluate {n}, selector {len(skipped)}",
    ], True


def main():
    planned = refused = unreadable = 0
    out = []
    for number, line in lines(sys.stdin.buffer.read()):
        found = words(line)
        if found is None:
            continue
        asked = shape(found)
        if asked is None:
            out.append(f"line {number}: not a shape")
            unreadable += 1
            continue
        under, done = plan(*asked)
        out.append("shape " + " ".join(map(str, asked)))
        out += ["  " + text for text in under]
        planned, refused = planned + done, refused + (not done)
    out.append(f"{planned} planned, {refused} refused, {unreadable} unreadable")
    print("\n".join(out))


main()
