#!/usr/bin/env python3
"""A second fieldcalc, written from docs/ in another language, for the expected output of the gate.

    python3 reference/fieldcalc.py < crates/fieldcalc/stdin > crates/fieldcalc/stdout

An element of 2^n bits is a sum of monomials in X0 .. X(n-1): bit m of its number stands for the
product of the generators at the set bits of m, and Xi*Xi = Xi + X0*..*X(i-1). Products multiply
monomials out; solve is Gaussian elimination; an inverse is a power. No tables, no pairs.
"""
import functools
import re
import sys

LIMIT = 16384
WORD = 2 ** 64 - 1
FIELDS = {b"1": 0, b"8": 3, b"16": 4, b"32": 5, b"64": 6, b"p2": 1, b"p4": 2, b"p8": 3}


@functools.lru_cache(maxsize=None)
def monomials(m, n):
    """The product of two monomials, as a number."""
    shared = m & n
    if shared == 0:
        return 1 << (m | n)
    top = shared.bit_length() - 1
    rest = monomials(m ^ (1 << top), n ^ (1 << top))
    return product(1 << (1 << top), rest) ^ product(1 << ((1 << top) - 1), rest)


def product(a, b):
    out = 0
    for i in range(a.bit_length()):
        if a >> i & 1:
            for j in range(b.bit_length()):
                if b >> j & 1:
                    out ^= monomials(i, j)
    return out


def inverse(a, width):
    if a == 0:
        return None
    out = 1
    for _ in range(width - 1):
        a = product(a, a)
        out = product(out, a)
    return out


@functools.lru_cache(maxsize=None)
def halves(width):
    """Echelon rows (image, preimage) of y -> y*y + y on the bits of a field."""
    rows = []
    for bit in range(1, width):
        pre = 1 << bit
        image = product(pre, pre) ^ pre
        for lead, (other, other_pre) in rows:
            if image >> lead & 1:
                image, pre = image ^ other, pre ^ other_pre
        if image:
            rows.append((image.bit_length() - 1, (image, pre)))
    return rows


def solve(t, width):
    y = 0
    for lead, (image, pre) in halves(width):
        if t >> lead & 1:
            t, y = t ^ image, y ^ pre
    if t:
        return None
    return y & ~1


@functools.lru_cache(maxsize=None)
def basis(width):
    out = [1]
    while True:
        following = solve(out[-1], width)
        if following is None:
            return out
        out.append(following)


def point(j, width):
    out = 0
    for r, v in enumerate(basis(width)):
        if j >> r & 1:
            out ^= v
    return out


def element(word, width):
    if re.fullmatch(rb"[0-9a-fA-F]+", word) is None or int(word, 16) >= 2 ** width:
        return None
    return int(word, 16)


def number(word):
    if re.fullmatch(rb"[0-9]+", word) is None or int(word) > WORD:
        return None
    return int(word)


OPERANDS = {
    b"sum": "ee", b"product": "ee", b"equal": "ee", b"inverse": "e", b"solve": "e", b"scale": "eb",
    b"top": "", b"bits": "", b"basis": "n", b"point": "n",
}


def answer(words):
    """What one line prints, or the reason why it has no answer."""
    if words[0] not in FIELDS:
        return None, "unknown field"
    width = 2 ** FIELDS[words[0]]
    operation = words[1] if len(words) > 1 else b""
    if operation not in OPERANDS or operation == b"scale" and words[0] not in (b"16", b"32", b"64"):
        return None, "unknown operation"
    kinds, given = OPERANDS[operation], words[2:]
    if len(given) != len(kinds):
        return None, "wrong operands"
    values = []
    for kind, word in zip(kinds, given):
        value = number(word) if kind == "n" else element(word, 8 if kind == "b" else width)
        if value is None:
            return None, "not a number" if kind == "n" else "not an element"
        values.append(value)
    if operation == b"equal":
        return ("true" if values[0] == values[1] else "false"), None
    if operation == b"bits":
        return str(width), None
    found = {
        b"sum": lambda a, b: a ^ b,
        b"product": product,
        b"scale": product,
        b"inverse": lambda a: inverse(a, width),
        b"solve": lambda a: solve(a, width),
        b"top": lambda: 1 << (width - 1),
        b"basis": lambda j: basis(width)[j] if j < len(basis(width)) else None,
        b"point": lambda j: point(j, width),
    }[operation](*values)
    return ("none" if found is None else f"{found:0{max(1, width // 4)}x}"), None


def lines(data):
    parts = data.split(b"\n")
    last = parts.pop()
    for n, part in enumerate(parts, 1):
        yield n, part[:-1] if part.endswith(b"\r") else part
    if last:
        yield len(parts) + 1, last


def main():
    for n, line in lines(sys.stdin.buffer.read()):
        if line[:1] == b"#" or line.strip(b" ") == b"":
            continue
        if len(line) > LIMIT or any(byte < 32 or byte > 126 for byte in line):
            print(f"line {n}: unreadable")
            continue
        text, reason = answer([w for w in line.split(b" ") if w])
        print(text if reason is None else f"line {n}: {reason}")


main()
