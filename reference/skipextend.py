#!/usr/bin/env python3
"""A second skipextend, written from docs/ in another language, for the expected output of the gate.

    python3 reference/skipextend.py < crates/skipextend/stdin > crates/skipextend/stdout

Each transmitted value is the textbook Lagrange formula over the points of S: the sum, over the set
bits c of the row, of the product of (t + s) / (s_c + s) over the other points s. No table, no
vanishing polynomial, no exclusive or of indices.
"""
import functools
import re
import sys

LIMIT = 16384
WORD = 2 ** 64 - 1
FIELDS = {b"8": 3, b"16": 4, b"32": 5, b"p4": 2}


@functools.lru_cache(maxsize=1 << 20)
def product(a, b, log):
    """(p + q*X)(r + s*X) with X*X = X + top of the half, as numbers of 2^log bits."""
    if log == 0:
        return a & b
    half = 1 << (log - 1)
    mask = (1 << half) - 1
    p, q, r, s = a & mask, a >> half, b & mask, b >> half
    qs = product(q, s, log - 1)
    low = product(p, r, log - 1) ^ product(qs, 1 << (half - 1), log - 1)
    high = product(p, s, log - 1) ^ product(q, r, log - 1) ^ qs
    return low | high << half


def power(a, n, log):
    out = 1
    while n:
        if n & 1:
            out = product(out, a, log)
        a = product(a, a, log)
        n >>= 1
    return out


@functools.lru_cache(maxsize=None)
def inverse(a, log):
    return power(a, 2 ** (1 << log) - 2, log)


@functools.lru_cache(maxsize=None)
def basis(log):
    """v_0 = 1, and each next is the y with y*y + y = the one before whose bit 0 is clear."""
    width = 1 << log
    rows = []
    for bit in range(1, width):
        pre = 1 << bit
        image = product(pre, pre, log) ^ pre
        for lead, other, other_pre in rows:
            if image >> lead & 1:
                image, pre = image ^ other, pre ^ other_pre
        if image:
            rows.append((image.bit_length() - 1, image, pre))
    out = [1]
    while True:
        t, y = out[-1], 0
        for lead, image, pre in rows:
            if t >> lead & 1:
                t, y = t ^ image, y ^ pre
        if t:
            return out
        out.append(y & ~1)


def point(j, log):
    out = 0
    for r, v in enumerate(basis(log)):
        if j >> r & 1:
            out ^= v
    return out


class Domain:
    def __init__(self, log, log_size, log_extended):
        self.log, self.size = log, 2 ** log_size
        self.points = [point(j, log) for j in range(2 ** log_extended)]
        self.columns = {}

    def column(self, c):
        """The Lagrange polynomial of point c of S, at every transmitted point."""
        if c not in self.columns:
            s = self.points[: self.size]
            below = 1
            for j in range(self.size):
                if j != c:
                    below = product(below, s[c] ^ s[j], self.log)
            scale = inverse(below, self.log)
            out = []
            for t in self.points[self.size:]:
                above = scale
                for j in range(self.size):
                    if j != c:
                        above = product(above, t ^ s[j], self.log)
                out.append(above)
            self.columns[c] = out
        return self.columns[c]

    def extend(self, row):
        out = [0] * (len(self.points) - self.size)
        for c in range(self.size):
            if row[c // 8] >> c % 8 & 1:
                out = [x ^ y for x, y in zip(out, self.column(c))]
        return out


def refusal(log, log_size, log_extended):
    limit = min(1 << log, 63)
    if log_extended <= log_size:
        return [1, log_size, log_extended]
    if log_extended > limit:
        return [2, log_extended, limit]
    if log_extended > 16:
        return [3, log_extended]
    if log_size < 3:
        return [4, log_size]
    return None


def number(word):
    if re.fullmatch(rb"[0-9]+", word) is None or int(word) > WORD:
        return None
    return int(word)


def lines(data):
    parts = data.split(b"\n")
    last = parts.pop()
    for n, part in enumerate(parts, 1):
        yield n, part[:-1] if part.endswith(b"\r") else part
    if last:
        yield len(parts) + 1, last


def main():
    domain, domains, extended, refused = None, 0, 0, 0
    for n, line in lines(sys.stdin.buffer.read()):
        if line[:1] == b"#" or line.strip(b" ") == b"":
            continue
        readable = len(line) <= LIMIT and all(32 <= byte <= 126 for byte in line)
        words = [w for w in line.split(b" ") if w] if readable else []
        if len(words) == 4 and words[0] == b"domain" and words[1] in FIELDS and None not in map(number, words[2:]):
            log, sizes = FIELDS[words[1]], [number(w) for w in words[2:]]
            report = refusal(log, *sizes)
            if report is None:
                domain, domains = Domain(log, *sizes), domains + 1
                print("domain", words[1].decode(), *sizes)
            else:
                domain, refused = None, refused + 1
                print("refused", *report)
        elif len(words) == 2 and words[0] == b"row":
            if len(words[1]) % 2 or re.fullmatch(rb"[0-9a-fA-F]+", words[1]) is None:
                print(f"line {n}: not a row")
            elif domain is None:
                print(f"line {n}: no domain")
            else:
                row = bytes.fromhex(words[1].decode())
                if 8 * len(row) != domain.size:
                    refused += 1
                    print("refused 9", len(row))
                else:
                    extended += 1
                    digits = max(1, (1 << domain.log) // 4)
                    print(*(f"{x:0{digits}x}" for x in domain.extend(row)))
        else:
            print(f"line {n}: unknown line")
    print(f"{domains} domains, {extended} rows extended, {refused} refused")


main()
