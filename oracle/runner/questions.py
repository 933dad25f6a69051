"""The questions: every boundary, and random ones from a seed."""

import random

from words import EXTENDED, EXTENSION_WIDTH, LARGEST, LONGEST_LINE, WIDTHS, element, extra, row

SIZES = [0, 1, 2, 3, 4, 5, 6, 7, 8, 9, 15, 16, 17, 18, 31, 32, 33, 62, 63, 64, 65, 2 ** 63, LARGEST - 1, LARGEST]
DEGREES = [0, 1, 2, 3, 4, 5, 7, 8, 9, 16, 17, 256, 257, 2 ** 32, 2 ** 63, 2 ** 63 + 1, LARGEST - 1, LARGEST]
RULES = ["conjunction", "square"]

# calls that take log_size, log_extended and a length of what is lent
BUILDING = ["new", "vanishings", "table"]


def built_by_ours(field, log_size, log_extended):
    return 3 <= log_size < log_extended <= min(WIDTHS[field], 16)


def overs(field):
    """How the name of a composition ends: over F, and over EF where ours has one."""
    return ["", "64"] if field in EXTENDED else [""]


def right_length(call, log_size, log_extended, rows=1):
    count = 2 ** log_extended - 2 ** log_size
    return {"new": 2 ** log_extended, "table": 256 * count}.get(call, count * rows)


class Maker:
    def __init__(self, seed):
        self.random = random.Random(seed)

    # --- parts of a question

    def number(self, width):
        return self.random.choice([0, 1, 2 ** (width - 1), 2 ** width - 1] + [self.random.getrandbits(width)] * 8)

    def element(self, width):
        return element(self.number(width), width)

    def packed(self, length):
        """Rows of zeros, of ones, of one bit, and random ones."""
        kind = self.random.randrange(5)
        if kind == 0 or length == 0:
            return row(bytes(length))
        if kind == 1:
            return row(b"\xff" * length)
        if kind == 2:
            bit = self.random.randrange(8 * length)
            return row(1 << bit % 8 if at == bit // 8 else 0 for at in range(length))
        return row(self.random.randbytes(length))

    def near(self, length):
        """The length, mostly; else one short, one long, empty or another."""
        if self.random.random() < 0.8:
            return length
        others = {0, 1, length - 1, length + 1, length + 8, 2 * length, length // 2}
        return self.random.choice(sorted(other for other in others if other >= 0))

    def dimensions(self, field, most):
        """Dimensions that are built, few of them large."""
        widest = min(WIDTHS[field], 16, most)
        chance = self.random.random()
        if widest > 10 and chance > 0.04:
            widest = 10
        if widest > 8 and chance > 0.3:
            widest = 8
        log_extended = self.random.randint(4, widest)
        return self.random.randint(3, log_extended - 1), log_extended

    def odd_dimensions(self, field):
        """Dimensions that are refused by one side or both; none that the Rust takes long to build."""
        while True:
            limit = WIDTHS[field]
            log_size = self.random.choice(SIZES + [self.random.randrange(20), self.random.getrandbits(64)])
            near = [log_size - 1, log_size, log_size + 1, limit, limit + 1, 17, 64, LARGEST, self.random.getrandbits(64)]
            log_extended = self.random.choice(near)
            if 0 <= log_extended <= LARGEST and log_extended != 16 and (log_extended != 17 or self.random.random() < 0.2):
                return log_size, log_extended

    def any_dimensions(self, field, most=12):
        if self.random.random() < 0.25:
            return self.odd_dimensions(field)
        return self.dimensions(field, most)

    def lent(self, field, call, log_size, log_extended):
        if built_by_ours(field, log_size, log_extended):
            length = right_length(call, log_size, log_extended)
            # a wrong length of a long buffer says no more than that of a short one
            return self.near(length) if length <= 65536 else length
        return self.random.choice([0, 1, 8, 16, 33, 256])

    # --- random questions, one maker for each call

    def extra(self, field):
        degree = self.random.choice(DEGREES + [self.random.getrandbits(self.random.randint(1, 64))] * 20)
        return f"{field} extra {degree}"

    def building(self, field, call):
        log_size, log_extended = self.any_dimensions(field, 11 if call == "table" else 12)
        return f"{field} {call} {log_size} {log_extended} {self.lent(field, call, log_size, log_extended)}"

    def degree(self, field):
        if self.random.random() < 0.3:
            log_size = self.random.choice(SIZES[-5:] + [LARGEST - self.random.randrange(70)])
            return f"{field} degree {log_size} {self.random.choice(DEGREES)} {self.random.choice([0, 1, 40])}"
        log_size, log_extended = self.dimensions(field, 12)
        most = 2 ** (log_extended - log_size)
        degree = self.random.choice([0, most, most + 1, most // 2 + 1, self.random.randint(1, most)])
        more = extra(degree)
        reached = log_size + more if more else log_size
        return f"{field} degree {log_size} {degree} {self.lent(field, 'new', log_size, reached)}"

    def admits(self, field):
        log_size, log_extended = self.any_dimensions(field)
        most = 2 ** min(63, max(0, log_extended - log_size))
        near = [max(0, most - 1), most, most + 1, most // 2 + 1, self.random.randint(0, most)]
        return f"{field} admits {log_size} {log_extended} {self.random.choice(near + DEGREES)}"

    def vanishing(self, field):
        log_size, log_extended = self.any_dimensions(field)
        return f"{field} vanishing {log_size} {log_extended} {self.element(WIDTHS[field])}"

    def extending(self, field, call):
        log_size, log_extended = self.any_dimensions(field, 11)
        if not built_by_ours(field, log_size, log_extended):
            return f"{field} {call} {log_size} {log_extended} {self.random.choice([0, 8, 40])} {self.packed(1)}"
        rows = self.random.choice([0, 1, 1, 2, 3, 5]) if call == "batch" else 1
        packed = self.packed(self.near(2 ** log_size // 8 * rows))
        output = self.near(right_length(call, log_size, log_extended, rows))
        return f"{field} {call} {log_size} {log_extended} {output} {packed}"

    def composition(self, field):
        rule, over = self.random.choice(RULES), self.random.choice(overs(field))
        count = self.random.choice([3] * 12 + [0, 1, 2, 4, 5, 8])
        width = EXTENSION_WIDTH if over else WIDTHS[field]
        return " ".join([field, rule + over] + [self.element(width) for _ in range(count)])

    def question(self):
        field = self.random.choice(list(WIDTHS))
        chance = self.random.random()
        if chance < 0.05:
            return self.extra(field)
        if chance < 0.18:
            return self.building(field, "new")
        if chance < 0.30:
            return self.degree(field)
        if chance < 0.40:
            return self.admits(field)
        if chance < 0.48:
            return self.vanishing(field)
        if chance < 0.57:
            return self.building(field, "vanishings")
        if chance < 0.63:
            return self.building(field, "table")
        if chance < 0.79:
            return self.extending(field, "extend")
        if chance < 0.90:
            return self.extending(field, "batch")
        return self.composition(field)

    def questions(self, count):
        return [self.question() for _ in range(count)]


# --- boundaries


def boundaries(maker):
    """Every boundary that is cheap, over each field."""
    for field in WIDTHS:
        yield from numbers(maker, field)
        yield from lengths(maker, field)
        yield from compositions(maker, field)


def numbers(maker, field):
    """Numbers at and beyond every limit, in each place."""
    limit, width = WIDTHS[field], WIDTHS[field]
    for degree in DEGREES + [2 ** bit + more for bit in range(1, 64) for more in (0, 1)]:
        yield f"{field} extra {degree}"
    for log_size in SIZES:
        ends = {0, log_size - 1, log_size, log_size + 1, limit - 1, limit, limit + 1, 17, 18, 63, 64, LARGEST}
        for log_extended in sorted(end for end in ends if 0 <= end <= LARGEST):
            # the wide domains come one by one, below
            if log_size < log_extended <= limit and log_extended in (15, 16, 17):
                continue
            dimensions = f"{log_size} {log_extended}"
            lent = right_length("new", log_size, log_extended) if built_by_ours(field, log_size, log_extended) else 20
            yield f"{field} new {dimensions} {lent}"
            yield f"{field} vanishing {dimensions} {maker.element(width)}"
            yield f"{field} admits {dimensions} {maker.random.choice(DEGREES)}"
            for call in ("vanishings", "table"):
                yield f"{field} {call} {dimensions} {maker.lent(field, call, log_size, log_extended)}"
            for call in ("extend", "batch"):
                yield f"{field} {call} {dimensions} {maker.random.choice([0, 8, 33])} {maker.packed(1)}"
        for degree in DEGREES:
            more = extra(degree)
            reached = log_size + more if more else log_size
            if log_size < reached <= limit and reached in (15, 16, 17):
                continue
            lent = right_length("new", log_size, reached) if built_by_ours(field, log_size, reached) else 20
            yield f"{field} degree {log_size} {degree} {lent}"
    for log_size, log_extended in ((3, 4), (3, 6), (4, 7), (7, 8)):
        for degree in DEGREES + [2 ** (log_extended - log_size) + more for more in (-1, 0, 1)]:
            yield f"{field} admits {log_size} {log_extended} {degree}"


def lengths(maker, field):
    """Buffers and rows of the right length, one short, one long and empty."""
    for log_size, log_extended in ((3, 4), (3, 5), (4, 5), (5, 6), (5, 8), (7, 8)):
        dimensions = f"{log_size} {log_extended}"
        for call in BUILDING:
            right = right_length(call, log_size, log_extended)
            for length in (0, 1, right - 1, right, right + 1):
                yield f"{field} {call} {dimensions} {length}"
        degree = 2 ** (log_extended - log_size)
        for length in (0, 2 ** log_extended - 1, 2 ** log_extended, 2 ** log_extended + 1):
            yield f"{field} degree {log_size} {degree} {length}"
        row_bytes, count = 2 ** log_size // 8, 2 ** log_extended - 2 ** log_size
        for bit in range(8 * row_bytes):
            packed = row(1 << bit % 8 if at == bit // 8 else 0 for at in range(row_bytes))
            yield f"{field} extend {dimensions} {count} {packed}"
        for length in {0, row_bytes - 1, row_bytes, row_bytes + 1, 2 * row_bytes}:
            for output in {0, 1, count - 1, count, count + 1, 2 * count}:
                for packed in (bytes(length), b"\xff" * length):
                    yield f"{field} extend {dimensions} {output} {row(packed)}"
        for rows in (0, 1, 2, 3):
            whole = row_bytes * rows
            for length in {whole, whole + 1, max(0, whole - 1)}:
                for output in {count * rows, count * rows + 1, max(0, count * rows - 1), count * (rows + 1), 0}:
                    yield f"{field} batch {dimensions} {output} {maker.packed(length)}"


def compositions(maker, field):
    """Any number of operands, zeros and ones among them."""
    for over in overs(field):
        width = EXTENSION_WIDTH if over else WIDTHS[field]
        for rule in RULES:
            for count in (0, 1, 2, 3, 4, 5, 100):
                for low in (0, 1, None):
                    values = [element(low, width) if low is not None else maker.element(width) for _ in range(count)]
                    yield " ".join([field, rule + over] + values)


def large(maker):
    """The large sizes, few of each."""
    for field in ("16", "32"):
        for log_size, log_extended in ((3, 13), (12, 13), (13, 14), (14, 15), (3, 16), (15, 16)):
            yield f"{field} new {log_size} {log_extended} {2 ** log_extended}"
        yield f"{field} new 15 16 65535"
        yield f"{field} degree 15 2 65536"
        yield f"{field} degree 14 3 65536"
        yield f"{field} admits 15 16 2"
        yield f"{field} admits 15 16 3"
        yield f"{field} vanishing 15 16 {maker.element(WIDTHS[field])}"
        yield f"{field} vanishings 15 16 32768"
        yield f"{field} extend 15 16 32768 {row(maker.random.randbytes(4096))}"
        yield f"{field} extend 14 15 16384 {row(maker.random.randbytes(2048))}"
        yield f"{field} extend 12 14 12288 {row(maker.random.randbytes(512))}"
        yield f"{field} extend 3 16 65528 {row(maker.random.randbytes(1))}"
        yield f"{field} extend 15 16 32768 {row(maker.random.randbytes(4095))}"
        yield f"{field} batch 10 12 9216 {row(maker.random.randbytes(384))}"
        yield f"{field} batch 13 14 32768 {row(maker.random.randbytes(4096))}"
        yield f"{field} table 9 12 {256 * (4096 - 512)}"
    yield "16 table 15 16 8388608"
    yield "32 table 12 13 1048576"
    for dimensions in ("15 17", "16 17", "3 17", "2 17"):
        yield f"32 new {dimensions} 131072"
    yield "32 vanishing 15 17 00000001"
    yield "32 vanishings 15 17 98304"
    yield "32 admits 15 17 4"
    yield "32 table 3 17 256"
    yield "32 table 2 17 256"
    yield f"32 extend 15 17 40 {row(maker.random.randbytes(4096))}"
    yield f"32 extend 15 17 98304 {row(maker.random.randbytes(4096))}"
    yield f"32 batch 3 17 40 {maker.packed(1)}"
    yield "32 degree 15 3 131072"
    yield "32 degree 15 4 20"
    yield "32 degree 16 1 20"


# --- the fields, where both texts are ours

CALCULATED = {"1": 1, "p2": 2, "p4": 4, "p8": 8, "8": 8, "16": 16, "32": 32, "64": 64}


def calculations(maker, count):
    for field, width in CALCULATED.items():
        yield f"{field} top"
        yield f"{field} bits"
        for index in [*range(width + 2), 63, 64, LARGEST]:
            yield f"{field} basis {index}"
            yield f"{field} point {index}"
        yield f"{field} point {2 ** min(width, 64) - 1}"
        yield f"{field} sum 0"
        yield f"{field} scale 1 1"
        yield f"{field} sum 1 {2 ** width:x}"
        if width <= 4:
            for a in range(2 ** width):
                yield f"{field} inverse {a:x}"
                yield f"{field} solve {a:x}"
                for b in range(2 ** width):
                    yield f"{field} product {a:x} {b:x}"
    for field in ("8", "p8"):
        for a in range(256):
            yield f"{field} inverse {a:02x}"
            yield f"{field} solve {a:02x}"
    for _ in range(count):
        field = maker.random.choice(list(CALCULATED))
        width = CALCULATED[field]
        call = maker.random.choice(["sum", "product", "product", "equal", "inverse", "solve", "scale", "point"])
        if call == "point":
            yield f"{field} point {maker.random.getrandbits(64)}"
        elif call == "scale":
            yield f"{field} scale {maker.element(width)} {maker.element(8)}"
        elif call in ("inverse", "solve"):
            yield f"{field} {call} {maker.element(width)}"
        else:
            yield f"{field} {call} {maker.element(width)} {maker.element(width)}"


def short_enough(questions):
    return [question for question in questions if len(question) < LONGEST_LINE]
