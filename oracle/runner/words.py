"""Fields, numbers and lists, as the questions and answers write them."""

LARGEST = 2 ** 64 - 1

# the width of each field that the module is asked over
WIDTHS = {"8": 8, "16": 16, "32": 32, "p8": 8}

# the width of an element of the extension EF
EXTENSION_WIDTH = 64

# the fields whose extension ours has: over p8 it would be six pairs high, and its proof would take minutes
EXTENDED = {"8", "16", "32"}

# a line of ours may be this long
LONGEST_LINE = 16384

LONGEST_LIST = 32
FILLING = 0xA5A5A5A5


def element(number, width):
    return f"{number:0{max(1, width // 4)}x}"


def row(data):
    """Hexadecimal bytes, or `-` for none."""
    return bytes(data).hex() or "-"


def digest(numbers):
    total = 0
    for number in numbers:
        total = ((total << 5 | total >> 59) & LARGEST) ^ number
        total = total * 0x517CC1B727220A95 & LARGEST
    return total


def unchanged(width, count, known={}):
    """The list of a lent buffer that nothing was written to."""
    if (width, count) not in known:
        filling = FILLING & ((1 << width) - 1)
        if count == 0:
            text = "-"
        elif count <= LONGEST_LIST:
            text = " ".join([element(filling, width)] * count)
        else:
            text = f"{count}:{digest([filling] * count):016x}"
        known[width, count] = text
    return known[width, count]


def extra(degree):
    """The dimensions that a degree needs above log_size; none for degree 0."""
    return max(1, (degree - 1).bit_length()) if degree else None
