"""Questions about the round, which ours has no answers to yet: the two builds of the Rust are compared."""

from words import EXTENSION_WIDTH, WIDTHS

RULES = ["conjunction", "square"]


def extension(maker, field):
    """An element of EF; mostly one of F, or small enough to lie on the domain."""
    width = maker.random.choice([3, 4, WIDTHS[field], EXTENSION_WIDTH])
    return f"{maker.random.getrandbits(width):016x}"


def rounds(maker, count):
    for _ in range(count):
        field = maker.random.choice(list(WIDTHS))
        log_size, degree = maker.random.randint(3, 6), maker.random.choice([1, 2, 3, 4])
        transmitted = 2 ** (log_size + (1 if degree < 3 else 2)) - 2 ** log_size
        row_bytes = 2 ** log_size // 8
        rows = maker.random.randint(0, 7)
        weights = [extension(maker, field) for _ in range(rows)]
        setting = f"{log_size} {degree}"
        challenge = extension(maker, field)
        call = maker.random.choice(["round", "stream", "message", "evaluate", "lagrange", "selector", "read", "bind"])
        if call == "round":
            size = maker.random.choice([0, 2, log_size, 64])
            yield f"{field} round {size} {maker.random.choice([0, degree, 5, 9])}"
        elif call == "stream":
            operands = maker.random.choice([3, 3, 3, 3, 2, 4])
            packed = maker.packed(operands * maker.near(rows * row_bytes))
            yield " ".join([f"{field} stream {setting} {maker.random.choice(RULES)} {operands} {packed}"] + weights)
        elif call == "message":
            composed = [maker.element(WIDTHS[field]) for _ in range(maker.near(rows * transmitted))]
            yield " ".join([f"{field} message {setting} {rows}"] + weights + composed)
        elif call == "evaluate":
            message = [extension(maker, field) for _ in range(maker.near(transmitted))]
            yield " ".join([f"{field} evaluate {setting} {challenge}"] + message)
        elif call in ("lagrange", "selector"):
            yield f"{field} {call} {setting} {challenge}"
        elif call == "read":
            yield f"{field} read {setting} {challenge} {maker.packed(maker.near(row_bytes))}"
        else:
            yield f"{field} bind {setting} {challenge} {maker.packed(maker.near(rows * row_bytes))}"
