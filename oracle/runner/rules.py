"""What ours must answer, worked out from the Rust's answer. Each rule by its name in the README."""

import collections

from words import EXTENSION_WIDTH, LARGEST, WIDTHS, element, extra, unchanged

# what is expected of ours; the rule that was used, if one was; whether the Rust has an answer to such a question
Expected = collections.namedtuple("Expected", "answer rule compared")

# calls on whose lent buffer a refusal of ours ends
LENDING = {"new", "degree", "vanishings", "table", "extend", "batch"}
COMPOSITIONS = {"conjunction": 0, "square": 0, "conjunction64": EXTENSION_WIDTH, "square64": EXTENSION_WIDTH}
ARITY = 3


class Disagreement(Exception):
    """The Rust's answers do not fit any rule."""


def companion(question):
    """The question that the Rust answers in place of one with a wrong number of operands, or none."""
    field, call, *values = question.split()
    if call not in COMPOSITIONS or len(values) == ARITY:
        return None
    zero = element(0, COMPOSITIONS[call] or WIDTHS[field])
    return " ".join([field, call] + (values + [zero] * ARITY)[:ARITY])


def expected(question, debug, release, accompanied=None):
    """What ours must answer; `accompanied` is the Rust's answer to the companion."""
    field, call, *arguments = question.split()
    if call in COMPOSITIONS:
        return of_composition(debug, release, accompanied)
    if call == "extra":
        return Expected(agreed(debug, release), None, True)
    width, limit = WIDTHS[field], min(WIDTHS[field], 63)
    log_size, log_extended = int(arguments[0]), int(arguments[1])
    lent = int(arguments[2]) if call in LENDING else 0
    ending = " | " + unchanged(width, lent) if call in LENDING else ""
    if call == "degree":
        more = extra(log_extended)
        log_extended = log_size if more is None else log_size + more
        if log_extended > LARGEST:
            return capped(debug, release, log_size, log_extended, limit, ending)
    answer = agreed(debug, release)
    if answer.startswith(("refused 1 ", "refused 2 ")):
        return Expected(answer + ending, None, True)
    if log_extended > 16:
        # the oracle answers `large` where it does not let the Rust build
        built = answer != "large"
        return Expected(f"refused 3 {log_extended}{ending}", "beyond-sixteen" if built else "large", built)
    if answer.startswith("refused 4 "):
        return Expected(answer + ending, None, True)
    if log_size < 3:
        return Expected(f"refused 4 {log_size}{ending}", "narrow-domain", True)
    count = 2 ** log_extended - 2 ** log_size
    if call in ("extend", "batch"):
        return of_extension(answer, call, log_size, count, lent, arguments[3], ending)
    place, length = {
        "new": (1, 2 ** log_extended),
        "degree": (1, 2 ** log_extended),
        "table": (2, 256 * count),
        "vanishings": (4, count),
    }.get(call, (0, lent))
    if lent != length:
        return Expected(f"refused 5 {place} {length} {lent}{ending}", "lent-length", False)
    return Expected(answer, None, True)


def agreed(debug, release):
    if debug != release:
        raise Disagreement("the two builds of the Rust answer differently")
    return release


def capped(debug, release, log_size, total, limit, ending):
    """The sum of dimensions is beyond a word: it panics in debug and wraps in release; ours takes the largest word."""
    if debug != "panic" or release != f"refused 1 {log_size} {total - LARGEST - 1}":
        raise Disagreement("the sum of dimensions neither panics in debug nor wraps in release")
    if log_size == LARGEST:
        answer = f"refused 1 {log_size} {LARGEST}"
    else:
        answer = f"refused 2 {LARGEST} {limit}"
    return Expected(answer + ending, "capped-sum", True)


def of_composition(debug, release, accompanied):
    answer = agreed(debug, release)
    if accompanied is None:
        return Expected(answer, None, True)
    if answer != "panic":
        raise Disagreement("a wrong number of operands does not panic")
    return Expected(agreed(*accompanied), "missing-operand", True)


def of_extension(answer, call, log_size, count, lent, packed, ending):
    if not answer.startswith("panic | "):
        return Expected(answer, None, True)
    length = 0 if packed == "-" else len(packed) // 2
    row_bytes = 2 ** log_size // 8
    rows = 1 if call == "extend" else length // row_bytes
    if length != row_bytes * rows:
        refusal = f"refused 9 {length}"
    elif lent != count * rows:
        refusal = f"refused 5 4 {count * rows} {lent}"
    else:
        raise Disagreement("the Rust panics though both lengths are right")
    wrote = answer != "panic" + ending
    return Expected(refusal + ending, "refusal-for-panic, after writing" if wrote else "refusal-for-panic", True)
