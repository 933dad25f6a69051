"""A sample of questions, each with the answer that the Rust's answer asks of ours."""

import subprocess

import programs
import questions
from rules import companion, expected
from words import EXTENDED, LONGEST_LINE, WIDTHS

CALLS = ["extra", "new", "degree", "admits", "vanishing", "vanishings", "table", "extend", "batch"]
CALLS += ["conjunction", "square", "conjunction64", "square64"]
RULES = ["beyond-sixteen", "narrow-domain", "capped-sum", "refusal-for-panic", "missing-operand"]

# questions that are taken in any case: of each call over each field, accepted and refused, and of each rule
ACCEPTED = 3
REFUSED = 1
OF_EACH_RULE = 6


def light(question):
    """Whether ours answers soon: at most 1,024 points, and a table for at most 512."""
    field, call, *arguments = question.split()
    if call not in CALLS[1:9]:
        return True
    log_size, log_extended = int(arguments[0]), int(arguments[1])
    if call == "degree":
        log_extended = log_size + (questions.extra(log_extended) or 0)
    if not questions.built_by_ours(field, log_size, log_extended):
        return True
    most = 9 if call in ("table", "extend", "batch") else 10
    return log_extended <= most


def pool(maker, count):
    """Many light questions, boundaries and random ones, each once, in a shuffled order."""
    beyond = ["32 new 15 17 40", "32 vanishings 15 17 8", "32 vanishing 15 17 0000000a", "32 admits 15 17 4"]
    beyond += ["32 table 3 17 33", "32 extend 3 17 8 01", "32 degree 15 3 16", "32 degree 16 1 0"]
    asked = beyond + list(questions.boundaries(maker)) + maker.questions(20 * count)
    asked = [question for question in dict.fromkeys(asked) if light(question)]
    maker.random.shuffle(asked)
    return asked


def answered(asked):
    """Each question with what is expected of ours, where the Rust's answer says it."""
    companions = [companion(question) for question in asked]
    every = asked + [other for other in companions if other]
    debug, release = programs.ask_each((programs.DEBUG, every), (programs.RELEASE, every))
    of_companions = iter(zip(debug[len(asked):], release[len(asked):]))
    found = []
    for question, other, *answers in zip(asked, companions, debug, release):
        wanted = expected(question, *answers, next(of_companions) if other else None)
        if wanted.compared and max(len(question), len(wanted.answer) + 2) < LONGEST_LINE:
            found.append((question, wanted))
    return found


def sample(found, count):
    """Every call over every field and every rule first, then whatever comes, up to the count."""
    taken, kinds = {}, {}
    for question, wanted in found:
        field, call = question.split()[:2]
        accepted = not wanted.answer.startswith("refused")
        wants = {(field, call, accepted): ACCEPTED if accepted else REFUSED}
        if wanted.rule:
            wants[wanted.rule] = OF_EACH_RULE
        for kind, most in wants.items():
            if kinds.get(kind, 0) < most:
                kinds[kind] = kinds.get(kind, 0) + 1
                taken[question] = wanted
    needed = [(field, call) for field in WIDTHS for call in CALLS if field in EXTENDED or not call.endswith("64")]
    missing = [f"{field} {call}" for field, call in needed if not kinds.get((field, call, True))]
    missing += [rule for rule in RULES if not kinds.get(rule)]
    if missing:
        raise SystemExit("no question for: " + ", ".join(missing))
    if len(taken) > count:
        raise SystemExit(f"a list of every call and rule has {len(taken)} questions: ask for as many")
    for question, wanted in found:
        if len(taken) == count:
            break
        taken[question] = wanted
    places = {call: place for place, call in enumerate(CALLS)}
    fields = {field: place for place, field in enumerate(WIDTHS)}
    return sorted(taken.items(), key=lambda item: (fields[item[0].split()[0]], places[item[0].split()[1]], item[0]))


def write(maker, seed, count):
    chosen = sample(answered(pool(maker, count)), count)
    compiler = subprocess.run(["rustc", "--version"], check=True, capture_output=True, text=True).stdout.strip()
    print("# Questions to the module univariate_skip, each followed by `= ` and the answer that is expected here.")
    print("# The answers are worked out from those of p3-sumcheck 0.8.0, by the rules of oracle/README.md.")
    print(f"# Made by: oracle/compare --seed {seed} --list {count}")
    print(f"# Compiler of the Rust: {compiler}")
    for question, wanted in chosen:
        print(question)
        print("= " + wanted.answer)
