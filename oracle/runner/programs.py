"""The programs that answer, and how they are asked."""

import concurrent.futures
import os
import subprocess
import sys

FOLDER = os.path.dirname(os.path.dirname(os.path.abspath(__file__)))
ROOT = os.path.dirname(FOLDER)
DEBUG = os.path.join(FOLDER, "target", "debug", "oracle")
RELEASE = os.path.join(FOLDER, "target", "release", "oracle")
OURS = os.path.join(ROOT, "crates", "skipreplay", "out", "skipreplay")
FIELDCALC = os.path.join(ROOT, "crates", "fieldcalc", "out", "fieldcalc")


def build(sources):
    """Builds the oracle if the folder of the sources is known; otherwise it must be built already."""
    sources = sources or os.environ.get("UNIVARIATE_SKIP")
    if sources:
        subprocess.run([os.path.join(FOLDER, "build"), sources], check=True, stdout=subprocess.DEVNULL)
    elif not (os.path.exists(DEBUG) and os.path.exists(RELEASE)):
        sys.exit("the oracle is not built: name the folder of the Rust's four files with --sources")


def ask(program, questions):
    """The answer to each question; where the program stopped before, that it did."""
    if not questions:
        return []
    done = subprocess.run([program], input="\n".join(questions) + "\n", capture_output=True, text=True)
    answers = done.stdout.splitlines()
    if len(answers) > len(questions):
        sys.exit(f"{program} gave {len(answers)} answers to {len(questions)} questions")
    return answers + [f"(stopped with status {done.returncode})"] * (len(questions) - len(answers))


def ask_each(*asked):
    """The answers of several programs that run at the same time, each with its questions."""
    with concurrent.futures.ThreadPoolExecutor() as pool:
        return [answers.result() for answers in [pool.submit(ask, *one) for one in asked]]
