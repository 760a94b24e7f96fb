#!/usr/bin/env python3
"""Runs of bidi with more and more options, of which one request for memory is refused, always the same by its number:
it is of the words, of any part of the answer, or there are fewer. They are runs of bidi.runs, with one of their options
repeated. Each ends with its answer, or it ends early: with its first lines on each output, and then a line that tells
why. The status is then 3, or 4 if a file before could not be read. The exit status is 0 where all passed.
"""
import sys

sys.dont_write_bytecode = True
from try_runs import TOP, Book, Run, faults, make

REFUSED = 30
LONGEST = 25
# The runs, and of each an option that changes nothing behind its first word.
FORMS = {
    "a control is found in the second file": "--text",
    "a file that is not UTF-8 is told and searched, and the next one is searched": "--text",
    "UTF-16 with the low byte first": "--text",
    "a directory with its hidden and its binary files": "--text",
    "a list by NUL bytes, after an argument": "--any",
    "what a list allows": "--color never",
    "errors are written": "--quiet",
    "the number of a line is 0": "--text",
    "no such format": "--text",
    "SARIF, with one result for a line that is displayed differently": "--text",
    "show plainly": "--plain",
    "a file that is not UTF-8 is not shown": "--base auto",
    "a letter of each direction in a line from left to right": "--base auto",
    "a letter": "--base auto",
    "files that are not UTF-8, or not there": "--files",
    "a page of an input that is not UTF-8": "--html",
}
# How the runs of each form end, each way at least once.
OUTCOMES = {"answer", "memory", "words"}


def runs_of(run, option):
    """The runs of a form: a run with an option repeated so many times."""
    runs = []
    for count in range(LONGEST + 1):
        longer = Run(f"{run.name}, {option} {count}", run.place)
        longer.words = run.words[:1] + option.encode().split() * count + run.words[1:]
        longer.input, longer.output, longer.error, longer.status = run.input, run.output, run.error, run.status
        runs.append(longer)
    return runs


def outcome_of(run):
    """How a run ended: with its answer, or told that memory was refused or that its words could not be had."""
    if not faults(run):
        return "answer"
    told = run.found_error.splitlines(keepends=True)
    before, last = b"".join(told[:-1]), b"".join(told[-1:])
    output = run.found_output.removesuffix(b"\n")
    if last == b"bidi: the arguments could not be read: out of memory\n":
        outcome, status, is_right = "words", 4, not before and not output
    else:
        outcome, status = "memory", 4 if b"(os error " in before else 3
        is_right = last == b"bidi: out of memory\n" and run.error.startswith(before) and run.output.startswith(output)
    return outcome if is_right and f"run=ended status={status} " in run.found else None


def main():
    book = Book(TOP / "tests" / "runs" / "bidi.runs")
    forms = {}
    for run in book.runs:
        if run.name in FORMS and run.name not in forms:
            forms[run.name] = runs_of(run, FORMS[run.name])
    runs = [run for form in forms.values() for run in form]
    make("bidi", runs, book.files, REFUSED)
    failures = 0
    for name in FORMS:
        seen = set()
        for run in forms.get(name, []):
            outcome = outcome_of(run)
            seen.add(outcome)
            if outcome is None:
                failures += 1
                print(f"failed {run.name}, request {REFUSED} refused: another answer:")
                print(f"    {run.found}, {run.found_error}, {run.found_output}")
        for outcome in sorted(OUTCOMES - seen):
            failures += 1
            print(f"failed {name}, request {REFUSED} refused: no run has the outcome {outcome}")
    print(f"{'failed' if failures else 'ok'} runs of bidi with request {REFUSED} refused: {len(runs)}")
    return 1 if failures else 0


if __name__ == "__main__":
    sys.exit(main())
