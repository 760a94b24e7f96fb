#!/usr/bin/env python3
"""Runs of bidi_show with more and more levels and paragraphs, of which one request for memory is refused, always
the same by its number: it is of the words, of any part of the answer, or there are fewer. Each run writes its whole
answer, or one line on standard error and nothing else. So do runs with more and more words that are no form. The exit
status is 0 where all passed.
"""
import sys

sys.dont_write_bytecode = True
from try_runs import Run, faults, make

REFUSED = 25
LONGEST = 25
# Of each form what has to come: of few its answer, and of many what the request was for.
OUTCOMES = ["map answer", "map memory", "map words", "show answer", "show memory", "usage answer", "usage words"]


def run_of(form, count):
    """A run of so many levels, paragraphs or words too many, and what it writes then."""
    run = Run(f"{form} {count}", __file__)
    if form == "map":
        run.words = [b"map"] + [b"1"] * count
        run.output = " ".join(str(index) for index in reversed(range(count))).encode() + b"\n"
    elif form == "usage":
        run.words = [b"show", b"auto"] + [b"1"] * (count + 1)
        run.error, run.status = b"bidi_show: usage: bidi_show map <level>.. or show auto, ltr or rtl\n", 2
    else:
        run.words = [b"show", b"auto"]
        run.input = b"a\n" * count
        paragraph = "paragraph {}..{} level 0\nlevels 0 0\ntext a\n"
        run.output = "".join(paragraph.format(2 * at, 2 * at + 2) for at in range(count)).encode()
    return run


def outcome_of(run):
    """How a run ended: with its answer, or told that memory was refused or that its words could not be had."""
    if not faults(run):
        return "answer"
    for outcome, status, line in [("memory", 3, b"out of memory"), ("words", 4, b"input or output failed")]:
        run.output, run.error, run.status = b"", b"bidi_show: " + line + b"\n", status
        if not faults(run):
            return outcome
    return None


def main():
    runs = [run_of(form, count) for form in ("map", "show", "usage") for count in range(LONGEST + 1)]
    make("bidi_show", runs, {}, REFUSED)
    failures, seen = 0, set()
    for run in runs:
        outcome = outcome_of(run)
        seen.add(f"{run.name.split()[0]} {outcome}")
        if outcome is None:
            failures += 1
            print(f"failed {run.name}, request {REFUSED} refused: another answer:")
            print(f"    {run.found}, {run.found_error}, {run.found_output}")
    for outcome in OUTCOMES:
        if outcome not in seen:
            failures += 1
            print(f"failed request {REFUSED} refused: no run has the outcome {outcome}")
    print(f"{'failed' if failures else 'ok'} runs of bidi_show with request {REFUSED} refused: {len(runs)}")
    return 1 if failures else 0


if __name__ == "__main__":
    sys.exit(main())
