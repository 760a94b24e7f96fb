#!/usr/bin/env python3
"""Runs of programs that were proved and built, of which a read or a write fails: tests/runs/broken.py PROGRAM..

Each run of tests/runs/PROGRAM.runs that writes to standard output, unless its input is long, is made three times more.
Once nothing can be written, once all but the last byte, and once the reader of the output is gone. Then come runs whose
input fails behind its last byte, and of bidi one whose reader goes when it has read a line, and one with little memory.
The exit status is 0 if all runs passed.
"""
import contextlib
import os
import pathlib
import resource
import subprocess
import sys
import tempfile
import threading
import tty

sys.dont_write_bytecode = True
from try_runs import TOP, Book, encoded, own_run, write_file

# What a program tells of a write that failed, and of a reader that is gone: `bidi` ends quietly.
FAILED = {"bidi": b"bidi: output failed\n", "bidi_show": b"bidi_show: input or output failed\n"}
GONE = {"bidi": b"", "bidi_show": FAILED["bidi_show"]}
# Lines that are more than one piece of a file, and more than a pipe takes.
LINES = b"x\n" * 200000
OVERRIDE = "\u202e".encode()
INPUT_FAILED = b"bidi: <stdin>: Input/output error (os error 5)\n"
# Words, an input that fails behind its last byte, and what is wanted on either output. The status is 4.
UNREAD = {
    "bidi": [
        (b"check", OVERRIDE + b"\n" + LINES, b"<stdin>:1:1: U+202E RIGHT-TO-LEFT OVERRIDE is not closed on its line\n",
         INPUT_FAILED),
        (b"check", b"a\n", b"", INPUT_FAILED),
        (b"check", b"\xFF\xFE" + LINES, b"", INPUT_FAILED),
        (b"check --files-from -", b"none\n", b"", b"bidi: -: Input/output error (os error 5)\n"),
        (b"check --allow - none", b"none\n", b"", b"bidi: -: Input/output error (os error 5)\n"),
        (b"show", b"a\nb\n", b"a\nb\n", INPUT_FAILED),
        (b"explain", b"a\nb\n", b"", INPUT_FAILED),
        (b"explain --files -", b"a\nb\n", b"", INPUT_FAILED),
    ],
    "bidi_show": [
        (b"show auto", b"a\nb\n", b"", FAILED["bidi_show"]),
        (b"lines auto 2", LINES, b"", FAILED["bidi_show"]),
    ],
}


def is_taken(run):
    """Whether a run is made here too: it writes to standard output, and it takes no long input and no refusal."""
    return bool(run.output) and len(run.input) < 100000 and run.refused is None


def command_of(program, words):
    return [TOP / "crates" / program / "out" / program] + words


def limit(kind, size):
    """What sets a limit in the process that becomes the program."""
    return lambda: resource.setrlimit(kind, (size, size))


def with_limit(program, run, folder, size):
    """A run that can write so many bytes to standard output: its status, and its two outputs."""
    with tempfile.TemporaryFile() as output:
        # Python ignores the signal that such a write sends, and so does the program below it.
        ended = subprocess.run(command_of(program, run.words), input=run.input, stdout=output, stderr=subprocess.PIPE,
                               cwd=folder, env={}, preexec_fn=limit(resource.RLIMIT_FSIZE, size),
                               restore_signals=False, timeout=60)
        output.seek(0)
        return ended.returncode, output.read(), ended.stderr


def without_reader(program, run, folder):
    """A run of whose output the reader is gone: its status, and its two outputs."""
    read_end, write_end = os.pipe()
    os.close(read_end)
    with os.fdopen(write_end, "wb") as output:
        ended = subprocess.run(command_of(program, run.words), input=run.input, stdout=output, stderr=subprocess.PIPE,
                               cwd=folder, env={}, timeout=60)
    return ended.returncode, b"", ended.stderr


def with_broken_input(program, words, data):
    """A run whose input fails behind these bytes: its status, and its two outputs."""
    # What reads the end of a terminal's owner gets an error once the other end is closed.
    ours, theirs = os.openpty()
    tty.setraw(theirs)

    def feed():
        with contextlib.suppress(OSError), open(theirs, "wb") as end:
            end.write(data)

    feeder = threading.Thread(target=feed)
    feeder.start()
    try:
        ended = subprocess.run(command_of(program, words), stdin=ours, capture_output=True, env={}, timeout=60)
    finally:
        os.close(ours)
        feeder.join()
    return ended.returncode, ended.stdout, ended.stderr


def status_told(lines):
    """The status of files of which these lines are told."""
    return 4 if b"(os error " in lines else 2 if lines else 0


def status_without_reader(run, told):
    """The status of a run of bidi whose reader is gone: `check` counts the finding that it could not write, except in SARIF,
    whose head is written before the search, and a gate has failed."""
    if b"--gate" in run.words:
        return 4
    is_found = run.status != 0 and not run.output.startswith(b'{"$schema"') and b"--write-allow" not in run.words
    return max(status_told(told), 1 if run.words[:1] == [b"check"] and is_found else 0)


def broken_runs(program, run, folder):
    """How runs with a broken output differ from what is wanted, a line for each difference."""
    size = len(run.output)
    for what, found, output, last, status in [
        ("no output", with_limit(program, run, folder, 0), b"", FAILED[program], lambda told: 4),
        ("one byte less", with_limit(program, run, folder, size - 1), run.output[:-1], FAILED[program], lambda told: 4),
        ("no reader", without_reader(program, run, folder), b"", GONE[program],
         lambda told: status_without_reader(run, told) if program == "bidi" else 4),
    ]:
        told = found[2].removesuffix(last)
        if found[2] != told + last or run.error is not None and not run.error.startswith(told):
            yield f"{what}: wrong standard error: {encoded(found[2])}"
        if found[1] != output:
            yield f"{what}: wrong output: {encoded(found[1][:200])}"
        if found[0] != status(told):
            yield f"{what}: status wanted: {status(told)}, found: {found[0]}"


def unread_runs(program):
    """The same of runs with a broken input."""
    for words, data, output, error in UNREAD[program]:
        found = with_broken_input(program, words.split(), data)
        if found != (4, output, error):
            yield f"failed {program} {words.decode()}: its input failed, and it ended with {found}"[:400]


def head_run(folder):
    """The same of a run whose reader goes when it has read a line: the status is that of the file before."""
    write_file(folder / "first", OVERRIDE + b"\n")
    write_file(folder / "many", (OVERRIDE + b"\n") * 20000)
    with subprocess.Popen(command_of("bidi", [b"check", b"first", b"many"]), stdout=subprocess.PIPE,
                          stderr=subprocess.PIPE, cwd=folder, env={}) as running:
        line = running.stdout.readline()
        running.stdout.close()
        error = running.stderr.read()
    found = (running.returncode, line, error)
    if found != (1, b"first:1:1: U+202E RIGHT-TO-LEFT OVERRIDE is not closed on its line\n", b""):
        yield f"failed bidi check first many: its reader went, and it ended with {found}"[:400]


def memory_run():
    """The same of a long argument that is not UTF-8: with more and more memory, some run can read the arguments, but
    has no room to tell which of them it is."""
    argument, found = b"a" * 120_000 + b"\xFF", None
    for size in range(1 << 20, 1 << 24, 1 << 15):
        with contextlib.suppress(OSError, subprocess.SubprocessError):
            ended = subprocess.run(command_of("bidi", [b"check", argument]), capture_output=True, env={},
                                   preexec_fn=limit(resource.RLIMIT_AS, size), timeout=60)
            found = (ended.returncode, ended.stdout, ended.stderr)
        if found and found[0] in (2, 3):
            break
    if found != (3, b"", b"bidi: out of memory\n"):
        yield f"failed bidi check: an argument is not UTF-8, there is little memory, and it ended with {found}"[:400]


def main(words):
    if words in ([], ["-h"], ["--help"]):
        print(__doc__.strip())
        return 0 if words else 1
    failures = 0
    for program in words:
        book = Book(TOP / "tests" / "runs" / f"{program}.runs")
        runs = [run for run in book.runs + own_run(program, book.files) if is_taken(run)]
        failed = 0
        with tempfile.TemporaryDirectory() as name:
            folder = pathlib.Path(name)
            for path, held in book.files.items():
                write_file(folder / path, held)
            for run in runs:
                for line in broken_runs(program, run, folder):
                    failed += 1
                    print(f"failed {run.place}: {run.name}: {line}")
            own = [*head_run(folder), *memory_run()] if program == "bidi" else []
            for line in [*unread_runs(program), *own]:
                failed += 1
                print(line)
        print(f"{'failed' if failed else 'ok'} broken runs of the built {program}: {3 * len(runs)}", flush=True)
        failures += failed
    return 1 if failures else 0


if __name__ == "__main__":
    sys.exit(main(sys.argv[1:]))
