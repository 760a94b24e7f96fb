#!/usr/bin/env python3
"""Makes runs of programs, and reports those that differ from what is wanted:
tests/runs/try_runs.py [--built] PROGRAM..

The runs of a program are those of tests/runs/PROGRAM.runs (README, beside this file, describes the format). If
crates/PROGRAM has a file stdout, the run that the gate makes is one too. 'rt try' builds the program with checks and
without a proof: once for all runs, and once more for each number of an allocation that fails. With --built, the runs are
those of the proved program. The exit status is 0 if all runs passed.
"""
import copy
import pathlib
import re
import subprocess
import sys
import tempfile
import unicodedata

TOP = pathlib.Path(__file__).resolve().parents[2]
ESCAPE = re.compile(r"\\(?:u\{([0-9A-Fa-f]{1,6})\}|x([0-9A-Fa-f]{2})|([nrt\\]))")
LETTERS = {"n": "\n", "r": "\r", "t": "\t", "\\": "\\"}


class Run:
    """A run: what it is given, and what it should answer."""

    def __init__(self, name, place):
        self.name = name
        self.place = place  # the file and the line where it stands
        self.words = []
        self.input = self.output = self.error = b""
        self.status = 0
        self.refused = None  # the number of the request for memory that is refused
        self.found = None  # how it ended
        self.found_output = self.found_error = b""


def is_hidden(c):
    """Whether a character is a control, of direction or another, or a separator of lines."""
    return unicodedata.category(c) in ("Cc", "Cf", "Zl", "Zp")


def decoded(text):
    """The bytes that a text with escapes stands for."""
    out, at = b"", 0
    for escape in ESCAPE.finditer(text):
        code, byte, letter = escape.groups()
        out += plain(text[at:escape.start()])
        out += chr(int(code, 16)).encode() if code else bytes.fromhex(byte) if byte else LETTERS[letter].encode()
        at = escape.end()
    return out + plain(text[at:])


def plain(text):
    if "\\" in text:
        raise ValueError("a \\ begins none of \\u{..}, \\xFF, \\n, \\r, \\t and \\\\")
    return text.encode()


def encoded(data):
    """Bytes as a text with escapes."""
    out = ""
    for c in data.decode(errors="surrogateescape"):
        if 0xDC80 <= ord(c) <= 0xDCFF:
            out += "\\x%02X" % (ord(c) - 0xDC00)
        elif c in LETTERS.values():
            out += "\\" + next(letter for letter, stands_for in LETTERS.items() if stands_for == c)
        else:
            out += "\\u{%04X}" % ord(c) if is_hidden(c) else c
    return out


def line_of(text):
    """The bytes of a line: with its line feed, or where a \\ stands at the end, without."""
    if re.search(r"(?<!\\)(\\\\)*\\$", text):
        return decoded(text[:-1])
    return decoded(text) + b"\n"


def line_as_written(line):
    """The text that stands for a line."""
    return encoded(line[:-1]) if line.endswith(b"\n") else encoded(line) + "\\"


def characters(text):
    """All characters from one code point to another, in UTF-8."""
    first, last = (int(code, 16) for code in text.split(".."))
    return "".join(chr(code) for code in range(first, last + 1) if not 0xD800 <= code <= 0xDFFF).encode()


class Book:
    """A file of runs."""

    def __init__(self, path):
        self.files = {}
        self.runs = []
        self.blocks = []  # the runs that the next lines speak of
        self.file = None
        for number, line in enumerate(path.read_text(encoding="utf-8").split("\n"), 1):
            place = f"{path.relative_to(TOP)}:{number}"
            try:
                self.read(line, place)
            except ValueError as error:
                sys.exit(f"{place}: {error}")

    def read(self, line, place):
        if any(map(is_hidden, line)):
            raise ValueError("a control stands in the line: spell it as \\u{202E}")
        if not line.strip() or line.startswith("#"):
            return
        key, colon, text = line.partition(":")
        text = text[1:] if text.startswith(" ") else text
        if key == "file" and colon:
            self.file, self.blocks = decoded(text).decode(), []
            self.files[self.file] = b""
        elif key == "holds" and self.file:
            self.files[self.file] += line_of(text)
        elif key == "run" and colon:
            self.file, self.blocks = None, [Run(text, place)]
            self.runs += self.blocks
        elif key == "or" and self.blocks:
            run = copy.copy(self.blocks[0])
            run.place, run.words = place, [decoded(word) for word in text.split()]
            self.blocks.append(run)
            self.runs.append(run)
        elif key in ("words", "word") and self.blocks:
            words = [text] if key == "word" else text.split()
            self.blocks[-1].words = self.blocks[-1].words + [decoded(word) for word in words]
            if any(b"\n" in word for word in self.blocks[-1].words):
                raise ValueError("'rt try' takes no word with a line feed")
        elif key in ("input", "output", "error", "characters", "status", "refused") and self.blocks:
            for run in self.blocks:
                if key in ("status", "refused"):
                    setattr(run, key, int(text))
                elif key == "characters":
                    run.input += characters(text)
                else:
                    setattr(run, key, getattr(run, key) + line_of(text))
        else:
            raise ValueError(f"'{key}' says nothing here")


def own_run(program, files):
    """The run that the gate makes of a program, whose files are added; none where the program has no stdout."""
    folder = TOP / "crates" / program

    def bytes_of(name):
        path = folder / name
        return path.read_bytes() if path.exists() else b""

    if not (folder / "stdout").exists():
        return []
    run = Run("as the gate runs it", f"crates/{program}/stdout")
    run.words = bytes_of("args").splitlines()
    run.input, run.output, run.error = bytes_of("stdin"), bytes_of("stdout"), None
    run.status = int(bytes_of("status") or 0)
    for path in (folder / "data").glob("*"):
        files[path.name] = path.read_bytes()
    return [run]


def write_file(path, held):
    """Writes a file, and makes the folders above it."""
    path.parent.mkdir(parents=True, exist_ok=True)
    path.write_bytes(held)


def make(program, runs, files, refused=None):
    """Makes runs, all by one call of 'rt try', and writes into each what was found."""
    with tempfile.TemporaryDirectory() as folder:
        cases, data = pathlib.Path(folder, "cases"), pathlib.Path(folder, "data")
        cases.mkdir()
        data.mkdir()
        command = ["rt", "try", "--seconds", "600"] + (["--fail-alloc", str(refused)] if refused else [])
        for name, held in files.items():
            write_file(data / name, held)
            command += ["--data", f"{name}={data / name}"]
        for number, run in enumerate(runs):
            case = cases / f"run{number}"
            case.write_bytes(run.input)
            case.with_suffix(".args").write_bytes(b"".join(word + b"\n" for word in run.words))
        tried = subprocess.run(command + ["--cases", str(cases)], cwd=TOP / "crates" / program, capture_output=True)
    # What runs write to standard output is shown under their names, with a line feed at its end in any case; what
    # they write to standard error stands before the line that says how they ended.
    parts = re.split(rb"^== (run\d+)\n", tried.stdout, flags=re.MULTILINE)
    shown = dict(zip(parts[1::2], parts[2::2]))
    error = b""
    for line in tried.stderr.splitlines(keepends=True):
        case = re.match(rb"case=(run(\d+)) (.*)", line)
        if case:
            run = runs[int(case[2])]
            run.found, run.found_error, run.found_output = case[3].decode(), error, shown.get(case[1], b"")
            error = b""
        elif not line.startswith(b"allocations: "):
            error += line
    if all(run.found is None for run in runs):
        sys.stderr.buffer.write(tried.stderr)


def make_built(program, runs, files):
    """Makes runs of the program that was proved and built, and writes into each what was found."""
    with tempfile.TemporaryDirectory() as folder:
        for name, held in files.items():
            write_file(pathlib.Path(folder, name), held)
        for run in runs:
            command = [TOP / "crates" / program / "out" / program] + run.words
            ended = subprocess.run(command, input=run.input, cwd=folder, env={}, capture_output=True, timeout=60)
            run.found = f"run=ended status={ended.returncode} "
            run.found_output, run.found_error = ended.stdout, ended.stderr


def faults(run):
    """How a run that was made differs from what is wanted, a line for each difference."""
    ended = re.search(r"run=ended status=(\d+) ", run.found or "")
    if not ended:
        return [f"it did not end: {run.found}"]
    lines = []
    if int(ended[1]) != run.status:
        lines.append(f"status wanted: {run.status}, found: {ended[1]}")
    if run.error is not None:
        lines += first_difference("error", run.error, run.found_error)
    return lines + first_difference("output", run.output, run.found_output)


def first_difference(what, wanted, found):
    """The first line in which two outputs differ, as a page of runs would have it."""
    if wanted == found:
        return []
    rows = [re.findall(rb"[^\n]*\n|[^\n]+", data) for data in (wanted, found)]
    at = 0
    while rows[0][at:at + 1] == rows[1][at:at + 1]:
        at += 1
    told = [line_as_written(row[at]) if at < len(row) else "nothing" for row in rows]
    return [f"{what}, line {at + 1}, wanted: {told[0]}", f"{what}, line {at + 1}, found:  {told[1]}"]


def main(words):
    if words in ([], ["-h"], ["--help"]):
        print(__doc__.strip())
        return 0 if words else 1
    failures = 0
    is_built = words[:1] == ["--built"]
    for program in words[is_built:]:
        path = TOP / "tests" / "runs" / f"{program}.runs"
        book = Book(path) if path.exists() else None
        files = dict(book.files) if book else {}
        runs = (book.runs if book else []) + own_run(program, files)
        if is_built:
            runs = [run for run in runs if run.refused is None]
            make_built(program, runs, files)
        for refused in [] if is_built else sorted({run.refused for run in runs}, key=lambda number: number or 0):
            make(program, [run for run in runs if run.refused == refused], files, refused)
        failed = 0
        for run in runs:
            lines = faults(run)
            if lines:
                failed += 1
                words = encoded(b" ".join(run.words))
                print("\n    ".join([f"failed {run.place}: {run.name}: {program} {words[:200]}"] + lines))
        what = "the built " + program if is_built else program
        print(f"{'failed' if failed else 'ok'} runs of {what}: {len(runs) - failed} of {len(runs)} passed", flush=True)
        failures += failed
    return 1 if failures else 0


if __name__ == "__main__":
    sys.exit(main(sys.argv[1:]))
