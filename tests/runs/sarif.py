#!/usr/bin/env python3
"""Reads what 'bidi check --format sarif' writes: tests/runs/sarif.py PROGRAM

The runs are those of PROGRAM, a built 'bidi', in a folder of its own. Each document must have the members that the schema
of SARIF 2.1.0 requires, and no others than the schema has, with values of their types. Then its results, fingerprints and
notifications are compared with those that are wanted. The exit status is 0 if all runs passed.
"""
import hashlib
import json
import os
import pathlib
import re
import subprocess
import sys
import tempfile

URI = re.compile(r"(?:[A-Za-z0-9._~/-]|%[0-9A-F]{2})+")
RLO, LRI, PDI = "\u202E", "\u2066", "\u2069"
ATTACK = f"/*{RLO} }} {LRI}if (isAdmin){PDI} {LRI} begin admins only */"


def text(value):
    return isinstance(value, str) and value != ""


def count(value):
    return isinstance(value, int) and not isinstance(value, bool) and value >= 1


def level(value):
    return value in ("none", "note", "warning", "error")


def address(value):
    return isinstance(value, str) and value.startswith("https://")


def reference(value):
    return isinstance(value, str) and URI.fullmatch(value) is not None


def exactly(wanted):
    return lambda value: value == wanted


def boolean(value):
    return isinstance(value, bool)


def list_of(test):
    return lambda value: isinstance(value, list) and all(map(test, value))


def texts(value):
    return isinstance(value, dict) and all(map(text, value.values()))


def thing(required, optional=None):
    """A test of an object: each required member is there, each member is known, and each value passes its test."""
    tests = {**required, **(optional or {})}

    def test(value):
        return (isinstance(value, dict) and required.keys() <= value.keys() <= tests.keys()
                and all(tests[key](part) for key, part in value.items()))

    return test


# The parts of the schema that the program uses: first the members that it requires.
MESSAGE = thing({"text": text})
RULE = thing({"id": text}, {"shortDescription": MESSAGE, "help": MESSAGE, "helpUri": address,
                            "defaultConfiguration": thing({}, {"level": level})})
DRIVER = thing({"name": text}, {"version": text, "rules": list_of(RULE)})
REGION = thing({}, {"startLine": count, "startColumn": count, "endColumn": count})
PHYSICAL = thing({}, {"artifactLocation": thing({}, {"uri": reference}), "region": REGION})
LOCATIONS = list_of(thing({}, {"physicalLocation": PHYSICAL}))
RESULT = thing({"message": MESSAGE}, {"ruleId": text, "level": level, "locations": LOCATIONS, "partialFingerprints": texts})
NOTIFICATION = thing({"message": MESSAGE}, {"level": level, "locations": LOCATIONS})
INVOCATION = thing({"executionSuccessful": boolean}, {"toolExecutionNotifications": list_of(NOTIFICATION)})
RUN = thing({"tool": thing({"driver": DRIVER})},
            {"columnKind": exactly("unicodeCodePoints"), "results": list_of(RESULT), "invocations": list_of(INVOCATION)})
LOG = thing({"version": exactly("2.1.0"), "runs": list_of(RUN)}, {"$schema": address})


class Document:
    """What a run wrote: its results and notifications by themselves, and how it ended."""

    def __init__(self, program, folder, words, given=b""):
        ended = subprocess.run([program, "check", "--format", "sarif", *words], input=given, cwd=folder,
                               capture_output=True, timeout=60)
        log = json.loads(ended.stdout.decode("utf-8"))
        want("the document is as the schema wants it", LOG(log), True)
        self.run, = log["runs"]
        self.rules = [rule["id"] for rule in self.run["tool"]["driver"]["rules"]]
        invocation, = self.run["invocations"]
        self.successful = invocation["executionSuccessful"]
        self.notifications = [(place(part)["artifactLocation"]["uri"], part["level"], part["message"]["text"])
                              for part in invocation["toolExecutionNotifications"]]
        self.results = self.run["results"]
        self.status = ended.returncode
        self.errors = ended.stderr.decode("utf-8").splitlines()
        want("each result has a rule", all(part["ruleId"] in self.rules for part in self.results), True)
        want("each error is a notification", self.errors, ["bidi: " + message for _, _, message in self.notifications])
        want("the run was a success if nothing was told", self.successful, self.notifications == [])

    def places(self):
        """The rule, the file, the line and the column of each result."""
        return [(part["ruleId"], place(part)["artifactLocation"]["uri"], place(part)["region"]["startLine"],
                 place(part)["region"]["startColumn"]) for part in self.results]

    def fingerprints(self):
        return [part["partialFingerprints"]["findingInLine/v1"] for part in self.results]


def place(part):
    location, = part["locations"]
    return location["physicalLocation"]


def want(what, found, wanted):
    if found != wanted:
        raise ValueError(f"{what}\n    wanted: {wanted}\n    found:  {found}")


def digest(line):
    return hashlib.sha256(line.encode("utf-8")).hexdigest()[:32]


def success(program, folder):
    """Nothing is found, and each input is searched."""
    (folder / "plain").write_bytes(b"plain\n")
    document = Document(program, folder, ["plain"])
    want("status", document.status, 0)
    want("results", document.results, [])
    want("a success", document.successful, True)
    want("rules", document.rules[:4], ["displayed-differently", "not-closed", "closes-nothing", "present"])


def one_result(program, folder):
    """A line that is displayed differently is one result, also if its controls have no match."""
    (folder / "attack.c").write_bytes(f"{ATTACK}\n".encode())
    (folder / "moved.c").write_bytes(f"\n\n{ATTACK}\r\n".encode())
    document = Document(program, folder, ["attack.c", "moved.c"])
    want("status", document.status, 1)
    want("places", document.places(), [("displayed-differently", "attack.c", 1, 3), ("displayed-differently", "moved.c", 3, 3)])
    want("fingerprints", document.fingerprints(), [digest(ATTACK) + "/displayed-differently/3"] * 2)


def unmatched(program, folder):
    """Controls without a match on a line that is displayed as it reads are results of their own."""
    (folder / "open").write_text(f"a{RLO}{LRI}", encoding="utf-8")
    document = Document(program, folder, ["open"])
    want("places", document.places(), [("not-closed", "open", 1, 2), ("not-closed", "open", 1, 3)])
    want("fingerprints", document.fingerprints(), [digest(f"a{RLO}{LRI}") + f"/not-closed/{column}" for column in (2, 3)])


def escaped_letters(program, folder):
    """What is displayed is written without any right-to-left letter, so a page does not reorder it once more."""
    (folder / "letters").write_text(f"\u05D0 {LRI}/a{PDI} \u05D1 {LRI}/b{PDI}\n", encoding="utf-8")
    document = Document(program, folder, ["letters"])
    message, = [part["message"]["text"] for part in document.results]
    want("the end of the message", message.partition("displayed as: ")[2], "/b <U+05D1> /a <U+05D0>")


def failures(program, folder):
    """Each input that is not searched as it is has a notification."""
    (folder / "latin1").write_bytes(b"caf\xe9 \xe2\x80\xae\n")
    (folder / "directory").mkdir()
    os.mkfifo(folder / "directory" / "a pipe")
    (folder / "directory" / "plain").write_bytes(b"plain\n")
    (folder / "directory" / os.fsdecode(b"b\xff")).write_bytes(b"plain\n")
    os.symlink("latin1", folder / "link")
    document = Document(program, folder, ["--gate", "--files-from", "none", "gone \u05D0", "latin1", "directory", "link", "-"],
                        given=b"plain\n")
    want("status", document.status, 4)
    want("results", [part[:2] for part in document.places()], [("not-closed", "latin1")])
    special = "neither a file, a directory nor a link, so it was not opened; pass it on standard input"
    unread = "this name is not UTF-8, so it was not searched; rename it, or pass the file on standard input"
    missing = "No such file or directory (os error 2)"
    want("notifications", document.notifications, [
        ("gone%20%D7%90", "error", f"gone \u05D0: {missing}"),
        ("latin1", "error", "latin1: not UTF-8 from byte 3 on; invalid bytes are read as U+FFFD"),
        ("directory/a%20pipe", "error", f"directory/a pipe: {special}"),
        ("directory/b%FF", "error", f"directory/b\\xFF: {unread}"),
        ("none", "error", f"none: {missing}"),
    ])


def allow_lists(program, folder):
    """A list of what is allowed that cannot be used ends the run, and the document says so."""
    (folder / "attack.c").write_bytes(f"{ATTACK}\n".encode())
    document = Document(program, folder, ["--allow", "gone", "attack.c"])
    want("status", document.status, 4)
    want("results", document.results, [])
    want("notifications", [part[0] for part in document.notifications], ["gone"])
    (folder / "list").write_bytes(b"attack.c:0\n")
    document = Document(program, folder, ["--allow", "list", "attack.c"])
    want("status", document.status, 2)
    want("results", document.results, [])
    want("notifications", [part[0] for part in document.notifications], ["list"])


def main(words):
    if len(words) != 1 or words[0] in ("-h", "--help"):
        print(__doc__.strip())
        return 0 if words else 1
    program = pathlib.Path(words[0]).resolve()
    failed = 0
    for run in (success, one_result, unmatched, escaped_letters, failures, allow_lists):
        with tempfile.TemporaryDirectory() as folder:
            try:
                run(program, pathlib.Path(folder))
                print(f"ok sarif_{run.__name__}")
            except (ValueError, KeyError, UnicodeDecodeError) as error:
                failed += 1
                print(f"failed sarif_{run.__name__}: {error}")
    return 1 if failed else 0


if __name__ == "__main__":
    sys.exit(main(sys.argv[1:]))
