#!/usr/bin/env python3
"""Builds the wheel of the package unicode_bidi around a shared library.

It needs Python 3.8 or later and nothing else. Two builds of the same sources and library have the same bytes. The name
of the wheel says which glibc it needs: 2.17, or a later one if the library needs it. The last line that it prints is the
path of the wheel.
"""
from __future__ import annotations

import argparse
import base64
import ctypes
import hashlib
import pathlib
import re
import sys
import zipfile
from typing import Dict, List, Tuple

HERE = pathlib.Path(__file__).resolve().parent
REPOSITORY = HERE.parent.parent
PACKAGE = "unicode_bidi"
LIBRARY = "libunicode_bidi.so"
LICENCES = ("LICENSE-APACHE", "LICENSE-MIT", "LICENSE-UNICODE")
OLDEST_GLIBC = (2, 17)
VERSION = re.compile(r"([0-9]+(?:\.[0-9]+)*)(?:(?:a|b|rc)[0-9]+)?(?:\+[a-z0-9]+(?:\.[a-z0-9]+)*)?")

METADATA = """\
Metadata-Version: 2.1
Name: {name}
Version: {version}
Summary: The Unicode Bidirectional Algorithm (UAX #9): the order in which text with Hebrew or Arabic in it is displayed
License: (MIT OR Apache-2.0) AND Unicode-3.0
Requires-Python: >=3.8
Classifier: Operating System :: POSIX :: Linux
Classifier: Programming Language :: Python :: 3
Classifier: Topic :: Text Processing :: Linguistic
Classifier: Typing :: Typed
Description-Content-Type: text/markdown

{description}"""

WHEEL = """\
Wheel-Version: 1.0
Generator: build_wheel.py
Root-Is-Purelib: false
Tag: {tag}
"""


def needed_glibc(library: bytes) -> Tuple[int, int]:
    """Returns the newest version of glibc that a library names, or the oldest one that a wheel can name."""
    named = re.findall(rb"(?<=\0)GLIBC_([0-9]+)\.([0-9]+)(?:\.[0-9]+)?(?=\0)", library)
    return max([OLDEST_GLIBC, *((int(major), int(minor)) for major, minor in named)])


def tag_of(library: bytes) -> str:
    """Returns the tag of a wheel with this library."""
    major, minor = needed_glibc(library)
    return f"py3-none-manylinux_{major}_{minor}_x86_64"


def check_version(library: pathlib.Path, version: str) -> None:
    """Ends the program if the library is of another version."""
    number = ctypes.CDLL(str(library.resolve())).unicode_bidi_version()
    found = f"{number // 10000}.{number // 100 % 100}.{number % 100}"
    matched = VERSION.fullmatch(version)
    if matched is None:
        sys.exit(f"build_wheel.py: {version} is not a version of a Python package")
    if matched.group(1) != found:
        sys.exit(f"build_wheel.py: the library is version {found}, and not {version}")


def contents(library: bytes, version: str, licences: List[pathlib.Path]) -> Dict[str, bytes]:
    """Returns the files of the wheel, without its record."""
    files = {f"{PACKAGE}/{path.name}": path.read_bytes()
             for path in (HERE / "src" / PACKAGE).iterdir() if path.suffix == ".py" or path.name == "py.typed"}
    files[f"{PACKAGE}/{LIBRARY}"] = library
    info = f"{PACKAGE}-{version}.dist-info"
    description = (HERE / "README.md").read_text(encoding="utf-8")
    metadata = METADATA.format(name=PACKAGE, version=version, description=description)
    files[f"{info}/METADATA"] = metadata.encode("utf-8")
    files[f"{info}/WHEEL"] = WHEEL.format(tag=tag_of(library)).encode("utf-8")
    for licence in licences:
        name = f"{info}/licenses/{licence.name}"
        if name in files:
            sys.exit(f"build_wheel.py: two licences are called {licence.name}")
        files[name] = licence.read_bytes()
    return files


def record_of(files: Dict[str, bytes], record: str) -> bytes:
    """Returns the record of the wheel: each file with its checksum and size."""
    rows = []
    for name in sorted(files):
        checksum = base64.urlsafe_b64encode(hashlib.sha256(files[name]).digest()).rstrip(b"=").decode("ascii")
        rows.append(f"{name},sha256={checksum},{len(files[name])}\n")
    rows.append(f"{record},,\n")
    return "".join(rows).encode("utf-8")


def write_wheel(path: pathlib.Path, files: Dict[str, bytes], record: str) -> None:
    """Writes the wheel. The files are stored, because compressed bytes depend on the version of zlib."""
    ordered = sorted(files.items()) + [(record, record_of(files, record))]
    with zipfile.ZipFile(path, "w", zipfile.ZIP_STORED) as wheel:
        for name, data in ordered:
            entry = zipfile.ZipInfo(name, (1980, 1, 1, 0, 0, 0))
            entry.create_system = 3
            entry.external_attr = (0o100755 if name.endswith(".so") else 0o100644) << 16
            wheel.writestr(entry, data)


def main() -> None:
    """Builds the wheel that the arguments describe."""
    parser = argparse.ArgumentParser(description=__doc__, formatter_class=argparse.RawDescriptionHelpFormatter)
    parser.add_argument("--library", required=True, type=pathlib.Path, help="the shared library")
    parser.add_argument("--version", required=True, help="the version of the package, which is that of the library")
    parser.add_argument("--dest", required=True, type=pathlib.Path, help="the folder for the wheel, made if missing")
    parser.add_argument("--licence", action="append", default=[], type=pathlib.Path,
                        help="a further licence to put into the wheel; may be given several times")
    arguments = parser.parse_args()
    library = arguments.library.read_bytes()
    check_version(arguments.library, arguments.version)
    licences = [REPOSITORY / name for name in LICENCES] + arguments.licence
    files = contents(library, arguments.version, licences)
    arguments.dest.mkdir(parents=True, exist_ok=True)
    path = arguments.dest / f"{PACKAGE}-{arguments.version}-{tag_of(library)}.whl"
    write_wheel(path, files, f"{PACKAGE}-{arguments.version}.dist-info/RECORD")
    print(path)


if __name__ == "__main__":
    main()
