"""``python -m unicode_bidi``: a filter that writes each line in visual order."""
from __future__ import annotations

import argparse
import os
import sys
from typing import BinaryIO, List, Optional

from . import UNICODE_VERSION, BidiText, NotUtf8Error, __version__

_PROGRAM = "python -m unicode_bidi"
_LEVELS = {"L": 0, "R": 1, "auto": None}


def _arguments(words: Optional[List[str]]) -> argparse.Namespace:
    parser = argparse.ArgumentParser(
        prog=_PROGRAM,
        description="Reads standard input as UTF-8, and writes each line in visual order, from left to right, for a "
        "terminal or a renderer that does not know the Unicode Bidirectional Algorithm.",
        epilog="Exit status: 0, or 1 if a line is not UTF-8. The lines before it are written. 2 for wrong arguments.",
    )
    parser.add_argument("--base-dir", choices=sorted(_LEVELS), default="auto",
                        help="the direction of each line: left to right, right to left, or by its own text (default)")
    parser.add_argument("--no-mirror", action="store_true",
                        help="do not mirror brackets and other characters in right-to-left text")
    parser.add_argument("--drop-removed", action="store_true",
                        help="leave out the characters that rule X9 removes: controls of embeddings and overrides, and "
                        "others such as U+200D")
    parser.add_argument("--version", action="version",
                        version=f"unicode_bidi {__version__}, Unicode {UNICODE_VERSION}")
    return parser.parse_args(words)


def _filter(lines: BinaryIO, out: BinaryIO, arguments: argparse.Namespace) -> None:
    for number, line in enumerate(lines, 1):
        try:
            text = line.decode("utf-8")
        except UnicodeDecodeError as error:
            raise NotUtf8Error(f"line {number} is not UTF-8 at byte {error.start + 1}") from error
        shown = BidiText(text, _LEVELS[arguments.base_dir]).display(mirror=not arguments.no_mirror,
                                                                   keep_removed=not arguments.drop_removed)
        out.write(shown.encode("utf-8"))
        out.flush()


def main(words: Optional[List[str]] = None) -> int:
    """Runs the filter with these arguments, and returns the exit status."""
    arguments = _arguments(words)
    try:
        _filter(sys.stdin.buffer, sys.stdout.buffer, arguments)
    except NotUtf8Error as error:
        print(f"{_PROGRAM}: {error}", file=sys.stderr)
        return 1
    except BrokenPipeError:
        os.dup2(os.open(os.devnull, os.O_WRONLY), sys.stdout.fileno())
    return 0


if __name__ == "__main__":
    sys.exit(main())
