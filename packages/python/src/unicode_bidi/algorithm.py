"""``get_display`` and ``get_base_level``, with the arguments of python-bidi 0.4.2.

Programs that call ``bidi.algorithm.get_display`` can import it from here.
"""
from __future__ import annotations

import sys
from typing import Dict, Optional, Union, overload

from . import _library as library
from ._analysis import without_removed
from ._buffers import NOTHING, borrow, give_back
from ._characters import class_numbers, readable
from ._display import Displayed, Dropped, Moves, flags_of
from ._library import size
from ._text import BidiText, Direction, Split
from .faults import checked

__all__ = ["get_base_level", "get_display"]

_BASE_LEVELS: Dict[Optional[str], int] = {None: library.AUTO, "L": 0, "R": 1, "AL": 1}
_SPLIT = int(Split.CR_LF_TOGETHER)
_CHARACTERS, _NEUTRALS = int(Moves.CHARACTERS), int(Dropped.BOUNDARY_NEUTRALS)
#: The flags of a call without options.
_DEFAULT_FLAGS = flags_of(_CHARACTERS, True, _NEUTRALS)
_HEBREW_LETTER = "\u05d0"


@overload
def get_display(text: str, /, encoding: str = ..., upper_is_rtl: bool = ..., base_dir: Optional[str] = ...,
                debug: bool = ..., *, mirror: bool = ..., moves: int = ..., dropped: Optional[int] = ...) -> str: ...


@overload
def get_display(text: Union[bytes, bytearray], /, encoding: str = ..., upper_is_rtl: bool = ...,
                base_dir: Optional[str] = ..., debug: bool = ..., *, mirror: bool = ..., moves: int = ...,
                dropped: Optional[int] = ...) -> bytes: ...


def get_display(text: Union[str, bytes, bytearray], /, encoding: str = "utf-8", upper_is_rtl: bool = False,
                base_dir: Optional[str] = None, debug: bool = False, *, mirror: bool = True,
                moves: int = _CHARACTERS, dropped: Optional[int] = None) -> Union[str, bytes]:
    """Returns a text in visual order, from left to right, for a renderer that does not know the algorithm.

    ``bytes`` are decoded by ``encoding``, and the result is encoded by it. The whole text has one base level: 0 for
    ``base_dir`` ``"L"``, 1 for ``"R"`` and ``"AL"``, and otherwise that of the first paragraph that has a direction (P2,
    P3). Each paragraph is a line. Its separator stays at its end. Characters at odd levels are mirrored (L4), unless
    ``mirror`` is false. Each character moves by itself, unless ``moves`` is another one of :class:`Moves`, such as
    :attr:`Moves.MARKS` (L3). ``dropped`` is one of :class:`Dropped`. With None, the characters that X9 removes are left
    out of the displayed text.

    With ``upper_is_rtl``, upper-case letters have class R. With ``debug``, the steps are written to ``sys.stderr``.

    Raises ``ValueError`` for another ``base_dir``, ``UnicodeError`` if the bytes are not in the encoding,
    :class:`BadFlagsError` for other ``moves`` or ``dropped``, and :class:`NoMemoryError`.
    """
    if not isinstance(text, str):
        if not isinstance(text, (bytes, bytearray)):
            raise TypeError(f"get_display takes str or bytes, and not {type(text).__name__}")
        return get_display(text.decode(encoding), encoding, upper_is_rtl, base_dir, debug, mirror=mirror, moves=moves,
                           dropped=dropped).encode(encoding)
    base = _BASE_LEVELS.get(base_dir)
    if base is None:
        raise ValueError(f"base_dir must be 'L', 'R', 'AL' or None, and not {base_dir!r}")
    is_default = mirror is True and moves == _CHARACTERS and dropped is None
    flags = _DEFAULT_FLAGS if is_default else flags_of(moves, mirror, _NEUTRALS if dropped is None else dropped)
    read_as, characters = readable(_upper_as_hebrew(text) if upper_is_rtl else text)
    # With AUTO each paragraph would have its own level. What is one line for Python is one paragraph.
    if base == library.AUTO and len(str.splitlines(text)) > 1:
        base = _base_level(characters)
    shown = _displayed(text, read_as, characters, base, flags)
    # If C drops nothing, X9 removes nothing.
    if dropped is None and len(shown) < len(text):
        shown = _displayed(text, read_as, characters, base, flags - _NEUTRALS)
        shown = without_removed(shown, class_numbers(shown))
    if debug:
        _explain(read_as, base, shown)
    return shown


def get_base_level(text: str, upper_is_rtl: bool = False) -> int:
    """Returns the base level of a text: 1 if its first strong character is right-to-left, otherwise 0 (P2, P3).

    Characters in isolates do not count. If a paragraph has no strong character, the next one decides. With
    ``upper_is_rtl``, upper-case letters have class R.
    """
    return _base_level(readable(_upper_as_hebrew(text) if upper_is_rtl else text)[1])


def _base_level(characters: bytes) -> int:
    direction = checked(library.first_direction(characters, len(characters) // 4, 1))
    return 1 if direction == Direction.RTL else 0


def _upper_as_hebrew(text: str) -> str:
    return "".join(_HEBREW_LETTER if str.isupper(character) else character for character in text)


def _displayed(text: str, read_as: str, characters: bytes, base: int, flags: int) -> str:
    """Returns the text with each paragraph as a line from left to right. C reads ``read_as``, as ``characters``."""
    count = len(text)
    if read_as is not text:
        displayed = Displayed(count)
        checked(library.display_text(characters, size(count), base, _SPLIT, flags, *NOTHING, *displayed.arguments))
        return displayed.text(displayed.order(), text, read_as)
    buffers = borrow(count)
    length: int = library.display_text(characters, size(count), base, _SPLIT, flags, *buffers.text_arguments)
    shown: str = buffers.shown[: length if length >= 0 else checked(length)]
    give_back(buffers)
    return shown


def _explain(text: str, base: int, shown: str) -> None:
    """Writes the steps to ``sys.stderr``."""
    level = _base_level(readable(text)[1]) if base == library.AUTO else base
    analysed = BidiText(text, level)
    steps = [("base level", level), ("classes", " ".join(found.name for found in analysed.classes)),
             ("levels", " ".join(map(str, analysed.levels)))]
    for line in analysed.lines():
        steps.append(("line", f"{line.start}..{line.end}"))
        steps.append(("levels after L1", " ".join(map(str, line.levels))))
        steps.append(("runs", " ".join(f"{run.start}..{run.end}:{run.level}" for run in line.runs)))
    steps.append(("displayed", repr(shown)))
    for name, value in steps:
        print(f"{name}: {value}", file=sys.stderr)
