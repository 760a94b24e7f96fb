"""The faults that a call of the C library can return, as exceptions.

Every fault is a :class:`BidiError`. It is also a ``ValueError``, except :class:`NoMemoryError`, which is a
``MemoryError``. ``code`` is the number in ``unicode_bidi.h``, and ``name`` is its name there without the prefix
``UNICODE_BIDI_``. After a fault nothing has changed: a call that fails writes nothing.
"""
from __future__ import annotations

from typing import Dict, Optional, Type

__all__ = [
    "BadBaseLevelError",
    "BadBracketError",
    "BadClassError",
    "BadFlagsError",
    "BadLevelError",
    "BadLineError",
    "BadRangesError",
    "BadSplitError",
    "BidiError",
    "CutCharacterError",
    "NoMemoryError",
    "NoRoomError",
    "NotScalarError",
    "NotUtf8Error",
    "UnequalLengthsError",
    "UnevenCharacterError",
]


class BidiError(Exception):
    """A fault. ``str`` of it begins with the name of the fault."""

    #: The number that the C library returns.
    code: int = 0
    #: The name of the fault in ``unicode_bidi.h``, for example ``BAD_LINE``.
    name: str = ""
    #: What is wrong, in general.
    meaning: str = ""

    def __init__(self, detail: Optional[str] = None) -> None:
        super().__init__(f"{self.name}: {detail or self.meaning}")


class NoMemoryError(BidiError, MemoryError):
    """An allocation failed."""

    code, name, meaning = -1, "NO_MEMORY", "an allocation failed"


class NotUtf8Error(BidiError, ValueError):
    """A text is not UTF-8."""

    code, name, meaning = -2, "NOT_UTF8", "the text is not UTF-8"


class NotScalarError(BidiError, ValueError):
    """A character is above U+10FFFF or a surrogate."""

    code, name, meaning = -3, "NOT_SCALAR", "a character is above U+10FFFF or a surrogate"


class BadBaseLevelError(BidiError, ValueError):
    """A base level is not a number from 0 to 125."""

    code, name, meaning = -4, "BAD_BASE_LEVEL", "a base level must be None or a number from 0 to 125"


class BadSplitError(BidiError, ValueError):
    """A split rule is none of :class:`unicode_bidi.Split`."""

    code, name, meaning = -5, "BAD_SPLIT", "a split rule must be a number from 0 to 2"


class BadClassError(BidiError, ValueError):
    """A class is none of :class:`unicode_bidi.BidiClass`."""

    code, name, meaning = -6, "BAD_CLASS", "a class must be a number from 0 to 22"


class BadLevelError(BidiError, ValueError):
    """A level is not a number from 0 to 126."""

    code, name, meaning = -7, "BAD_LEVEL", "a level must be a number from 0 to 126"


class UnequalLengthsError(BidiError, ValueError):
    """Lists with an entry for each character do not have the same length."""

    code, name, meaning = -8, "UNEQUAL_LENGTHS", "lists with an entry for each character do not have the same length"


class BadLineError(BidiError, ValueError):
    """A line is not a range of its paragraph, or the paragraph is not a range of the text."""

    code, name, meaning = -9, "BAD_LINE", "the line is not a range of one paragraph of the text"


class CutCharacterError(BidiError, ValueError):
    """A line begins or ends inside a character. The calls over ``str`` never raise it."""

    code, name, meaning = -10, "CUT_CHARACTER", "the line begins or ends inside a character"


class UnevenCharacterError(BidiError, ValueError):
    """The units of one character differ in class or in level. The calls over ``str`` never raise it."""

    code, name, meaning = -11, "UNEVEN_CHARACTER", "the units of one character differ in class or in level"


class NoRoomError(BidiError, ValueError):
    """A buffer is too short. The package gives each call enough room, so its own calls never raise it."""

    code, name, meaning = -12, "NO_ROOM", "a buffer is too short"


class BadRangesError(BidiError, ValueError):
    """Ranges of characters do not ascend, or overlap."""

    code, name, meaning = -13, "BAD_RANGES", "a range has first > last, or does not come after the previous range"


class BadBracketError(BidiError, ValueError):
    """The normal form of a bracket is not a character from U+0020 to U+7FFFF."""

    code, name, meaning = -14, "BAD_BRACKET", "the normal form of a bracket must be a character from U+0020 to U+7FFFF"


class BadFlagsError(BidiError, ValueError):
    """The options of a displayed line are none of :class:`unicode_bidi.Moves` and :class:`unicode_bidi.Dropped`."""

    code, name, meaning = -15, "BAD_FLAGS", "there is no such option of a displayed line"


_FAULTS: Dict[int, Type[BidiError]] = {
    fault.code: fault
    for fault in (
        NoMemoryError,
        NotUtf8Error,
        NotScalarError,
        BadBaseLevelError,
        BadSplitError,
        BadClassError,
        BadLevelError,
        UnequalLengthsError,
        BadLineError,
        CutCharacterError,
        UnevenCharacterError,
        NoRoomError,
        BadRangesError,
        BadBracketError,
        BadFlagsError,
    )
}


def checked(result: int) -> int:
    """Returns the result of a C call, or raises the fault that it stands for."""
    if result < 0:
        raise _FAULTS[result]()
    return result
