"""What Unicode's data says of one character: its class, its bracket and its mirrored partner."""
from __future__ import annotations

import enum
import re
from codecs import utf_32_le_encode
from ctypes import c_uint8, c_uint32
from typing import Dict, NamedTuple, Optional, Tuple

from . import _library as library
from .faults import checked


class BidiClass(enum.IntEnum):
    """The class of a character (Bidi_Class), with the numbers of ``unicode_bidi.h``."""

    L = 0
    R = 1
    AL = 2
    EN = 3
    ES = 4
    ET = 5
    AN = 6
    CS = 7
    NSM = 8
    BN = 9
    B = 10
    S = 11
    WS = 12
    ON = 13
    LRE = 14
    LRO = 15
    RLE = 16
    RLO = 17
    PDF = 18
    LRI = 19
    RLI = 20
    FSI = 21
    PDI = 22


#: Every class, at its number.
CLASSES: Tuple[BidiClass, ...] = tuple(BidiClass)

#: The numbers of the classes that X9 removes.
REMOVED_BY_X9 = bytes((BidiClass.BN, BidiClass.LRE, BidiClass.LRO, BidiClass.RLE, BidiClass.RLO, BidiClass.PDF))

_LONE_SURROGATE = re.compile("[\ud800-\udfff]")


def readable(text: str) -> Tuple[str, bytes]:
    """Returns a text that C can read, and its characters as C reads them.

    It is the text itself, or else the text with U+FFFD in place of each lone surrogate.
    """
    try:
        return text, utf_32_le_encode(text)[0]
    except UnicodeEncodeError:
        text = _LONE_SURROGATE.sub("\ufffd", text)
        return text, utf_32_le_encode(text)[0]


class Bracket(NamedTuple):
    """What a bracket pairs by (BD14, BD15)."""

    #: The opening bracket of its pair, or the canonical equivalent of that. Brackets pair if these are equal.
    normal_form: str
    #: Whether it opens.
    opens: bool


def _bracket(number: int) -> Optional[Bracket]:
    if number == 0:
        return None
    return Bracket(chr(number & ~library.OPENING), bool(number & library.OPENING))


def _number(character: str) -> int:
    return ord(readable(character)[0])


def bidi_class(character: str) -> BidiClass:
    """Returns the class of one character. A lone surrogate has the class of U+FFFD."""
    return CLASSES[checked(library.class_of(_number(character)))]


def bracket(character: str) -> Optional[Bracket]:
    """Returns what one character pairs by, or None if it is no paired bracket."""
    return _bracket(checked(library.bracket_of(_number(character))))


def mirrored(character: str) -> str:
    """Returns the partner of one character in Bidi_Mirroring_Glyph (L4), or the character itself."""
    return chr(MIRRORED[ord(character)])


def class_numbers(text: str) -> bytes:
    """Returns the number of the class of each character of a text, before any rule changes it."""
    length = len(text)
    classes = (c_uint8 * length)()
    checked(library.classes(readable(text)[1], length, classes, length))
    return bytes(classes)


def named(classes: bytes) -> Tuple[BidiClass, ...]:
    """Returns the classes with these numbers."""
    return tuple(map(CLASSES.__getitem__, classes))


def bidi_classes(text: str) -> Tuple[BidiClass, ...]:
    """Returns the class of each character of a text, before any rule changes it."""
    return named(class_numbers(text))


def brackets(text: str) -> Tuple[Optional[Bracket], ...]:
    """Returns what each character of a text pairs by, or None where it is no paired bracket."""
    length = len(text)
    numbers = (c_uint32 * length)()
    checked(library.brackets(readable(text)[1], length, numbers, length))
    return tuple(map(_bracket, numbers))


class _Mirrored(Dict[int, int]):
    """The mirrored partners of the characters met so far, because a call of C for each character takes too long."""

    #: With so many characters it begins anew.
    MOST = 1 << 16

    def __missing__(self, character: int) -> int:
        if len(self) >= self.MOST:
            self.clear()
        partner = character if 0xD800 <= character <= 0xDFFF else checked(library.mirrored(character))
        self[character] = partner
        return partner


#: A table for ``str.translate``.
MIRRORED = _Mirrored()
