"""The Unicode Bidirectional Algorithm (UAX #9): the order in which text with Hebrew or Arabic in it is displayed.

>>> from unicode_bidi import get_display
>>> get_display("car (מכונית) 12")
'car (תינוכמ) 12'

:func:`get_display` returns a text in visual order. :func:`displayed_text` also returns its levels and maps.
:class:`BidiText` has its levels, classes, paragraphs, lines and visual runs. The algorithm is that of the C library in
this package. Every fault is a :class:`BidiError`.
"""
from __future__ import annotations

from . import _library
from ._characters import BidiClass, Bracket, bidi_class, bidi_classes, bracket, brackets, mirrored
from ._classes import AnalysedClasses, Maps, analyse_classes, line_order, places
from ._compatibility import install_as_bidi
from ._display import DisplayedLine, DisplayedText, Dropped, Moves
from ._text import (
    BidiText,
    Direction,
    FoundParagraphs,
    Line,
    Paragraph,
    Run,
    Split,
    Tables,
    base_direction,
    base_direction_of_classes,
    displayed_text,
    find_paragraphs,
    reorder_visual,
)
from .algorithm import get_base_level, get_display
from .faults import (
    BadBaseLevelError,
    BadBracketError,
    BadClassError,
    BadFlagsError,
    BadLevelError,
    BadLineError,
    BadRangesError,
    BadSplitError,
    BidiError,
    CutCharacterError,
    NoMemoryError,
    NoRoomError,
    NotScalarError,
    NotUtf8Error,
    UnequalLengthsError,
    UnevenCharacterError,
)

__all__ = [
    "UNICODE_VERSION",
    "AnalysedClasses",
    "BadBaseLevelError",
    "BadBracketError",
    "BadClassError",
    "BadFlagsError",
    "BadLevelError",
    "BadLineError",
    "BadRangesError",
    "BadSplitError",
    "BidiClass",
    "BidiError",
    "BidiText",
    "Bracket",
    "CutCharacterError",
    "Direction",
    "DisplayedLine",
    "DisplayedText",
    "Dropped",
    "FoundParagraphs",
    "Line",
    "Maps",
    "Moves",
    "NoMemoryError",
    "NoRoomError",
    "NotScalarError",
    "NotUtf8Error",
    "Paragraph",
    "Run",
    "Split",
    "Tables",
    "UnequalLengthsError",
    "UnevenCharacterError",
    "__version__",
    "analyse_classes",
    "base_direction",
    "base_direction_of_classes",
    "bidi_class",
    "bidi_classes",
    "bracket",
    "brackets",
    "displayed_text",
    "find_paragraphs",
    "get_base_level",
    "get_display",
    "install_as_bidi",
    "line_order",
    "mirrored",
    "places",
    "reorder_visual",
]

#: The version of the library, such as ``"0.1.0"``.
__version__: str = _library.dotted(_library.version())
#: The version of Unicode's data, such as ``"18.0.0"``.
UNICODE_VERSION: str = _library.dotted(_library.unicode_version())
