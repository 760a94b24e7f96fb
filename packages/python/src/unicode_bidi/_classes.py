"""Levels and maps by classes and levels alone, without a text."""
from __future__ import annotations

import operator
from ctypes import byref, c_size_t, c_uint32
from functools import partial
from typing import Iterable, NamedTuple, Optional, Sequence, Tuple

from . import _library as library
from ._analysis import write_paragraphs
from ._arguments import MOST_SIZE, base_number, bytes_of, limited, split_number
from ._buffers import borrow, give_back, new_sizes
from ._characters import BidiClass, Bracket, named
from ._display import Moves, Places, places_of
from ._library import size
from ._text import Paragraph, Split, range_of
from .faults import checked


class AnalysedClasses(NamedTuple):
    """The analysis of a list of classes, from :func:`analyse_classes`."""

    #: The class of each character. An FSI has class RLI or LRI if a character decides its direction (X5c).
    classes: Tuple[BidiClass, ...]
    #: The level of each character (X1 to I2), before L1.
    levels: Tuple[int, ...]
    #: The paragraphs.
    paragraphs: Tuple[Paragraph, ...]


class Maps(NamedTuple):
    """The two maps of a line, from :func:`line_order`."""

    #: The index in the lists of the character at each visual index.
    order: Tuple[int, ...]
    #: The visual index of each character of the line.
    places: Places


def analyse_classes(classes: Iterable[int], brackets: Optional[Iterable[Optional[Bracket]]] = None,
                    base_level: Optional[int] = None, *, fallback: int = 0,
                    split: int = Split.EACH_SEPARATOR) -> AnalysedClasses:
    """Returns the levels and paragraphs of characters that have these classes and brackets.

    ``brackets`` has a bracket or None for each character, as :func:`brackets` returns them. Without it no character is a
    bracket. A bracket counts only where the class is ON. ``base_level`` and ``fallback`` are those of :class:`BidiText`.
    A paragraph ends after each class B, unless ``split`` is :attr:`Split.ONE_PARAGRAPH`.

    Raises :class:`UnequalLengthsError`, :class:`BadClassError`, :class:`BadBracketError`, :class:`BadBaseLevelError`,
    :class:`BadSplitError` and :class:`NoMemoryError`.
    """
    numbers = bytes_of(classes)
    codes = [_bracket_number(bracket) for bracket in brackets or ()]
    count, length = len(numbers), size(len(numbers))
    buffers = borrow(count)
    try:
        found = write_paragraphs(buffers, partial(
            library.analyse_classes, numbers, length, byref((c_uint32 * len(codes))(*codes)), size(len(codes)),
            base_number(base_level, fallback), split_number(split), buffers.classes_pointer, length,
            buffers.levels_pointer, length))
        return AnalysedClasses(named(bytes(buffers.classes[:count])), tuple(buffers.levels[:count]),
                               tuple(map(Paragraph._make, buffers.paragraphs.read(found))))
    finally:
        give_back(buffers)


def line_order(classes: Sequence[int], levels: Sequence[int], paragraph: Paragraph, start: int, end: int, *,
               moves: int = Moves.CHARACTERS) -> Maps:
    """Returns both maps of the line from ``start`` up to ``end`` (L1 to L3), by classes and levels alone.

    The lists have an entry for each character of the whole text, as of :class:`BidiText` or :func:`analyse_classes`.
    ``moves`` is :attr:`Moves.CHARACTERS` or :attr:`Moves.MARKS`.

    Raises :class:`UnequalLengthsError`, :class:`BadLineError`, :class:`BadClassError`, :class:`BadLevelError`,
    :class:`BadFlagsError` for other moves, and :class:`NoMemoryError`.
    """
    class_bytes, level_bytes = bytes_of(classes), bytes_of(levels)
    start, end = limited(start, MOST_SIZE), limited(end, MOST_SIZE)
    room = max(0, min(end, len(class_bytes)) - min(start, len(class_bytes)))
    order_pointer, order = new_sizes(room)
    places_pointer, places = new_sizes(room)
    count = checked(library.line_order(
        class_bytes, len(class_bytes), level_bytes, len(level_bytes), byref(range_of(paragraph)), start, end,
        limited(moves, 2 ** 32 - 1), order_pointer, room, places_pointer, room))
    return Maps(tuple(start + index for index in order[:count]), places_of(places.tolist()))


def places(order: Iterable[int], count: int) -> Places:
    """Returns the inverse of a map, for ``count`` characters: the first visual index at which ``order`` has each of them.

    A character that is not in ``order`` has None. Numbers in ``order`` that are not below ``count`` are passed over.

    Raises ``ValueError`` if ``count`` is negative.
    """
    count = operator.index(count)
    if count < 0:
        raise ValueError("count must not be negative")
    indexes = [limited(index, MOST_SIZE) for index in order]
    pointer, found = new_sizes(count)
    checked(library.places((c_size_t * len(indexes))(*indexes), len(indexes), pointer, count))
    return places_of(found.tolist())


def _bracket_number(bracket: Optional[Bracket]) -> int:
    if bracket is None:
        return 0
    return ord(bracket.normal_form) + library.OPENING * bool(bracket.opens)
