"""A text with its levels, paragraphs, lines and displayed text."""
from __future__ import annotations

import bisect
import enum
from ctypes import byref, c_size_t, c_uint8
from functools import partial
from typing import Any, Iterable, List, NamedTuple, Optional, Tuple

from . import _library as library
from ._analysis import Analysis, analyse, end_of_line, write_paragraphs
from ._arguments import MOST_SIZE, base_number, bytes_of, limited, split_number
from ._buffers import borrow, give_back
from ._characters import BidiClass, named, readable
from ._display import Displayed, DisplayedLine, DisplayedText, Dropped, Moves, flags_of
from ._library import size
from .faults import BadLineError, checked


class Split(enum.IntEnum):
    """Where paragraphs end (P1)."""

    #: The text is one paragraph, even if it is empty.
    ONE_PARAGRAPH = 0
    #: After each character of class B.
    EACH_SEPARATOR = 1
    #: The same, but not between CR and LF.
    CR_LF_TOGETHER = 2


class Direction(enum.IntEnum):
    """A base direction."""

    LTR = 0
    RTL = 1
    #: No character decides the direction.
    MIXED = 2


class Paragraph(NamedTuple):
    """A paragraph: its characters, with the separator that ends it, and its level."""

    start: int
    end: int
    level: int


class Run(NamedTuple):
    """A visual run: characters that have one level after L1. A run of an odd level is displayed from right to left."""

    start: int
    end: int
    level: int


class FoundParagraphs(NamedTuple):
    """The paragraphs of a text, from :func:`find_paragraphs`."""

    #: The paragraphs.
    paragraphs: Tuple[Paragraph, ...]
    #: The class of each character. An FSI has class RLI or LRI if a character decides its direction (X5c).
    classes: Tuple[BidiClass, ...]


class Tables:
    """Classes and brackets of the caller's own, instead of Unicode's.

    ``ranges`` are triples of the first character, the last one and their class. They ascend and do not overlap. Any other
    character has class L. ``brackets`` are triples of an opening bracket, its closing one, and the normal form that they
    pair by. Characters are numbers. If two pairs name a character, the first one counts.

    Raises :class:`NotScalarError`, :class:`BadClassError` and :class:`BadRangesError`.
    """

    __slots__ = ("_ranges", "_brackets")

    def __init__(self, ranges: Iterable[Tuple[int, int, int]], brackets: Iterable[Tuple[int, int, int]] = ()) -> None:
        rows = [library.ClassRange(_character(first), _character(last), limited(number, 255))
                for first, last, number in ranges]
        pairs = [library.BracketPair(_character(opening), _character(closing), _character(normal_form))
                 for opening, closing, normal_form in brackets]
        self._ranges = (library.ClassRange * len(rows))(*rows)
        self._brackets = (library.BracketPair * len(pairs))(*pairs)
        self._direction("", False)

    def _arguments(self) -> Tuple[Any, ...]:
        """Returns the tables as arguments of C."""
        return (byref(self._ranges), library.size(len(self._ranges)), byref(self._brackets),
                library.size(len(self._brackets)))

    def _direction(self, text: str, full: bool) -> int:
        """Returns the number of the base direction of a text."""
        return checked(library.base_direction_by_tables(self._ranges, len(self._ranges), self._brackets,
                                                        len(self._brackets), readable(text)[1], len(text), full))


class BidiText:
    """A text, analysed by UAX #9. Indexes are those of ``text``, and the end of a range is exclusive.

    ``base_level`` is the level of every paragraph, from 0 to 125. With None each paragraph finds its own (P2, P3). If no
    character decides, it has the level ``fallback``, which is 0 or 1. ``split`` says where paragraphs end. ``tables`` are
    classes and brackets to use instead of Unicode's. A lone surrogate is analysed as U+FFFD, and displayed as itself. An
    object never changes, and threads may share it.

    Raises :class:`BadBaseLevelError`, :class:`BadSplitError` and :class:`NoMemoryError`.

    The cost is in proportion to the length of the text. An object keeps six bytes a character besides the text.
    """

    def __init__(self, text: str, base_level: Optional[int] = None, *, split: int = Split.CR_LF_TOGETHER,
                 tables: Optional[Tables] = None, fallback: int = 0) -> None:
        base, rule = base_number(base_level, fallback), split_number(split)
        read_as, characters = readable(text)
        length = library.size(len(text))
        buffers = borrow(len(text))
        try:
            count = analyse(buffers, characters, length, base, rule, () if tables is None else tables._arguments())
            self._paragraphs = tuple(map(Paragraph._make, buffers.paragraphs.read(count)))
            self._starts = [paragraph.start for paragraph in self._paragraphs]
            classes = bytes(buffers.classes[: len(text)])
            levels = bytes(buffers.levels[: len(text)])
        finally:
            give_back(buffers)
        self._analysis = Analysis(text, read_as, characters, classes, levels)

    def __repr__(self) -> str:
        return f"BidiText({self.text!r})"

    @property
    def text(self) -> str:
        """The text in logical order."""
        return self._analysis.text

    @property
    def classes(self) -> Tuple[BidiClass, ...]:
        """The class of each character. An FSI has class RLI or LRI if a character decides its direction (X5c)."""
        return named(self._analysis.classes)

    @property
    def levels(self) -> Tuple[int, ...]:
        """The level of each character (X1 to I2), before L1. A line has the levels after L1."""
        return tuple(self._analysis.levels)

    @property
    def paragraphs(self) -> Tuple[Paragraph, ...]:
        """The paragraphs. An empty text has none, except with :attr:`Split.ONE_PARAGRAPH`."""
        return self._paragraphs

    def line(self, start: int, end: int, *, paragraph: Optional[Paragraph] = None) -> Line:
        """Returns the characters from ``start`` up to ``end`` as one line. The cost is that of the line.

        ``paragraph`` is the paragraph of the line: without it, the one of the text that contains ``start``.

        Raises :class:`BadLineError` if the line is not a range of its paragraph, :class:`BadLevelError` if the level of
        the paragraph is above 126, and :class:`NoMemoryError`.
        """
        return Line(self, self._paragraph_at(start) if paragraph is None else paragraph, start, end)

    def lines(self) -> List[Line]:
        """Returns each paragraph as one line, without the separators at its end."""
        return [Line(self, paragraph, paragraph.start, end_of_line(self._analysis.classes, paragraph.start, paragraph.end))
                for paragraph in self._paragraphs]

    def display(self, *, mirror: bool = True, keep_removed: bool = True) -> str:
        """Returns the text with each paragraph as one line from left to right (L2). Separators stay at the line ends.

        With ``mirror``, characters at odd levels are mirrored (L4). Without ``keep_removed``, the characters that X9
        removes are left out: the controls of embeddings and overrides, and those of class BN, such as U+200D.
        """
        pieces = []
        for line in self.lines():
            pieces.append(line.display(mirror=mirror, keep_removed=keep_removed))
            pieces.append(self.text[line.end : line.paragraph.end])
        return "".join(pieces)

    def _paragraph_at(self, index: int) -> Paragraph:
        if not self._paragraphs:
            raise BadLineError("the text is empty and has no paragraph")
        return self._paragraphs[max(bisect.bisect_right(self._starts, index) - 1, 0)]


class Line:
    """A line of a text, from :meth:`BidiText.line`. Its ranges and its order have indexes of the whole text.

    An object never changes, and threads may share it.
    """

    def __init__(self, text: BidiText, paragraph: Paragraph, start: int, end: int) -> None:
        self._analysis = text._analysis
        self._paragraph = paragraph
        self._start, self._end = limited(start, MOST_SIZE), limited(end, MOST_SIZE)
        self._pointer = byref(range_of(paragraph))
        buffers = borrow(len(self.text))
        try:
            count, self._shown = self._analysis.line(buffers, self._pointer, self._start, self._end)
            self._runs = tuple(map(Run._make, buffers.runs.read(count)))
        finally:
            give_back(buffers)

    def __repr__(self) -> str:
        return f"<Line {self._start}..{self._end}: {self.text!r}>"

    @property
    def start(self) -> int:
        """The index of the first character."""
        return self._start

    @property
    def end(self) -> int:
        """The index after the last character."""
        return self._end

    @property
    def paragraph(self) -> Paragraph:
        """The paragraph of the line. L1 uses its level."""
        return self._paragraph

    @property
    def text(self) -> str:
        """The characters of the line in logical order."""
        return self._analysis.text[self._start : self._end]

    @property
    def levels(self) -> Tuple[int, ...]:
        """The level of each character of the line after L1."""
        return tuple(self._analysis.levels_of_line(self._pointer, self._start, self._end))

    @property
    def runs(self) -> Tuple[Run, ...]:
        """The visual runs from left to right (L2)."""
        return self._runs

    @property
    def order(self) -> Tuple[int, ...]:
        """The index in the whole text of the character at each visual position, from left to right (L2)."""
        return tuple(self._analysis.order(self._pointer, self._start, self._end))

    def display(self, *, mirror: bool = True, keep_removed: bool = True) -> str:
        """Returns the line from left to right. The options are those of :meth:`BidiText.display`."""
        return self._analysis.display_line(self._pointer, self._runs, self._shown, self._start, mirror,
                                           keep_removed)

    def displayed(self, *, moves: int = Moves.CLUSTERS, mirror: bool = True,
                  dropped: int = Dropped.CONTROLS) -> DisplayedLine:
        """Returns the line as a device displays it (L2 to L4), with both maps.

        ``moves`` is what L2 moves as a whole. With ``mirror``, characters at odd levels are mirrored (L4). ``dropped`` says
        which characters are not displayed. Raises :class:`BadFlagsError` and :class:`NoMemoryError`.
        """
        analysis, length = self._analysis, self._analysis.length
        displayed = Displayed(self._end - self._start)
        checked(library.display_line(
            analysis.characters, length, analysis.classes, length, analysis.levels, length, self._pointer,
            size(self._start), size(self._end), flags_of(moves, mirror, dropped), *displayed.arguments))
        order = displayed.order(self._start)
        return DisplayedLine(displayed.text(order, analysis.text, analysis.read_as), order, displayed.places())


def displayed_text(text: str, base_level: Optional[int] = None, *, fallback: int = 0, split: int = Split.CR_LF_TOGETHER,
                   moves: int = Moves.CLUSTERS, mirror: bool = True, dropped: int = Dropped.CONTROLS) -> DisplayedText:
    """Returns a text as a device displays it, each paragraph as one line (P1 to L4), with both maps.

    The paragraphs follow one another. The separators at the end of a paragraph stay behind its displayed content.
    ``base_level``, ``fallback`` and ``split`` are those of :class:`BidiText`, and the other options those of
    :meth:`Line.displayed`. A lone surrogate is analysed as U+FFFD, and displayed as itself.

    Raises :class:`BadBaseLevelError`, :class:`BadSplitError`, :class:`BadFlagsError` and :class:`NoMemoryError`.
    """
    base, rule, flags = base_number(base_level, fallback), split_number(split), flags_of(moves, mirror, dropped)
    read_as, characters = readable(text)
    length = size(len(text))
    levels = (c_uint8 * len(text))()
    displayed = Displayed(len(text))
    checked(library.display_text(characters, length, base, rule, flags, byref(levels), length, *displayed.arguments))
    order = displayed.order()
    return DisplayedText(displayed.text(order, text, read_as), tuple(bytes(levels)), order, displayed.places())


def find_paragraphs(text: str, base_level: Optional[int] = None, *, fallback: int = 0,
                    split: int = Split.CR_LF_TOGETHER) -> FoundParagraphs:
    """Returns the paragraphs of a text (P1) with their levels (P2, P3), and the class of each character, without levels.

    The options are those of :class:`BidiText`. The call takes less time than an analysis.

    Raises :class:`BadBaseLevelError`, :class:`BadSplitError` and :class:`NoMemoryError`.
    """
    base, rule = base_number(base_level, fallback), split_number(split)
    characters = readable(text)[1]
    length = size(len(text))
    buffers = borrow(len(text))
    try:
        count = write_paragraphs(buffers, partial(library.paragraphs, characters, length, base, rule,
                                                  buffers.classes_pointer, length))
        return FoundParagraphs(tuple(map(Paragraph._make, buffers.paragraphs.read(count))),
                               named(bytes(buffers.classes[: len(text)])))
    finally:
        give_back(buffers)


def base_direction(text: str, *, full: bool = False, tables: Optional[Tables] = None) -> Direction:
    """Returns the direction of the first paragraph by its first strong character (P2, P3).

    With ``full``, returns the direction of the first paragraph that has one.
    """
    if tables is not None:
        return Direction(tables._direction(text, full))
    return Direction(checked(library.first_direction(readable(text)[1], len(text), full)))


def base_direction_of_classes(classes: Iterable[int], *, full: bool = False) -> Direction:
    """Returns the direction of a list of classes, as ``base_direction`` does of a text.

    Raises :class:`BadClassError`.
    """
    numbers = bytes_of(classes)
    return Direction(checked(library.base_direction_of_classes(numbers, len(numbers), full)))


def reorder_visual(levels: Iterable[int]) -> Tuple[int, ...]:
    """Returns the index of the item at each visual position (L2), by the level of each item after L1.

    Raises :class:`BadLevelError`.
    """
    numbers = bytes_of(levels)
    order = (c_size_t * len(numbers))()
    checked(library.reorder_visual(numbers, len(numbers), order, len(numbers)))
    return tuple(order)


def range_of(paragraph: Paragraph) -> library.Range:
    """Returns a paragraph as C has it."""
    return library.Range(limited(paragraph[0], MOST_SIZE), limited(paragraph[1], MOST_SIZE), limited(paragraph[2], 255))


def _character(number: int) -> int:
    return limited(number, 2 ** 32 - 1)
