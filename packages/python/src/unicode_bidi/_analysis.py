"""An analysed text for C: its characters, classes and levels, and the lines that C makes of them."""
from __future__ import annotations

import re
from ctypes import c_size_t, c_uint8
from functools import partial
from typing import Any, Callable, Iterable, Sequence, Tuple

from . import _library as library
from ._buffers import NOTHING, Buffers, Ranges, RangeTuple
from ._characters import MIRRORED, REMOVED_BY_X9, BidiClass
from ._library import size
from .faults import NoRoomError, checked

_NO_ROOM = NoRoomError.code
_B = int(BidiClass.B)
_REMOVED = re.compile(b"[" + REMOVED_BY_X9 + b"]")


def without_removed(text: str, classes: bytes) -> str:
    """Returns a text without the characters that X9 removes. ``classes`` has the class of each character."""
    if _REMOVED.search(classes) is None:
        return text
    return "".join(character for character, number in zip(text, classes) if number not in REMOVED_BY_X9)


def end_of_line(classes: bytes, start: int, end: int) -> int:
    """Returns the end of a paragraph without the separators at its end."""
    while start < end and classes[end - 1] == _B:
        end -= 1
    return end


def analyse(buffers: Buffers, characters: bytes, length: Any, base: int, split: int, tables: Tuple[Any, ...] = ()) -> int:
    """Writes the classes, levels and paragraphs of a text to the buffers, and returns the number of paragraphs.

    ``length`` is an argument of C. ``base`` and ``split`` are numbers up to 255. ``tables`` are the arguments of C for
    the caller's own tables.
    """
    call = partial(library.analyse_by_tables, *tables) if tables else partial(library.analyse_with, buffers.analyser)
    return write_paragraphs(buffers, partial(call, characters, length, base, split, buffers.classes_pointer, length,
                                             buffers.levels_pointer, length))


def write_paragraphs(buffers: Buffers, call: Callable[[Any, Any], int]) -> int:
    """Makes a call that takes a pointer to paragraphs and their room last. Returns the number of paragraphs."""
    paragraphs = buffers.paragraphs
    count = call(paragraphs.pointer, paragraphs.room)
    if count == _NO_ROOM:  # the first call counts them
        buffers.paragraphs = Ranges(0)
        buffers.paragraphs = Ranges(write_paragraphs(buffers, call))
        return write_paragraphs(buffers, call)
    return count if count >= 0 else checked(count)


def restored(shown: str, order: Iterable[int], text: str, read_as: str) -> str:
    """Returns what is displayed with the characters of ``text``, where C read ``read_as`` instead.

    ``order`` has the index in ``text`` of each displayed character.
    """
    return "".join(character if text[index] == read_as[index] else text[index] for character, index in zip(shown, order))


class Analysis:
    """A text, and the class and the level of each of its characters.

    ``read_as`` is the text that C reads, and ``characters`` its characters. It differs from ``text`` in lone surrogates.
    """

    __slots__ = ("text", "read_as", "characters", "length", "classes", "levels")

    def __init__(self, text: str, read_as: str, characters: bytes, classes: bytes, levels: bytes) -> None:
        self.text = text
        self.read_as = read_as
        self.characters = characters
        self.length = size(len(text))
        self.classes = classes
        self.levels = levels

    def line(self, buffers: Buffers, paragraph: Any, start: int, end: int) -> Tuple[int, str]:
        """Writes the visual runs of a line to the buffers. Returns their number, and the characters from left to right.

        ``paragraph`` is a pointer to the paragraph of the line. The buffers have room for the characters of the line. The
        characters are those of ``read_as``, not mirrored.
        """
        length = self.length
        runs = buffers.runs
        count: int = library.show_line(
            self.characters, length, self.classes, length, self.levels, length, paragraph, size(start), size(end),
            *NOTHING, runs.pointer, runs.room, *NOTHING,
            buffers.shown_pointer, buffers.shown_room, buffers.characters_pointer)
        if count == _NO_ROOM:  # for the runs: the first call counts them
            buffers.runs = Ranges(0)
            buffers.runs = Ranges(self.line(buffers, paragraph, start, end)[0])
            return self.line(buffers, paragraph, start, end)
        return checked(count), buffers.shown[: end - start]

    def levels_of_line(self, paragraph: Any, start: int, end: int) -> Iterable[int]:
        """Returns the level of each character of a line after L1."""
        length, room = len(self.text), end - start
        levels = (c_uint8 * room)()
        checked(library.line_levels(self.classes, length, self.levels, length, paragraph, start, end, levels, room))
        return levels

    def order(self, paragraph: Any, start: int, end: int) -> Iterable[int]:
        """Returns the index in the text of the character at each visual position of a line."""
        length, room = len(self.text), end - start
        order = (c_size_t * room)()
        checked(library.line_map(self.characters, length, self.classes, length, self.levels, length, paragraph, start, end,
                                 order, room))
        return [start + index for index in order]

    def display_line(self, paragraph: Any, runs: Sequence[RangeTuple], shown: str, start: int, mirror: bool,
                     keep: bool) -> str:
        """Returns the text of a line from left to right, from the runs and characters that ``line`` found.

        With ``mirror``, characters at odd levels are mirrored (L4). Without ``keep``, those that X9 removes are left out.
        """
        end = start + len(shown)
        if mirror:
            shown = _mirrored(shown, runs)
        keep = keep or _REMOVED.search(self.classes, start, end) is None
        if keep and self.read_as is self.text:
            return shown
        order = self.order(paragraph, start, end)
        shown = restored(shown, order, self.text, self.read_as)
        return shown if keep else without_removed(shown, bytes(self.classes[index] for index in order))


def _mirrored(shown: str, runs: Sequence[RangeTuple]) -> str:
    """Returns a displayed line with the characters of its runs at odd levels mirrored (L4)."""
    mirrored = shown.translate(MIRRORED)
    if mirrored == shown:
        return shown
    pieces = []
    at = 0
    for start, end, level in runs:
        after = at + end - start
        pieces.append((mirrored if level % 2 else shown)[at:after])
        at = after
    return "".join(pieces)
