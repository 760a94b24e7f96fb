"""What is displayed: the options, the results, and the buffers that C writes."""
from __future__ import annotations

import enum
import operator
from ctypes import byref, c_size_t, c_wchar
from typing import Any, List, NamedTuple, Optional, Tuple

from ._analysis import restored
from ._buffers import new_sizes
from ._library import MIRROR, NOWHERE, size
from .faults import BadFlagsError

#: The visual index of each character, or None for a character that is not displayed.
Places = Tuple[Optional[int], ...]


class Moves(enum.IntEnum):
    """What L2 moves as a whole. The characters of a cluster stay in the order of the text, at every level."""

    #: Each character (L2).
    CHARACTERS = 0
    #: A character with the nonspacing marks (NSM) that follow it at its level (L3).
    MARKS = 1
    #: A grapheme cluster (UAX #29) of the displayed characters.
    CLUSTERS = 2


class Dropped(enum.IntEnum):
    """Which characters are not displayed.

    The twelve direction controls are ALM, LRM, RLM, LRE, RLE, PDF, LRO, RLO, LRI, RLI, FSI and PDI. Class BN has ZWJ and
    ZWNJ too, which emoji and Persian words need.
    """

    #: All characters are displayed.
    NOTHING = 0
    #: The twelve direction controls.
    CONTROLS = 8
    #: The same and the characters of class BN.
    BOUNDARY_NEUTRALS = 16


class DisplayedLine(NamedTuple):
    """A displayed line, from :meth:`Line.displayed`."""

    #: The displayed characters from left to right.
    text: str
    #: The index in the whole text of the character at each visual index.
    order: Tuple[int, ...]
    #: The visual index of each character of the line, or None if it is not displayed.
    places: Places


class DisplayedText(NamedTuple):
    """A displayed text, from :func:`displayed_text`."""

    #: The displayed characters from left to right, one paragraph after another.
    text: str
    #: The level of each character after L1.
    levels: Tuple[int, ...]
    #: The index of the character at each visual index.
    order: Tuple[int, ...]
    #: The visual index of each character, or None if it is not displayed.
    places: Places


#: The flags of a displayed line, by ``moves``, ``mirror`` and ``dropped``.
_FLAGS = {(moves, mirror, dropped): moves + MIRROR * mirror + dropped
          for moves in Moves for mirror in (False, True) for dropped in Dropped}


def flags_of(moves: int, mirror: bool, dropped: int) -> int:
    """Returns the flags of a displayed line, or raises :class:`BadFlagsError`."""
    flags = _FLAGS.get((operator.index(moves), bool(mirror), operator.index(dropped)))
    if flags is None:
        raise BadFlagsError
    return flags


def places_of(places: List[int]) -> Places:
    """Returns places that C wrote."""
    if NOWHERE not in places:
        return tuple(places)
    return tuple(None if place == NOWHERE else place for place in places)


class Displayed:
    """Buffers for what is displayed of so many characters. ``arguments`` are the last arguments of C."""

    def __init__(self, count: int) -> None:
        self._text, self._shown = (c_wchar * (2 * count))(), c_size_t()
        order, self._order = new_sizes(count)
        places, self._places = new_sizes(count)
        length = size(count)
        self.arguments: Tuple[Any, ...] = (byref(self._text), size(2 * count), order, length, places, length,
                                           byref(self._shown), byref(c_size_t()))

    def order(self, start: int = 0) -> Tuple[int, ...]:
        """Returns the index in a text of each displayed character. The first character that C read has index ``start``."""
        order = self._order[: self._shown.value].tolist()
        return tuple([start + index for index in order] if start else order)

    def places(self) -> Places:
        """Returns the visual index of each character."""
        return places_of(self._places.tolist())

    def text(self, order: Tuple[int, ...], text: str, read_as: str) -> str:
        """Returns the displayed characters in an order. Those of ``text`` stand where C read ``read_as`` instead."""
        shown = self._text[: len(order)]
        return shown if read_as is text else restored(shown, order, text, read_as)
