"""The buffers that the calls of C write, kept for later calls.

ctypes lets other threads run during a call of C. So no two threads may share a buffer. A thread takes buffers with
``borrow`` and puts them back with ``give_back``. While they are taken, other threads get others, and so does a signal
handler that runs in the same thread.
"""
from __future__ import annotations

import struct
from ctypes import byref, c_size_t, c_uint8, c_void_p, c_wchar, sizeof
from typing import Any, Callable, List, Sequence, Tuple

from ._library import Range, free, size

#: A range of characters and its level, as C writes it.
RangeTuple = Tuple[int, int, int]

#: Buffers begin with room for so many characters, and double when a text needs more.
LEAST_ROOM = 64
#: Buffers for longer texts are not kept.
MOST_KEPT = 1 << 16

_RANGE = struct.Struct("@NNB7x")
assert _RANGE.size == sizeof(Range)
assert sizeof(c_wchar) == 4, "a wide character of C is a character of UTF-32"


class Ranges:
    """A buffer for paragraphs or runs. With room for none, a call of C only counts them."""

    __slots__ = ("pointer", "room", "_array", "_bytes")

    def __init__(self, room: int) -> None:
        self._array = (Range * max(room, 1))()
        self.pointer = byref(self._array)
        self.room = size(room)
        self._bytes = memoryview(self._array).cast("B")

    def pointer_to(self, index: int) -> Any:
        """Returns a pointer to one range, as an argument of C."""
        return byref(self._array, index * _RANGE.size) if index else self.pointer

    def read(self, count: int) -> Sequence[RangeTuple]:
        """Returns the first ranges, each as its start, its end and its level."""
        ranges: Any = _RANGE.iter_unpack(self._bytes[: count * _RANGE.size])
        return tuple(ranges)


def new_sizes(count: int) -> Tuple[Any, memoryview]:
    """Returns a buffer for so many sizes: a pointer as an argument of C, and a view of the sizes."""
    sizes = (c_size_t * max(count, 1))()
    return byref(sizes), memoryview(sizes).cast("B").cast("N")[:count]


_nothing = c_size_t()
#: A pointer and the length 0, as arguments of C: for a list that is empty, or that C is not to write.
NOTHING = (byref(_nothing), size(0))


class Buffers:
    """What an analysis and a displayed line need: room for the classes, levels and characters of a text.

    A part of ``shown`` is a ``str`` of displayed characters. The pointers, and ``shown_room``, are arguments of C.
    ``text_arguments`` are the last arguments of a displayed text that is wanted without levels and maps. ``analyser`` is
    an analyser of C, which keeps the memory of its lists.
    """

    __slots__ = ("analyser", "room", "shown_room", "classes", "classes_pointer", "levels", "levels_pointer", "shown",
                 "shown_pointer", "characters_pointer", "text_arguments", "paragraphs", "runs")

    def __init__(self, room: int) -> None:
        self.analyser = byref(c_void_p())
        self.paragraphs = Ranges(4)
        self.runs = Ranges(16)
        self.characters_pointer = byref(c_size_t())
        self.make_room(room)

    def __del__(self, free: Callable[[Any], None] = free) -> None:
        free(self.analyser)

    def make_room(self, room: int) -> None:
        """Makes new buffers for the characters of a text."""
        classes, levels, self.shown = (c_uint8 * room)(), (c_uint8 * room)(), (c_wchar * (2 * room))()
        self.room = room
        self.classes, self.classes_pointer = memoryview(classes).cast("B"), byref(classes)
        self.levels, self.levels_pointer = memoryview(levels).cast("B"), byref(levels)
        self.shown_pointer, self.shown_room = byref(self.shown), size(2 * room)
        self.text_arguments = (*NOTHING, self.shown_pointer, self.shown_room, *NOTHING, *NOTHING, byref(c_size_t()),
                               self.characters_pointer)


#: The buffers that are not in use. A thread takes or adds one in a single step, in which no other thread runs.
_spare: List[Buffers] = []


def borrow(length: int) -> Buffers:
    """Returns buffers with room for a text of so many characters. The caller gives them back."""
    if length > MOST_KEPT:
        return Buffers(length)
    try:
        buffers = _spare.pop()
    except IndexError:
        buffers = Buffers(LEAST_ROOM)
    if buffers.room < length:
        room = buffers.room
        while room < length:
            room *= 2
        buffers.make_room(room)
    return buffers


def give_back(buffers: Buffers) -> None:
    """Keeps buffers for a later call."""
    if buffers.room <= MOST_KEPT:
        _spare.append(buffers)
