"""The shared library, loaded once, with the calls that the package makes.

``unicode_bidi.h`` describes each call. The calls without types here have no ``argtypes``, because it takes longer to
convert their arguments than to run them. Pass these as ``size`` and ``byref`` return them, as bytes, or, where C takes a
number that is no size, as a number up to 255.
"""
from __future__ import annotations

import ctypes
import os
from ctypes import c_int64, c_size_t, c_uint8, c_uint32, c_void_p
from typing import Any, Callable, Optional

from ._machine import problem_here, problem_of_loader

#: The library, next to this module.
PATH = os.path.join(os.path.dirname(os.path.abspath(__file__)), "libunicode_bidi.so")

#: The base levels with which each paragraph finds its own (P2, P3). If no character decides, it is 0 or 1.
AUTO, AUTO_RTL = 255, 253
#: The greatest base level.
MAX_BASE_LEVEL = 125
#: The bit of a bracket that opens.
OPENING = 0x80000000
#: The flag with which characters at odd levels are mirrored (L4).
MIRROR = 4
#: In place of the visual index of a character that is not displayed.
NOWHERE = c_size_t(-1).value


#: Converts a number to an argument of type size_t, once for many calls.
size: Callable[[int], Any] = c_size_t.from_param


class Range(ctypes.Structure):
    """A paragraph or a visual run of C: a range of characters, and its level."""

    _fields_ = [("start", c_size_t), ("end", c_size_t), ("level", c_uint8)]


class ClassRange(ctypes.Structure):
    """A range of characters that have one class, ``last`` included."""

    _fields_ = [("first", c_uint32), ("last", c_uint32), ("class_number", c_uint8)]


class BracketPair(ctypes.Structure):
    """A pair of brackets, and the normal form that they pair by."""

    _fields_ = [("opening", c_uint32), ("closing", c_uint32), ("normal_form", c_uint32)]


def _loaded() -> ctypes.CDLL:
    problem: Optional[str] = problem_here()
    if problem is None:
        try:
            return ctypes.CDLL(PATH)
        except OSError as error:
            problem = problem_of_loader(str(error))
    raise ImportError(problem)


_library = _loaded()


def _call(name: str, *arguments: Any) -> Any:
    call = _library["unicode_bidi_" + name]
    call.restype = c_int64
    if arguments:
        call.argtypes = arguments
    return call


_text = (c_void_p, c_size_t)
_tables = (c_void_p, c_size_t, c_void_p, c_size_t)
_line = (c_void_p, c_size_t, c_void_p, c_size_t, c_void_p, c_size_t, c_size_t)

version = _call("version")
unicode_version = _call("unicode_version")
class_of = _call("class_of", c_uint32)
bracket_of = _call("bracket_of", c_uint32)
mirrored = _call("mirrored", c_uint32)
classes = _call("classes_utf32", *_text, c_void_p, c_size_t)
brackets = _call("brackets_utf32", *_text, c_void_p, c_size_t)
first_direction = _call("first_direction_utf32", *_text, c_uint8)
base_direction_by_tables = _call("base_direction_by_tables_utf32", *_tables, *_text, c_uint8)
base_direction_of_classes = _call("base_direction_of_classes", *_text, c_uint8)
analyse_with = _call("analyse_with_utf32")
free = _call("free", c_void_p)
free.restype = None
analyse_by_tables = _call("analyse_by_tables_utf32")
analyse_classes = _call("analyse_classes")
paragraphs = _call("paragraphs_utf32")
line_levels = _call("line_levels", *_line, c_void_p, c_size_t)
line_runs = _call("line_runs", *_line, c_void_p, c_size_t)
line_map = _call("line_map_utf32", *_text, *_line, c_void_p, c_size_t)
show_line = _call("show_line_utf32")
display_line = _call("display_line_utf32")
display_text = _call("display_text_utf32")
line_order = _call("line_order", *_line, c_uint32, c_void_p, c_size_t, c_void_p, c_size_t)
places = _call("places", c_void_p, c_size_t, c_void_p, c_size_t)
reorder_visual = _call("reorder_visual", *_text, c_void_p, c_size_t)


def dotted(number: int) -> str:
    """Returns a version number of C in dotted form: ``"0.1.0"`` for 100."""
    return f"{number // 10000}.{number // 100 % 100}.{number % 100}"
