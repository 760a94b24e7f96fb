"""Numbers of callers as arguments of C. A number that has no place in C becomes one that C rejects."""
from __future__ import annotations

import operator
from typing import Iterable, Optional

from . import _library as library
from .faults import BadBaseLevelError, BadSplitError

#: The greatest size.
MOST_SIZE = library.NOWHERE


def limited(number: int, most: int) -> int:
    """Returns a number from 0 up to ``most``. Any other number becomes ``most``."""
    number = operator.index(number)
    return number if 0 <= number <= most else most


def bytes_of(numbers: Iterable[int]) -> bytes:
    """Returns the numbers of classes or of levels."""
    return bytes(limited(number, 255) for number in numbers)


def base_number(base_level: Optional[int], fallback: int) -> int:
    """Returns the number of a base level. With None each paragraph finds its own, or has the fallback."""
    if operator.index(fallback) not in (0, 1):
        raise BadBaseLevelError("a fallback must be 0 or 1")
    if base_level is None:
        return library.AUTO_RTL if fallback else library.AUTO
    base = operator.index(base_level)
    if not 0 <= base <= library.MAX_BASE_LEVEL:
        raise BadBaseLevelError
    return base


def split_number(split: int) -> int:
    """Returns the number of a split rule."""
    number = operator.index(split)
    if not 0 <= number <= 255:
        raise BadSplitError
    return number
