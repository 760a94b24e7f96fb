#!/usr/bin/env python3
"""Measures get_display, displayed_text, BidiText and a line beside python-bidi 0.4.2, in one run, in microseconds a call.

Each number is the minimum of several rounds in which the calls take turns. python-bidi is left out if it is not
installed (apt-get install python3-bidi). One ctypes call with one argument is measured too, and the call of C that
get_display makes, because these are the floor of this package.
"""
from __future__ import annotations

import argparse
import platform
import time
from typing import Any, Callable, Dict, List, Tuple

from unicode_bidi import BidiText, _buffers, _library, displayed_text, get_base_level, get_display

try:
    from bidi.algorithm import get_display as other_get_display
except ImportError:
    other_get_display = None

ROUNDS = 15
SECONDS = 0.02

TEXTS = {
    "20 characters of Hebrew": "שלום עולם, מה שלומך?",
    "20 characters, three runs": "שלום (abc) עולם 12 א",
    "20 characters of ASCII": "The train leaves now",
    "200 characters of Hebrew": "שלום עולם, מה שלומך? " * 9 + "שלום לכולם!",
    "2000 characters of Hebrew": "שלום עולם, מה שלומך? " * 95 + "שלום.",
}


def seconds_of(call: Callable[[], Any], times: int) -> float:
    """Returns how long one call takes, by the time of several."""
    begin = time.perf_counter()
    for _ in range(times):
        call()
    return (time.perf_counter() - begin) / times


def measured(calls: Dict[str, Callable[[], Any]]) -> List[Tuple[str, float]]:
    """Returns the microseconds of each call, the minimum of all rounds."""
    times = {name: max(1, int(SECONDS / max(seconds_of(call, 3), 1e-9))) for name, call in calls.items()}
    best = {name: float("inf") for name in calls}
    for _ in range(ROUNDS):
        for name, call in calls.items():
            best[name] = min(best[name], seconds_of(call, times[name]))
    return [(name, 1e6 * seconds) for name, seconds in best.items()]


#: Mirrored, without the direction controls and the characters of class BN.
_FLAGS_OF_GET_DISPLAY = _library.MIRROR + 16


def calls_of(text: str) -> Dict[str, Callable[[], Any]]:
    """Returns the calls that are measured for a text."""
    analysed = BidiText(text)
    characters, length = text.encode("utf-32-le"), _library.size(len(text))
    last = _buffers.Buffers(len(text)).text_arguments
    calls: Dict[str, Callable[[], Any]] = {
        "the call of C in get_display": lambda: _library.display_text(characters, length, _library.AUTO, 2,
                                                                      _FLAGS_OF_GET_DISPLAY, *last),
        "get_display": lambda: get_display(text),
        "displayed_text": lambda: displayed_text(text),
        "get_base_level": lambda: get_base_level(text),
        "BidiText(text)": lambda: BidiText(text),
        "BidiText(text).display()": lambda: BidiText(text).display(),
        "line(..), runs": lambda: analysed.line(0, len(text)).runs,
    }
    if other_get_display is not None:
        calls["python-bidi get_display"] = lambda: other_get_display(text)
    return calls


def main() -> None:
    """Prints the table."""
    argparse.ArgumentParser(description=__doc__, formatter_class=argparse.RawDescriptionHelpFormatter).parse_args()
    print(f"Python {platform.python_version()}, microseconds a call")
    print(f"one ctypes call: {measured({'': lambda: _library.mirrored(0x28)})[0][1]:.2f}")
    for label, text in TEXTS.items():
        print(f"{label}:")
        for name, microseconds in measured(calls_of(text)):
            print(f"  {microseconds:9.2f}  {name}")


if __name__ == "__main__":
    main()
