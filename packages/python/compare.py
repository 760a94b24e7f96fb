#!/usr/bin/env python3
"""Compares get_display and get_base_level with those of python-bidi 0.4.2, on random texts.

Each text that gives another result is made as short as possible, and gets a reason. For each call and reason the program
prints how many texts had it, and the shortest one with both results. It needs the packages unicode_bidi and bidi (apt-get
install python3-bidi). docs/PYTHON.md explains the differences. They are no faults, so this is not part of the tests.
"""
from __future__ import annotations

import argparse
import random
import sys
import unicodedata
from typing import Callable, Dict, Optional, Tuple

import unicode_bidi
from unicode_bidi import BidiClass, bidi_classes, bracket, mirrored

try:
    import bidi.algorithm as other
    from bidi.mirror import MIRRORED
except ImportError:
    other = None

#: Characters of every class, brackets, and characters that differ between versions of Unicode.
PALETTE = ("abA12 \t\n\r.,:;!?'\"+-/$%#&@=*()[]{}<>\u05d0\u05d1\u0627\u0628\u0660\u0661\u06f1\u0301\u05b7\u064b"
           "\u00ab\u00bb\u2264\u2329\u232a\u3008\u3009\u200b\u200c\u200d\u200e\u200f\u061c\u00ad\u2028\u2029\x0b\x0c\x1c"
           "\x1f\x00\x85\ufeff\u202a\u202b\u202c\u202d\u202e\u2066\u2067\u2068\u2069\u20ac\u2212\U0001e900\U00010800"
           "\u0378\u05ff\u08a0\U0001f600\ud800\ufdd0\u221f\u2208\u226a\u2a7d")
BASES = (None, "L", "R", "AL")

#: Embeddings as deep as the limits of both.
EMBEDDINGS = "\u202a\u202b\u202d\u202e"
ISOLATES = {BidiClass.LRI, BidiClass.RLI, BidiClass.FSI, BidiClass.PDI}

Call = Callable[[str], str]


def result_of(call: Call, text: str) -> str:
    """Returns the result of a call in ASCII, or the name of the exception that it raises."""
    try:
        return ascii(call(text))
    except Exception as error:  # whatever python-bidi raises
        return type(error).__name__


def differs(calls: Tuple[Call, Call], text: str) -> bool:
    """Returns whether two calls give different results for a text."""
    return result_of(calls[0], text) != result_of(calls[1], text)


def shortened(calls: Tuple[Call, Call], text: str) -> str:
    """Returns the text without every character that can go while the results differ."""
    index = 0
    while index < len(text):
        shorter = text[:index] + text[index + 1 :]
        if differs(calls, shorter):
            text, index = shorter, 0
        else:
            index += 1
    return text


def calls_of(base_dir: Optional[str]) -> Tuple[Call, Call]:
    """Returns both calls of get_display with a base direction."""
    return (lambda text: unicode_bidi.get_display(text, base_dir=base_dir),
            lambda text: other.get_display(text, base_dir=base_dir))


def reason_of(text: str) -> str:
    """Returns why the results for a text differ."""
    classes = bidi_classes(text)
    if ISOLATES.intersection(classes):
        return "isolates"
    if any(0xD800 <= ord(character) <= 0xDFFF for character in text):
        return "lone surrogates"
    if any(found.name != unicodedata.bidirectional(character) for found, character in zip(classes, text)):
        return "classes of another version of Unicode"
    if any(mirrored(character) != MIRRORED.get(character, character) or
           (mirrored(character) != character and not unicodedata.mirrored(character)) for character in text):
        return "mirrored characters of another version of Unicode"
    if BidiClass.B in classes:
        return "several paragraphs"
    if sum(character in EMBEDDINGS for character in text) > 25:
        return "deep embeddings"
    if any(map(bracket, text)):
        return "paired brackets (N0)"
    return "other"


def random_text(chance: random.Random, most: int) -> str:
    """Returns a random text of up to so many characters, and sometimes of many embeddings before them."""
    text = "".join(chance.choices(PALETTE, k=chance.randint(1, most)))
    return "".join(chance.choices(EMBEDDINGS, k=chance.randint(55, 130))) + text if chance.random() < 0.05 else text


def main() -> None:
    """Compares as many texts as the arguments say, and prints the shortest differences."""
    parser = argparse.ArgumentParser(description=__doc__, formatter_class=argparse.RawDescriptionHelpFormatter)
    parser.add_argument("--texts", type=int, default=20000, help="the number of texts (20000)")
    parser.add_argument("--most", type=int, default=12, help="the most characters of a text (12)")
    parser.add_argument("--seed", type=int, default=1, help="the seed of the random texts (1)")
    arguments = parser.parse_args()
    if other is None:
        sys.exit("compare.py: python-bidi is not installed: apt-get install python3-bidi")
    chance = random.Random(arguments.seed)
    found: Dict[Tuple[str, str], Tuple[int, str, str, Tuple[Call, Call]]] = {}
    equal = 0
    for _ in range(arguments.texts):
        text = random_text(chance, arguments.most)
        base_dir = chance.choice(BASES)
        name, shown, calls = "get_display", f", base_dir={base_dir!r}", calls_of(base_dir)
        if chance.random() < 0.1:
            name, shown, calls = "get_base_level", "", (unicode_bidi.get_base_level, other.get_base_level)
        if not differs(calls, text):
            equal += 1
            continue
        short = shortened(calls, text)
        key = name, reason_of(short)
        count, shortest, shown_of_shortest, calls_of_shortest = found.get(key, (0, short, shown, calls))
        if len(short) <= len(shortest):
            shortest, shown_of_shortest, calls_of_shortest = short, shown, calls
        found[key] = count + 1, shortest, shown_of_shortest, calls_of_shortest
    print(f"{arguments.texts} texts, {equal} with the same result")
    for (name, reason), (count, short, shown, calls) in sorted(found.items()):
        ours, theirs = (result_of(call, short) for call in calls)
        print(f"{reason}: {count} texts: {name}({short!a}{shown}) returns {ours}, and that of python-bidi {theirs}")


if __name__ == "__main__":
    main()
