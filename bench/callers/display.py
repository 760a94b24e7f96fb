"""Displays texts with get_display, as bench/languages asks: display.py MODULE TEXT..

MODULE is unicode_bidi, or bidi.algorithm for python-bidi. turns.h says what the program reads and writes.
"""
import importlib
import pathlib
import sys

# The timer of the measurements in packages/python.
sys.path.insert(0, str(pathlib.Path(__file__).resolve().parents[2] / "packages" / "python"))
from bench import seconds_of


def main():
    get_display = importlib.import_module(sys.argv[1]).get_display
    texts = [pathlib.Path(name).read_text(encoding="utf-8") for name in sys.argv[2:]]
    for text in texts:
        print(*(f"{ord(character):x}" for character in get_display(text)), flush=True)
    for line in sys.stdin:
        index, times = map(int, line.split())
        text = texts[index]
        print(round(1e9 * times * seconds_of(lambda: get_display(text), times)), flush=True)


main()
