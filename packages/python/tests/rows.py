"""Reads the shared test vectors, ``crates/bidi_vectors/data/*.rows``, and those of displayed lines,
``crates/bidi_vectors_display/data/*.rows``. The README in each folder says what a row has."""
import pathlib
import re

CRATES = pathlib.Path(__file__).resolve().parents[3] / "crates"
FOLDER = CRATES / "bidi_vectors" / "data"
DISPLAYED = CRATES / "bidi_vectors_display" / "data"


class Row:
    """A row: its kind, its name, and its fields in order."""

    def __init__(self, file, line, kind, name):
        self.place = f"{file}:{line}: {name}"
        self.kind = kind
        self.name = name
        self.fields = []

    def get(self, key, default=None):
        """Returns the value of a field, or a default if the row does not have it."""
        return next((value for name, value in self.fields if name == key), default)

    def words(self, key):
        """Returns the words of a field, each as often as it is repeated, or None if the row does not have it."""
        value = self.get(key)
        return None if value is None else expanded(value)

    def range(self, key):
        """Returns the range of a field, such as ``2..5``, or None."""
        value = self.get(key)
        return None if value is None else tuple(map(int, value.split("..")))

    def text(self, key="text"):
        """Returns the text of a field, or None."""
        words = self.words(key)
        return None if words is None else "".join(map(character, words))


def rows(file, folder=FOLDER):
    """Returns the rows of a file."""
    found = []
    for number, line in enumerate((folder / file).read_text(encoding="ascii").splitlines(), 1):
        line = line.strip()
        begin = re.match(r"\[([^]]*)\] (.*)", line)
        if begin:
            found.append(Row(file, number, *begin.groups()))
        elif line and not line.startswith("#"):
            key, _, value = line.partition(":")
            found[-1].fields.append((key.strip(), value.strip()))
    return found


def expanded(value):
    """Returns the words of a value: ``3*PDI.L`` stands for the words PDI and L three times."""
    words = []
    for word in value.split():
        times, star, repeated = word.partition("*")
        if not star or not times.isdigit() or not repeated:
            words.append(word)
        elif len(repeated) == 1:
            words.extend([repeated] * int(times))
        else:
            words.extend(repeated.split(".") * int(times))
    return words


def character(word):
    """Returns the character that a word stands for."""
    return word if len(word) == 1 else chr(int(word[2:], 16))
