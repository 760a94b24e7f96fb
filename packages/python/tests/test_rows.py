"""Runs the shared test vectors that are about calls of this package.

Prints how many it ran of each file, and the kinds that it left out.
"""
import collections
import re
import unittest

from rows import DISPLAYED, FOLDER, character, rows
from unicode_bidi import (
    BadRangesError,
    BidiClass,
    BidiText,
    Bracket,
    Direction,
    Dropped,
    Moves,
    Split,
    Tables,
    analyse_classes,
    base_direction,
    base_direction_of_classes,
    bidi_class,
    bidi_classes,
    bracket,
    brackets,
    displayed_text,
    find_paragraphs,
    get_display,
    line_order,
    mirrored,
    places,
    reorder_visual,
)

SPLITS = {"each-separator": Split.EACH_SEPARATOR, "cr-lf-together": Split.CR_LF_TOGETHER, "whole": Split.ONE_PARAGRAPH}
DIRECTIONS = {"ltr": Direction.LTR, "rtl": Direction.RTL, "mixed": Direction.MIXED}
#: A character of each class in the sample, in the order of the classes.
OF_CLASS = "a\u05d0\u06271+$\u0660,\u0301\u00ad\u2029\t !\u202a\u202d\u202b\u202e\u202c\u2066\u2067\u2068\u2069"
#: get_display has these base levels.
DISPLAY_BASES = {"auto": None, "0": "L", "1": "R"}
REMOVED = {BidiClass.BN, BidiClass.LRE, BidiClass.LRO, BidiClass.RLE, BidiClass.RLO, BidiClass.PDF}
SURROGATE = re.compile("[\ud800-\udfff]")
MOVES = {"characters": Moves.CHARACTERS, "marks": Moves.MARKS, "clusters": Moves.CLUSTERS}
DROPPED = {"nothing": Dropped.NOTHING, "controls": Dropped.CONTROLS, "neutrals": Dropped.BOUNDARY_NEUTRALS}

ran = collections.Counter()
ran_kinds = set()


def tearDownModule():
    for (folder, file), count in sorted(ran.items()):
        every = rows(file, folder)
        left_out = ", ".join(sorted({row.kind for row in every if row.kind not in ran_kinds}))
        print(f"{folder.parent.name}/{file}: {count} of {len(every)} rows" + (f", without: {left_out}" if left_out else ""))
    print(f"ok python: {sum(ran.values())} rows")


def number_of(word):
    """Returns the number of a character."""
    return ord(character(word))


class Source:
    """The classes and brackets that a row of kind source describes."""

    def __init__(self, row):
        self.ranges, self.pairs = [], []
        for key, value in row.fields:
            words = value.split()
            if key == "range":
                first, last = (int(end[2:], 16) for end in words[0].split(".."))
                self.ranges.append((first, last, BidiClass[words[1]]))
            elif key == "bracket":
                opening, closing = map(number_of, words[:2])
                self.pairs.append((opening, closing, number_of(words[2]) if len(words) > 2 else opening))

    def tables(self):
        return Tables(self.ranges, self.pairs)

    def class_of(self, found):
        """Returns the class of a character. A lone surrogate is U+FFFD."""
        number = 0xFFFD if SURROGATE.match(found) else ord(found)
        return next((kind for first, last, kind in self.ranges if first <= number <= last), BidiClass.L)

    def bracket_of(self, found):
        """Returns the bracket that a character is, or None."""
        return next((Bracket(chr(normal_form), ord(found) == opening) for opening, closing, normal_form in self.pairs
                     if ord(found) in (opening, closing)), None)


def read_sources():
    """Returns each source without a fault, by its name."""
    return {row.name: Source(row) for row in rows("sources.rows")
            if row.kind == "source" and row.get("fault", "none") == "none"}


def base_of(row):
    """Returns the base level of a row, or None."""
    base = row.get("base", "auto")
    return None if base == "auto" else int(base)


def options_of(row):
    """Returns the options of a displayed line as named arguments."""
    return {"moves": MOVES[row.get("moves", "clusters")], "dropped": DROPPED[row.get("dropped", "controls")]}


def text_of(row):
    """Returns the text of a row. If the row has ``types`` instead, returns a character of each class."""
    text = row.text()
    return "".join(OF_CLASS[number] for number in types_of(row)) if text is None else text


def types_of(row):
    """Returns the classes that a row has in place of a text, or None."""
    words = row.words("types")
    return None if words is None else [BidiClass[word] for word in words]


def brackets_of(row, key):
    """Returns the brackets of a field, as ``brackets`` returns them, or None if the row does not have it."""
    words = row.words(key)
    if words is None:
        return None
    found = []
    waiting = iter(words)
    for word in waiting:
        found.append(None if word == "none" else (character(next(waiting)), {"opens": True, "closes": False}[word]))
    return tuple(found)


class Rows(unittest.TestCase):
    """Each test runs the rows of some kinds."""

    @classmethod
    def setUpClass(cls):
        cls.sources = read_sources()

    def each(self, file, see, *kinds, folder=FOLDER):
        """Calls ``see`` with each row of these kinds, and counts it."""
        found = [row for row in rows(file, folder) if row.kind in kinds]
        self.assertTrue(found, f"no row of {kinds} in {file}")
        ran_kinds.update(kinds)
        for row in found:
            with self.subTest(row=row.place):
                ran[folder, file] += 1
                see(row)

    def source(self, row):
        return self.sources[row.get("source", "sample")]

    def tables(self, row):
        return self.source(row).tables()

    def analysed(self, row, split):
        return BidiText(text_of(row), base_of(row), split=split, tables=self.tables(row))

    def compare(self, row, key, found):
        """Compares a field, if the row has it, with what was found. A dash fits anything."""
        wanted = row.words(key)
        if wanted is not None:
            found = [item.name if isinstance(item, BidiClass) else str(item) for item in found]
            self.assertEqual(len(wanted), len(found), key)
            self.assertEqual(wanted, ["-" if want == "-" else have for want, have in zip(wanted, found)], key)

    def test_sources(self):
        self.each("sources.rows", self.see_source, "source")

    def see_source(self, row):
        if row.get("fault", "none") == "none":
            Source(row).tables()
        else:
            with self.assertRaises(BadRangesError):
                Source(row).tables()

    def test_texts(self):
        for file in ("texts.rows", "limits.rows"):
            self.each(file, self.see_text, "text")

    def see_text(self, row):
        split = SPLITS[row.get("split", "each-separator")]
        text = self.analysed(row, split)
        self.see_analysis(row, text)
        if split != Split.CR_LF_TOGETHER:  # a list of classes has no CR and no LF
            source = self.source(row)
            self.see_analysis(row, analyse_classes(map(source.class_of, text.text), map(source.bracket_of, text.text),
                                                   base_of(row), split=split))
        self.see_direction_of_classes(row)
        found, analysed = (call(text.text, base_of(row), split=split) for call in (find_paragraphs, BidiText))
        self.assertEqual((analysed.paragraphs, analysed.classes), found)

    def see_analysis(self, row, found):
        self.compare(row, "classes", found.classes)
        self.compare(row, "levels", found.levels)
        self.see_paragraphs(row, found.paragraphs)

    def see_paragraphs(self, row, paragraphs):
        self.compare(row, "paragraphs", [f"{p.start}..{p.end}:{p.level}" for p in paragraphs])

    def see_direction_of_classes(self, row):
        """A text's stored classes have the base direction that the level of its first paragraph shows."""
        classes, paragraphs = row.words("classes"), row.words("paragraphs")
        if row.get("base", "auto") == "auto" and classes and "-" not in classes and paragraphs:
            level = paragraphs[0].rpartition(":")[2]
            found = base_direction_of_classes([BidiClass[name] for name in classes])
            self.assertEqual(level == "1", found == Direction.RTL)

    def test_lines(self):
        self.each("lines.rows", self.see_line, "line")

    def see_line(self, row):
        text = self.analysed(row, Split.EACH_SEPARATOR)
        paragraph = text.paragraphs[0]
        if row.get("paragraph"):
            paragraph = paragraph._replace(level=int(row.get("paragraph")))
        start, end = row.range("line") or (0, len(text.text))
        line = text.line(start, end, paragraph=paragraph)
        self.compare(row, "levels", text.levels)
        self.compare(row, "after", text.levels[:start] + line.levels + text.levels[end:])
        self.compare(row, "runs", [f"{run.start}..{run.end}" for run in line.runs])
        for run in line.runs:
            self.assertEqual({run.level}, set(line.levels[run.start - start : run.end - start]))
        shown = row.text("shown")
        if shown is not None:
            found = line.display(mirror=False)
            self.assertEqual(found, "".join(text.text[index] for index in line.order))
            # In UTF-16 a lone surrogate at an odd level is displayed as U+FFFD. Here it is always itself.
            self.assertEqual(SURROGATE.sub("\ufffd", shown), SURROGATE.sub("\ufffd", found))

    def test_get_display(self):
        """get_display of the lines that are a whole text, have Unicode's classes, and no character that X9 removes."""
        tried = 0
        for row in rows("lines.rows"):
            text, base, shown = row.text(), row.get("base", "auto"), row.text("shown")
            whole = row.range("line") in (None, (0, len(text or "")))
            if not text or not shown or not whole or row.get("paragraph") or base not in DISPLAY_BASES:
                continue
            if BidiText(text, tables=self.tables(row)).classes != BidiText(text).classes:
                continue
            if REMOVED.intersection(bidi_classes(text)) or any(map(bracket, text)) or SURROGATE.search(text):
                continue
            with self.subTest(row=row.place):
                tried += 1
                self.assertEqual(shown, get_display(text, base_dir=DISPLAY_BASES[base]))
        self.assertGreater(tried, 5)

    def test_line_maps(self):
        self.each("layouts.rows", self.see_line_map, "line map")

    def see_line_map(self, row):
        start, end = row.range("line")
        text = self.analysed(row, Split.EACH_SEPARATOR)
        order = [index - start for index in text.line(start, end).order]
        self.compare(row, "order", order)
        self.compare(row, "places", places(order, len(order)))
        maps = line_order(text.classes, text.levels, text.paragraphs[0], start, end)
        self.compare(row, "order", [index - start for index in maps.order])
        self.compare(row, "places", maps.places)

    def test_displayed(self):
        """Displayed lines and texts by Unicode's own data."""
        if not DISPLAYED.is_dir():
            print(f"\nleft out: displayed lines, since {DISPLAYED} is not there")
            return
        for file in ("shown.rows", "clusters.rows", "carets.rows", "breaks.rows"):
            self.each(file, self.see_displayed_line, "displayed line", folder=DISPLAYED)
        self.each("texts.rows", self.see_displayed_text, "displayed text", folder=DISPLAYED)

    def see_displayed_line(self, row):
        text = BidiText(row.text(), base_of(row), split=Split.ONE_PARAGRAPH)
        start, end = row.range("line") or (0, len(text.text))
        line = text.line(start, end)
        self.compare(row, "levels", line.levels)
        shown = row.text("shown")
        if shown is None:
            return
        found = line.displayed(**options_of(row))
        self.see_displayed(text.text, start, end, shown, found)
        if (start, end) == (0, len(text.text)) and BidiClass.B not in text.classes and row.get("base") in DISPLAY_BASES:
            given = get_display(text.text, base_dir=DISPLAY_BASES[row.get("base")], **options_of(row))
            self.assertEqual(shown, SURROGATE.sub("\ufffd", given))

    def see_displayed_text(self, row):
        text = row.text()
        named = {"split": SPLITS[row.get("split", "each-separator")], "fallback": int(row.get("fallback", "0"))}
        found = displayed_text(text, base_of(row), **named, **options_of(row))
        self.see_displayed(text, 0, len(text), row.text("shown"), found)
        analysed = BidiText(text, base_of(row), **named)
        self.assertEqual(found.levels, sum((analysed.line(p.start, p.end).levels for p in analysed.paragraphs), ()))
        self.see_paragraphs(row, analysed.paragraphs)
        self.see_paragraphs(row, find_paragraphs(text, base_of(row), **named).paragraphs)

    def see_displayed(self, text, start, end, shown, found):
        """Compares a displayed text. Both maps must fit it and each other. A lone surrogate is displayed as itself."""
        self.assertEqual(shown, SURROGATE.sub("\ufffd", found.text))
        self.assertEqual(len(shown), len(found.order))
        for index, own in zip(found.order, found.text):
            self.assertIn(own, (text[index], mirrored(text[index])))
        self.assertEqual(places([index - start for index in found.order], end - start), found.places)
        self.assertEqual(end - start - len(shown), found.places.count(None))

    def test_orders(self):
        self.each("orders.rows", self.see_order, "order")

    def see_order(self, row):
        self.compare(row, "order", reorder_visual(map(int, row.words("levels"))))

    def test_base_directions(self):
        self.each("directions.rows", self.see_base_direction, "base direction")

    def see_base_direction(self, row):
        """The characters of these rows have the same classes in the sample as in Unicode's data."""
        text = text_of(row)
        classes = types_of(row) or bidi_classes(text)
        for key, full in (("first", False), ("full", True)):
            wanted = DIRECTIONS[row.get(key)]
            self.assertEqual(wanted, base_direction_of_classes(classes, full=full))
            self.assertEqual(wanted, base_direction(text, full=full))
            self.assertEqual(wanted, base_direction(text, full=full, tables=self.tables(row)))

    def test_character_of_unicode(self):
        self.each("characters.rows", self.see_character, "character of Unicode", "format character")

    def see_character(self, row):
        found = row.text("character")
        if row.get("class"):
            self.assertEqual(row.get("class"), bidi_class(found).name)
            self.assertEqual((bidi_class(found),), bidi_classes(found))
        if row.get("bracket"):
            self.assertEqual(brackets_of(row, "bracket"), (bracket(found),))
            self.assertEqual((bracket(found),), brackets(found))
        if row.get("mirrored"):
            self.assertEqual(found if row.get("mirrored") == "none" else row.text("mirrored"), mirrored(found))

    def test_characters_of_unicode(self):
        self.each("characters.rows", self.see_characters, "characters of Unicode")

    def see_characters(self, row):
        text = row.text()
        self.compare(row, "classes", bidi_classes(text))
        self.compare(row, "classes", map(bidi_class, text))
        self.assertEqual(brackets_of(row, "brackets"), brackets(text))
        self.assertEqual(brackets(text), tuple(map(bracket, text)))

    def test_characters_of_the_sample(self):
        self.each("characters.rows", self.see_character_of_sample, "character")

    def see_character_of_sample(self, row):
        """The class of a character in the tables. Its bracket there has no call."""
        if row.get("class"):
            found = BidiText(row.text("character"), tables=self.tables(row)).classes
            self.assertEqual([row.get("class")], [item.name for item in found])


if __name__ == "__main__":
    unittest.main()
