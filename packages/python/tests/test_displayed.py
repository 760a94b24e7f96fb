"""Displayed lines and texts, paragraphs, and classes without a text: results worked by hand from UAX #9."""
import unittest

from unicode_bidi import (
    AnalysedClasses,
    BidiClass,
    BidiText,
    Bracket,
    DisplayedLine,
    DisplayedText,
    Dropped,
    FoundParagraphs,
    Maps,
    Moves,
    Paragraph,
    Split,
    analyse_classes,
    displayed_text,
    find_paragraphs,
    line_order,
    places,
)

L, R, EN, NSM, ON, B = (BidiClass[name] for name in ("L", "R", "EN", "NSM", "ON", "B"))
#: A letter with a point, a mark (RLM), and brackets. At base level 1 only the first character has level 2.
TEXT = "a (\u05d0\u05b8\u200f\u05d1)"


class Displayed(unittest.TestCase):
    def test_text(self):
        """L4 mirrors the brackets. L3 keeps the point behind its letter. The mark is not displayed."""
        levels = (2,) + (1,) * 7
        order, places_in_it = (7, 6, 3, 4, 2, 1, 0), (6, 5, 4, 2, 3, None, 1, 0)
        self.assertEqual(DisplayedText("(\u05d1\u05d0\u05b8) a", levels, order, places_in_it), displayed_text(TEXT, 1))
        plain = displayed_text(TEXT, 1, moves=Moves.CHARACTERS, mirror=False, dropped=Dropped.NOTHING)
        self.assertEqual((TEXT[::-1], levels, tuple(range(8))[::-1], tuple(range(8))[::-1]), plain)

    def test_line(self):
        """Both maps have the indexes that other parts of a line have: the order those of the whole text."""
        line = BidiText(TEXT, 1).line(3, 7)
        self.assertEqual(DisplayedLine("\u05d1\u05d0\u05b8", (6, 3, 4), (1, 2, None, 0)), line.displayed())
        plain = line.displayed(moves=Moves.CHARACTERS, mirror=False, dropped=Dropped.NOTHING)
        self.assertEqual((line.order, (3, 2, 1, 0)), (plain.order, plain.places))
        self.assertEqual(("", (), ()), BidiText(TEXT, 1).line(3, 3).displayed())

    def test_paragraphs_of_a_text(self):
        """Each paragraph is a line. Its separator stays behind it, and L1 gives it the level of the paragraph."""
        order = (1, 0, 2, 3, 5, 4, 6)
        self.assertEqual(DisplayedText("b\u05d0\r\n!\u05d1\n", (1, 2, 1, 1, 1, 1, 1), order, order),
                         displayed_text("\u05d0b\r\n\u05d1!\n"))
        self.assertEqual(("", (), (), ()), displayed_text(""))

    def test_fallback(self):
        """P3: digits decide nothing."""
        self.assertEqual(["1.", ".1", "1."], [displayed_text("1.", fallback=number).text for number in (0, 1, 0)])
        self.assertEqual([0, 1], [BidiText("1.", fallback=number).paragraphs[0].level for number in (0, 1)])
        self.assertEqual([0, 1], [find_paragraphs("1.", fallback=number).paragraphs[0].level for number in (0, 1)])
        self.assertEqual([0, 1], [analyse_classes([EN], fallback=number).paragraphs[0].level for number in (0, 1)])
        self.assertEqual(0, BidiText("a", fallback=1).paragraphs[0].level)
        self.assertEqual(2, BidiText("1", 2, fallback=1).paragraphs[0].level)

    def test_lone_surrogates(self):
        """They are displayed as themselves, also where the characters move."""
        found = displayed_text("\u05d0\ud800\udc00\u05d1", moves=Moves.CHARACTERS)
        self.assertEqual(("\u05d1\udc00\ud800\u05d0", (3, 2, 1, 0)), (found.text, found.order))
        self.assertEqual("\u05d1\ud800", BidiText("\u05d0\ud800\u05d1").line(1, 3).displayed().text)

    def test_long_texts(self):
        for count in (63, 64, 65, 70000):
            found = displayed_text("\u05d0" * count + "\n" + "ab")
            self.assertEqual((*range(count)[::-1], count, count + 1, count + 2), found.order)
            self.assertEqual(found.order, found.places)


class Lists(unittest.TestCase):
    def test_paragraphs(self):
        """P1 to P3. X5c: the FSI has the class of an isolate of its first strong character."""
        found = find_paragraphs("\u2068\u05d0\u2069a\r\n1\u05d0")
        self.assertEqual((Paragraph(0, 6, 0), Paragraph(6, 8, 1)), found.paragraphs)
        self.assertEqual((BidiClass.RLI, R, BidiClass.PDI, L, B, B, EN, R), found.classes)
        self.assertEqual(3, len(find_paragraphs("a\r\nb", split=Split.EACH_SEPARATOR).paragraphs))
        self.assertEqual(FoundParagraphs((), ()), find_paragraphs(""))
        self.assertEqual(FoundParagraphs((Paragraph(0, 0, 1),), ()), find_paragraphs("", 1, split=Split.ONE_PARAGRAPH))
        self.assertEqual(1000, len(find_paragraphs("\n" * 1000).paragraphs))

    def test_classes(self):
        """N0c: a pair that encloses an L behind an L is L. Without brackets, N2 gives the last character the level 1."""
        classes = [L, ON, L, ON]
        brackets = [None, Bracket("(", True), None, Bracket("(", False)]
        self.assertEqual(AnalysedClasses(tuple(classes), (2, 2, 2, 2), (Paragraph(0, 4, 1),)),
                         analyse_classes(classes, brackets, 1))
        for none in (None, [], [None] * 4, [None, Bracket("[", True), None, Bracket("(", False)]):
            self.assertEqual((2, 2, 2, 1), analyse_classes(classes, none, 1).levels)
        self.assertEqual(((), (), ()), analyse_classes([]))

    def test_split_of_classes(self):
        """P1: a paragraph ends after each B, unless the list is one paragraph."""
        self.assertEqual((Paragraph(0, 2, 0), Paragraph(2, 3, 1)), analyse_classes([L, B, R]).paragraphs)
        self.assertEqual((Paragraph(0, 3, 0),), analyse_classes([L, B, R], split=Split.ONE_PARAGRAPH).paragraphs)

    def test_line_order(self):
        """L3: the marks of a letter stay behind it. L1 gives the space at the end the level of the paragraph."""
        classes, levels = [R, R, NSM, NSM, R], [1] * 5
        paragraph = Paragraph(0, 5, 1)
        order = (4, 1, 2, 3, 0)
        self.assertEqual(Maps(order, order), line_order(classes, levels, paragraph, 0, 5, moves=Moves.MARKS))
        self.assertEqual(Maps((3, 2, 1), (2, 1, 0)), line_order(classes, levels, paragraph, 1, 4))
        spaced = [L, R, R, BidiClass.WS]
        self.assertEqual((0, 2, 1, 3), line_order(spaced, [0, 1, 1, 1], Paragraph(0, 4, 0), 0, 4).order)
        self.assertEqual(Maps((), ()), line_order(classes, levels, paragraph, 2, 2))

    def test_places(self):
        """What the order does not have has no place, and what it has twice has the first one."""
        self.assertEqual((1, None, 0, None), places([2, 0, 2, 9], 4))
        self.assertEqual((None, None), places([], 2))
        self.assertEqual((), places([1, 0], 0))
        self.assertEqual((None, 1), places([2 ** 64, 1], 2))


if __name__ == "__main__":
    unittest.main()
