"""BidiText and its lines: what they have beyond the rows."""
import unittest

from unicode_bidi import (
    BadLineError,
    BidiClass,
    BidiText,
    Paragraph,
    Run,
    Split,
    Tables,
    base_direction,
    bidi_class,
    bidi_classes,
    bracket,
    brackets,
    mirrored,
)

CAR = "car (מכונית) 12"


class Texts(unittest.TestCase):
    def test_levels_and_runs(self):
        """The levels and runs are those of W, N and L rules for this text, and are also on the page."""
        text = BidiText(CAR)
        self.assertEqual(CAR, text.text)
        self.assertEqual((0,) * 5 + (1,) * 6 + (0, 0, 2, 2), text.levels)
        self.assertEqual((BidiClass.L,) * 3, text.classes[:3])
        self.assertEqual((Paragraph(0, 15, 0),), text.paragraphs)
        line, = text.lines()
        self.assertEqual((Run(0, 5, 0), Run(5, 11, 1), Run(11, 13, 0), Run(13, 15, 2)), line.runs)
        self.assertEqual((0, 1, 2, 3, 4, 10, 9, 8, 7, 6, 5, 11, 12, 13, 14), line.order)
        self.assertEqual("car (תינוכמ) 12", line.display())

    def test_paragraphs(self):
        text = BidiText("אב\r\n(c\n", 1)
        self.assertEqual((Paragraph(0, 4, 1), Paragraph(4, 7, 1)), text.paragraphs)
        self.assertEqual([(0, 2), (4, 6)], [(line.start, line.end) for line in text.lines()])
        self.assertEqual("בא\r\nc)\n", text.display())
        self.assertEqual("בא\r\nc(\n", text.display(mirror=False))
        self.assertEqual(3, len(BidiText("אב\r\n(c\n", 1, split=Split.EACH_SEPARATOR).paragraphs))
        self.assertEqual((Paragraph(0, 7, 1),), BidiText("אב\r\n(c\n", split=Split.ONE_PARAGRAPH).paragraphs)

    def test_empty(self):
        self.assertEqual(((), (), (), ""), (lambda t: (t.levels, t.classes, t.paragraphs, t.display()))(BidiText("")))
        with self.assertRaises(BadLineError):
            BidiText("").line(0, 0)
        whole = BidiText("", split=Split.ONE_PARAGRAPH)
        self.assertEqual((Paragraph(0, 0, 0),), whole.paragraphs)
        self.assertEqual(((), (), (), ""), (lambda l: (l.levels, l.runs, l.order, l.display()))(whole.line(0, 0)))

    def test_lines_of_a_text(self):
        """A line finds its paragraph, its indexes are those of the whole text, and its levels are after L1."""
        text = BidiText("abc\nאב גד")
        line = text.line(4, 7)
        self.assertEqual(Paragraph(4, 9, 1), line.paragraph)
        self.assertEqual(("אב ", (1, 1, 1), (6, 5, 4), " בא"), (line.text, line.levels, line.order, line.display()))
        self.assertEqual("", text.line(9, 9).display())
        left = BidiText("אב a", 0)
        self.assertEqual((1, 1, 0), left.line(0, 3).levels)

    def test_removed(self):
        text = BidiText("\u202bא\u200d(\u202c")
        self.assertEqual("א", text.display(keep_removed=False)[-1])
        self.assertEqual(")א", text.display(keep_removed=False))
        self.assertEqual("(א", text.display(mirror=False, keep_removed=False))
        self.assertEqual(sorted(text.text.replace("(", ")")), sorted(text.display()))

    def test_lone_surrogates(self):
        """A lone surrogate has the class of U+FFFD, and is displayed as itself."""
        text = BidiText("א\udce9ב")
        self.assertEqual((BidiClass.R, bidi_class("\ufffd"), BidiClass.R), text.classes)
        self.assertEqual((1, 1, 1), text.levels)
        self.assertEqual("ב\udce9א", text.display())
        self.assertEqual("ב\udce9א", text.line(0, 3).display(mirror=False))
        self.assertEqual((bidi_class("\ufffd"),) * 2, bidi_classes("\ud800\udfff"))
        self.assertEqual((None,), brackets("\ud800"))
        self.assertEqual("\ud800", mirrored("\ud800"))
        self.assertIsNone(bracket("\ud800"))
        self.assertEqual(base_direction("\ufffdא"), base_direction("\ud800א"))

    def test_tables(self):
        """With the caller's own tables, capitals are right-to-left letters."""
        tables = Tables([(0x20, 0x20, BidiClass.WS), (0x41, 0x5A, BidiClass.R)])
        self.assertEqual("CBA a", BidiText("ABC a", 0, tables=tables).display())
        self.assertEqual((BidiClass.L, BidiClass.R), BidiText("aA", tables=tables).classes)

    def test_sharing(self):
        """An object made before other calls keeps what it has."""
        text = BidiText(CAR)
        levels, runs = text.levels, text.lines()[0].runs
        for other in ("א" * 500, "b", ""):
            BidiText(other).display()
        self.assertEqual((levels, runs), (text.levels, text.lines()[0].runs))


if __name__ == "__main__":
    unittest.main()
