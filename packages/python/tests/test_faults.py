"""Each fault is an exception of its own, and after a fault nothing has changed."""
import ctypes
import subprocess
import sys
import unittest

import unicode_bidi
from unicode_bidi import (
    BadBaseLevelError,
    BadBracketError,
    BadClassError,
    BadFlagsError,
    BadLevelError,
    BadLineError,
    BadRangesError,
    BadSplitError,
    BidiError,
    BidiText,
    Bracket,
    CutCharacterError,
    NoMemoryError,
    NoRoomError,
    NotScalarError,
    NotUtf8Error,
    Paragraph,
    Tables,
    UnequalLengthsError,
    UnevenCharacterError,
    _library,
    analyse_classes,
    base_direction_of_classes,
    displayed_text,
    find_paragraphs,
    line_order,
    reorder_visual,
)
from unicode_bidi.faults import checked

#: The faults in the order of their numbers, from -1.
FAULTS = (NoMemoryError, NotUtf8Error, NotScalarError, BadBaseLevelError, BadSplitError, BadClassError, BadLevelError,
          UnequalLengthsError, BadLineError, CutCharacterError, UnevenCharacterError, NoRoomError, BadRangesError,
          BadBracketError, BadFlagsError)
L, R = 0, 1
FAR = 2 ** 64


class Faults(unittest.TestCase):
    def test_names(self):
        """Numbers, names and base classes."""
        for code, fault in enumerate(FAULTS, 1):
            with self.assertRaises(fault) as caught:
                checked(-code)
            self.assertEqual(-code, fault.code)
            self.assertEqual(fault.__name__, fault.name.title().replace("_", "") + "Error")
            self.assertTrue(str(caught.exception).startswith(fault.name + ": "))
            self.assertIsInstance(caught.exception, BidiError)
            self.assertIsInstance(caught.exception, MemoryError if fault is NoMemoryError else ValueError)
            self.assertIs(fault, getattr(unicode_bidi, fault.__name__))

    def see(self, fault, call, *arguments, **named):
        with self.assertRaises(fault) as caught:
            call(*arguments, **named)
        self.assertIs(fault, type(caught.exception))

    def test_arguments(self):
        """Numbers that C rejects, and numbers that no argument of C can have."""
        for call, given in ((BidiText, "a"), (displayed_text, "a"), (find_paragraphs, "a"), (analyse_classes, [L])):
            for wrong in (126, 253, 254, 255, 256, -1, FAR):
                self.see(BadBaseLevelError, call, given, base_level=wrong)
            for wrong in (2, -1, 255, FAR):
                self.see(BadBaseLevelError, call, given, fallback=wrong)
            for wrong in (3, 255, 256, -1, FAR):
                self.see(BadSplitError, call, given, split=wrong)
        for wrong in (23, 255, 256, -1, FAR):
            self.see(BadClassError, base_direction_of_classes, [L, wrong])
            self.see(BadClassError, analyse_classes, [L, wrong])
            self.see(BadClassError, line_order, [L, wrong], [0, 0], Paragraph(0, 2, 0), 0, 2)
            self.see(BadClassError, Tables, [(0, 1, wrong)])
        for wrong in (127, 255, 256, -1, FAR):
            self.see(BadLevelError, reorder_visual, [1, wrong])
            self.see(BadLevelError, BidiText("a").line, 0, 1, paragraph=Paragraph(0, 1, wrong))
            self.see(BadLevelError, line_order, [L, L], [0, wrong], Paragraph(0, 2, 0), 0, 2)
            self.see(BadLevelError, line_order, [L], [0], Paragraph(0, 1, wrong), 0, 1)
        for wrong in ("\x1f", "\U00080000", "\ud800"):
            self.see(BadBracketError, analyse_classes, [R], [Bracket(wrong, True)])
        for count in (1, 3):
            self.see(UnequalLengthsError, analyse_classes, [R, R], [None] * count)
            self.see(UnequalLengthsError, line_order, [R, R], [1] * count, Paragraph(0, 2, 1), 0, 1)
        for moves in (2, 3, 4, 8, -1, FAR):
            self.see(BadFlagsError, line_order, [R], [1], Paragraph(0, 1, 1), 0, 1, moves=moves)
        for wrong in ({"moves": 3}, {"moves": -1}, {"moves": 4}, {"dropped": 4}, {"dropped": 24}, {"dropped": FAR}):
            self.see(BadFlagsError, displayed_text, "a", **wrong)
            self.see(BadFlagsError, BidiText("a").line(0, 1).displayed, **wrong)
        for wrong in (0xD800, 0x110000, FAR, -1):
            self.see(NotScalarError, Tables, [(0x61, wrong, R)])
            self.see(NotScalarError, Tables, [], [(0x28, wrong, 0x28)])
        self.see(BadRangesError, Tables, [(5, 4, R)])
        self.see(BadRangesError, Tables, [(5, 6, R), (6, 7, R)])

    def test_lines(self):
        text = BidiText("אב\ncd")
        before = (text.text, text.levels, text.classes, text.paragraphs)
        for start, end in ((1, 0), (0, 4), (3, 6), (-1, 1), (0, -1), (6, 6), (FAR, FAR), (FAR, FAR + 1), (0, FAR + 1)):
            self.see(BadLineError, text.line, start, end)
        self.see(BadLineError, text.line, 0, 1, paragraph=Paragraph(1, 2, 0))
        self.see(BadLineError, text.line, 0, 6, paragraph=Paragraph(0, 6, 0))
        self.see(BadLineError, text.line, FAR, FAR, paragraph=Paragraph(FAR, FAR, 0))
        for start, end in ((1, 0), (0, 3), (-1, 1), (0, -1), (FAR, FAR), (0, FAR + 1)):
            self.see(BadLineError, line_order, [R, R], [1, 1], Paragraph(0, 2, 1), start, end)
        self.assertEqual(before, (text.text, text.levels, text.classes, text.paragraphs))

    def test_types(self):
        for wrong in ("1", 1.5, [1]):
            with self.assertRaises(TypeError):
                BidiText("a", wrong)
            with self.assertRaises(TypeError):
                BidiText("a").line(wrong, 1)
        with self.assertRaises(TypeError):
            BidiText(b"a")
        for upper in (False, True):
            with self.assertRaises(TypeError):
                unicode_bidi.get_base_level(b"a", upper)
        with self.assertRaises(ValueError):
            Tables([], [(0x28, 0x29)])
        with self.assertRaises(TypeError):
            Tables([("a", "z", R)])
        with self.assertRaises(TypeError):
            reorder_visual(5)
        with self.assertRaises(TypeError):
            unicode_bidi.bidi_class("ab")

    def test_numbers_of_calls_without_a_text(self):
        with self.assertRaises(ValueError):
            unicode_bidi.places([0], -1)
        with self.assertRaises(ValueError):
            unicode_bidi.places([0], -(2 ** 70))
        with self.assertRaises(TypeError):
            unicode_bidi.get_display("a", moves="marks")
        with self.assertRaises(TypeError):
            unicode_bidi.find_paragraphs("a", fallback="1")
        with self.assertRaises(BadBaseLevelError):
            unicode_bidi.find_paragraphs("a", 0, fallback=7)


class Calls(unittest.TestCase):
    """The faults that only calls of C with other arguments than the package passes can return. No buffer is written."""

    @classmethod
    def setUpClass(cls):
        cls.library = ctypes.CDLL(_library.PATH)

    def see(self, fault, name, *arguments, written=()):
        """Makes a call, with lengths and pointers as C takes them. The buffers in ``written`` must stay as they are."""
        before = [bytes(buffer) for buffer in written]
        call = self.library["unicode_bidi_" + name]
        call.restype = ctypes.c_int64
        converted = [ctypes.c_size_t(argument) if isinstance(argument, int) else argument for argument in arguments]
        with self.assertRaises(fault):
            checked(call(*converted))
        self.assertEqual(before, [bytes(buffer) for buffer in written])

    def buffers(self):
        """Returns buffers for classes and levels, a paragraph, and a displayed text, filled with 0x77."""
        return [(kind * 4)(*[0x77] * 4) for kind in (ctypes.c_uint8, ctypes.c_uint8)] + [
            _library.Range(0, 2, 0), (ctypes.c_uint32 * 4)(*[0x77] * 4)]

    def test_texts(self):
        classes, levels, paragraph, _ = written = self.buffers()
        pointer = ctypes.byref(paragraph)
        self.see(NotUtf8Error, "analyse_utf8", b"\xff", 1, 0, 1, classes, 1, levels, 1, pointer, 1, written=written)
        for wrong in ("\ud800", "\udfff"):
            text = wrong.encode("utf-32-le", "surrogatepass")
            self.see(NotScalarError, "analyse_utf32", text, 1, 0, 1, classes, 1, levels, 1, pointer, 1, written=written)
        text = "a\nb".encode("utf-32-le")
        self.see(NoRoomError, "analyse_utf32", text, 3, 0, 1, classes, 2, levels, 3, pointer, 2, written=written)
        self.see(NoRoomError, "analyse_utf32", text, 3, 0, 1, classes, 3, levels, 3, pointer, 1, written=written)
        self.see(BadBaseLevelError, "analyse_utf32", text, 3, 126, 1, classes, 3, levels, 3, pointer, 1, written=written)
        self.see(BadSplitError, "analyse_utf32", text, 3, 0, 3, classes, 3, levels, 3, pointer, 1, written=written)
        self.see(NoRoomError, "classes_utf32", text, 3, classes, 2, written=written)
        self.see(NotScalarError, "class_of", 0x110000)
        self.see(NotScalarError, "mirrored", 0xD800)
        self.see(NotScalarError, "bracket_of", 0xD800)

    def test_lines(self):
        _, _, paragraph, shown = written = self.buffers()
        pointer = ctypes.byref(paragraph)
        text = "אב".encode("utf-32-le")
        line = (b"\1\1", 2, b"\1\1", 2, pointer, 0, 2)
        self.see(NoRoomError, "reorder_line_utf32", text, 2, *line, shown, 1, written=written)
        self.see(UnequalLengthsError, "reorder_line_utf32", text, 2, b"\1\1", 2, b"\1\1", 1, pointer, 0, 2, shown, 2,
                 written=written)
        self.see(BadClassError, "reorder_line_utf32", text, 2, b"\1\x17", 2, b"\1\1", 2, pointer, 0, 2, shown, 2,
                 written=written)
        self.see(BadLevelError, "reorder_line_utf32", text, 2, b"\1\1", 2, b"\1\x7f", 2, pointer, 0, 2, shown, 2,
                 written=written)
        letter = "א".encode("utf-8")
        self.see(CutCharacterError, "reorder_line_utf8", letter, 2, b"\1\1", 2, b"\1\1", 2, pointer, 0, 1, shown, 2,
                 written=written)
        self.see(UnevenCharacterError, "reorder_line_utf8", letter, 2, b"\1\1", 2, b"\1\2", 2, pointer, 0, 2, shown, 2,
                 written=written)


NO_MEMORY = """
import resource
from ctypes import byref
from unicode_bidi import NoMemoryError, get_display, _library, _analysis, _buffers
text = "אa(" * 400000
characters = text.encode("utf-32-le")
buffers = _buffers.Buffers(len(text))
length = _library.size(len(text))
before = bytes(buffers.levels)
used = int(open("/proc/self/statm").read().split()[0]) * resource.getpagesize()
resource.setrlimit(resource.RLIMIT_AS, (used + 500000, resource.RLIM_INFINITY))
try:
    _analysis.analyse(buffers, characters, length, 255, 2)
except NoMemoryError:
    resource.setrlimit(resource.RLIMIT_AS, (resource.RLIM_INFINITY, resource.RLIM_INFINITY))
    assert bytes(buffers.levels) == before
    assert _analysis.analyse(buffers, characters, length, 255, 2) == 1
    print("done")
"""


class Memory(unittest.TestCase):
    def test_no_memory(self):
        """With little memory, an analysis raises NoMemoryError and writes nothing. With memory again, it works."""
        done = subprocess.run([sys.executable, "-c", NO_MEMORY], stdout=subprocess.PIPE, check=True)
        self.assertEqual(b"done\n", done.stdout)


if __name__ == "__main__":
    unittest.main()
