"""get_display, get_base_level and install_as_bidi."""
import contextlib
import importlib.util
import io
import random
import subprocess
import sys
import unittest

import unicode_bidi.algorithm
from unicode_bidi import (
    BadFlagsError,
    BidiClass,
    BidiText,
    Dropped,
    Moves,
    Split,
    bidi_classes,
    displayed_text,
    get_base_level,
    get_display,
)

RLI, LRI, PDI, RLE, RLO, PDF, ZWJ = "\u2067", "\u2066", "\u2069", "\u202b", "\u202e", "\u202c", "\u200d"
RLM, QAMATS = "\u200f", "\u05b8"
REMOVED = {BidiClass.BN, BidiClass.LRE, BidiClass.LRO, BidiClass.RLE, BidiClass.RLO, BidiClass.PDF}


class Examples(unittest.TestCase):
    """The examples of UAX #9, in which capitals stand for right-to-left letters."""

    def see(self, wanted, text, base_dir=None):
        self.assertEqual(wanted, get_display(text, upper_is_rtl=True, base_dir=base_dir))

    def test_reordering(self):
        """Section 3.4, after L2, with isolates as controls that stay in the text."""
        self.see("car means RAC.", "car means CAR.")
        self.see(".RAC SNAEM car", "car MEANS CAR.", "R")
        self.see(f"he said \u201c{RLI}RAC SNAEM car{PDI}.\u201d", f"he said \u201c{RLI}car MEANS CAR{PDI}.\u201d")

    def test_brackets(self):
        """Section 3.3.5, after N0: brackets take the direction of what they enclose."""
        self.see("WERBEH (CIBARA fabrikam) smith", "smith (fabrikam ARABIC) HEBREW", "R")
        self.see("book(s) CIBARA", "ARABIC book(s)", "R")

    def test_mirroring(self):
        """L4: a bracket at an odd level is mirrored."""
        self.see("(B) A", "A (B)")
        self.see("a (b)", "a (b)")


class Arguments(unittest.TestCase):
    def test_bytes(self):
        text = "car (מכונית) 12"
        wanted = "car (תינוכמ) 12"
        self.assertEqual(wanted, get_display(text))
        self.assertEqual(wanted.encode(), get_display(text.encode()))
        self.assertEqual(wanted.encode("cp1255"), get_display(text.encode("cp1255"), encoding="cp1255"))
        self.assertEqual(wanted.encode("cp1255"), get_display(bytearray(text.encode("cp1255")), "cp1255"))
        self.assertIs(bytes, type(get_display(b"")))
        with self.assertRaises(UnicodeDecodeError):
            get_display(b"\xff")
        with self.assertRaises(LookupError):
            get_display(b"a", encoding="no such encoding")

    def test_types(self):
        for wrong in (None, 1, ["a"]):
            with self.assertRaises(TypeError):
                get_display(wrong)
        with self.assertRaises(TypeError):
            get_display(text="a")

        class Text(str):
            pass

        self.assertEqual("בא", get_display(Text("אב")))

    def test_base_dir(self):
        self.assertEqual("a בא", get_display("a אב", base_dir="L"))
        for base_dir in ("R", "AL"):
            self.assertEqual("בא a", get_display("a אב", base_dir=base_dir))
        for wrong in ("X", "l", "", 0, "RTL"):
            with self.assertRaisesRegex(ValueError, repr(wrong)):
                get_display("a", base_dir=wrong)

    def test_one_base_level(self):
        """The first strong character decides for every line. Separators stay at the ends of lines."""
        self.assertEqual("1 בא\n!a\r\n", get_display("אב 1\na!\r\n"))
        self.assertEqual("\n!a", get_display("\na!", base_dir="R"))
        self.assertEqual("1\n!א", get_display("1\nא!"))
        self.assertEqual("", get_display(""))
        self.assertEqual("\n", get_display("\n"))

    def test_removed(self):
        """Characters that X9 removes are left out, and isolates are not."""
        self.assertEqual("בא", get_display(f"{RLE}א{ZWJ}ב{PDF}"))
        self.assertEqual("cba", get_display(f"{RLO}abc{PDF}"))
        self.assertEqual(f"a{LRI}b{PDI}", get_display(f"a{LRI}b{PDI}"))
        self.assertEqual("", get_display(RLE))

    def test_mirror(self):
        self.assertEqual("(ב) א", get_display("א (ב)"))
        self.assertEqual(")ב( א", get_display("א (ב)", mirror=False))

    def test_moves(self):
        """L3: a point stays behind its letter. UAX #29: an emoji sequence stays together."""
        text = f"א{QAMATS}ב"
        self.assertEqual(f"ב{QAMATS}א", get_display(text))
        for moves in (Moves.MARKS, Moves.CLUSTERS, 1, 2):
            self.assertEqual(f"בא{QAMATS}", get_display(text, moves=moves))
        family = f"\U0001f469{ZWJ}\U0001f467"
        self.assertEqual(f"{family}א", get_display(f"א{family}", moves=Moves.CLUSTERS, dropped=Dropped.CONTROLS))

    def test_dropped(self):
        """By default only the characters that X9 removes are left out."""
        text = f"א{RLM}{ZWJ}{RLI}ב{PDI}"
        self.assertEqual(f"{PDI}ב{RLI}{RLM}א", get_display(text, base_dir="R"))
        for dropped, shown in ((Dropped.NOTHING, text[::-1]), (Dropped.CONTROLS, f"ב{ZWJ}א"),
                               (Dropped.BOUNDARY_NEUTRALS, "בא")):
            self.assertEqual(shown, get_display(text, base_dir="R", dropped=dropped))

    def test_options(self):
        """The options with other arguments, and what is no option."""
        self.assertEqual(f"בא{QAMATS}".encode(), get_display(f"א{QAMATS}ב".encode(), moves=Moves.MARKS))
        self.assertEqual(f"B{ZWJ}A", get_display(f"A{RLM}{ZWJ}B", upper_is_rtl=True, dropped=Dropped.CONTROLS))
        self.assertEqual(f"B\ud800{QAMATS}A", get_display(f"A\ud800{QAMATS}B", upper_is_rtl=True, moves=Moves.MARKS))
        for wrong in ({"moves": 3}, {"moves": -1}, {"moves": 4}, {"dropped": 4}, {"dropped": 24}, {"dropped": -8}):
            with self.assertRaises(BadFlagsError):
                get_display("a", **wrong)

    def test_upper_is_rtl(self):
        self.assertEqual("12 CBA x", get_display("ABC 12 x", upper_is_rtl=True, base_dir="L"))
        self.assertEqual("ABC 12", get_display("ABC 12"))
        self.assertEqual("12 \ud800CBA", get_display("ABC\ud800 12", upper_is_rtl=True))

    def test_debug(self):
        written = io.StringIO()
        with contextlib.redirect_stderr(written):
            self.assertEqual("1 בא", get_display("אב 1", base_dir="L", debug=True))
        self.assertIn("base level: 0\nclasses: R R WS EN\nlevels: 1 1 1 2\n", written.getvalue())

    def test_lone_surrogates(self):
        for surrogate in ("\ud800", "\udfff", "\udce9"):
            self.assertEqual(f"ב{surrogate}א", get_display(f"א{surrogate}ב"))
            self.assertEqual(surrogate, get_display(surrogate))
        text = b"\xe9\xd7\x90\xd7\x91".decode("utf-8", "surrogateescape")
        self.assertEqual("בא\udce9", get_display(text))

    def test_base_level(self):
        self.assertEqual([0, 1, 1, 0, 0], [get_base_level(text) for text in ("a א", "א a", "1 א", "1", "")])
        self.assertEqual([0, 1], [get_base_level("A", upper_is_rtl=upper) for upper in (False, True)])
        self.assertEqual(1, get_base_level("\ud800א"))
        self.assertEqual(1, get_base_level("1\nא"))
        self.assertEqual(0, get_base_level(f"{RLI}א{PDI}a"))

    def test_long_texts(self):
        """Texts for which buffers grow, or are not kept, and lines of more runs and paragraphs than buffers have."""
        for count in (63, 64, 65, 1000, 70000):
            self.assertEqual("א" * count, get_display("א" * count))
            self.assertEqual("ב" * count + "א", get_display("א" + "ב" * count))
            self.assertEqual("a" + "אa" * count, get_display("aא" * count + "a"))
            self.assertEqual("בא\n" * count, get_display("אב\n" * count))


class Agreement(unittest.TestCase):
    """get_display finds what BidiText finds by other calls of C."""

    def test_random_texts(self):
        chance = random.Random(78)
        palette = "ab1 \n\r()[]<\u00ab!,\u05d0\u05d1\u0627\u0661\u0301\u200d\u202b\u202e\u202c\u2067\u2069\u2329\ud800"
        for _ in range(3000):
            text = "".join(chance.choices(palette, k=chance.randint(1, 30)))
            base_dir, level = chance.choice(((None, get_base_level(text)), ("L", 0), ("R", 1)))
            for mirror in (True, False):
                self.assertEqual(BidiText(text, level).display(mirror=mirror, keep_removed=False),
                                 get_display(text, base_dir=base_dir, mirror=mirror))
            for moves in Moves:
                for dropped in Dropped:
                    self.assertEqual(displayed_text(text, level, moves=moves, dropped=dropped).text,
                                     get_display(text, base_dir=base_dir, moves=moves, dropped=dropped))

    def test_characters(self):
        """Each separator ends a line for Python too, and X9 removes no other character than C drops."""
        every = "".join(chr(number) for number in range(0x110000) if not 0xD800 <= number <= 0xDFFF)
        lines = "".join(character for character in every if len(f"a{character}a".splitlines()) > 1)
        self.assertEqual(bidi_classes(every).count(BidiClass.B), bidi_classes(lines).count(BidiClass.B))
        dropped = displayed_text(every, 0, split=Split.ONE_PARAGRAPH, dropped=Dropped.BOUNDARY_NEUTRALS)
        kept = bidi_classes("".join(every[index] for index in dropped.order))
        self.assertEqual(set(), set(REMOVED).intersection(kept))


class AsBidi(unittest.TestCase):
    def test_algorithm(self):
        self.assertIs(get_display, unicode_bidi.algorithm.get_display)
        self.assertIs(get_base_level, unicode_bidi.algorithm.get_base_level)

    def test_install(self):
        """A library finds bidi after install_as_bidi, in a process of its own."""
        program = """
import unicode_bidi
unicode_bidi.install_as_bidi()
import importlib.util
import bidi.algorithm
from bidi import get_display
from bidi.algorithm import get_base_level
assert bidi.algorithm.get_display is get_display is unicode_bidi.get_display
assert get_base_level is unicode_bidi.get_base_level
assert importlib.util.find_spec("bidi") is not None
try:
    import bidi.mirror
except ModuleNotFoundError:
    print("done")
"""
        done = subprocess.run([sys.executable, "-c", program], check=True, stdout=subprocess.PIPE)
        self.assertEqual(b"done\n", done.stdout)


if __name__ == "__main__":
    unittest.main()
