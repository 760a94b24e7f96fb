"""``python -m unicode_bidi``."""
import subprocess
import sys
import unittest


def run(given, *words):
    """Runs the filter with this input, and returns its output, its messages and its exit status."""
    done = subprocess.run([sys.executable, "-m", "unicode_bidi", *words], input=given, stdout=subprocess.PIPE,
                          stderr=subprocess.PIPE)
    return done.stdout, done.stderr, done.returncode


class Filter(unittest.TestCase):
    def see(self, wanted, given, *words):
        self.assertEqual((wanted.encode(), b"", 0), run(given.encode(), *words))

    def test_lines(self):
        self.see("car (תינוכמ) 12\r\n(ב) א\n\nבא", "car (מכונית) 12\r\nא (ב)\n\nאב")
        self.see("", "")

    def test_options(self):
        self.see("a בא\n", "אב a\n", "--base-dir", "R")
        self.see("בא a\n", "אב a\n", "--base-dir", "L")
        self.see(")ב( א\n", "א (ב)\n", "--no-mirror")
        self.see("בא\n", "א\u200dב\n", "--drop-removed")
        self.see("ב\u200dא\n", "א\u200dב\n")

    def test_bad_input(self):
        """The lines before a line that is not UTF-8 are written, and the message names the fault and the line."""
        out, message, status = run("אב\n".encode() + b"a\xff\n")
        self.assertEqual(("בא\n".encode(), 1), (out, status))
        self.assertEqual(b"python -m unicode_bidi: NOT_UTF8: line 2 is not UTF-8 at byte 2\n", message)

    def test_arguments(self):
        out, message, status = run(b"", "--help")
        self.assertEqual((b"", 0), (message, status))
        self.assertTrue(out.startswith(b"usage: python -m unicode_bidi "))
        self.assertEqual(2, run(b"", "--base-dir", "X")[2])
        self.assertEqual(2, run(b"", "FILE")[2])
        self.assertTrue(run(b"", "--version")[0].startswith(b"unicode_bidi 0."))

    def test_closed_output(self):
        """A reader that stops reading ends the filter without a message."""
        command = f"yes | head -n 100000 | {sys.executable} -m unicode_bidi | head -n 1"
        done = subprocess.run(command, shell=True, stdout=subprocess.PIPE, stderr=subprocess.PIPE)
        self.assertEqual((b"y\n", b""), (done.stdout, done.stderr))


if __name__ == "__main__":
    unittest.main()
