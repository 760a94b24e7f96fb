"""The programs on the pages print what the pages say."""
import doctest
import pathlib
import re
import subprocess
import sys
import tempfile
import unittest

import unicode_bidi

REPOSITORY = pathlib.Path(__file__).resolve().parents[3]
#: A program, and the indented lines that come next on the page.
PROGRAM = re.compile(r"^```python\n(.*?)^```\n.*?\n\n((?:    [^\n]*\n)+)", re.MULTILINE | re.DOTALL)
#: A row of the table of differences: the call, its result here, and that of python-bidi.
DIFFERENCE = re.compile(r"^\| `(get_[^`]*)` \| `([^`]*)` \| `([^`]*)` \| ", re.MULTILINE)


def run(*words, folder):
    """Runs Python in a folder, and returns what it prints."""
    return subprocess.run([sys.executable, *words], cwd=folder, check=True, stdout=subprocess.PIPE).stdout.decode()


class Pages(unittest.TestCase):
    def test_programs(self):
        for page in ("docs/PYTHON.md", "packages/python/README.md"):
            with self.subTest(page=page), tempfile.TemporaryDirectory() as folder:
                programs = PROGRAM.findall((REPOSITORY / page).read_text(encoding="utf-8"))
                self.assertEqual(2 if page == "docs/PYTHON.md" else 1, len(programs))
                for program, printed in programs:
                    pathlib.Path(folder, "program.py").write_text(program, encoding="utf-8")
                    wanted = re.sub("^    ", "", printed, flags=re.MULTILINE)
                    self.assertEqual(wanted, run("program.py", folder=folder))

    def test_differences(self):
        """The table of differences from python-bidi. Its column of python-bidi is tested where that is installed."""
        page = (REPOSITORY / "docs/PYTHON.md").read_text(encoding="utf-8")
        found = DIFFERENCE.findall(page)
        self.assertGreater(len(found), 8)
        try:
            from bidi import algorithm as other
        except ImportError:
            other = None
            print("\nleft out: the results of python-bidi on docs/PYTHON.md, since python-bidi is not installed")
        for call, ours, theirs in found:
            with self.subTest(call=call):
                self.assertEqual(ours, self.result_of(unicode_bidi, call, ours))
                if other is not None:
                    self.assertEqual(theirs, self.result_of(other, call, theirs))

    def result_of(self, module, call, wanted):
        """Returns the result of a call as the page has it: the name of an exception, or the wanted word if it is equal."""
        names = {"get_display": module.get_display, "get_base_level": module.get_base_level}
        try:
            result = eval(call, names)
        except Exception as error:
            return type(error).__name__
        return wanted if wanted[0] in '"01' and eval(wanted) == result else repr(result)

    def test_docstrings(self):
        self.assertEqual((0, 2), tuple(doctest.testmod(unicode_bidi)))

    def test_label(self):
        """The example draws its lines, or says in one line that Pillow is not installed."""
        with tempfile.TemporaryDirectory() as folder:
            printed = run(str(REPOSITORY / "examples" / "label.py"), "label.png", folder=folder)
            drawn = pathlib.Path(folder, "label.png").exists()
        if drawn:
            self.assertEqual("תאצוי (train) תבכרה !םולש\n.4 ףיצרמ 12:30 העשב\nPlatform 4 (ףיצר) is\ndownstairs.\n", printed)
        else:
            self.assertEqual("left out: the label, since Pillow is not installed: apt-get install python3-pil\n", printed)


if __name__ == "__main__":
    unittest.main()
