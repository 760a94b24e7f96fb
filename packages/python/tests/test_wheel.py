"""The wheel builder."""
import csv
import hashlib
import pathlib
import subprocess
import sys
import tempfile
import unittest
import zipfile
from base64 import urlsafe_b64encode

import unicode_bidi
from unicode_bidi import _library

BUILDER = pathlib.Path(__file__).resolve().parents[1] / "build_wheel.py"
sys.path.insert(0, str(BUILDER.parent))
import build_wheel  # noqa: E402


def build(folder, *more, version=unicode_bidi.__version__):
    """Builds a wheel of the installed library, and returns the finished process."""
    return subprocess.run([sys.executable, str(BUILDER), "--library", _library.PATH, "--version", version, "--dest",
                           str(folder), *more], stdout=subprocess.PIPE, stderr=subprocess.PIPE)


class Wheel(unittest.TestCase):
    def setUp(self):
        folder = tempfile.TemporaryDirectory()
        self.addCleanup(folder.cleanup)
        self.folder = pathlib.Path(folder.name)

    def test_two_builds(self):
        """Two builds have the same bytes, and the name says the version and the platform."""
        first, second = self.folder / "first", self.folder / "second"
        self.assertEqual((0, 0), (build(first).returncode, build(second).returncode))
        wheel, = first.iterdir()
        self.assertEqual(wheel.read_bytes(), (second / wheel.name).read_bytes())
        self.assertRegex(wheel.name, r"^unicode_bidi-[0-9.]+-py3-none-manylinux_2_[0-9]+_x86_64\.whl$")

    def test_record(self):
        """The record has each file with its checksum and size. The licences and the mark of a typed package are there."""
        extra = self.folder / "LICENCE-OTHER"
        extra.write_text("words")
        done = build(self.folder / "wheel", "--licence", str(extra))
        with zipfile.ZipFile(done.stdout.decode().strip()) as wheel:
            names = wheel.namelist()
            info = f"unicode_bidi-{unicode_bidi.__version__}.dist-info"
            rows = list(csv.reader(wheel.read(f"{info}/RECORD").decode().splitlines()))
            self.assertEqual(names, [row[0] for row in rows])
            for name, checksum, size in rows[:-1]:
                data = wheel.read(name)
                digest = urlsafe_b64encode(hashlib.sha256(data).digest()).decode().rstrip("=")
                self.assertEqual((f"sha256={digest}", str(len(data))), (checksum, size))
        for licence in ("LICENSE-MIT", "LICENSE-APACHE", "LICENSE-UNICODE", "LICENCE-OTHER"):
            self.assertIn(f"{info}/licenses/{licence}", names)
        self.assertIn("unicode_bidi/py.typed", names)
        self.assertIn("unicode_bidi/libunicode_bidi.so", names)

    def test_version(self):
        """The version must be that of the library, with or without a local part."""
        local = unicode_bidi.__version__ + "+local.1"
        self.assertEqual(0, build(self.folder, version=local).returncode)
        for wrong in ("9.9.9", "one", unicode_bidi.__version__ + "-1"):
            done = build(self.folder / "none", version=wrong)
            self.assertEqual(1, done.returncode)
            self.assertTrue(done.stderr.startswith(b"build_wheel.py: "))
        self.assertFalse((self.folder / "none").exists())

    def test_tag(self):
        """The tag names the newest glibc that the library needs, and 2.17 at least."""
        for wanted, strings in (("2_17", b""), ("2_17", b"\0GLIBC_2.2.5\0GLIBC_2.14\0"), ("2_34", b"\0GLIBC_2.34\0"),
                                ("2_34", b"\0GLIBC_2.4\0GLIBC_2.34\0GLIBC_2.9\0")):
            self.assertEqual(f"py3-none-manylinux_{wanted}_x86_64", build_wheel.tag_of(b"\x7fELF" + strings))


if __name__ == "__main__":
    unittest.main()
