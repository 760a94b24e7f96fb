"""What an import says on a machine that can't run the library."""
import pathlib
import re
import shutil
import subprocess
import sys
import tempfile
import unittest

from unicode_bidi import _library
from unicode_bidi._machine import PROCESSOR_FLAGS, problem_here, problem_of, problem_of_loader, processor_flags

ALL = frozenset(PROCESSOR_FLAGS)
GLIBC = "glibc 2.36"


class Problems(unittest.TestCase):
    def test_this_machine(self):
        self.assertIsNone(problem_here())
        self.assertLessEqual(ALL, processor_flags())

    def test_machines(self):
        self.assertIsNone(problem_of("linux", "x86_64", 64, GLIBC, ALL))
        self.assertIsNone(problem_of("linux", "x86_64", 64, GLIBC, None))
        for wanted, machine in (
            ("Linux only, and this system is darwin", ("darwin", "x86_64", 64, None, None)),
            ("this is a 64-bit Python on aarch64", ("linux", "aarch64", 64, GLIBC, None)),
            ("this is a 32-bit Python on x86_64", ("linux", "x86_64", 32, GLIBC, ALL)),
            ("needs the C library glibc", ("linux", "x86_64", 64, None, ALL)),
            ("has no SSE4.2.", ("linux", "x86_64", 64, GLIBC, ALL - {"sse4_2"})),
            ("has no POPCNT, SSSE3.", ("linux", "x86_64", 64, GLIBC, ALL - {"popcnt", "ssse3"})),
        ):
            self.see_sentence(wanted, problem_of(*machine))

    def test_loader(self):
        self.see_sentence("needs glibc 2.99 or later, and this machine has glibc 2.",
                          problem_of_loader("/lib/libc.so.6: version `GLIBC_2.99' not found (required by x.so)"))
        self.see_sentence("x86-64-v2", problem_of_loader("x.so: CPU ISA level is lower than required"))
        self.see_sentence("can't load its library: x.so: invalid ELF header", problem_of_loader("x.so: invalid ELF header"))

    def see_sentence(self, wanted, problem):
        self.assertIn(wanted, problem)
        self.assertTrue(problem.startswith("unicode_bidi ") and problem.endswith("."))
        self.assertNotIn("\n", problem)

    def test_flags(self):
        with tempfile.TemporaryDirectory() as folder:
            path = pathlib.Path(folder, "cpuinfo")
            path.write_text("processor\t: 0\nflags\t\t: fpu sse4_2\n\nflags\t: other\n")
            self.assertEqual({"fpu", "sse4_2"}, processor_flags(str(path)))
            path.write_text("Features\t: fp asimd\n")
            self.assertIsNone(processor_flags(str(path)))
            self.assertIsNone(processor_flags(str(path) + ".missing"))


class Imports(unittest.TestCase):
    """An import fails with the sentence as an ImportError."""

    def see_import(self, wanted, before, folder=None):
        program = f"{before}\ntry:\n    import unicode_bidi\nexcept ImportError as error:\n    print(error)\n"
        done = subprocess.run([sys.executable, "-c", program], cwd=folder, stdout=subprocess.PIPE, check=True)
        self.assertIn(wanted, done.stdout.decode())

    def test_other_processor(self):
        self.see_import("needs a 64-bit Python on an x86-64 processor, and this is a 64-bit Python on riscv64.",
                        "import os, types; os.uname = lambda: types.SimpleNamespace(machine='riscv64')")

    def test_other_c_library(self):
        self.see_import("needs the C library glibc", "import os; os.confstr = lambda name: None")

    def test_old_processor(self):
        self.see_import("needs a processor of the level x86-64-v2, and this one has no SSE4.2.", """
import builtins, io
real = open
def open_other(path, *rest, **named):
    if path == "/proc/cpuinfo":
        return io.StringIO("flags : cx16 lahf_lm pni popcnt sse4_1 ssse3\\n")
    return real(path, *rest, **named)
builtins.open = open_other""")

    def test_old_c_library(self):
        """A copy of the library that names a version of glibc which this machine does not have."""
        library = pathlib.Path(_library.PATH).read_bytes()
        newest = max(re.findall(rb"(?<=\0)GLIBC_2\.[0-9.]+(?=\0)", library), key=len)
        other = b"GLIBC_9." + b"9" * (len(newest) - 8)
        with tempfile.TemporaryDirectory() as folder:
            package = pathlib.Path(folder, "unicode_bidi")
            shutil.copytree(pathlib.Path(_library.PATH).parent, package, ignore=shutil.ignore_patterns("*.so"))
            (package / "libunicode_bidi.so").write_bytes(library.replace(newest + b"\0", other + b"\0"))
            self.see_import(f"needs {other.decode().replace('_', ' ').lower()} or later, and this machine has glibc 2.",
                            "", folder)

    def test_broken_library(self):
        """A library that the loader rejects."""
        with tempfile.TemporaryDirectory() as folder:
            package = pathlib.Path(_library.PATH).parent
            shutil.copytree(package, pathlib.Path(folder, "unicode_bidi"), ignore=shutil.ignore_patterns("*.so"))
            self.see_import("can't load its library", "", folder)
            pathlib.Path(folder, "unicode_bidi", "libunicode_bidi.so").write_bytes(b"not a library")
            self.see_import("can't load its library", "", folder)


if __name__ == "__main__":
    unittest.main()
