import os
import shutil
import subprocess
import sys
import tempfile
import unittest
from pathlib import Path

import swimtab
from known import ROOT
from swimtab import _library

BUILT = ROOT / "build" / "libswimtab.so"


def imported(package: Path, **variables: str) -> "subprocess.CompletedProcess[str]":
    """Imports the package in another process, with these variables only."""
    program = "import swimtab; print(swimtab.version())"
    return subprocess.run(
        [sys.executable, "-B", "-c", program],
        env={"PATH": os.environ["PATH"], "PYTHONPATH": str(package), **variables},
        capture_output=True,
        text=True,
    )


class Library(unittest.TestCase):
    def setUp(self):
        self.folder = Path(tempfile.mkdtemp())
        self.addCleanup(shutil.rmtree, self.folder)
        self.copy = self.folder / "packages"
        cache = shutil.ignore_patterns("__pycache__")
        shutil.copytree(Path(swimtab.__file__).parent, self.copy / "swimtab", ignore=cache)
        named = os.environ.get("SWIMTAB_LIB")
        self.library = _library._file_of(Path(named)).resolve() if named else BUILT

    def refused(self, text: str, **variables: str) -> None:
        done = imported(self.copy, **variables)
        self.assertNotEqual(done.returncode, 0)
        last = done.stderr.splitlines()[-1]
        self.assertTrue(last.startswith("ImportError: "), last)
        self.assertIn(text, last)
        self.assertIn("make install-library", last)

    def test_the_version_is_that_of_the_header(self):
        self.assertIn(f'"{swimtab.version()}"', (ROOT / "include" / "swimtab.h").read_text())
        self.assertEqual(swimtab.version().split(".")[:2], swimtab.__version__.split(".")[:2])

    def test_the_variable_names_the_file_or_its_folder(self):
        shutil.copy(self.library, self.folder / "libswimtab.so")
        for named in (self.folder, self.folder / "libswimtab.so"):
            done = imported(self.copy, SWIMTAB_LIB=str(named))
            self.assertEqual(done.stdout, swimtab.version() + "\n", done.stderr)

    def test_the_loader_finds_an_installed_library(self):
        shutil.copy(self.library, self.folder / _library.SONAME)
        done = imported(self.copy, LD_LIBRARY_PATH=str(self.folder))
        self.assertEqual(done.stdout, swimtab.version() + "\n", done.stderr)

    @unittest.skipUnless(BUILT.is_file(), "there is no build/libswimtab.so")
    def test_the_repository_has_one(self):
        done = imported(ROOT / "bindings" / "python")
        self.assertEqual(done.stdout, swimtab.version() + "\n", done.stderr)

    def test_a_missing_library_names_the_next_step(self):
        self.refused("libswimtab.so.2 was not found")
        self.refused("there is no libswimtab.so", SWIMTAB_LIB=str(self.folder))

    def test_a_library_of_another_series_is_refused(self):
        other = self.folder / "libswimtab.so"
        file = self.library.read_bytes()
        other.write_bytes(file.replace(b"libswimtab.so.2\0", b"libswimtab.so.3\0"))
        self.refused("is not libswimtab.so.2", SWIMTAB_LIB=str(other))

    def test_a_file_that_is_no_library_is_refused(self):
        (self.folder / "libswimtab.so").write_bytes(b"\0libswimtab.so.2\0")
        self.refused("was not loaded", SWIMTAB_LIB=str(self.folder))

    def test_a_library_that_is_too_old_is_refused(self):
        without, early = _Fake(None), _Fake(299)
        for fake in (without, early):
            with self.assertRaisesRegex(ImportError, "older than 0.3"):
                _library._checked(fake)
        self.assertIsNotNone(_library._checked(_Fake(300)))


class _Fake:
    """A library with this version, or without any."""

    def __init__(self, number):
        if number is not None:
            self.swimtab_version = lambda: number


if __name__ == "__main__":
    unittest.main()
