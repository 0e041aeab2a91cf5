"""The declarations: those of the headers, with the layout that a C compiler gives the structs, and found in
the library."""
import contextlib
import ctypes
import doctest
import io
import os
import shutil
import subprocess
import sys
import unittest
import unittest.mock
from pathlib import Path

import hvpm
from hvpm import _library, _raw

REPOSITORY = Path(__file__).resolve().parents[3]
COMPILER = shutil.which(os.environ.get("CC", "cc"))


def structs():
    """The structs of the library, with their places."""
    for name, kind in vars(_raw).items():
        if isinstance(kind, type) and issubclass(kind, ctypes.Structure) and kind is not ctypes.Structure:
            yield name, kind


class Declarations(unittest.TestCase):
    def test_declarations_are_those_of_the_headers(self):
        told = subprocess.run([REPOSITORY / "bindings/generate", "--check"], capture_output=True, text=True)
        self.assertEqual((told.stdout + told.stderr, told.returncode), ("", 0))

    @unittest.skipUnless(COMPILER, "there is no C compiler")
    def test_structs_have_the_layout_of_c(self):
        names = ["hvpm.h", *(path.name for path in (REPOSITORY / "include").glob("hvpm_[!i]*.h"))]
        lines = [f'#include "{name}"' for name in names]
        for name, kind in structs():
            lines.append(f'_Static_assert(sizeof({name}) == {ctypes.sizeof(kind)}, "the size of {name}");')
            for field, *_ in kind._fields_:
                place = getattr(kind, field).offset
                lines.append(f'_Static_assert(offsetof({name}, {field}) == {place}, "{name}.{field}");')
        self.assertGreater(len(lines), 80)
        words = [COMPILER, "-std=c11", "-fsyntax-only", "-I", REPOSITORY / "include", "-x", "c", "-"]
        told = subprocess.run(words, input="\n".join(lines), capture_output=True, text=True)
        self.assertEqual((told.stderr, told.returncode), ("", 0))

    def test_the_library_has_each_function(self):
        for name in _raw.FUNCTIONS:
            self.assertTrue(_library._function(name), name)

    def test_the_first_pages_run(self):
        self.assertEqual(doctest.testmod(hvpm), (0, 7))
        text = (REPOSITORY / "bindings/python/README.md").read_text()
        code = text.partition("```python\n")[2].partition("```")[0]
        with contextlib.redirect_stdout(io.StringIO()) as printed:
            exec(code, {})
        line = "2 1.0 call 0000000000000095 denied 0000000000000007 P12\n"
        told = printed.getvalue()
        self.assertTrue(told.startswith(f"HV_STATUS_INVALID_PARTITION_STATE Nothing() {line}\n1 1.0 Hv"), told)
        self.assertIn("P12: the target's life state doesn't allow the call", told)


class Finding(unittest.TestCase):
    def version(self, **change):
        """What a new process prints, and its errors."""
        environment = {**os.environ, "PYTHONPATH": str(REPOSITORY / "bindings/python"), **change}
        environment = {name: value for name, value in environment.items() if value is not None}
        words = [sys.executable, "-c", "import hvpm; print(hvpm.version())"]
        told = subprocess.run(words, env=environment, capture_output=True, text=True)
        return told.stdout + told.stderr

    def test_hvpm_lib_names_the_folder(self):
        loaded = Path("/proc/self/maps").read_text().splitlines()
        folder = os.path.dirname(next(line.split()[-1] for line in loaded if "libhvpm.so" in line))
        self.assertEqual(self.version(LD_LIBRARY_PATH=None, HVPM_LIB=folder), f"{hvpm.version()}\n")
        self.assertEqual(self.version(LD_LIBRARY_PATH=folder, HVPM_LIB=None), f"{hvpm.version()}\n")
        self.assertEqual(self.version(LD_LIBRARY_PATH="/nowhere", HVPM_LIB=folder), f"{hvpm.version()}\n")

    def test_a_library_that_is_missing_is_named(self):
        with unittest.mock.patch.object(_library, "FILE", "libhvpm-missing.so"):
            with unittest.mock.patch.dict(os.environ):
                os.environ.pop("HVPM_LIB", None)
                with self.assertRaisesRegex(ImportError, "HVPM_LIB isn't set.*LD_LIBRARY_PATH"):
                    _library._open()

    def test_versions_have_a_series(self):
        """A minor version of 0 is one of its own, and a major version from 1 on."""
        series = [_library._series(version) for version in (0, 99, 100, 199, 200, 10000, 10203, 19999, 20000)]
        self.assertEqual(series, [0, 0, 1, 1, 2, 100, 100, 100, 200])

    def test_a_library_of_another_version_is_refused(self):
        for wanted, is_refused in ((0, True), (99, True), (100, False), (101, True), (200, True), (10100, True)):
            with unittest.mock.patch.object(_library._raw, "HVPM_VERSION", wanted):
                _library._library.cache_clear()
                if is_refused:
                    self.assertRaisesRegex(ImportError, f"needs {wanted}", _library._library)
                else:
                    _library._library()
        _library._library.cache_clear()
