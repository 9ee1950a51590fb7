"""The tests of pure paths of CPython 3.11, over the types of this package. Each assertion that fails is named here with
the difference that it is for; no other fails. A test ends at an exception, as of a call that is not there."""

import linecache
import sys
import types
import unittest

from typed_path import UnixPath, WindowsPath

try:
    from test import test_pathlib as theirs
except ImportError:
    theirs = None

# Why assertions fail, by the rows of the README's table, and in which tests how many.
ON_BOTH = {
    "there is no `as_uri` and no `is_reserved`": {"test_as_uri": 1, "test_as_uri_common": 1, "test_is_reserved": 1},
    "the empty path is empty, and not equal to `.`": {"test_parents_common": 6},
    "that too; bytes are taken; `relative_to` takes one base": {"test_relative_to_common": 4},
    "bytes are taken; `is_relative_to` takes one base": {"test_is_relative_to_common": 2},
    "a name with a dot at its end; `..` is no name": {"test_stem_common": 2},
    "a name with a dot at its end": {"test_suffix_common": 2, "test_suffixes_common": 2, "test_with_stem_common": 2},
    "a suffix that is no text raises TypeError": {"test_with_suffix_common": 1},
    "the test looks for the class in pathlib": {"test_repr_common": 1},
}
ON_UNIX = {
    "there is no `as_uri`": {"test_as_uri_non_ascii": 1},
    "two separators at the front are a root": {"test_eq": 1, "test_root": 1},
    "the text of a path is kept": {"test_equivalences": 12},
    "the empty path is empty": {"test_str_common": 1},
    "a `.` at the front is a component, in patterns too": {"test_match_common": 1},
}
ON_WINDOWS = {
    "the text of a path is kept": {
        "test_anchor": 3, "test_as_bytes_common": 1, "test_drive": 3, "test_equivalences": 64, "test_fspath_common": 2,
        "test_parts": 1, "test_str": 5, "test_str_common": 6,
    },
    "a path with a drive replaces the base": {"test_div": 1, "test_join": 1},
    "the case of names counts": {"test_eq": 3, "test_is_relative_to": 18, "test_ordering_common": 2, "test_relative_to": 1},
    "that too; an anchor has to be equal": {"test_match_common": 6},
    "a root that a share implies is none that is written": {"test_root": 1},
    "that too; the parent of a drive alone is the empty path": {"test_parent": 3, "test_parents": 7},
    "a name with a dot at its end; `..` is no name": {"test_stem": 2},
    "a name with a dot at its end": {"test_suffix": 2, "test_suffixes": 2, "test_with_stem": 2},
}


def wrong_of(kind, test):
    """How many assertions of a test fail."""
    tables = ON_BOTH, (ON_UNIX if kind is UnixPath else ON_WINDOWS)
    return sum(tests.get(test, 0) for table in tables for tests in table.values())


class Noting:
    """Goes on behind an assertion that fails, and notes it."""

    def setUp(self):
        self.wrong, self.count = [], 0
        self.sep, self.altsep = self.cls._separator, "/" if self.cls is WindowsPath else ""
        self.flavour = types.SimpleNamespace(sep=self.sep, altsep=self.altsep)

    def noted(self, check, *words, **named):
        self.count += 1
        try:
            return check(*words, **named)
        except AssertionError as error:
            self.note(error)

    def note(self, error):
        trace, line = error.__traceback__, None
        frame = sys._getframe()
        while frame and frame.f_code.co_filename != theirs.__file__:
            frame = frame.f_back
        line = linecache.getline(frame.f_code.co_filename, frame.f_lineno).strip() if frame else str(trace)
        self.wrong.append(f"{line}  # {str(error).splitlines()[0]}")

    def assertEqual(self, *words, **named):
        self.noted(super().assertEqual, *words, **named)

    def assertNotEqual(self, *words, **named):
        self.noted(super().assertNotEqual, *words, **named)

    def assertTrue(self, *words, **named):
        self.noted(super().assertTrue, *words, **named)

    def assertFalse(self, *words, **named):
        self.noted(super().assertFalse, *words, **named)

    def assertIs(self, *words, **named):
        self.noted(super().assertIs, *words, **named)

    def assertRaises(self, error, *words, **named):
        if not words:
            return super().assertRaises(error)
        self.noted(super().assertRaises, error, *words, **named)


def over(tests, kind):
    """CPython's tests over a type, each of which fails as it is told above."""

    class Over(Noting, tests, unittest.TestCase):
        cls = kind

        def run(self, result=None):
            call = getattr(self, self._testMethodName)

            def told():
                try:
                    call()
                except unittest.SkipTest:
                    raise
                except Exception as error:
                    self.wrong.append(f"{type(error).__name__}: {error}")
                wanted = wrong_of(kind, self._testMethodName)
                unittest.TestCase.assertEqual(self, len(self.wrong), wanted, "\n".join(self.wrong))

            setattr(self, self._testMethodName, told)
            return super().run(result)

    return Over


if theirs and sys.version_info[:2] == (3, 11):

    class Unix(over(theirs.PurePosixPathTest, UnixPath)):
        pass

    class Windows(over(theirs.PureWindowsPathTest, WindowsPath)):
        pass


if __name__ == "__main__":
    unittest.main()
