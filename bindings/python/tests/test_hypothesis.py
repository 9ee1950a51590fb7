"""Paths that Hypothesis looks for, beside pathlib, and what holds of every path."""

import os
import pathlib
import unittest

from hypothesis import assume, given, settings, strategies

from test_beside import is_like_pathlib, is_plain_on_windows
from typed_path import CheckedPathError, NotPortable, UnixPath, WindowsPath

LETTERS = strategies.characters(blacklist_categories=("Cs",))
NAMES = strategies.one_of(
    strategies.sampled_from(["a", "b.c", ".d", "..", ".", "", "con", "nul .txt", "C:", "日", "e.", " "]),
    strategies.text(LETTERS, max_size=6),
)
MANY = settings(max_examples=2000, deadline=None, derandomize=True)
PATHS = {
    UnixPath: strategies.builds("/".join, strategies.lists(NAMES, max_size=6)),
    WindowsPath: strategies.builds(
        lambda front, names, sep: front + sep.join(names),
        strategies.sampled_from(["", "C:", "c:\\", "D:/", "\\", "\\\\s\\h\\", "\\\\?\\C:\\", "\\\\.\\COM1\\", "//?/"]),
        strategies.lists(NAMES, max_size=6), strategies.sampled_from("\\/"),
    ),
}


def look_at_any(test, kind, text, other):
    """What holds of every path, and of every two."""
    path, one = kind(text), kind(other)
    test.assertEqual(bytes(kind(str(path))), os.fsencode(text))
    test.assertEqual(eval(repr(path)), path)
    test.assertLessEqual(path == one, hash(path) == hash(one))
    test.assertEqual([path < one, path == one, path > one].count(True), 1)
    test.assertEqual(path.clean().clean(), path.clean())
    test.assertTrue(path.is_within(path))
    shared = path.common_ancestor(one)
    test.assertTrue(path.starts_with(shared) and one.starts_with(shared))
    base = kind("/srv" if kind is UnixPath else "C:\\srv")
    for call in (base.join_checked, base.resolve_checked, base.join_portable):
        try:
            joined = call(text)
        except CheckedPathError as refusal:
            test.assertEqual(path.components[refusal.place].text, refusal.name)
            offends = not path.is_portable() if isinstance(refusal, NotPortable) else (
                not path.is_valid() or path.anchor or ".." in path.parts)
            test.assertTrue(offends)
        else:
            test.assertTrue(joined.is_within(base) and joined.starts_with(base))


class Any(unittest.TestCase):
    @MANY
    @given(PATHS[UnixPath], PATHS[UnixPath])
    def test_unix(self, text, other):
        look_at_any(self, UnixPath, text, other)

    @MANY
    @given(PATHS[WindowsPath], PATHS[WindowsPath])
    def test_windows(self, text, other):
        look_at_any(self, WindowsPath, text, other)

    @MANY
    @given(PATHS[UnixPath], PATHS[UnixPath])
    def test_beside_pathlib(self, text, other):
        assume(is_like_pathlib(text) and is_like_pathlib(other))
        ours, theirs = UnixPath(text), pathlib.PurePosixPath(text)
        self.assertEqual((ours.parts, ours.anchor), (theirs.parts, theirs.anchor))
        self.assertEqual((ours / other).parts, (theirs / other).parts)
        self.assertEqual(ours == UnixPath(other), theirs == pathlib.PurePosixPath(other))
        self.assertEqual(list(map(lambda it: it.parts, ours.parents)), [it.parts for it in theirs.parents])

    @MANY
    @given(PATHS[WindowsPath], PATHS[WindowsPath])
    def test_beside_pathlib_on_windows(self, text, other):
        assume(all(is_plain_on_windows(it) and it[:2].replace("/", "\\") != "\\\\" for it in (text, other)))
        ours, theirs = WindowsPath(text), pathlib.PureWindowsPath(text)
        self.assertEqual((ours.parts, ours.anchor, ours.is_absolute()), (theirs.parts, theirs.anchor, theirs.is_absolute()))


if __name__ == "__main__":
    unittest.main()
