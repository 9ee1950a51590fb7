"""What the docstrings and the README show, and that each call has a docstring."""

import doctest
import inspect
import pathlib
import unittest

import typed_path
from typed_path import _library

TOP = pathlib.Path(__file__).parents[1]


class Documented(unittest.TestCase):
    def test_each_call_has_a_docstring(self):
        for name in typed_path.__all__:
            kind = getattr(typed_path, name)
            self.assertTrue(kind.__doc__, name)
            for call, it in vars(kind).items() if isinstance(kind, type) and not issubclass(kind, tuple) else ():
                if not call.startswith("_") and (callable(it) or inspect.isdatadescriptor(it)):
                    self.assertTrue(it.__doc__, (name, call))
        for calls in (typed_path.unix, typed_path.windows):
            for call in (it for it in vars(typed_path._texts.Texts) if not it.startswith("_")):
                self.assertTrue(getattr(calls, call).__doc__, call)


def load_tests(loader, tests, pattern):
    """The examples of the package, and of what describes the types, whichever backend answers."""
    tests.addTests(doctest.DocTestSuite(typed_path))
    for module in (_library, typed_path._texts):
        tests.addTests(doctest.DocTestSuite(module, globs=vars(typed_path).copy()))
    tests.addTests(doctest.DocFileSuite(str(TOP / "README.md"), module_relative=False))
    return tests
