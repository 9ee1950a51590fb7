"""The module of C beside the same types over ctypes: answers, memory that is refused, references, interpreters."""

import ctypes
import gc
import inspect
import mmap
import os
import pathlib
import pickle
import random
import subprocess
import sys
import tempfile
import threading
import time
import unittest

import typed_path
from typed_path import UnixPath, WindowsPath, _library, extract_names, unix, windows

IS_NATIVE = typed_path.backend == "native"
PIECES = {
    UnixPath: ["a", "b.c", ".d", "..", ".", "/", "//", "/../", "日", "con", "\0", "\\", ":", " ", "x" * 300, "/a/b"],
    WindowsPath: ["a", "b.c", "..", ".", "\\", "/", "\\\\", "C:", "\\\\?\\", "\\\\s\\h", "con", "日", "\0", " ", "é" * 200],
}
QUESTIONS = ("is_absolute", "has_root", "is_valid", "is_portable", "may_be_device", "keeps_prefix")
MADE = ("normalize", "clean", "simplified", "as_posix")
PARTS = ("name", "stem", "extension", "suffix", "suffixes", "drive", "root", "anchor", "parent", "parents", "parts")
OF_OTHER = (
    "join", "join_checked", "join_portable", "resolve_checked", "is_within", "starts_with", "ends_with",
    "common_ancestor", "strip_prefix", "relative_to", "is_relative_to", "_with_file_name", "with_extension",
    "with_suffix", "_read",
)


class OverCtypes(_library.Path):
    """The types of _library.py, whichever the package has."""

    __slots__ = ()


class UnixOverCtypes(OverCtypes):
    __slots__ = ()
    _dialect, _separator = 0, "/"


class WindowsOverCtypes(OverCtypes):
    __slots__ = ()
    _dialect, _separator = 1, "\\"


def texts(kind, count):
    chosen = random.Random(20261130)
    return ["".join(chosen.choices(PIECES[kind], k=chosen.randrange(7))) for _ in range(count)]


def told(answer):
    """What is compared of an answer: of a path its bytes."""
    if isinstance(answer, (list, tuple)):
        return [told(it) for it in answer]
    return bytes(answer) if hasattr(answer, "__fspath__") else answer


def answered(call, *words):
    try:
        return told(call(*words))
    except ValueError as error:
        return type(error), str(error), getattr(error, "place", None), getattr(error, "name", None)


@unittest.skipUnless(IS_NATIVE, "the package is over ctypes")
class Alike(unittest.TestCase):
    def test_random_paths(self):
        for kind, other in ((UnixPath, UnixOverCtypes), (WindowsPath, WindowsOverCtypes)):
            found = texts(kind, 3000)
            for text, another in zip(found, reversed(found)):
                pair = kind(text), other(text)
                for name in QUESTIONS + MADE + ("_pieces", "_check", "_check_portable", "__str__", "__bytes__", "__fspath__"):
                    self.assertEqual(*(told(getattr(it, name)()) for it in pair), (name, text))
                for name in PARTS:
                    self.assertEqual(*(told(getattr(it, name)) for it in pair), (name, text))
                for name in OF_OTHER:
                    self.assertEqual(*(answered(getattr(it, name), another) for it in pair), (name, text, another))
                for suffix in ("", ".", ".x", "x", f".{another}"):
                    self.assertEqual(*(answered(it.with_suffix, suffix) for it in pair), (text, suffix))
                    self.assertEqual(*(answered(it.with_extension, suffix[1:]) for it in pair), (text, suffix))
                self.assertEqual(*(answered(lambda it=it: it.relative_to(another, walk_up=True)) for it in pair))
                for checks in (False, True):
                    self.assertEqual(*(answered(it._convert, 1 - it._dialect, checks) for it in pair), text)
                self.assertEqual(*(it._is_name(os.fsencode(another)) for it in pair), another)
                others = kind(another), other(another)
                compared = [
                    (one == two, one != two, one < two, one <= two, one > two, one >= two, told(one / two),
                     told(text / two), (hash(one) == hash(two)) >= (one == two))
                    for one, two in zip(pair, others)
                ]
                self.assertEqual(*compared, (text, another))
            for base in found[:50]:
                for names in (found[:50], [it.encode() for it in found[:50]], ["\ud800", "a"]):
                    for number in range(3):
                        for given in (list, tuple, iter):
                            got = [it._batch(given(names), number, False) for it in (kind(base), other(base))]
                            self.assertEqual(*got, (base, number))
                        buffers = [bytearray(200_000) for _ in got]
                        written = [
                            it._batch_into(names, number, buffer, b"\n")
                            for it, buffer in zip((kind(base), other(base)), buffers)
                        ]
                        self.assertEqual(*zip(written, buffers))

    def test_names_that_recur(self):
        """Short ones are one text in the parts of paths, in each thread; they are told apart, whatever their letters."""
        wrong = []

        def look(number):
            chosen = random.Random(number)
            for at in range(3000):
                names = ["".join(chosen.choices("ab\u00e9", (9, 9, 1), k=chosen.randrange(1, 36))) for _ in range(4)]
                kind = (UnixPath, WindowsPath)[at % 2]
                if kind(kind._separator.join(names)).parts != tuple(names):
                    wrong.append(names)

        threads = [threading.Thread(target=look, args=(number,)) for number in range(4)]
        for thread in threads:
            thread.start()
        for thread in threads:
            thread.join()
        self.assertEqual(wrong, [])
        self.assertIs(UnixPath("/srv/www").parts[1], WindowsPath("srv").parts[0])

    def test_texts(self):
        """Those of C answer as those that go through a path."""
        from typed_path._texts import Texts

        for calls, kind in ((unix, UnixPath), (windows, WindowsPath)):
            slow, found = Texts(kind), texts(kind, 300)
            for name in (it for it in vars(Texts) if not it.startswith("_")):
                for text, other in zip(found, reversed(found)):
                    for read in (str, os.fsencode):
                        words = (read(text), other) if Texts.__dict__[name].__code__.co_argcount == 3 else (read(text),)
                        got, wanted = (answered(getattr(it, name), *words) for it in (calls, slow))
                        self.assertEqual((type(got), got), (type(wanted), wanted), (name, words))
                self.assertTrue(getattr(calls, name).__doc__, name)


class Batches(unittest.TestCase):
    def test_many_names(self):
        """Each is joined as it is alone, whatever letters others have, and whether they are listed."""
        chosen = random.Random(1)
        for kind in (UnixPath, WindowsPath):
            for strange in (0, 0.002, 0.5):
                names = [
                    chosen.choice(("..", "/x", "")) if chosen.random() < 0.1
                    else "n" * chosen.randrange(1, 20) + ("\u00e9\udcff" if chosen.random() < strange else "")
                    for _ in range(1500)
                ]
                base = kind("base")
                alone = [answered(lambda name: str(base.join_checked(name)), name) for name in names]
                for given in (list, tuple, iter):
                    targets, refusals = base.join_checked_batch(given(names))
                    got = [refusals[at] if target is None else target for at, target in enumerate(targets)]
                    self.assertEqual(got, [it[0] if isinstance(it, tuple) else it for it in alone])
                    made = extract_names(base, given(names))
                    self.assertEqual(
                        [(name, str(path)) for name, path in made.targets],
                        [(name, it) for name, it in zip(names, got) if isinstance(it, str)],
                    )

    def test_runs(self):
        """More names than are joined at once."""
        names = [f"n{at}" for at in range(2 * 65_536)] + ["..", "last"]
        for given in (names, iter(names), names[:65_536]):
            targets, refusals = UnixPath("a").join_checked_batch(given)
            self.assertEqual([it and it[2:] for it in targets], [it if it != ".." else None for it in names[:len(targets)]])
            self.assertEqual(len(refusals), targets.count(None))


class Buffers(unittest.TestCase):
    def test_targets_are_written(self):
        base, names = UnixPath("/srv"), ["a/b", "../x", "日", "con"]
        with tempfile.TemporaryFile() as file:
            file.truncate(100)
            with mmap.mmap(file.fileno(), 100) as buffer:
                written = base.join_checked_into(iter(names), buffer)
                self.assertEqual(written, (27, {1: typed_path.PathTraversalAttack}))
                self.assertEqual(buffer[:28], "/srv/a/b\n/srv/日\n/srv/con\n\0".encode())

    def test_what_has_no_room(self):
        buffer = bytearray(13)
        with self.assertRaises(typed_path.BufferTooSmall) as raised:
            UnixPath("/srv").join_portable_into(["a", "b", "c"], buffer, b"")
        self.assertEqual((raised.exception.path, bytes(buffer)), ("c", b"/srv/a/srv/b\0"))
        self.assertRaises((TypeError, BufferError), UnixPath("a").join_checked_into, ["a"], b"bytes do not change")

    def test_long_paths(self):
        """Answers of a kilobyte and of a megabyte."""
        for size in (1000, 1014, 1015, 1016, 1017, 1018, 1024, 1025, 1_000_000):
            name = "n" * size
            path = UnixPath("/srv").join_checked(name)
            self.assertEqual(bytes(path), b"/srv/" + name.encode())
            self.assertEqual((path.name, str(path.clean()), path.parts), (name, f"/srv/{name}", ("/", "srv", name)))
            self.assertEqual(UnixPath("/srv").join_checked_batch([name, ".."])[0], [f"/srv/{name}", None])
            self.assertEqual(str(path.relative_to("/srv")), name)
            self.assertEqual(bytes(path.to_windows()), b"\\srv\\" + name.encode())


class Threads(unittest.TestCase):
    @unittest.skipUnless(IS_NATIVE, "ctypes lets the lock go in each call")
    def test_the_lock_is_let_go(self):
        """While one thread is in a batch, another runs."""
        names, ran, stop = [f"{'a/' * 100}{at}" for at in range(65_536)], [], threading.Event()

        def count():
            while not stop.is_set():
                ran.append(1)
                time.sleep(1e-4)

        interval = sys.getswitchinterval()
        sys.setswitchinterval(1000)  # so the other thread runs only where this one lets the lock go
        try:
            other = threading.Thread(target=count)
            other.start()
            before = len(ran)
            UnixPath("/srv").join_checked_batch(names)
            self.assertGreater(len(ran), before)
        finally:
            stop.set()
            sys.setswitchinterval(interval)
            other.join()


def calls_of(path, other):
    """Each call of the module, and some that it refuses."""
    return [
        lambda: type(path)(other), lambda: type(path)(other, other), lambda: str(path), lambda: bytes(path),
        lambda: hash(path), lambda: path == other, lambda: path < type(path)(other), lambda: path / other,
        lambda: other / path, lambda: path._like(b"a"), lambda: path._of(b"a"), lambda: path.with_segments("a", "b"),
        *(lambda name=name: getattr(path, name) for name in PARTS),
        *(lambda name=name: getattr(path, name)() for name in QUESTIONS + MADE),
        *(lambda name=name: getattr(path, name)(other) for name in OF_OTHER),
        lambda: path.join_checked(".." * 2), lambda: path.join_checked("/x/.."), lambda: path.join_portable("nul"),
        lambda: path.relative_to("b", walk_up=True), lambda: path.relative_to(walk_up=1),
        lambda: path._absolutize(b"/a"), lambda: path._convert(0, True), lambda: path._convert(1, True),
        lambda: path.joinpath("a", 1), lambda: path / 1, lambda: path / pathlib.PurePosixPath("a"), lambda: path._pieces(),
        lambda: path._batch(["a", "..", "b"], 0, False), lambda: path._batch([b"a", b"nul"], 1, True),
        lambda: path._batch(["a", b"b"], 2, False), lambda: path._batch(["\ud800"], 0, False),
        lambda: path._batch(iter(["a", "..", "b"]), 0, False), lambda: path._batch(["a", "\u00e9", "a"] * 50, 0, False),
        lambda: path._batch_into(["a", "b"], 0, bytearray(3000), b"\n"), lambda: path._batch_into(["a"], 0, bytearray(0), b""),
        lambda: unix.join_checked("a", other), lambda: path._check(), lambda: path._check_portable(), lambda: path._text(b"a"), lambda: path._is_name(b"a"),
        lambda: unix.is_within(b"a", other), lambda: windows.clean("a"), lambda: unix.join_checked("a", ".."),
        lambda: unix.join("\ud800", "a"), lambda: unix.join("a", 1), lambda: setattr(path, "a", 1),
        lambda: path.with_suffix(""), lambda: path.with_suffix(suffix=".x"), lambda: path.with_suffix("x"),
        lambda: path.with_suffix(".x/y"), lambda: path.with_suffix(), lambda: path.with_suffix(other=".x"),
        lambda: path.with_extension(""), lambda: path.with_extension(extension="x"), lambda: path.with_extension("/"),
        lambda: type(path)("a/..x").with_extension(""), lambda: type(path)("a/..").with_suffix(".x"),
        lambda: path._bytes, lambda: path._like(path._bytes).name,
        *(lambda name=name: getattr(type(path)(bytes(path)), name) for name in (*PARTS, "_bytes")),
        *(lambda name=name: getattr(type(path)(str(path)), name) for name in (*PARTS, "_bytes")),
        *(lambda name=name: getattr(path / "a", name)() for name in (*QUESTIONS, "__str__", "__hash__", "__bytes__")),
    ]


def calls_in_python(path):
    """Calls that are written in Python, and make use of those."""
    return [
        lambda: repr(path), lambda: pickle.dumps(path), lambda: path.components, lambda: path.with_name("x"),
        lambda: path.to_windows_checked(), lambda: path.to_unix(), lambda: path.match("*"),
        lambda: path.full_match("**"), lambda: path.absolutize(), lambda: path.join_checked_batch(["a", "..", "b"]),
        lambda: extract_names(path, ["a", ".."]), lambda: path.join_checked_into(["a" * 30], bytearray(3)),
        lambda: path.check_portable(),
    ]


@unittest.skipUnless(IS_NATIVE, "the package is over ctypes")
class Memory(unittest.TestCase):
    PATHS = (UnixPath("a/b.c/日"), "../x"), (UnixPath("n/" * 800), "m/" * 800), (WindowsPath("C:\\a"), "b")

    def tried(self, call):
        try:
            call()
        except (ValueError, TypeError, AttributeError):
            pass

    def test_nothing_is_lost(self):
        """By the blocks that Python counts, whose caches may keep some."""
        calls = [call for path, other in self.PATHS for call in calls_of(path, other) + calls_in_python(path)]
        gc.disable()
        try:
            for call in calls:
                for _ in range(5):
                    self.tried(call)
                before = sys.getallocatedblocks()
                for _ in range(1000):
                    self.tried(call)
                self.assertLess(sys.getallocatedblocks() - before, 500, inspect.getsource(call))
        finally:
            gc.enable()

    def test_requests_are_refused(self):
        """Each request of Python's in turn."""
        try:
            import _testcapi
        except ImportError:
            self.skipTest("there is no _testcapi")
        for path, other in self.PATHS:
            for call in calls_of(path, other):
                for at in range(5000):
                    is_refused = False
                    _testcapi.set_nomemory(at, at + 1)
                    try:
                        call()
                    except MemoryError:
                        is_refused = True
                    except (ValueError, TypeError, AttributeError):
                        pass
                    finally:
                        _testcapi.remove_mem_hooks()
                    if not is_refused:
                        break
                self.assertLess(at, 4999)

    def test_requests_of_the_library_are_refused(self):
        """Each of its own, by a library that stands before that of C: it refuses the request of a number."""
        program = f"""
import ctypes, sys
sys.path.insert(0, {os.path.dirname(__file__)!r})
from test_backends import Memory, calls_of
refusing = ctypes.PyDLL(sys.argv[1])
refused = 0
for path, other in Memory.PATHS:
    for call in calls_of(path, other):
        for at in range(2000):
            refusing.refuse(at)
            try:
                call()
            except MemoryError:
                refused += 1
            except (ValueError, TypeError, AttributeError):
                pass
            if refusing.refuse(-1) >= 0:
                break
        else:
            sys.exit("it asks for ever")
print(refused)
"""
        with tempfile.TemporaryDirectory() as room:
            source, library = f"{room}/refusing.c", f"{room}/refusing.so"
            with open(source, "w") as file:
                file.write(REFUSING)
            try:
                subprocess.run(["cc", "-O1", "-shared", "-fPIC", source, "-o", library], check=True)
            except (OSError, subprocess.CalledProcessError):
                self.skipTest("there is no cc")
            env = {**os.environ, "LD_PRELOAD": library}
            said = subprocess.run([sys.executable, "-c", program, library], env=env, stdout=subprocess.PIPE, check=True)
        self.assertGreater(int(said.stdout), 50)


REFUSING = r"""
#include <stdlib.h>
extern void *__libc_malloc(size_t), *__libc_realloc(void *, size_t);
static __thread int left = -1;
int refuse(int at) { int was = left; left = at; return was; }
static int refuses(void) { return left >= 0 && left-- == 0; }
void *malloc(size_t size) { return refuses() ? NULL : __libc_malloc(size); }
void *realloc(void *at, size_t size) { return refuses() ? NULL : __libc_realloc(at, size); }
"""


class Interpreters(unittest.TestCase):
    PROGRAM = """
import typed_path
from typed_path import UnixPath, WindowsPath
assert str(UnixPath("/srv") / "a") == "/srv/a" and WindowsPath("c:/a") == WindowsPath("C:\\\\a")
assert hash(UnixPath("a//b")) == hash(UnixPath("a/b"))
try:
    UnixPath("/srv").join_checked("..")
except typed_path.PathTraversalAttack as refusal:
    assert refusal.place == 0
else:
    assert False
class Below(UnixPath):
    pass
assert type(Below("a") / "b") is Below and UnixPath("a").join_checked_batch(["b"])[0] == ["a/b"]
assert [Below("srv/www").parts, UnixPath("/srv/www").parts[1:]] == [("srv", "www")] * 2
assert [Below(it).root for it in ("/a", "a")] + [WindowsPath(it).root for it in ("C:/a", "C:a")] == ["/", "", "\\\\", ""]
"""

    @unittest.skipUnless(IS_NATIVE, "ctypes is not for each interpreter")
    def test_others(self):
        try:
            import _interpreters as interpreters
        except ImportError:
            try:
                import _xxsubinterpreters as interpreters
            except ImportError:
                self.skipTest("there are no interpreters")
        program = f"import sys; sys.path[:] = {sys.path!r}\n{self.PROGRAM}"
        exec(self.PROGRAM, {})
        for _ in range(3):
            one, two = interpreters.create(), interpreters.create()
            for it in (one, two, one):
                said = interpreters.run_string(it, program)
                self.assertIsNone(said)
            interpreters.destroy(one)
            exec(self.PROGRAM, {})
            interpreters.destroy(two)
        exec(self.PROGRAM, {})


if __name__ == "__main__":
    unittest.main()
