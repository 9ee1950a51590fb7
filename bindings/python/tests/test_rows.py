"""The rows of known answers, and what no row says."""

import copy
import itertools
import os
import pathlib
import pickle
import random
import re
import shutil
import subprocess
import sys
import tempfile
import threading
import timeit
import unittest

import typed_path
from typed_path import UnixPath, WindowsPath, _errors, _library, derive, extract_names

ROWS = pathlib.Path(__file__).parents[2] / "rows.tsv"
CLASSES = {"unix": UnixPath, "windows": WindowsPath}
REFUSALS = {
    "INVALID_FILENAME": typed_path.InvalidFilename, "PATH_TRAVERSAL_ATTACK": typed_path.PathTraversalAttack,
    "UNEXPECTED_PREFIX": typed_path.UnexpectedPrefix, "UNEXPECTED_ROOT": typed_path.UnexpectedRoot,
    "AMBIGUOUS": typed_path.Ambiguous, "HAS_PREFIX": typed_path.HasPrefix, "FORBIDDEN": typed_path.ForbiddenByte,
    "DEVICE": typed_path.MayBeDevice, "ENDING": typed_path.BadEnding, "TOO_LONG": typed_path.NameTooLong,
    "NOT_TEXT": typed_path.NotUtf8,
}
# What a call returns where there is no such part.
NONE = {"file_name": "", "file_stem": "", "extension": None, "common_ancestor": b""}
# What the package has no call for.
CALLS_OF_C = {"is_valid_name", "key_words", "prefix_names", "push_place", "with_added_extension", "file_prefix",
              "compare_ignore_ascii_case"}
# What the library takes for another name or extension, and Python refuses.
NO_NAMES = [
    ("with_file_name", b"a/b", b""), ("with_file_name", b"a/b", b"/x"), ("with_file_name", b"a/b", b".."),
    ("with_extension", b"/srv/a.txt", b"x/../../../etc/passwd"), ("with_extension", b"...", b""),
]


def text_of(field):
    return re.sub(rb"%(..)", lambda it: bytes([int(it[1], 16)]), field.encode())


def called(call, path, other):
    """What a call answers, by the name that it has in Python."""
    if call in ("convert", "convert_checked"):
        return bytes(getattr(path, f"to_{other.decode()}{call[len('convert'):]}")())
    if call.startswith("absolutize_from_"):
        return bytes(path.absolutize(CLASSES[call[len("absolutize_from_"):]](other)))
    if call == "equal_ignore_ascii_case":
        return str(path.eq_ignore_ascii_case(other)).lower().encode()
    if call in ("normalize", "clean", "simplified", "parent", "to_ascii_lowercase"):
        return bytes(path.parent if call == "parent" else getattr(path, call)())
    if call in ("check", "check_portable"):
        type(path)("").join_checked(path) if call == "check" else path.check_portable()
        return b""
    if call in ("file_name", "file_stem", "extension"):
        part = getattr(path, {"file_name": "name", "file_stem": "stem"}.get(call, call))
        return part if part == NONE[call] else part.encode("utf-8", "surrogateescape")
    if call == "components":
        return "|".join(map("=".join, path.components)).encode("utf-8", "surrogateescape")
    if call == "compare":
        other = type(path)(other)
        return str((path > other) - (path < other)).encode()
    if call == "equal":
        return str(path == type(path)(other)).lower().encode()
    if call in ("is_absolute", "has_root", "is_valid", "is_portable", "may_be_device", "keeps_prefix"):
        return str(getattr(path, call)()).lower().encode()
    if call in ("starts_with", "ends_with", "is_within", "starts_with_ignore_ascii_case"):
        return str(getattr(path, call)(other)).lower().encode()
    if call == "relative_to":
        return bytes(path.relative_to(other, walk_up=True))
    return bytes(getattr(path, call)(other))


class Rows(unittest.TestCase):
    def test_rows(self):
        lines = [it for it in ROWS.read_text().splitlines() if not it.startswith("#")]
        self.assertGreater(len(lines), 300)
        for line in lines:
            call, dialect, path, other, answer = line.split("\t")
            raw = text_of(path)
            with self.subTest(line):
                if call in CALLS_OF_C:
                    continue
                if call == "derive":
                    self.assertIs(type(derive(raw)), CLASSES[answer[1:]])
                    continue
                path = CLASSES[dialect](raw)
                if (call, raw, text_of(other)) in NO_NAMES:
                    self.assertRaises(ValueError, called, call, path, text_of(other))
                elif answer in REFUSALS:
                    self.assertRaises(REFUSALS[answer], called, call, path, text_of(other))
                elif answer.startswith("="):
                    self.assertEqual(called(call, path, text_of(other)), text_of(answer[1:]))
                elif call in ("strip_prefix", "relative_to"):
                    self.assertRaises(ValueError, called, call, path, text_of(other))
                elif call == "parent":
                    self.assertIs(path.parent, path)
                else:
                    self.assertEqual(called(call, path, text_of(other)), NONE[call])

    def test_relative_paths_lie_below(self):
        """Without `walk_up` a row is answered exactly where its path lies within the base."""
        rows = [it.split("\t") for it in ROWS.read_text().splitlines() if it.startswith("relative_to\t")]
        taken = 0
        for _, dialect, path, base, answer in rows:
            path, base = CLASSES[dialect](text_of(path)), text_of(base)
            with self.subTest(path=path, base=base):
                if answer.startswith("=") and path.is_within(base):
                    self.assertEqual(bytes(path.relative_to(base)), text_of(answer[1:]))
                    self.assertNotIn("..", path.relative_to(base).parts)
                    taken += 1
                else:
                    self.assertRaises(typed_path.NoRelativePath, path.relative_to, base)
                self.assertEqual(path.is_relative_to(base), answer.startswith("=") and path.is_within(base))
        self.assertGreater(taken, 30)


def key_of(seed):
    """The key that PYTHONHASHSEED makes, as two numbers."""
    if seed == 0:
        return 0, 0
    drawn = []
    for _ in range(16):
        seed = (seed * 214013 + 2531011) % 2**32
        drawn.append(seed >> 16 & 255)
    return int.from_bytes(drawn[:8], "little"), int.from_bytes(drawn[8:], "little")


def told(name):
    """How many bytes a name has, and these."""
    return (bytes([10 + len(name)]) if len(name) < 245 else b"\xff" + len(name).to_bytes(8, "little")) + name


def fed(path):
    """What a path feeds its hash, all behind each other: each component, and then a byte that none begins with."""
    words = b""
    for kind, text in path.components:
        text = os.fsencode(text)
        if kind in ("root", "current", "parent"):
            words += bytes([7 + ("root", "current", "parent").index(kind)])
        elif kind == "normal":
            words += told(text)
        else:
            kinds = ("Verbatim", "VerbatimUNC", "VerbatimDisk", "DeviceNS", "UNC", "Disk")
            words += bytes([1 + kinds.index(kind)])
            names = [it for it in re.split(rb"[\\/]", text) if it not in (b"", b"?", b".")]
            if kind.endswith("Disk"):
                words += names[-1][:1].upper()
            else:
                words += b"".join(map(told, names[1:] if kind == "VerbatimUNC" else names))
    return words + b"\0"


class Paths(unittest.TestCase):
    def test_text_and_bytes(self):
        self.assertEqual(str(UnixPath("日/本")), "日/本")
        self.assertEqual(bytes(UnixPath("日")), "日".encode())
        self.assertEqual(bytes(UnixPath(str(UnixPath(b"\xff/\xe6")))), b"\xff/\xe6")
        self.assertEqual(UnixPath(pathlib.PurePosixPath("a/b"), "c", b"d"), UnixPath("a/b/c/d"))
        self.assertRaises(UnicodeEncodeError, UnixPath, "\ud800")
        self.assertRaises(TypeError, UnixPath, 1)
        self.assertEqual(eval(repr(WindowsPath("C:\\é'"))), WindowsPath("C:\\é'"))

    def test_names_and_extensions(self):
        for kind, names in (
            (UnixPath, ["", ".", "..", "/", "a/", "/a", "a/b", "../a", "./a"]),
            (WindowsPath, ["", ".", "..", "/", "\\", "a/", "a\\b", "\\a", "C:", "C:a", "\\\\s\\h", "\\\\?\\a", "..\\a"]),
        ):
            for name in names:
                for path in ("", "a", "a/b", "/srv/a.txt"):
                    self.assertRaises(ValueError, kind(path).with_file_name, name)
                    if "/" in name or "\\" in name:
                        self.assertRaises(ValueError, kind(path).with_extension, name)
        for name in ("a", "...", ".a", "a.", " ", b"\xff", "日", "\0"):
            self.assertEqual(UnixPath("x/y").with_file_name(name), UnixPath("x").join(name))
        for path in ("a/...", "a/..x"):
            self.assertRaises(ValueError, UnixPath(path).with_extension, "")
            self.assertEqual(UnixPath(path).with_extension("y").parent, UnixPath("a"))

    def test_dialects_are_apart(self):
        self.assertNotEqual(UnixPath("a"), WindowsPath("a"))
        self.assertRaises(TypeError, lambda: UnixPath("a") < WindowsPath("a"))
        self.assertRaises(TypeError, lambda: UnixPath("a") / WindowsPath("a"))
        self.assertEqual("a" / UnixPath("b"), UnixPath("a/b"))

    def test_keys(self):
        self.assertEqual({WindowsPath("c:/a"): 1}[WindowsPath("C:\\a\\.")], 1)
        self.assertEqual(len({UnixPath("a/b"), UnixPath("a//b"), UnixPath("a"), WindowsPath("a")}), 3)
        self.assertEqual(
            sorted(map(UnixPath, ["b", "ab", "a/b", "a", "../a", "/a", ""])),
            list(map(UnixPath, ["", "/a", "../a", "a", "a/b", "ab", "b"])),
        )

    @unittest.skipUnless(sys.hash_info.algorithm == "siphash13", "this Python hashes otherwise")
    def test_hash_is_siphash(self):
        """Python hashes bytes by SipHash 1-3 too, under a key that its seed makes: of 0 the zeros."""
        unix = ["", "/", "a", "a//b/.", "./a/..", "/usr/share/doc", "日/本", "x" * 244, "x" * 245, "x" * 1000]
        windows = [*unix, "C:", "c:\\a", "\\\\?\\C:\\a", "\\\\s\\h\\a", "\\\\?\\UNC\\s\\h", "\\\\.\\COM1", "\\\\?\\a"]
        paths = [(_errors.UNIX, it) for it in unix] + [(_errors.WINDOWS, it) for it in windows]
        words = [fed(CLASSES[("unix", "windows")[dialect]](path)).hex() for dialect, path in paths]
        program = "import sys; print(*(hash(bytes.fromhex(it)) % 2**64 for it in sys.argv[1:]))"
        for seed in (0, 1, 20261129):
            env = {**os.environ, "PYTHONHASHSEED": str(seed)}
            said = subprocess.check_output([sys.executable, "-c", program, *words], env=env)
            got = [_library.hashed(dialect, path.encode(), key_of(seed)) for dialect, path in paths]
            self.assertEqual(got, list(map(int, said.split())))

    def test_hash_of_paths_that_are_chosen(self):
        """One word cut at any of its letters: a dictionary of such paths is as fast as one of any others."""
        letters = "abcdefghijklm"
        chosen = ["".join(map("".join, zip(letters, cuts))) for cuts in itertools.product(("/", ""), repeat=12)]
        chosen = [f"{it}{letters[-1]}" for it in chosen]
        honest = [f"{at:04}/{it.replace('/', 'x')}" for at, it in enumerate(chosen)]
        for kind in CLASSES.values():
            kinds = [[kind(it) for it in texts] for texts in (chosen, honest)]
            for paths in kinds:
                self.assertEqual(len(set(map(hash, paths))), 4096)
                self.assertEqual(len(dict.fromkeys(paths)), 4096)
            timers = [timeit.Timer(lambda paths=paths: dict.fromkeys(paths)) for paths in kinds]
            least = [min(times) for times in zip(*([timer.timeit(1) for timer in timers] for _ in range(20)))]
            self.assertLess(least[0], 2 * least[1])

    def test_hash_differs_by_process(self):
        program = "from typed_path import UnixPath, WindowsPath\nprint(hash(UnixPath('a')), hash(WindowsPath('a')))"
        said = [subprocess.check_output([sys.executable, "-c", program]).split() for _ in range(2)]
        self.assertEqual(len({*said[0], *said[1]}), 4)

    def test_copies(self):
        path = UnixPath(b"a/\xff")
        self.assertEqual(pickle.loads(pickle.dumps(path)), path)
        self.assertEqual(bytes(copy.deepcopy(path)), b"a/\xff")
        error = typed_path.UnexpectedRoot("/a")
        self.assertEqual(str(pickle.loads(pickle.dumps(error))), str(error))
        self.assertRaises(AttributeError, setattr, path, "other", 1)

    def test_refusals_name_the_path(self):
        with self.assertRaises(typed_path.CheckedPathError) as raised:
            UnixPath("/etc").join_checked("../x")
        self.assertEqual((raised.exception.path, type(raised.exception)), ("../x", typed_path.PathTraversalAttack))

    def test_long_paths(self):
        self.assertEqual(str(UnixPath("a/" * 500_000).normalize()), "a/" * 499_999 + "a")
        self.assertEqual(len(UnixPath("a/" * 500_000).components), 500_000)

    def test_parents(self):
        self.assertEqual(list(map(str, UnixPath("/a/b/.").parents)), ["/a", "/"])
        self.assertEqual(list(map(str, WindowsPath("C:a\\b").parents)), ["C:a", "C:", ""])


class Records(unittest.TestCase):
    def test_they_are_named_tuples(self):
        batch = typed_path.Batch(["a"], refusals={})
        self.assertEqual((batch.targets, batch._asdict()), (["a"], {"targets": ["a"], "refusals": {}}))
        self.assertEqual((batch, batch._replace(targets=[])), ((["a"], {}), ([], {})))
        again = pickle.loads(pickle.dumps(copy.copy(batch)))
        self.assertEqual((again, type(again), repr(again)), (batch, type(batch), "Batch(targets=['a'], refusals={})"))
        for words, named in (((), {}), ((1,), {"targets": 2}), ((1, 2, 3), {}), ((1, 2), {"other": 3})):
            self.assertRaises(TypeError, typed_path.Batch, *words, **named)
        self.assertRaises(AttributeError, setattr, batch, "targets", [])


class Tagged(UnixPath):
    """It has an attribute, and a slot."""

    __slots__ = ("__secret", "__dict__")

    def __init__(self, path, tag):
        super().__init__(path)
        self.tag, self.__secret = tag, f"secret {tag}"

    def secret(self):
        return self.__secret


class Slotted(WindowsPath):
    __slots__ = "tag"


class Counted(UnixPath):
    """It says itself what is pickled."""

    count = 0

    def __getstate__(self):
        return self.count

    def __setstate__(self, count):
        self.count = count + 1


class Handing(UnixPath):
    """It hands its attribute on."""

    def __init__(self, *segments, tag):
        super().__init__(*segments)
        self.tag = tag

    def with_segments(self, *segments):
        return type(self)(*segments, tag=self.tag)


class Subclasses(unittest.TestCase):
    def made_of(self, path, other):
        """What each call that makes a path makes of one, which lies in `/a` or `C:\\a`, and of a name."""
        made = [
            path / other, path.join(other, other), path.joinpath(other), path.join_checked(other), path.parent,
            *path.parents, path.with_file_name(other), path.with_name(other), path.with_stem(other),
            path.with_extension(other), path.with_suffix(f".{other}"), path.normalize(), path.clean(),
            path.strip_prefix(path.parent), path.relative_to(path.parent), path.absolutize("/"),
            path.to_unix() if isinstance(path, UnixPath) else path.to_windows(), path.with_segments(other),
            *(target for _, target in extract_names(path, [other]).targets), other / path, copy.copy(path),
            copy.deepcopy(path), pickle.loads(pickle.dumps(path)),
        ]
        self.assertGreater(len(made), 20)
        return made

    def test_class_is_kept(self):
        slotted = Slotted("C:\\a\\b.c")
        for path in (Tagged("/a/b.c", 1), slotted, Handing("/a", "b.c", tag=1)):
            self.assertEqual({type(it) for it in self.made_of(path, "x")}, {type(path)})
            plain = (UnixPath if isinstance(path, UnixPath) else WindowsPath)(path)
            self.assertEqual(self.made_of(path, "x"), self.made_of(plain, "x"))
            self.assertEqual((path, hash(path)), (plain, hash(plain)))
            self.assertIs(type(plain / path), type(plain))
        self.assertIs(type(Tagged("a", 1).to_windows()), WindowsPath)

    def test_attributes_are_kept(self):
        slotted = Slotted("a")
        for path in (Tagged(b"a/\xff", ["list"]), slotted):
            path.tag = ["list"]
            for protocol in range(pickle.HIGHEST_PROTOCOL + 1):
                again = pickle.loads(pickle.dumps(path, protocol))
                self.assertEqual((type(again), bytes(again), again.tag), (type(path), bytes(path), ["list"]))
            self.assertIs(copy.copy(path).tag, path.tag)
            self.assertIsNot(copy.deepcopy(path).tag, path.tag)
        self.assertEqual(pickle.loads(pickle.dumps(Tagged("a", 1))).secret(), "secret 1")
        self.assertFalse(hasattr(pickle.loads(pickle.dumps(Slotted("a"))), "tag"))
        counted = Counted("a")
        counted.count = 1
        self.assertEqual((bytes(copy.copy(counted)), copy.copy(counted).count), (b"a", 2))

    def test_attributes_are_handed_on(self):
        path = Handing("/a/b.c", tag="kept")
        self.assertEqual({it.tag for it in self.made_of(path, "x")}, {"kept"})

    def test_pickles_of_older_states_are_read(self):
        """They name the class and have its bytes, by which it is called."""
        pickled = b"\x80\x04\x8c\ntyped_path\x94\x8c\x08UnixPath\x94\x93\x94C\x03a/b\x94\x85\x94R\x94."
        self.assertEqual(pickle.loads(pickled), UnixPath("a/b"))

    def test_class_of_annotations(self):
        self.assertIs(UnixPath[str], UnixPath)
        self.assertIs(Tagged[bytes], Tagged)


class NothingChanges(unittest.TestCase):
    def test_paths(self):
        for path in (UnixPath("a/b"), WindowsPath("a/b"), Tagged("a/b", 1), Slotted("a/b")):
            number, joined = hash(path), path
            path.__init__("c", "d")
            typed_path.TypedPath.__init__(path, "c")
            with self.assertRaises(AttributeError):
                path._bytes = b"c"
            with self.assertRaises(AttributeError):
                path.__class__ = UnixPath if isinstance(path, WindowsPath) else WindowsPath
            with self.assertRaises(AttributeError):
                del path._bytes
            for name in ("name", "parent", "parts", "drive"):
                self.assertRaises(AttributeError, setattr, path, name, "c")
                self.assertRaises(AttributeError, delattr, path, name)
            joined /= "c"
            self.assertEqual((bytes(path), hash(path), joined.name), (b"a/b", number, "c"))

    def test_path_that_its_own_text_makes(self):
        """A text that is read calls `__init__` of the path that is made of it."""
        for kind in (UnixPath, WindowsPath, Slotted):
            path = kind.__new__(kind)

            class Within:
                def __fspath__(self):
                    path.__init__("a/b.c")
                    found.append((bytes(path), str(path), path.parts, hash(path)))
                    return "other/one"

            for segments in ((Within(),), (Within(), "x"), ("x", Within())):
                path, found = kind.__new__(kind), []
                path.__init__(*segments)
                self.assertEqual((bytes(path), str(path), path.parts, hash(path)), *found)

    def test_what_is_kept(self):
        """What is asked again is answered alike, however the path was made."""
        for kind in (UnixPath, WindowsPath, Slotted):
            for text in ("", "/", "a", "/a//b.c/.", "C:\\a.b", "C:a", "\\\\s\\h\\a", "nul", "日/é.x", "\udcff/a", "a/.."):
                of_str, of_bytes = kind(text), kind(os.fsencode(text))
                joined, shared = kind("x/..").join(text), of_str.simplified()
                for path in (of_str, of_bytes, joined, shared):
                    once = [
                        (name, getattr(it, name)) for it in (path, kind(bytes(path)))
                        for name in ("parts", "name", "drive", "root", "anchor", "_bytes")
                    ] + [
                        (name, getattr(it, name)()) for it in (path, kind(bytes(path)))
                        for name in ("is_absolute", "has_root", "is_valid", "is_portable", "may_be_device", "keeps_prefix",
                                     "__str__", "__fspath__", "__bytes__", "__hash__")
                    ]
                    for name, answer in once:
                        again = getattr(path, name)
                        self.assertEqual(again() if callable(again) else again, answer, (kind, text, name))

    def test_repr(self):
        texts = ["", "a", "/a//b/.", "'", '"', "\\", "\n", "日", "\udcff", "a\0", b"\xff", b"\xe6\x97", b"caf\xe9"]
        for kind in (UnixPath, WindowsPath, Slotted):
            for text in texts:
                path = kind(text)
                again = eval(repr(path))
                self.assertEqual((type(again), bytes(again)), (kind, bytes(path)))


class Errors(unittest.TestCase):
    def test_tree(self):
        named = [getattr(typed_path, name) for name in typed_path.__all__]
        errors = [it for it in named if isinstance(it, type) and issubclass(it, Exception)]
        self.assertEqual(len(errors), 21)
        for error in errors:
            self.assertTrue(issubclass(error, typed_path.TypedPathError) and issubclass(error, ValueError))
            self.assertEqual(error.__module__, "typed_path")
            self.assertIs(type(pickle.loads(pickle.dumps(error("a")))), error)

    def raised(self, call, *words):
        with self.assertRaises(typed_path.TypedPathError) as raised:
            call(*words)
        return pickle.loads(pickle.dumps(raised.exception))

    def test_what_they_hold(self):
        a, slash = UnixPath("a"), UnixPath("/")
        for error, kind, path, base in (
            (self.raised(a.relative_to, "/b"), typed_path.NoRelativePath, a, "/b"),
            (self.raised(UnixPath("/a").relative_to, b"/b"), typed_path.NoRelativePath, UnixPath("/a"), b"/b"),
            (self.raised(a.strip_prefix, "b"), typed_path.StripPrefixError, a, "b"),
            (self.raised(a.absolutize, "b"), typed_path.Ambiguous, a, None),
            (self.raised(a.with_file_name, "../b"), typed_path.NotAName, "../b", None),
            (self.raised(a.with_name, b".."), typed_path.NotAName, b"..", None),
            (self.raised(slash.with_name, "b"), typed_path.NoName, slash, None),
            (self.raised(slash.with_suffix, ".b"), typed_path.NoName, slash, None),
            (self.raised(a.with_suffix, "b"), typed_path.NotAnExtension, "b", None),
            (self.raised(a.with_extension, "/b"), typed_path.NotAnExtension, "/b", None),
            (self.raised(a.match, ""), typed_path.TypedPathError, "", None),
            (self.raised(WindowsPath("/a").with_name, "b"), typed_path.BaseLosesPrefix, WindowsPath("/"), None),
            (self.raised(extract_names, WindowsPath("/"), "b"), typed_path.BaseLosesPrefix, WindowsPath("/"), None),
            (self.raised(a.join_checked, "\ud800"), typed_path.InvalidFilename, "\ud800", None),
        ):
            self.assertEqual((type(error), error.path, error.base), (kind, path, base))
        self.assertEqual((error.name, error.place), (None, None))

    def test_which_component_offends(self):
        for path, other, error, name, place in (
            (UnixPath("/srv"), "a/../../b", typed_path.PathTraversalAttack, "..", 2),
            (UnixPath("/srv"), b"a/b/c\0\xff/d", typed_path.InvalidFilename, "c\0\udcff", 2),
            (UnixPath("/srv"), "//a", typed_path.UnexpectedRoot, "/", 0),
            (WindowsPath("x"), "a/./C:", typed_path.InvalidFilename, "C:", 1),
            (WindowsPath("x"), "c:a", typed_path.UnexpectedPrefix, "c:", 0),
            (WindowsPath("x"), pathlib.PurePosixPath("a/b/con.x/.."), typed_path.InvalidFilename, "con.x", 2),
        ):
            refusal = self.raised(path.join_checked, other)
            self.assertEqual((type(refusal), refusal.path, refusal.name, refusal.place), (error, other, name, place))
        for path, name, place in ((UnixPath("/a/aux.h/b"), "aux.h", 2), (UnixPath("a:/b"), "a:", 0)):
            refusal = self.raised(path.to_windows_checked)
            self.assertEqual((refusal.path, refusal.name, refusal.place), (path, name, place))
        refusal = self.raised(UnixPath("a").join_checked, "a/" * 100_000 + "../" * 100_001)
        self.assertEqual((refusal.name, refusal.place), ("..", 200_000))

    def test_it_is_the_first(self):
        """By the rule of the specification, read off the components."""
        chosen, taken = random.Random(20261130), 0
        for kind, pieces in (
            (UnixPath, ["a", "b", "..", "/", "/../", "\0", "日", "."]),
            (WindowsPath, ["a", "..", "/", "\\", "\\..\\", "C:", "con", ".", "?", "日"]),
        ):
            for _ in range(3000):
                text = "".join(chosen.choices(pieces, k=chosen.randrange(9)))
                try:
                    kind("out").join_checked(text)
                except typed_path.CheckedPathError as refusal:
                    wanted = first_offence(kind(text))
                    self.assertEqual((refusal.place, refusal.name), (wanted, kind(text).components[wanted].text), text)
                    taken += 1
        self.assertGreater(taken, 2000)


def first_offence(path):
    """The place of the first component that a checked join refuses."""
    names = parents = 0
    for place, (kind, text) in enumerate(path.components):
        if kind == "parent":
            parents += 1
            if parents > names:
                return place
        elif kind == "normal":
            names += 1
            if not type(path)(f"a/{text}").is_valid():
                return place
        elif kind != "current":
            return place


class Batches(unittest.TestCase):
    NAMES = ["a", "", "..", "/x", "日/本", "con.txt", "C:x", "a\\..\\..", "\0", "a/../b", "日" * 1000]

    def test_beside_single_calls(self):
        for base in (UnixPath("/srv"), WindowsPath("C:\\srv"), UnixPath(""), WindowsPath("\\\\?\\C:a")):
            for names in (self.NAMES, [it.encode() for it in self.NAMES], self.NAMES[:1], []):
                batch = base.join_checked_batch(names)
                self.assertEqual(len(batch.targets), len(names))
                for at, name in enumerate(names):
                    if at in batch.refusals:
                        self.assertIsNone(batch.targets[at])
                        self.assertRaises(batch.refusals[at], base.join_checked, name)
                    else:
                        target = bytes(base.join_checked(name))
                        self.assertEqual(batch.targets[at], target if isinstance(name, bytes) else target.decode())

    def test_names_of_two_types(self):
        self.assertRaises(TypeError, UnixPath("a").join_checked_batch, ["a", b"b"])
        self.assertRaises(TypeError, UnixPath("a").join_checked_batch, [UnixPath("a")])

    def test_one_name_is_no_list(self):
        for name in ("ab", b"ab", "", b"", bytearray(b"ab"), memoryview(b"ab"), UnixPath("a")):
            self.assertRaises(TypeError, UnixPath("a").join_checked_batch, name)
            self.assertRaises(TypeError, extract_names, UnixPath("a"), name)

    def test_name_without_bytes(self):
        """A surrogate that stands for no byte: that name is refused, and no other."""
        names, base = ["a", "x\ud800", "\udcff", "..", "日"], UnixPath("/srv")
        refusals = {1: typed_path.InvalidFilename, 3: typed_path.PathTraversalAttack}
        self.assertEqual(base.join_checked_batch(names), (["/srv/a", None, "/srv/\udcff", None, "/srv/日"], refusals))
        targets, refused = extract_names(base, names)
        self.assertEqual([(name, bytes(it)) for name, it in targets], [
            ("a", b"/srv/a"), ("\udcff", b"/srv/\xff"), ("日", b"/srv/\xe6\x97\xa5"),
        ])
        self.assertEqual(refused, [(names[at], why) for at, why in refusals.items()])
        self.assertRaises(typed_path.InvalidFilename, base.join_checked, names[1])
        self.assertRaises(UnicodeEncodeError, base.join, names[1])

    def test_extract_names(self):
        self.assertRaises(typed_path.BaseLosesPrefix, extract_names, WindowsPath("\\\\s"), ["a"])
        targets, refused = extract_names(UnixPath("out"), iter([b"a", b"../b"]))
        self.assertEqual(targets, [(b"a", UnixPath("out/a"))])
        self.assertEqual(refused, [(b"../b", typed_path.PathTraversalAttack)])

    def test_threads(self):
        wanted = UnixPath("/srv").join_checked_batch(self.NAMES * 100)
        wrong = []

        def work():
            for _ in range(20):
                if UnixPath("/srv").join_checked_batch(self.NAMES * 100) != wanted:
                    wrong.append(1)

        threads = [threading.Thread(target=work) for _ in range(8)]
        for thread in threads:
            thread.start()
        for thread in threads:
            thread.join()
        self.assertEqual(wrong, [])


# What holds whatever the locale is; the folder is empty at first.
IN_A_LOCALE = r"""
import os, sys
from typed_path import InvalidFilename, PathTraversalAttack, UnixPath, WindowsPath, derive, extract_names
wanted, letter = sys.argv[1:]
assert sys.getfilesystemencoding() == wanted, sys.getfilesystemencoding()
letter = bytes.fromhex(letter).decode("utf-8")
raw = os.fsencode(letter)
for text in (raw, raw + b"/x\xff", b"\xc3\xa9", b"caf\xe9", bytes(range(1, 128))):
    path = UnixPath(text)
    assert str(path) == os.fspath(path) == os.fsdecode(text)
    assert bytes(UnixPath(str(path))) == text and eval(repr(path)) == path
    assert os.fsencode(WindowsPath(text)) == text and eval(repr(WindowsPath(text))) == WindowsPath(text)
assert bytes(UnixPath(letter)) == raw and UnixPath(letter).name == letter
assert UnixPath("a").join_checked_batch([letter]).targets == ["a/" + letter]
assert extract_names(UnixPath("a"), [letter]).targets[0] == (letter, UnixPath(b"a/" + raw))
assert bytes(derive(letter)) == raw
open(UnixPath(letter), "w").close()
open(UnixPath(b"\xc3\xa9"), "w").close()
assert set(os.listdir(b".")) == {raw, b"\xc3\xa9"}, os.listdir(b".")

# A letter is no separator, whatever its bytes are.
name = f"a{letter}b"
assert str(WindowsPath(name)) == name and WindowsPath(name).parts == (name,) and WindowsPath(name) != WindowsPath("a")
assert derive("\\" + name) == WindowsPath("\\" + name)
for names in ([name + "\\..\\.."], [name + "\\..\\..", "x"]):
    assert WindowsPath("C:\\out").join_checked_batch(names).refusals == {0: PathTraversalAttack}
assert UnixPath("out").join_checked_batch(["\ud800", "b"]) == ([None, "out/b"], {0: InvalidFilename})
"""


class Locales(unittest.TestCase):
    """Text stands for the bytes that names of files have in the locale."""

    def in_a_locale(self, encoding, letter, **env):
        with tempfile.TemporaryDirectory() as room:
            env = {**os.environ, "PYTHONUTF8": "0", "PYTHONCOERCECLOCALE": "0", **env}
            words = [sys.executable, "-c", IN_A_LOCALE, encoding, letter.encode().hex()]
            done = subprocess.run(words, cwd=room, env=env, stderr=subprocess.PIPE)
        self.assertEqual((done.returncode, done.stderr.decode(errors="replace")), (0, ""))

    def made(self, charmap, name, encoding, letter):
        """In a locale that is made here."""
        with tempfile.TemporaryDirectory() as room:
            file = f"{name}.{charmap}"
            words = ["localedef", "-i", name, "-f", charmap, f"{room}/{file}"]
            if not shutil.which("localedef") or subprocess.run(words, capture_output=True).returncode > 1:
                self.skipTest(f"there is no localedef, or no {charmap}")
            self.in_a_locale(encoding, letter, LOCPATH=room, LC_ALL=file)

    def test_utf_8(self):
        self.in_a_locale("utf-8", "é", LC_ALL="C.UTF-8")

    def test_iso_8859_1(self):
        self.made("ISO-8859-1", "en_US", "iso8859-1", "é")

    def test_big5(self):
        self.assertTrue("功".encode("big5").endswith(b"\\"))
        self.made("BIG5", "zh_TW", "big5", "功")


if __name__ == "__main__":
    unittest.main()
