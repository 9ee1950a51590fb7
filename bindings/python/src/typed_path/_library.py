"""The types of the package over `ctypes` and the shared object. The module of C has the same types, and its calls have
these docstrings."""

from __future__ import annotations

import ctypes
import itertools
import operator
import os
import pathlib
from ctypes import POINTER, byref, c_bool, c_char, c_char_p, c_int32, c_size_t, c_uint32, c_uint64
from typing import TYPE_CHECKING, Any, Callable, ClassVar, Iterable, Optional, TypeVar, Union

from . import _errors
from ._errors import DONE, ENCODINGS, ERRORS, INVALID_FILENAME, NONE, NOT_TEXT

Text = Union[str, bytes, "os.PathLike[str]", "os.PathLike[bytes]"]
P = TypeVar("P", bound="Path")
NAME = "libtyped_path.so.0.2"
ROOT, NAME_KIND, PREFIX = 0, 3, 4  # the kinds of a root and of a name, and the least one of a prefix


class Span(ctypes.Structure):
    _fields_ = (("start", c_size_t), ("length", c_size_t))


class Piece(ctypes.Structure):
    _fields_ = (("start", c_size_t), ("length", c_size_t), ("kind", c_uint32))


def _loaded() -> ctypes.CDLL:
    """The library: that which TYPED_PATH_LIBRARY names, or lies in the package, or the system finds."""
    named = os.environ.get("TYPED_PATH_LIBRARY")
    beside = pathlib.Path(__file__).with_name(NAME)
    library = ctypes.CDLL(named or (str(beside) if beside.exists() else NAME))
    _errors.look_at_version(library.typed_path_version())
    library.typed_path_runs_here.restype = c_bool
    if not library.typed_path_runs_here():
        raise ImportError(f"{NAME} needs a processor of x86-64-v2, which has SSE4.2 and POPCNT")
    return library


_library = _loaded()
_TEXT = (c_char_p, c_size_t)
_PUT = (POINTER(c_char), c_size_t, POINTER(c_size_t))


def _call(name: str, *kinds: object) -> Callable[..., int]:
    found: Any = getattr(_library, f"typed_path_{name}")
    found.argtypes, found.restype = kinds, c_uint32
    call: Callable[..., int] = found
    return call


def _in_windows(call: Callable[..., int]) -> Callable[..., int]:
    """A call between whose two texts the number of Windows stands."""
    return lambda dialect, path, size, *words: call(dialect, path, size, 1, *words)


_derive = _call("derive", *_TEXT)
_puts = {
    **{name: _call(name, c_uint32, *_TEXT, *_TEXT, *_PUT)
       for name in ("join", "join_checked", "join_portable", "resolve_checked", "with_file_name", "with_extension",
                    "relative_to", "absolutize")},
    **{name: _call(name, c_uint32, *_TEXT, *_PUT) for name in ("normalize", "clean", "to_ascii_lowercase")},
    **{name: _call(name, c_uint32, *_TEXT, c_uint32, *_PUT) for name in ("convert", "convert_checked")},
    "absolutize_in_windows": _in_windows(_call("absolutize_from", c_uint32, *_TEXT, c_uint32, *_TEXT, *_PUT)),
}
_parts = {
    **{name: _call(name, c_uint32, *_TEXT, POINTER(Span))
       for name in ("parent", "file_name", "file_stem", "extension", "simplified")},
    **{name: _call(name, c_uint32, *_TEXT, *_TEXT, POINTER(Span)) for name in ("strip_prefix", "common_ancestor")},
}
_questions = {
    **{name: _call(name, c_uint32, *_TEXT, POINTER(c_bool))
       for name in ("is_absolute", "has_root", "is_valid", "is_portable", "may_be_device", "keeps_prefix")},
    **{name: _call(name, c_uint32, *_TEXT, *_TEXT, POINTER(c_bool))
       for name in ("starts_with", "ends_with", "is_within", "equal", "starts_with_ignore_ascii_case",
                    "equal_ignore_ascii_case")},
}
_judges = {name: _call(name, c_uint32, *_TEXT) for name in ("check", "check_portable")}
_components = _call("components", c_uint32, *_TEXT, POINTER(Piece), c_size_t, POINTER(c_size_t))
_component_at = _call("component_at", c_uint32, *_TEXT, c_size_t, POINTER(Piece))
_compare = _call("compare", c_uint32, *_TEXT, *_TEXT, POINTER(c_int32))
_hash = _call("hash_keyed", c_uint32, c_uint64, c_uint64, *_TEXT, POINTER(c_uint64))
_batches = [
    _call(name, c_uint32, *_TEXT, *_TEXT, POINTER(c_size_t), c_size_t, POINTER(c_char), c_size_t, POINTER(c_size_t),
          c_size_t, POINTER(c_uint32), c_size_t, POINTER(c_size_t))
    for name in ("join_checked_batch", "join_portable_batch")
]


def _words(other: object) -> tuple[object, ...]:
    """What stands for another text, or for the number of a dialect, if there is one."""
    if other is None:
        return ()
    return (other, len(other)) if isinstance(other, bytes) else (other,)


def put(
    name: str, dialect: int, path: bytes, other: Union[bytes, int, None] = None, told: object = None,
    base: object = None,
) -> bytes:
    """What a call puts. No answer has five bytes more than the path and twice the other text. `told` is what a refusal
    tells of, and `base` what that was to lie below."""
    size = len(path) + (2 * len(other) if isinstance(other, bytes) else 0) + 5
    out: Any = ctypes.create_string_buffer(size)
    length = c_size_t()
    status = _puts[name](dialect, path, len(path), *_words(other), out, size, byref(length))
    if status != DONE:
        judged = (other, None) if isinstance(other, bytes) else (path, other)
        raise _errors.failed(status, told, dialect, *judged, base)
    answer: bytes = out[:length.value]
    return answer


def part(name: str, dialect: int, path: bytes, other: Optional[bytes] = None) -> Optional[bytes]:
    """The part that a call lends, or None where there is none."""
    span = Span()
    if _parts[name](dialect, path, len(path), *_words(other), byref(span)) != DONE:
        return None
    return path[span.start:span.start + span.length]


def asked(name: str, dialect: int, path: bytes, other: Optional[bytes] = None) -> bool:
    """What a question is answered."""
    answer = c_bool()
    status = _questions[name](dialect, path, len(path), *_words(other), byref(answer))
    if status != DONE:
        raise _errors.failed(status, path, dialect, path, None, None)
    return answer.value


def derive(path: bytes) -> int:
    """The number of the dialect that a text looks like."""
    return _derive(path, len(path))


# Each process draws its own, so no one can choose paths that have one hash.
KEY = tuple(int.from_bytes(os.urandom(8), "little") for _ in range(2))


def hashed(dialect: int, path: bytes, key: tuple[int, ...] = KEY) -> int:
    """A number of 64 bits that is one of equal paths."""
    number = c_uint64()
    status = _hash(dialect, *key, path, len(path), byref(number))
    if status != DONE:
        raise _errors.failed(status, path, dialect, path, None, None)
    return number.value


class Path:
    """What `UnixPath` and `WindowsPath` share."""

    __slots__ = ("_bytes", "_parts")
    _dialect: ClassVar[int]
    _separator: ClassVar[str]
    _bytes: bytes
    _parts: tuple[str, ...]  # once they were asked for

    def __init__(self, *segments: Text) -> None:
        """The path of the first text, with the others pushed onto it one by one. Called again it changes nothing."""
        if not hasattr(self, "_bytes"):
            made = self._pushed(*segments)
            if not hasattr(self, "_bytes"):  # while a text was read, this was called
                _put(self, made)

    def _pushed(self, path: Text = b"", *others: Text) -> bytes:
        made = self._read(path)
        for other in others:
            made = put("join", self._dialect, made, self._read(other))
        return made

    if not TYPE_CHECKING:  # which would take it that any attribute may be set

        def __setattr__(self, name, value):
            self._refuse_change(name)
            super().__setattr__(name, value)

        def __delattr__(self, name):
            self._refuse_change(name)
            super().__delattr__(name)

    def _refuse_change(self, name: str) -> None:
        if name in ("_bytes", "_parts", "__class__"):
            raise AttributeError(f"{self!r} never changes")

    def _read(self, text: Text) -> bytes:
        """The bytes that a text stands for."""
        if isinstance(text, Path):
            if text._dialect != self._dialect:
                raise _errors.of_other_dialect(text)
            return text._bytes
        given = os.fspath(text)
        return given if isinstance(given, bytes) else given.encode(ENCODINGS[self._dialect], ERRORS)

    def _read_checked(self, text: Text, unwritten: int) -> bytes:
        """The same. A `str` that no bytes stand for is refused as a name of that status."""
        try:
            return self._read(text)
        except UnicodeEncodeError:
            raise _errors.unwritten(unwritten, text) from None

    def _text(self, raw: bytes) -> str:
        """The text that bytes stand for."""
        return raw.decode(ENCODINGS[self._dialect], ERRORS)

    @classmethod
    def _of(cls: type[P], made: bytes) -> P:
        if not hasattr(cls, "_dialect"):
            raise _errors.not_a_path()
        path = object.__new__(cls)
        _put(path, made)
        return path

    def with_segments(self: P, *segments: Text) -> P:
        """A path of the class of this one, of these joined. Whatever a call makes of this path is made by it, so a
        subclass that has attributes hands them on here, as in `pathlib` since 3.12.

        >>> class Noted(UnixPath):
        ...     def __init__(self, *segments, note):
        ...         super().__init__(*segments)
        ...         self.note = note
        ...     def with_segments(self, *segments):
        ...         return type(self)(*segments, note=self.note)
        >>> (Noted("a", note="mine") / "b").note
        'mine'
        """
        path = object.__new__(type(self))
        Path.__init__(path, *segments)
        return path

    def _like(self: P, made: bytes) -> P:
        """A path of what a call has answered of this one."""
        if type(self).with_segments is Path.with_segments:
            return self._of(made)
        return self.with_segments(made)

    def _put(self: P, name: str, other: Optional[bytes] = None, told: object = None, base: object = None) -> P:
        return self._like(put(name, self._dialect, self._bytes, other, told, base))

    def _part(self, name: str) -> Optional[str]:
        found = part(name, self._dialect, self._bytes)
        return None if found is None else self._text(found)

    def _asked(self, name: str, *others: Text) -> bool:
        return asked(name, self._dialect, self._bytes, *map(self._read, others))

    def __str__(self) -> str:
        return self._text(self._bytes)

    def __bytes__(self) -> bytes:
        return self._bytes

    def __fspath__(self) -> str:
        return os.fsdecode(self._bytes)

    def __eq__(self, other: object) -> bool:
        if not isinstance(other, Path) or other._dialect != self._dialect:
            return NotImplemented
        return self._bytes == other._bytes or self._asked("equal", other)

    def __hash__(self) -> int:
        return hash((self._dialect, hashed(self._dialect, self._bytes)))

    def _compared(self, other: object, holds: Callable[[int, int], bool]) -> bool:
        """Whether this holds of the order, which is -1, 0 or 1, and 0."""
        if not isinstance(other, Path) or other._dialect != self._dialect:
            return NotImplemented
        order = c_int32()
        status = _compare(
            self._dialect, self._bytes, len(self._bytes), other._bytes, len(other._bytes), byref(order)
        )
        if status != DONE:
            raise _errors.failed(status, self, self._dialect, self._bytes, None, None)
        return holds(order.value, 0)

    def __lt__(self, other: object) -> bool:
        return self._compared(other, operator.lt)

    def __le__(self, other: object) -> bool:
        return self._compared(other, operator.le)

    def __gt__(self, other: object) -> bool:
        return self._compared(other, operator.gt)

    def __ge__(self, other: object) -> bool:
        return self._compared(other, operator.ge)

    def __truediv__(self: P, other: Text) -> P:
        if not isinstance(other, (str, bytes, os.PathLike)):
            return NotImplemented
        return self.join(other)

    def __rtruediv__(self: P, other: Text) -> P:
        if not isinstance(other, (str, bytes, os.PathLike)):
            return NotImplemented
        return self._like(put("join", self._dialect, self._read(other), self._bytes))

    @property
    def name(self) -> str:
        """The last component if it is a name, else nothing.

        >>> UnixPath("/a/b.tar.gz/").name, UnixPath("a/..").name
        ('b.tar.gz', '')
        """
        return self._part("file_name") or ""

    @property
    def stem(self) -> str:
        """The name up to its last dot; a dot at the front is part of it.

        >>> UnixPath("b.tar.gz").stem, UnixPath(".bashrc").stem
        ('b.tar', '.bashrc')
        """
        return self._part("file_stem") or ""

    @property
    def extension(self) -> Optional[str]:
        """What stands behind that dot, or None.

        >>> UnixPath("b.tar.gz").extension, UnixPath("a.").extension, UnixPath("a").extension
        ('gz', '', None)
        """
        return self._part("extension")

    @property
    def suffix(self) -> str:
        """The extension with its dot, or nothing.

        >>> UnixPath("b.tar.gz").suffix, UnixPath("a").suffix
        ('.gz', '')
        """
        extension = self.extension
        return "" if extension is None else f".{extension}"

    @property
    def suffixes(self) -> list[str]:
        """The suffix of the name, before it that of its stem, and so on: each dot begins one but the first byte.

        >>> UnixPath("b.tar.gz").suffixes, UnixPath(".bashrc").suffixes
        (['.tar', '.gz'], [])
        """
        others = self.name[1:].split(".")[1:]
        return [f".{other}" for other in others]

    @property
    def drive(self) -> str:
        r"""The prefix, as it is written, or nothing.

        >>> WindowsPath(r"C:\a").drive, WindowsPath("//server/share/a").drive, UnixPath("/a").drive
        ('C:', '//server/share', '')
        """
        kind, start, length = self._piece_at(0)
        return self._text(self._bytes[start:start + length]) if kind >= PREFIX else ""

    @property
    def root(self) -> str:
        r"""The separator that is a root, alone or behind a prefix, or nothing.

        >>> WindowsPath("C:/a").root, WindowsPath("C:a").root, UnixPath("/a").root
        ('\\', '', '/')
        """
        return self._separator if ROOT in (self._piece_at(0)[0], self._piece_at(1)[0]) else ""

    def _piece_at(self, place: int) -> tuple[int, int, int]:
        """The kind, the first byte and the number of bytes of a component; its kind is -1 where there is none."""
        piece = Piece()
        if _component_at(self._dialect, self._bytes, len(self._bytes), place, byref(piece)) != DONE:
            return -1, 0, 0
        return piece.kind, piece.start, piece.length

    @property
    def anchor(self) -> str:
        r"""The drive and the root. Where there is either, it is the first part.

        >>> WindowsPath("C:/a").anchor, UnixPath("a").anchor
        ('C:\\', '')
        """
        return self.drive + self.root

    @property
    def parent(self: P) -> P:
        r"""The path without its last component. A root, a prefix but a drive, and an empty path are their own.

        >>> UnixPath("/a/b//").parent, UnixPath("/").parent, UnixPath("a").parent
        (UnixPath('/a'), UnixPath('/'), UnixPath(''))
        """
        found = part("parent", self._dialect, self._bytes)
        return self if found is None else self._like(found)

    @property
    def parents(self: P) -> tuple[P, ...]:
        """The parent, the parent of that, and so on.

        >>> UnixPath("/a/b").parents
        (UnixPath('/a'), UnixPath('/'))
        """
        above: list[P] = []
        found = part("parent", self._dialect, self._bytes)
        while found is not None:
            above.append(self._like(found))
            found = part("parent", self._dialect, found)
        return tuple(above)

    def _pieces(self) -> list[tuple[int, int, int]]:
        """The kind, the first byte and the number of bytes of each component."""
        size = len(self._bytes)
        pieces, count = (Piece * size)(), c_size_t()
        status = _components(self._dialect, self._bytes, size, pieces, size, byref(count))
        if status != DONE:
            raise _errors.failed(status, self, self._dialect, self._bytes, None, None)
        return [(it.kind, it.start, it.length) for it in pieces[:count.value]]

    def _is_name(self, raw: bytes) -> bool:
        """Whether bytes are read as one name, and are that."""
        return self._of(raw)._pieces() == [(NAME_KIND, 0, len(raw))]

    @property
    def parts(self) -> tuple[str, ...]:
        r"""The texts of the components. A prefix and the root behind it are one part.

        >>> UnixPath("/a//b/.").parts, WindowsPath("C:/a/b").parts
        (('/', 'a', 'b'), ('C:\\', 'a', 'b'))
        """
        if not hasattr(self, "_parts"):
            found: list[str] = []
            for kind, start, length in self._pieces():
                if kind != ROOT:
                    found.append(self._text(self._bytes[start:start + length]))
                elif found:
                    found[0] += self._separator
                else:
                    found.append(self._separator)
            _put_parts(self, tuple(found))
        return self._parts

    def as_posix(self) -> str:
        r"""The text with each separator written `/`.

        >>> WindowsPath(r"C:\a\b").as_posix(), UnixPath(r"a\b").as_posix()
        ('C:/a/b', 'a\\b')
        """
        return str(self).replace(self._separator, "/")

    def is_absolute(self) -> bool:
        r"""Whether it leads to one place from every directory.

        >>> UnixPath("/a").is_absolute(), WindowsPath(r"C:\a").is_absolute(), WindowsPath(r"\a").is_absolute()
        (True, True, False)
        """
        return self._asked("is_absolute")

    def has_root(self) -> bool:
        """Whether it begins with a root, written or implied by a prefix."""
        return self._asked("has_root")

    def is_valid(self) -> bool:
        """Whether each name is allowed. Versions of Windows take more names for devices than are refused here: those
        with spaces behind, `CONIN$` and `CONOUT$`, and `COM` and `LPT` with `¹`, `²` or `³`.

        >>> WindowsPath("a/con.txt").is_valid(), UnixPath("a/con.txt").is_valid()
        (False, True)
        >>> [WindowsPath(it).is_valid() for it in ("nul ", "con .txt", "CONIN$", "conout$.txt", "COM¹", "lpt².x")]
        [True, True, True, True, True, True]
        """
        return self._asked("is_valid")

    def is_portable(self) -> bool:
        """Whether every system takes each component as it is written: `check_portable` says why not. Roots, `.` and
        `..` are let through.

        >>> UnixPath("a/b.txt").is_portable(), UnixPath("a/b:c").is_portable(), UnixPath("../a").is_portable()
        (True, False, True)
        """
        return self._asked("is_portable")

    def may_be_device(self) -> bool:
        r"""Whether some version of Windows may take a name for a device, by the widest rule. A path of Unix has its own
        names: of `a\nul` ask both dialects.

        >>> WindowsPath(r"a\nul .txt").may_be_device(), UnixPath("com1").may_be_device(), UnixPath("a").may_be_device()
        (True, True, False)
        """
        return self._asked("may_be_device")

    def _check(self) -> int:
        """The status of what a checked join refuses this path for."""
        return _judges["check"](self._dialect, self._bytes, len(self._bytes))

    def _check_portable(self) -> int:
        """The status of why it is not portable."""
        return _judges["check_portable"](self._dialect, self._bytes, len(self._bytes))

    def starts_with(self, base: Text, /) -> bool:
        """Whether it begins with the components of the base, as they are written. No check of containment."""
        return self._asked("starts_with", base)

    def ends_with(self, end: Text, /) -> bool:
        """Whether it ends with the components of the other, as they are written."""
        return self._asked("ends_with", end)

    def eq_ignore_ascii_case(self, other: Text, /) -> bool:
        """Whether both have the same components in lower case, as `to_ascii_lowercase` writes them.

        >>> UnixPath("a//B").eq_ignore_ascii_case("A/b")
        True
        """
        return self._asked("equal_ignore_ascii_case", other)

    def starts_with_ignore_ascii_case(self, base: Text, /) -> bool:
        r"""Whether it begins with the components of the base, as they are written in lower case.

        >>> WindowsPath(r"c:\A").starts_with_ignore_ascii_case("C:")
        True
        """
        return self._asked("starts_with_ignore_ascii_case", base)

    def is_within(self, base: Text, /) -> bool:
        r"""Whether it lies at the base or below it, from whatever directory both are read. It judges names that no file
        has, so ask `is_valid` too.

        >>> UnixPath("a/b").is_within("a"), UnixPath("a/../b").is_within("a")
        (True, False)
        >>> WindowsPath(r"C:\srv\con").is_within(r"C:\srv"), WindowsPath(r"C:\srv\con").is_valid()
        (True, False)
        """
        return self._asked("is_within", base)

    def keeps_prefix(self) -> bool:
        r"""True only if every accepted join onto it has its prefix. Of these a checked join lies within its base.

        >>> WindowsPath(r"C:\a").keeps_prefix(), WindowsPath(r"\\s").keeps_prefix()
        (True, False)
        """
        return self._asked("keeps_prefix")

    def strip_prefix(self: P, base: Text, /) -> P:
        """What is left behind the base. Raises `StripPrefixError`, a `ValueError`, where it does not begin with it.

        >>> UnixPath("/a/./b/c").strip_prefix("/a")
        UnixPath('b/c')
        """
        found = part("strip_prefix", self._dialect, self._bytes, self._read(base))
        if found is None:
            raise _errors.not_a_beginning(self, base)
        return self._like(found)

    def common_ancestor(self: P, other: Text, /) -> P:
        """The front of this path up to where the components end with which the other begins too, as they are written;
        the empty path where the two begin with none alike. `os.path.commonpath` asks the same.

        >>> UnixPath("/srv/www/a").common_ancestor("/srv/www/b/c"), UnixPath("a").common_ancestor("b")
        (UnixPath('/srv/www'), UnixPath(''))
        """
        return self._like(part("common_ancestor", self._dialect, self._bytes, self._read(other)) or b"")

    def simplified(self: P) -> P:
        r"""The path of a verbatim drive of Windows without its `\\?\`, where that means the same to Windows; else this
        path.

        >>> WindowsPath(r"\\?\C:\a").simplified(), WindowsPath(r"\\?\C:\a\con").simplified()
        (WindowsPath('C:\\a'), WindowsPath('\\\\?\\C:\\a\\con'))
        """
        return self._like(part("simplified", self._dialect, self._bytes) or b"")

    def join(self: P, *others: Text) -> P:
        """The path with the others pushed onto it one by one. `/` is the same. An absolute one replaces it; on Windows
        one with a drive does so too, and one with a root replaces all but the drive."""
        made = self
        for other in others:
            made = made._put("join", self._read(other))
        return made

    def joinpath(self: P, *others: Text) -> P:
        """`join`, as `pathlib` calls it.

        >>> UnixPath("/a").joinpath("b", "c")
        UnixPath('/a/b/c')
        """
        return self.join(*others)

    def join_checked(self: P, other: Text, /) -> P:
        r"""`join` of one path, which must not lead out: what it returns lies within this path, if that
        `keeps_prefix`. Raises what the first component that offends is refused for, a `CheckedPathError`. A `str` that
        `os.fsencode` refuses is no allowed name either. An empty path, `.` and `a/..` lead to this path itself. The
        refusal has the component in `name`, and in `place` how many stand before it.

        >>> UnixPath("/etc").join_checked("abc/../def")
        UnixPath('/etc/abc/../def')
        >>> UnixPath("/etc").join_checked("/sneaky")
        Traceback (most recent call last):
        typed_path.UnexpectedRoot: path contains unexpected root: '/sneaky'
        >>> try:
        ...     WindowsPath("out").join_checked(r"a\con.txt\b")
        ... except InvalidFilename as refusal:
        ...     refusal.name, refusal.place
        ('con.txt', 1)
        """
        return self._put("join_checked", self._read_checked(other, INVALID_FILENAME), other)

    def join_portable(self: P, other: Text, /) -> P:
        """`join_checked` of a path that is portable too: every system takes each name as it is written, and no version
        of Windows takes one for a device. Raises a `NotPortable` for one that is not, else what `join_checked` raises.
        This path itself need not be portable.

        >>> UnixPath("/srv").join_portable("2024/cat.png")
        UnixPath('/srv/2024/cat.png')
        >>> UnixPath("/srv").join_portable("a/nul.txt")
        Traceback (most recent call last):
        typed_path.MayBeDevice: path contains name that may be a device: 'a/nul.txt'
        """
        return self._put("join_portable", self._read_checked(other, NOT_TEXT), other)

    def resolve_checked(self: P, other: Text, /) -> P:
        """The clean path of a checked join, refused as that is, and within this path as that is.

        >>> UnixPath("/srv").resolve_checked("a/./../b"), UnixPath("/srv").resolve_checked(".")
        (UnixPath('/srv/b'), UnixPath('/srv'))
        """
        return self._put("resolve_checked", self._read_checked(other, INVALID_FILENAME), other)

    def normalize(self: P) -> P:
        r"""The path without `.`, and without `..` and the names that these take away; a `..` that finds no name
        vanishes. Of Unix paths all that resolve alike have one. On Windows it may be on another drive: `clean` keeps
        it.

        >>> UnixPath("foo/bar//baz/./asdf/quux/..").normalize(), UnixPath("../a").normalize()
        (UnixPath('foo/bar/baz/asdf'), UnixPath('a'))
        >>> path = WindowsPath(r"C:\out\D:x")
        >>> path.is_within(r"C:\out"), path.normalize(), path.clean()
        (True, WindowsPath('D:x'), WindowsPath('C:\\out\\D:x'))
        """
        return self._put("normalize")

    def clean(self: P) -> P:
        """The path without `.`, doubled separators, and names that a `..` takes away. A relative path keeps the `..`
        that it needs, and nothing is `.`.

        >>> UnixPath("a/../../b//./c").clean(), UnixPath("a/..").clean()
        (UnixPath('../b/c'), UnixPath('.'))
        """
        return self._put("clean")

    def to_ascii_lowercase(self: P) -> P:
        r"""The path with each ASCII letter in lower case, but on Windows for the `UNC` of `\\?\UNC\` before a server,
        which is read so only in capitals.

        >>> UnixPath("Src/A").to_ascii_lowercase()
        UnixPath('src/a')
        """
        return self._put("to_ascii_lowercase")

    def relative_to(self: P, base: Text, /, *, walk_up: bool = False) -> P:
        """The names that lead from the base to this path; `.` where both lead alike. Raises `NoRelativePath`, a
        `ValueError`, where it does not lie at the base or below it, or no relative path leads there. With `walk_up`
        the path may begin with `..`, as `os.path.relpath` has it, and it is raised for the latter alone.

        >>> UnixPath("/a/b/../c/d").relative_to("/a")
        UnixPath('c/d')
        >>> UnixPath("/a/../etc").relative_to("/a")
        Traceback (most recent call last):
        typed_path.NoRelativePath: '/a/../etc' does not lie below '/a'
        >>> UnixPath("/a/../etc").relative_to("/a", walk_up=True)
        UnixPath('../etc')
        >>> UnixPath("a").relative_to("/", walk_up=True)
        Traceback (most recent call last):
        typed_path.NoRelativePath: no relative path leads to 'a'
        """
        found = put("relative_to", self._dialect, self._bytes, self._read(base), self, base)
        if not walk_up and found.split(self._separator.encode(), 1)[0] == b"..":
            raise _errors.not_below(self, base)
        return self._like(found)

    def is_relative_to(self, base: Text, /) -> bool:
        """Whether `relative_to` returns a path. `is_within` is the question whether it lies within the base: it is
        true also where no relative path leads there.

        >>> UnixPath("/a/b").is_relative_to("/a"), UnixPath("/a/../etc").is_relative_to("/a")
        (True, False)
        >>> UnixPath("a").is_relative_to("/"), UnixPath("a").is_within("/")
        (False, True)
        """
        try:
            self.relative_to(base)
        except _errors.NoRelativePath:
            return False
        return True

    def _with_file_name(self: P, name: Text) -> P:
        return self._put("with_file_name", self._read(name))

    def with_extension(self: P, extension: Union[str, bytes]) -> P:
        """The path with another extension, without a dot, or with none; the same path if it has no name. Raises
        `NotAnExtension`, a `ValueError`, for one with a separator, and where `.` or `..` would be left of the name.

        >>> UnixPath("a.tar.gz").with_extension("zip"), UnixPath("a.txt").with_extension("")
        (UnixPath('a.tar.zip'), UnixPath('a'))
        >>> UnixPath("/srv/a.txt").with_extension("x/../../../etc/passwd")
        Traceback (most recent call last):
        typed_path.NotAnExtension: 'x/../../../etc/passwd' is not an extension
        """
        return self._extended(self._read(extension), extension)

    def with_suffix(self: P, suffix: Union[str, bytes]) -> P:
        """`with_extension` of a path that has a name. A suffix has its dot at the front, and more behind that, or is
        empty; it raises `NotAnExtension` for another, and `NoName` for a path without a name.

        >>> UnixPath("a.tar.gz").with_suffix(".zip"), UnixPath("a.txt").with_suffix("")
        (UnixPath('a.tar.zip'), UnixPath('a'))
        >>> UnixPath("a.txt").with_suffix("zip")
        Traceback (most recent call last):
        typed_path.NotAnExtension: 'zip' is not a suffix
        """
        raw = self._read(suffix)
        if raw and (raw[:1] != b"." or raw == b"."):
            raise _errors.not_a_suffix(self._text(raw), suffix)
        if not self.name:
            raise _errors.no_name(self)
        return self._extended(raw[1:], suffix)

    def _extended(self: P, raw: bytes, told: object) -> P:
        """The path with this extension. `told` is what a refusal tells of."""
        if not self._is_name(b"a." + raw):
            raise _errors.not_an_extension(self._text(raw), told)
        made = self._put("with_extension", raw)
        if not raw and made.name != self.stem:
            raise _errors.not_a_name_without(self)
        return made

    def _absolutize(self: P, directory: bytes) -> P:
        return self._put("absolutize", directory, self)

    def _absolutize_in_windows(self: P, directory: bytes) -> P:
        return self._put("absolutize_in_windows", directory, self)

    def _convert(self, dialect: int, checks: bool) -> bytes:
        """The bytes of the path as they are written in another dialect."""
        return put("convert_checked" if checks else "convert", self._dialect, self._bytes, dialect, self)

    def _batch(
        self, names: Iterable[Union[str, bytes]], number: int, as_paths: bool
    ) -> tuple[list[Any], dict[int, int]]:
        """What a call answers of each name, by its number: `join_checked`, `join_portable`, `resolve_checked`. The
        targets are paths, or as the names are, and None where a name was refused; and the statuses of these."""
        answers, refused, are_bytes = self._joined(names, number)
        if as_paths:
            return [None if it is None else self._like(it) for it in answers], refused
        return [it if it is None or are_bytes else self._text(it) for it in answers], refused

    def _batch_into(
        self, names: Iterable[Union[str, bytes]], number: int, buffer: Any, end: bytes
    ) -> tuple[int, dict[int, int]]:
        """The same behind each other in a buffer, each with an end: how many bytes were written, and the statuses."""
        listed = list(names)
        answers, refused, _ = self._joined(listed, number)
        used = 0
        with memoryview(buffer).cast("B") as into:
            for place, answer in enumerate(answers):
                if answer is not None:
                    target = answer + end
                    if len(target) > len(into) - used:
                        raise _errors.too_small(listed[place], place)
                    into[used:used + len(target)] = target
                    used += len(target)
        return used, refused

    def _joined(
        self, names: Iterable[Union[str, bytes]], number: int
    ) -> tuple[list[Optional[bytes]], dict[int, int], bool]:
        """The answers of many names, the statuses of those that are refused, and whether they are bytes."""
        listed, texts, refused = list(names), [], {}
        are_bytes = bool(listed) and isinstance(listed[0], bytes)
        for place, name in enumerate(listed):
            if not isinstance(name, bytes if are_bytes else str):
                raise TypeError("names have to be all str, or all bytes")
            try:
                texts.append(self._read(name))
            except UnicodeEncodeError:
                texts.append(b"")
                refused[place] = NOT_TEXT if number == 1 else INVALID_FILENAME
        joined = self._joined_one_by_one(texts) if number == 2 else self._joined_at_once(texts, number)
        for place, (status, _) in enumerate(joined):
            if status != DONE:
                refused.setdefault(place, status)
        return [None if place in refused else it for place, (_, it) in enumerate(joined)], refused, are_bytes

    def _joined_one_by_one(self, texts: list[bytes]) -> list[tuple[int, bytes]]:
        found = []
        for text in texts:
            try:
                found.append((DONE, put("resolve_checked", self._dialect, self._bytes, text)))
            except _errors.CheckedPathError as refusal:
                found.append((refusal._judged.status if refusal._judged else NONE, b""))
        return found

    def _joined_at_once(self, texts: list[bytes], number: int) -> list[tuple[int, bytes]]:
        count, all_names = len(texts), b"".join(texts)
        size = len(all_names) + count * (len(self._bytes) + 3)
        ends = (c_size_t * count)(*itertools.accumulate(map(len, texts)))
        out: Any = ctypes.create_string_buffer(size + 1)
        out_ends, statuses, done = (c_size_t * count)(), (c_uint32 * count)(), c_size_t()
        status = _batches[number](
            self._dialect, self._bytes, len(self._bytes), all_names, len(all_names), ends, count, out, size, out_ends,
            count, statuses, count, byref(done),
        )
        if status != DONE:
            raise _errors.failed(status, self, self._dialect, self._bytes, None, None)
        ends_of, answers = out_ends[:], out[:out_ends[count - 1]] if count else b""
        return [(status, answers[start:end]) for status, start, end in zip(statuses, [0, *ends_of], ends_of)]


# What alone sets the bytes of a path, which is new, and its parts.
_put: Callable[[Path, bytes], None] = Path.__dict__["_bytes"].__set__
_put_parts: Callable[[Path, tuple[str, ...]], None] = Path.__dict__["_parts"].__set__
