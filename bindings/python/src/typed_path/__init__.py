r"""Paths of Unix and of Windows, read and written alike on every machine, by the proved library typed_path.

A path is bytes. It is made of a `str`, of `bytes`, or of what `os.fspath` takes; `str` and `bytes` of it lead back. A
`str` stands for the bytes that `os.fsencode` makes of it, and `os.fsdecode` leads back, so a file that is opened has
the name that was judged, and nothing is lost. The words of `pathlib.PurePath` are here; the page of the package says
where they differ. `unix` and `windows` have the most used calls for plain texts.

>>> UnixPath("/etc") / "x"
UnixPath('/etc/x')
>>> UnixPath("/srv/www").join_checked("a/../../passwd")
Traceback (most recent call last):
typed_path.PathTraversalAttack: path attempts to escape original path: 'a/../../passwd'
>>> str(WindowsPath(r"C:\uploads").join_checked(r"2024\cat.png"))
'C:\\uploads\\2024\\cat.png'
>>> bytes(UnixPath(b"caf\xe9").join("a"))
b'caf\xe9/a'
>>> unix.join_checked("/srv", "a/b")
'/srv/a/b'

Paths are equal where they have one list of components, however these are written, and are hashed and ordered so.

>>> UnixPath("a//b/.") == UnixPath("a/b"), UnixPath("a") == UnixPath("A"), UnixPath("a") == "a"
(True, False, False)
>>> WindowsPath("c:/a") == WindowsPath(r"C:\a")
True
"""

from __future__ import annotations

import os

from . import _errors
from ._errors import (
    Ambiguous,
    BadEnding,
    BaseLosesPrefix,
    BufferTooSmall,
    CheckedPathError,
    ForbiddenByte,
    HasPrefix,
    InvalidFilename,
    MayBeDevice,
    NameTooLong,
    NoName,
    NoRelativePath,
    NotAName,
    NotAnExtension,
    NotPortable,
    NotUtf8,
    PathTraversalAttack,
    StripPrefixError,
    TypedPathError,
    UnexpectedPrefix,
    UnexpectedRoot,
)

__all__ = [
    "Ambiguous", "BadEnding", "BaseLosesPrefix", "Batch", "BufferTooSmall", "CheckedPathError", "Component",
    "Extraction", "ForbiddenByte", "HasPrefix", "InvalidFilename", "MayBeDevice", "NameTooLong", "NoName",
    "NoRelativePath", "NotAName", "NotAnExtension", "NotPortable", "NotUtf8", "PathTraversalAttack",
    "StripPrefixError", "TypedPath", "TypedPathError", "UnexpectedPrefix", "UnexpectedRoot", "UnixPath", "WindowsPath",
    "Written", "backend", "derive", "extract_names", "unix", "windows",
]
__version__ = "0.2.1"

TYPE_CHECKING = False  # which type checkers take for true
if TYPE_CHECKING:
    from typing import Any, Callable, Iterable, NamedTuple, TypeVar, Union

    Name = Union[str, bytes]
    Text = Union[str, bytes, "os.PathLike[str]", "os.PathLike[bytes]"]
    P = TypeVar("P", bound="TypedPath")
else:
    from ._records import Record as NamedTuple

# What the types are taken from: `native`, the module of C, or `ctypes`. TYPED_PATH_BACKEND names one.
backend = os.environ.get("TYPED_PATH_BACKEND", "native")
_module: Any = None
if backend == "native":
    try:
        from . import _native as _module  # type: ignore[attr-defined, no-redef]
    except ImportError:
        if "TYPED_PATH_BACKEND" in os.environ:
            raise
        backend = "ctypes"
if TYPE_CHECKING or not _module:
    from ._library import Path as _Path, derive as _derive
else:
    _errors.look_at_version(_module.VERSION)
    _Path, _derive = object, _module.derive

for _name in __all__:
    if isinstance(globals().get(_name), type) and issubclass(globals()[_name], TypedPathError):
        globals()[_name].__module__ = __name__


def _listed(names: Iterable[Name]) -> Iterable[Name]:
    """The names, which are not a single one."""
    if isinstance(names, (str, bytes, bytearray)):
        raise TypeError(f"names have to be a list of them, and {names!r} is one name")
    return names


class Component(NamedTuple):
    """A component. Its kind is `root`, `current`, `parent`, `normal` (a name), or of a prefix `Verbatim`,
    `VerbatimUNC`, `VerbatimDisk`, `DeviceNS`, `UNC` or `Disk`."""

    kind: str
    text: str


class Batch(NamedTuple):
    """The paths that names were joined to, None where one was refused; and the refusals by the place of the name."""

    targets: list[Any]  # each a str or None, or each bytes or None
    refusals: dict[int, type[CheckedPathError]]


class Written(NamedTuple):
    """How many bytes were written to a buffer, and the refusals by the place of the name."""

    size: int
    refusals: dict[int, type[CheckedPathError]]


def _refusals(statuses: dict[int, int]) -> dict[int, type[CheckedPathError]]:
    return {place: _errors.REFUSALS[statuses[place]] for place in sorted(statuses)}


class TypedPath(_Path):
    """A path of one dialect: a `UnixPath` or a `WindowsPath`. It never changes."""

    __slots__ = ()

    def __repr__(self) -> str:
        """What makes the path again when it is evaluated."""
        text = str(self)
        shown: Name = text if self._bytes.isascii() or self._is_text(text) else self._bytes
        return f"{type(self).__name__}({shown!r})"

    def _is_text(self, text: str) -> bool:
        """Whether the bytes are read as this text, and written by it, without what stands for other bytes."""
        try:
            text.encode("utf-8")
        except UnicodeError:
            return False
        return self._read(text) == self._bytes

    def __reduce__(self) -> tuple[object, ...]:
        return _again, (type(self), self._bytes), self.__getstate__()

    def __getstate__(self) -> object:
        """What is pickled with the bytes: the attributes that a subclass has besides."""
        slots = {name: getattr(self, name) for name in _slots(type(self)) if hasattr(self, name)}
        attributes = getattr(self, "__dict__", None) or None
        return (attributes, slots) if slots else attributes

    @classmethod
    def __class_getitem__(cls: type[P], kind: object) -> type[P]:
        """The class itself, so that `UnixPath[str]` may be written."""
        return cls

    @property
    def components(self) -> list[Component]:
        r"""The components.

        >>> WindowsPath(r"C:\a").components
        [Component(kind='Disk', text='C:'), Component(kind='root', text='\\'), Component(kind='normal', text='a')]
        """
        raw = self._bytes
        return [
            Component(_errors.KINDS[kind], self._text(raw[start:start + length]))
            for kind, start, length in self._pieces()
        ]

    def _split(self) -> tuple[str, tuple[str, ...]]:
        """The anchor, and the parts behind it."""
        anchor = self.anchor
        return anchor, self.parts[1:] if anchor else self.parts

    def _is_anchor(self, anchor: str, wanted: str) -> bool:
        """Whether two anchors are equal."""
        return anchor == wanted or self._of(self._read(anchor)) == self._of(self._read(wanted))

    def match(self, pattern: Text) -> bool:
        """Whether the names match those of a pattern, by `*`, `?` and `[..]`: the last of them, or all where the
        pattern has an anchor, which has to be equal. The case of names counts. Raises `ValueError` for an empty one.

        >>> UnixPath("/a/b.py").match("*.py"), UnixPath("/a/b.py").match("/*.py"), UnixPath("a.PY").match("*.py")
        (True, False, False)
        """
        wanted_anchor, wanted = self._of(self._read(pattern))._split()
        if not wanted_anchor and not wanted:
            raise TypedPathError(f"{pattern!r} is an empty pattern", pattern)
        anchor, names = self._split()
        if wanted_anchor and (len(names) != len(wanted) or not self._is_anchor(anchor, wanted_anchor)):
            return False
        return len(names) >= len(wanted) and all(map(_matcher(), names[len(names) - len(wanted):], wanted))

    def full_match(self, pattern: Text) -> bool:
        """Whether the whole path matches a pattern, in which `**` stands for any number of parts. The anchor matches an
        equal one, or a `**` at the front. The case of names counts.

        >>> UnixPath("/a/b/c.py").full_match("/a/**/*.py"), UnixPath("/a/b/c.py").full_match("**/*.py")
        (True, True)
        >>> UnixPath("a/b.py").full_match("*.py")
        False
        """
        anchor, names = self._split()
        wanted_anchor, wanted = self._of(self._read(pattern))._split()
        if not self._is_anchor(anchor, wanted_anchor) and (wanted_anchor or wanted[:1] != ("**",)):
            return False
        met, matches = {0}, _matcher()
        for one in wanted:
            if one == "**":
                met = set(range(min(met, default=len(names) + 1), len(names) + 1))
            else:
                met = {at + 1 for at in met if at < len(names) and matches(names[at], one)}
        return len(names) in met

    def check_portable(self) -> None:
        """Raises a `NotPortable` where some system does not take a component as it is written, for the first one that
        offends. Roots, `.` and `..` are let through, so for a name that comes from outside take `join_portable`.

        >>> UnixPath("a/b.txt").check_portable()
        >>> UnixPath("a/b.").check_portable()
        Traceback (most recent call last):
        typed_path.BadEnding: path contains name that ends in dot or space: 'a/b.'
        """
        status = self._check_portable()
        if status:
            raise _errors.failed(status, self, self._dialect, self._bytes, None, None)

    def join_checked_batch(self, names: Iterable[Name]) -> Batch:
        """Checked joins of many names, in one call: all of them `str`, or all `bytes`, as what they are joined to is.
        A name is refused here as it is by `join_checked`, and no other with it. Other threads run meanwhile.

        >>> UnixPath("/srv").join_checked_batch(["a/b", "../x", "c"])
        Batch(targets=['/srv/a/b', None, '/srv/c'], refusals={1: <class 'typed_path.PathTraversalAttack'>})
        """
        return self._batch_of(names, 0)

    def join_portable_batch(self, names: Iterable[Name]) -> Batch:
        """`join_checked_batch` by `join_portable`.

        >>> UnixPath("/srv").join_portable_batch(["a/b", "nul"])
        Batch(targets=['/srv/a/b', None], refusals={1: <class 'typed_path.MayBeDevice'>})
        """
        return self._batch_of(names, 1)

    def resolve_checked_batch(self, names: Iterable[Name]) -> Batch:
        """`join_checked_batch` by `resolve_checked`.

        >>> UnixPath("/srv").resolve_checked_batch(["a/./b", ".."])
        Batch(targets=['/srv/a/b', None], refusals={1: <class 'typed_path.PathTraversalAttack'>})
        """
        return self._batch_of(names, 2)

    def _batch_of(self, names: Iterable[Name], number: int) -> Batch:
        targets, statuses = self._batch(_listed(names), number, False)
        return Batch(targets, _refusals(statuses))

    def join_checked_into(self, names: Iterable[Name], buffer: Any, end: bytes = b"\n") -> Written:
        """The targets of `join_checked_batch` behind each other in a buffer that may be written, as a `bytearray` or an
        `mmap`, each with an end. Raises `BufferTooSmall` where one has no room; room for all are the bytes of all
        names, and for each name those of the path and of the end, and five.

        >>> buffer = bytearray(100)
        >>> written = UnixPath("/srv").join_checked_into(["a/b", "../x", "c"], buffer)
        >>> bytes(buffer[:written.size]), written.refusals
        (b'/srv/a/b\\n/srv/c\\n', {1: <class 'typed_path.PathTraversalAttack'>})
        """
        return self._into(names, 0, buffer, end)

    def join_portable_into(self, names: Iterable[Name], buffer: Any, end: bytes = b"\n") -> Written:
        """`join_checked_into` by `join_portable`."""
        return self._into(names, 1, buffer, end)

    def _into(self, names: Iterable[Name], number: int, buffer: Any, end: bytes) -> Written:
        size, statuses = self._batch_into(_listed(names), number, buffer, end)
        return Written(size, _refusals(statuses))

    def with_file_name(self: P, name: Text) -> P:
        """The path with another name pushed in the place of its own, or behind it where it has none. Raises
        `NotAName`, a `ValueError`, for what is none: it is empty, `.` or `..`, has a separator, or on Windows a drive.

        >>> UnixPath("a//b/").with_file_name("c")
        UnixPath('a/c')
        >>> UnixPath("a/b").with_file_name("../c")
        Traceback (most recent call last):
        typed_path.NotAName: '../c' is not a name
        """
        raw = self._read(name)
        if not self._is_name(raw):
            raise NotAName(f"{self._text(raw)!r} is not a name", name)
        return self._with_file_name(raw)

    def with_name(self: P, name: Text) -> P:
        r"""`with_file_name` of a path that has a name; it raises `NoName`, a `ValueError`, for one without. Raises
        `BaseLosesPrefix` where Windows reads the name behind the parent as a part of a prefix.

        >>> UnixPath("/a/b.txt").with_name("c")
        UnixPath('/a/c')
        >>> UnixPath("a/..").with_name("c")
        Traceback (most recent call last):
        typed_path.NoName: 'a/..' has no name
        """
        if not self.name:
            raise _errors.no_name(self)
        made = self.with_file_name(name)
        if not made.name:
            raise BaseLosesPrefix(f"{str(self.parent)!r} does not keep its prefix", self.parent)
        return made

    def with_stem(self: P, stem: Name) -> P:
        """`with_name` of another stem and the suffix that is there.

        >>> UnixPath("/a/b.tar.gz").with_stem("c")
        UnixPath('/a/c.gz')
        """
        return self.with_name(self._read(stem) + self._read(self.suffix))

    def absolutize(self: P, directory: Union[str, bytes, UnixPath, WindowsPath, None] = None) -> P:
        r"""The normal path, read from a directory where it is not absolute: a path of either dialect, a text of Unix,
        or the working directory, if none is named. Raises `Ambiguous` where it is not absolute behind it either. That is asked before the path is
        made normal, so on Windows what is returned may be on another drive, and not absolute.

        >>> UnixPath("a/../b").absolutize("/home/u")
        UnixPath('/home/u/b')
        >>> WindowsPath(r"C:\a\D:").absolutize("/home/u")
        WindowsPath('D:')
        >>> WindowsPath(r"..\a").absolutize(WindowsPath(r"C:\work"))
        WindowsPath('C:\\a')
        """
        if isinstance(directory, WindowsPath):
            return self._absolutize_in_windows(bytes(directory))
        if directory is not None:
            return self._absolutize(bytes(UnixPath(directory)))
        return self._absolutize(b"/" if self.is_absolute() else os.getcwdb())

    def to_unix(self) -> UnixPath:
        r"""The path as it is written on Unix; it may lose its prefix.

        >>> WindowsPath(r"C:\a\b").to_unix()
        UnixPath('/a/b')
        """
        return self._converted(UnixPath, False)

    def to_windows(self) -> WindowsPath:
        r"""The path as it is written on Windows; a name that is a drive there replaces what stands before it.

        >>> UnixPath("/tmp/a.txt").to_windows()
        WindowsPath('\\tmp\\a.txt')
        """
        return self._converted(WindowsPath, False)

    def to_unix_checked(self) -> UnixPath:
        """`to_unix` by checked joins. Raises what the first component that offends there is refused for."""
        return self._converted(UnixPath, True)

    def to_windows_checked(self) -> WindowsPath:
        """`to_windows` by checked joins. Raises what the first component that offends there is refused for.

        >>> UnixPath("/tmp/aux.h").to_windows_checked()
        Traceback (most recent call last):
        typed_path.InvalidFilename: path contains invalid filename: '/tmp/aux.h'
        """
        return self._converted(WindowsPath, True)

    def _converted(self, cls: type[P], checks: bool) -> P:
        made = self._convert(cls._dialect, checks)
        return self._like(made) if isinstance(self, cls) else cls._of(made)


class UnixPath(TypedPath):
    """A path of Unix."""

    __slots__ = ()
    _dialect, _separator = _errors.UNIX, "/"


class WindowsPath(TypedPath):
    r"""A path of Windows. Where a letter of the names of files may hold a `\`, as in Big5, its text is UTF-8."""

    __slots__ = ()
    _dialect, _separator = _errors.WINDOWS, "\\"


if not TYPE_CHECKING and _module:
    # The types of C take in what is written above, and stand for these classes.
    for _name, _it in vars(TypedPath).items():
        if _name not in ("__doc__", "__module__", "__slots__"):
            setattr(_module.TypedPath, _name, _it)
    TypedPath, UnixPath, WindowsPath = _module.TypedPath, _module.UnixPath, _module.WindowsPath


def _matcher() -> Callable[[str, str], bool]:
    """What matches a name with a pattern. It is imported when it is asked for, since that takes long."""
    global _matches
    if not _matches:
        from fnmatch import fnmatchcase

        _matches = fnmatchcase
    return _matches


_matches: Union[Callable[[str, str], bool], None] = None


def _again(cls: type[P], made: bytes) -> P:
    """A path that was pickled, or copied."""
    return cls._of(made)


def _slots(cls: type) -> list[str]:
    """The slots that a subclass has besides."""
    from types import MemberDescriptorType

    return [
        name for one in cls.__mro__ for name, it in vars(one).items()
        if isinstance(it, MemberDescriptorType) and name not in ("_bytes", "_parts")
    ]


def derive(path: Name) -> Union[UnixPath, WindowsPath]:
    r"""The path in the dialect that it looks like: Windows if it begins with `\` or a prefix, else Unix.

    >>> derive("/a"), derive("a:b")
    (UnixPath('/a'), WindowsPath('a:b'))
    """
    return WindowsPath(path) if _derive(os.fsencode(path)) == _errors.WINDOWS else UnixPath(path)


class Extraction(NamedTuple):
    """Where the entries of an archive go, and which are refused: each with its name."""

    targets: list[tuple[Any, Any]]  # each name, a str or bytes, and its path
    refused: list[tuple[Any, type[CheckedPathError]]]


def extract_names(base: P, names: Iterable[Name], *, portable: bool = False) -> Extraction:
    r"""Where the entries of an archive go, each within the base, and which are refused for what: by `join_checked`, or
    with `portable` by `join_portable`. Two entries may go to one place. Raises `BaseLosesPrefix` for a base that does
    not keep its prefix.

    >>> extract_names(WindowsPath(r"C:\out"), ["a/b", "con.txt"])  # doctest: +NORMALIZE_WHITESPACE
    Extraction(targets=[('a/b', WindowsPath('C:\\out\\a/b'))],
               refused=[('con.txt', <class 'typed_path.InvalidFilename'>)])
    """
    if not base.keeps_prefix():
        raise BaseLosesPrefix(f"{str(base)!r} does not keep its prefix", base)
    listed = list(_listed(names))
    targets, statuses = base._batch(listed, int(portable), True)
    if not statuses:
        return Extraction(list(zip(listed, targets)), [])
    return Extraction(
        [(name, target) for name, target in zip(listed, targets) if target is not None],
        [(listed[place], refusal) for place, refusal in _refusals(statuses).items()],
    )


from ._texts import Texts  # noqa: E402  which takes the classes

unix: Texts = _module.unix if _module else Texts(UnixPath)
windows: Texts = _module.windows if _module else Texts(WindowsPath)
