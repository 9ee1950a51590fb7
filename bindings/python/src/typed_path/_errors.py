"""What both backends share: the errors, what a status names, and what text is encoded by."""

from __future__ import annotations

import sys

TYPE_CHECKING = False  # which type checkers take for true
if TYPE_CHECKING:
    from typing import Any, NamedTuple, Optional

    from . import TypedPath
else:
    from ._records import Record as NamedTuple

UNIX, WINDOWS = 0, 1
VERSION = 201

# What os.fsencode and os.fsdecode take.
ENCODING, ERRORS = sys.getfilesystemencoding(), sys.getfilesystemencodeerrors()


def look_at_version(version: int) -> None:
    """Raises ImportError for a library that is older than this package, or whose first two parts are others."""
    if version < VERSION or version // 100 != VERSION // 100:
        raise ImportError(f"the library has the version {version}, and this package needs {VERSION}")


def keeps_backslashes(encoding: str) -> bool:
    r"""Whether a `\` behind any other byte is one in text too. In Big5 and its like it may be half of a letter."""
    return all(bytes((byte, 92)).decode(encoding, ERRORS).endswith("\\") for byte in range(128, 256))


# What the text of a path of each dialect is read by.
ENCODINGS = (ENCODING, ENCODING if ENCODING == "utf-8" or keeps_backslashes(ENCODING) else "utf-8")


def encoded_by() -> tuple[str, str, str]:
    """What text is encoded by on Unix and on Windows, and how what is none is."""
    return (*ENCODINGS, ERRORS)


class TypedPathError(ValueError):
    """What a call of this package refuses, but for a `str` that no bytes stand for. `path` is what it was refused
    for, as it was handed in, and `base` what that was to lie below or begin with, or None."""

    def __init__(self, message: object = "", path: object = None, base: object = None) -> None:
        super().__init__(message)
        self.path, self.base = path, base


class BaseLosesPrefix(TypedPathError):
    """What is joined to this base may have another prefix, so nothing is promised of it."""


class StripPrefixError(TypedPathError):
    """A path does not begin with the base."""


class NotAName(TypedPathError):
    """What is to be a name is none: it is empty, `.` or `..`, has a separator or, on Windows, a drive."""


class NotAnExtension(TypedPathError):
    """What is to be an extension or a suffix is none, or without one no name would be left."""


class NoName(TypedPathError):
    """A path has no name that another could stand for."""


class NoRelativePath(TypedPathError):
    """No relative path leads from the base to the path, or only one that begins with `..`."""


class Ambiguous(TypedPathError):
    """A path is absolute neither alone nor behind the directory."""


class BufferTooSmall(TypedPathError):
    """A buffer has no room for the target of a name, which is `path`. Those before it were written."""


class CheckedPathError(TypedPathError):
    """A path was refused for its first component that offends. `path` is the path."""

    message = "path was refused"

    def __init__(self, path: object, judged: Optional[Judged] = None) -> None:
        shown = path if isinstance(path, (str, bytes)) else str(path)
        super().__init__(f"{self.message}: {shown!r}", path)
        self._judged = judged

    def __reduce__(self) -> tuple[object, ...]:
        return type(self), (self.path,), self.__dict__

    @property
    def place(self) -> Optional[int]:
        """How many components stand before the one that offends. None where no call has judged the path, as a `str`
        that no bytes stand for."""
        return None if self._judged is None else self._judged.place()

    @property
    def name(self) -> Optional[str]:
        """The component that offends, or None, as `place`."""
        return None if self._judged is None else self._judged.name()


class InvalidFilename(CheckedPathError):
    """A name is not allowed: it has a disallowed byte, on Windows stands for a device, or is a `str` without bytes."""

    message = "path contains invalid filename"


class PathTraversalAttack(CheckedPathError):
    """No name before it makes up for a `..`."""

    message = "path attempts to escape original path"


class UnexpectedPrefix(CheckedPathError):
    """There is a prefix of Windows, as a drive or a server."""

    message = "path contains unexpected prefix"


class UnexpectedRoot(CheckedPathError):
    """There is a root."""

    message = "path contains unexpected root"


class NotPortable(CheckedPathError):
    """Some system does not take a component as it is written. Each reason is a class below this one."""

    message = "path is not portable"


class HasPrefix(NotPortable):
    """There is a prefix of Windows, as a drive or a server."""

    message = "path contains prefix"


class ForbiddenByte(NotPortable):
    """A name has a byte that no name of Windows has, or a control byte."""

    message = "path contains forbidden byte"


class MayBeDevice(NotPortable):
    """Some version of Windows may take a name for a device."""

    message = "path contains name that may be a device"


class BadEnding(NotPortable):
    """A name ends in a dot or a space."""

    message = "path contains name that ends in dot or space"


class NameTooLong(NotPortable):
    """A name has more than 255 bytes."""

    message = "path contains name of more than 255 bytes"


class NotUtf8(NotPortable):
    """A name is not UTF-8."""

    message = "path contains name that is not UTF-8"


DONE, INVALID_FILENAME, OUT_OF_MEMORY, NONE, AMBIGUOUS, NOT_TEXT = 0, 1, 5, 8, 9, 17
REFUSALS: dict[int, type[CheckedPathError]] = {
    INVALID_FILENAME: InvalidFilename, 2: PathTraversalAttack, 3: UnexpectedPrefix, 4: UnexpectedRoot, 12: HasPrefix,
    13: ForbiddenByte, 14: MayBeDevice, 15: BadEnding, 16: NameTooLong, NOT_TEXT: NotUtf8,
}
KINDS = (
    "root", "current", "parent", "normal", "Verbatim", "VerbatimUNC", "VerbatimDisk", "DeviceNS", "UNC", "Disk",
)


class Judged(NamedTuple):
    """What a checked call has refused: a text of a dialect, as one of another where it converts."""

    status: int
    dialect: int
    text: bytes
    other: Optional[int]

    def _path(self, end: Optional[int] = None) -> TypedPath:
        from . import UnixPath, WindowsPath

        text = self.text[:end]
        return WindowsPath._of(text) if self.dialect else UnixPath._of(text)

    def _is_refused(self, end: int) -> bool:
        """Whether the text up to there is refused."""
        path = self._path(end)
        if self.other is None:
            return (path._check_portable() if issubclass(REFUSALS[self.status], NotPortable) else path._check()) != DONE
        try:
            path._convert(self.other, True)
        except CheckedPathError:
            return True
        return False

    def place(self) -> int:
        """The place of the component that offends. It ends the shortest beginning that is refused."""
        ends = [start + length for _, start, length in self._path()._pieces()]
        low, high = 0, len(ends) - 1
        while low < high:
            middle = (low + high) // 2
            low, high = (low, middle) if self._is_refused(ends[middle]) else (middle + 1, high)
        return low

    def name(self) -> str:
        """The text of that component."""
        _, start, length = self._path()._pieces()[self.place()]
        return self.text[start:start + length].decode(ENCODINGS[self.dialect], ERRORS)


def failed(status: int, told: object, dialect: int, text: bytes, other: Optional[int], base: object) -> Exception:
    """The error that a status names. `told` is what a refusal tells of, `text` what was judged, `base` what it was to
    lie below."""
    if status in REFUSALS:
        return REFUSALS[status](told, Judged(status, dialect, text, other))
    if status == OUT_OF_MEMORY:
        return MemoryError()
    if status == NONE:
        return NoRelativePath(f"no relative path leads to {str(told)!r}", told, base)
    if status == AMBIGUOUS:
        return Ambiguous(f"path is ambiguous: {str(told)!r}", told)
    return RuntimeError(f"status {status} of {told!r}")


def unwritten(status: int, name: object) -> Exception:
    """The error of a `str` that no bytes stand for, where a name of that status is refused."""
    return REFUSALS[status](name)


def not_below(path: object, base: object) -> Exception:
    """The error of a path that leads up from the base."""
    shown = base if isinstance(base, bytes) else str(base)
    return NoRelativePath(f"{str(path)!r} does not lie below {shown!r}", path, base)


def not_a_beginning(path: object, base: object) -> Exception:
    """The error of a base that a path does not begin with."""
    shown = base if isinstance(base, bytes) else str(base)
    return StripPrefixError(f"{str(path)!r} does not begin with {shown!r}", path, base)


def not_an_extension(text: str, extension: object) -> Exception:
    """The error of what has a separator."""
    return NotAnExtension(f"{text!r} is not an extension", extension)


def not_a_suffix(text: str, suffix: object) -> Exception:
    """The error of what has no dot at the front, or nothing behind it."""
    return NotAnExtension(f"{text!r} is not a suffix", suffix)


def not_a_name_without(path: Any) -> Exception:
    """The error of a path that has no name without its extension."""
    return NotAnExtension(f"{path.name!r} without its extension is not a name", path)


def no_name(path: object) -> Exception:
    """The error of a path that has no name."""
    return NoName(f"{str(path)!r} has no name", path)


def too_small(name: object, place: int) -> Exception:
    """The error of a buffer that has no room for the target of a name."""
    return BufferTooSmall(f"the buffer has no room for the target of name {place}, {name!r}", name)


def of_other_dialect(path: object) -> Exception:
    """The error of a path that is handed to one of the other dialect."""
    return TypeError(f"{path!r} is of the other dialect: to_unix and to_windows convert it")


def not_a_path() -> Exception:
    """The error of a path that is of no dialect."""
    return TypeError("a path is a UnixPath or a WindowsPath")
