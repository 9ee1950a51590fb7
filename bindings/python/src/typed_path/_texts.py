"""The most used calls for plain texts of one dialect."""

from __future__ import annotations

TYPE_CHECKING = False  # which type checkers take for true
if TYPE_CHECKING:
    import os
    from typing import TypeVar, Union

    from . import UnixPath, WindowsPath

    Text = Union[str, bytes, "os.PathLike[str]", "os.PathLike[bytes]"]
    S = TypeVar("S", str, bytes)


class Texts:
    """Calls of plain texts, in the manner of `posixpath` and `ntpath`: they answer by a `str` where the first text is
    one, and by `bytes` where it is bytes. Each is what the path of that text answers, and raises what that raises. The
    module of C has its own, by these docstrings.

    >>> windows.join_checked(rb"C:\\out", b"a/b")
    b'C:\\\\out\\\\a/b'
    >>> unix.join_checked("/srv", "../etc/passwd")
    Traceback (most recent call last):
    typed_path.PathTraversalAttack: path attempts to escape original path: '../etc/passwd'
    """

    def __init__(self, kind: type[Union[UnixPath, WindowsPath]]) -> None:
        self._kind = kind

    def _back(self, like: S, path: Union[UnixPath, WindowsPath]) -> S:
        return bytes(path) if isinstance(like, bytes) else str(path)

    def join(self, path: S, other: Text, /) -> S:
        """The text with another pushed onto it.

        >>> unix.join("/a", "b"), unix.join("/a", "/b")
        ('/a/b', '/b')
        """
        return self._back(path, self._kind(path).join(other))

    def join_checked(self, path: S, other: Text, /) -> S:
        """The text with another pushed onto it that must not lead out.

        >>> unix.join_checked("/srv", "a/../b")
        '/srv/a/../b'
        """
        return self._back(path, self._kind(path).join_checked(other))

    def join_portable(self, path: S, other: Text, /) -> S:
        """`join_checked` of a text that is portable too.

        >>> unix.join_portable(b"/srv", "a/b")
        b'/srv/a/b'
        """
        return self._back(path, self._kind(path).join_portable(other))

    def resolve_checked(self, path: S, other: Text, /) -> S:
        """The clean text of a checked join.

        >>> unix.resolve_checked("/srv", "a/../b")
        '/srv/b'
        """
        return self._back(path, self._kind(path).resolve_checked(other))

    def normalize(self, path: S, /) -> S:
        """The text without `.`, and without `..` and the names that these take away.

        >>> unix.normalize("a/../b/./c"), unix.normalize("../a")
        ('b/c', 'a')
        """
        return self._back(path, self._kind(path).normalize())

    def clean(self, path: S, /) -> S:
        """The text without `.`, doubled separators and names that a `..` takes away. A relative one keeps the `..` that it
        needs, and nothing is `.`.

        >>> unix.clean("../a/."), unix.clean("a/..")
        ('../a', '.')
        """
        return self._back(path, self._kind(path).clean())

    def is_within(self, path: Text, base: Text, /) -> bool:
        """Whether a path lies at the base or below it.

        >>> unix.is_within("/srv/a", "/srv"), unix.is_within("/srv/../etc", "/srv")
        (True, False)
        """
        return self._kind(path).is_within(base)

    def is_absolute(self, path: Text, /) -> bool:
        """Whether it leads to one place from every directory."""
        return self._kind(path).is_absolute()

    def is_valid(self, path: Text, /) -> bool:
        """Whether each name is allowed."""
        return self._kind(path).is_valid()

    def is_portable(self, path: Text, /) -> bool:
        """Whether every system takes each component as it is written."""
        return self._kind(path).is_portable()

    def may_be_device(self, path: Text, /) -> bool:
        """Whether some version of Windows may take a name for a device."""
        return self._kind(path).may_be_device()

    def keeps_prefix(self, path: Text, /) -> bool:
        """Whether what is joined to it keeps its prefix."""
        return self._kind(path).keeps_prefix()
