"""What `typing.NamedTuple` gives, without `typing`, which takes longer to be imported than the rest of the package."""

from __future__ import annotations

from operator import itemgetter

TYPE_CHECKING = False  # which type checkers take for true
if TYPE_CHECKING:
    from typing import Any


class Record(tuple):  # type: ignore[type-arg]
    """A tuple whose items have the names that a class below has annotations of."""

    __slots__ = ()
    _fields: tuple[str, ...] = ()

    def __init_subclass__(cls) -> None:
        cls._fields = tuple(cls.__annotations__)
        for place, name in enumerate(cls._fields):
            setattr(cls, name, property(itemgetter(place)))

    def __new__(cls, *values: Any, **named: Any) -> Record:
        if named:
            values += tuple(named.pop(name) for name in cls._fields[len(values):] if name in named)
        if len(values) != len(cls._fields) or named:
            raise TypeError(f"{cls.__name__} takes {', '.join(cls._fields)}")
        return tuple.__new__(cls, values)

    def __getnewargs__(self) -> tuple[Any, ...]:
        return tuple(self)

    def __repr__(self) -> str:
        return f"{type(self).__name__}({', '.join(f'{name}={it!r}' for name, it in self._asdict().items())})"

    def _asdict(self) -> dict[str, Any]:
        return dict(zip(self._fields, self))

    def _replace(self, **named: Any) -> Record:
        return type(self)(**{**self._asdict(), **named})
