"""Objects that are never changed once they are made, and what they keep of what was computed."""
from typing import Any, Callable, Generic, Optional, TypeVar, overload

T = TypeVar("T")


class kept(Generic[T]):
    """A property that is computed when it is first asked for, and kept.

    Unlike functools.cached_property of Python 3.11 and before it takes no lock, under which all
    objects of a class would wait for one. Two threads may both compute it; both get one value.
    """

    def __init__(self, compute: Callable[[Any], T]) -> None:
        self.compute, self.name, self.__doc__ = compute, compute.__name__, compute.__doc__

    @overload
    def __get__(self, holder: None, owner: Optional[type] = None) -> "kept[T]": ...

    @overload
    def __get__(self, holder: object, owner: Optional[type] = None) -> T: ...

    def __get__(self, holder: Any, owner: Optional[type] = None) -> Any:
        if holder is None:
            return self
        return holder.__dict__.setdefault(self.name, self.compute(holder))


class Fixed:
    """An object whose attributes are set once, by `_set` when it is made, and are read-only then."""

    def _set(self, **attributes: Any) -> None:
        self.__dict__.update(attributes)

    def __setattr__(self, name: str, value: Any) -> None:
        raise AttributeError(f"{name} can't be set: {type(self).__name__} is never changed")

    def __delattr__(self, name: str) -> None:
        raise AttributeError(f"{name} can't be deleted: {type(self).__name__} is never changed")
