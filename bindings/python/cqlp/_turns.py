"""The root of what this package raises, and how calls from several threads take turns."""

import functools
import os
import threading
import weakref
from typing import Any, Callable, Dict, Tuple, Type, TypeVar, cast


class Error(Exception):
    """What this package raises. It pickles with its members, so that a worker process may raise it."""

    def __reduce__(self) -> Tuple[Any, ...]:
        return _again, (type(self), self.args, self.__dict__)


def _again(kind: Type[Error], arguments: Tuple[Any, ...], members: Dict[str, Any]) -> Error:
    """An exception as it was. Its `__init__` makes the text of other arguments, so it is not called."""
    error = kind.__new__(kind, *arguments)
    error.__dict__.update(members)
    return error


class InUse(Error, ValueError):
    """A call is under way that this one cannot wait for: one of the same thread, as where a signal handler calls; one of a thread that a fork
    left behind; or one that reads on in the same `Pages`, which waits for nobody."""

    def __init__(self, what: str = "a call is under way") -> None:
        super().__init__(what)


class Turns:
    """Which call is under way in an object that takes one at a time."""

    def __init__(self) -> None:
        self.lock = threading.RLock()
        self.inside = False
        _ALL.add(self)


_ALL: "weakref.WeakSet[Turns]" = weakref.WeakSet()


def _forked() -> None:
    """In the child of a fork nobody holds a lock. Where a call of another thread was under way it stays so."""
    for turns in _ALL:
        turns.lock = threading.RLock()


if hasattr(os, "register_at_fork"):
    os.register_at_fork(after_in_child=_forked)

_Call = TypeVar("_Call", bound=Callable[..., Any])


def one_at_a_time(call: _Call) -> _Call:
    """A method of an object whose `_turns` are these: it begins once the calls of other threads have returned."""

    @functools.wraps(call)
    def turn(self: Any, *arguments: Any, **named: Any) -> Any:
        turns: Turns = self._turns
        with turns.lock:
            if turns.inside:
                raise InUse
            turns.inside = True
            try:
                return call(self, *arguments, **named)
            finally:
                turns.inside = False

    return cast(_Call, turn)
