"""Turns: while a call of a workbench is under way, calls of other threads wait; while a draft or group is open, all that isn't part of it waits.

Of a draft is what runs in the context (contextvars) of the task or thread that began it, or in the function whose `with` holds it."""

import sys
from contextlib import suppress
from contextvars import ContextVar
from functools import wraps
from inspect import CO_ASYNC_GENERATOR, CO_COROUTINE, CO_GENERATOR, isfunction
from threading import current_thread
from traceback import walk_stack
from typing import Any, Tuple

from ..errors import OutOfStep

# Functions that may wait half-way, and go on elsewhere.
_CAN_WAIT = CO_GENERATOR | CO_COROUTINE | CO_ASYNC_GENERATOR


class Holder:
    """Who has begun a draft or a group: a context, a thread, and a function."""

    _held: 'ContextVar[Tuple[Holder, ...]]' = ContextVar('gwb drafts', default=())

    def __init__(self) -> None:
        self._thread = current_thread()
        frames = (frame for frame, _ in walk_stack(sys._getframe()))
        self._frame = next((frame for frame in frames if not frame.f_globals.get('__name__', '').startswith(__package__)), None)
        self._held.set((*self._held.get(), self))

    def end(self) -> None:
        """It holds nothing any more."""
        self._frame = None
        self._held.set(tuple(holder for holder in self._held.get() if holder is not self))

    def leave_ended(self) -> None:
        """Where its function has ended, what that has left behind goes, such as a draft that it forgot to end and nothing else refers to."""
        if self._frame and not self._frame.f_code.co_flags & _CAN_WAIT:
            with suppress(RuntimeError):    # (it goes on)
                self._frame.clear()
                self._frame = None

    @property
    def is_here(self) -> bool:
        """Whether what runs now is part of what it holds."""
        return self in self._held.get() or any(frame is self._frame for frame, _ in walk_stack(sys._getframe()))

    def require_end(self) -> None:
        """Raises OutOfStep where waiting for its end is in vain."""
        if self._thread is current_thread():
            raise OutOfStep('another task of this thread has a draft or a group open')
        if not self._thread.is_alive():
            raise OutOfStep('a draft or a group is open, whose thread has ended')


class TakesTurns:
    """What has a kernel: each public method and property of the classes below is a turn of that."""

    _kernel: Any

    def __init_subclass__(cls) -> None:
        super().__init_subclass__()
        for name, found in list(vars(cls).items()):
            if isfunction(found) and not name.startswith('_'):
                setattr(cls, name, _taken(found, False))
            elif isinstance(found, property) and found.fget:
                setattr(cls, name, property(_taken(found.fget, True), doc=found.__doc__))


def _taken(method: Any, is_read: bool) -> Any:
    """The method as a turn of its own where it isn't called in one. What is only read has its turn at once where nothing is held."""

    @wraps(method)
    def taken(self: TakesTurns, *values: Any, **named: Any) -> Any:
        kernel = self._kernel
        with kernel.turn:
            if kernel.is_inside or is_read and not kernel.holder:
                return method(self, *values, **named)
            kernel.begin_turn()
            kernel.is_inside, kernel.notes.called = True, [] if method.__name__ == 'ask' else [method.__name__]
            try:
                said = method(self, *values, **named)
                kernel.is_ragged = False
                return said
            finally:
                kernel.is_inside, kernel.notes.called = False, []

    return taken
