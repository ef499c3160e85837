"""A line on standard error that says what a program is at, where it takes long and somebody looks."""

import sys
import threading
import time
from types import TracebackType
from typing import Optional, TextIO, Type


class Progress:
    """Shows the stage and the seconds on one line, which it clears at the end; nothing where standard error is no terminal."""

    def __init__(self, program: str, stream: Optional[TextIO] = None, patience: float = 2, step: float = .5) -> None:
        """Nothing is shown before `patience` seconds; then the line is renewed at each `step`."""
        self._program, self._stream = program, stream or sys.stderr
        self._patience, self._step = patience, step
        self._stage = 'reading'
        self._ended = threading.Event()
        self._thread = threading.Thread(target=self._show, daemon=True)
        self._begun = time.monotonic()

    def stage(self, name: str) -> None:
        """What the program does from now on."""
        self._stage = name

    def __enter__(self) -> 'Progress':
        if self._stream.isatty():
            self._thread.start()
        return self

    def __exit__(self, kind: Optional[Type[BaseException]], error: Optional[BaseException], where: Optional[TracebackType]) -> None:
        self._ended.set()
        if self._thread.is_alive():
            self._thread.join()

    def _show(self) -> None:
        if self._ended.wait(self._patience):
            return
        while not self._ended.wait(self._step):
            self._stream.write(f'\r\x1b[K{self._program}: {self._stage}, {time.monotonic() - self._begun:.0f} s')
            self._stream.flush()
        self._stream.write('\r\x1b[K')
        self._stream.flush()
