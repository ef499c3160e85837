"""A conversation with the program over pipes: lines go to it, replies come back."""

import os
import shutil
import subprocess
from pathlib import Path
from typing import Iterator, List

from ..errors import Ended, OutOfStep, ProgramMissing
from ..geometry.model import Model
from ..protocol.language import command_bytes, first_word
from ..protocol.listing import model_of
from ..protocol.replies import Reply, is_listed, only_reply
from ..session.library import is_library

_AFTER_LISTING = 'count 1'


def find_program() -> str:
    """The program: what the environment variable GWB names, else the one built in this repository, proved before unproved, or
    installed with this package, else that on the path."""
    named = os.environ.get('GWB', '')
    built = (str(path) for path in _places() if path.is_file())
    program = named if named and not is_library(named) else next(built, '') or shutil.which('gwb')
    if program is None:
        raise ProgramMissing('the program gwb was not found: the environment variable GWB may name it, or it lies on the path; '
                             'in a copy of the sources `make try` builds it, unproved')
    return program


def _places() -> Iterator[Path]:
    """Where the program lies in this repository, or beside the package as `make install` puts it: PREFIX/bin and PREFIX/share/gwb."""
    top = Path(__file__).resolve().parents[3]
    yield top / 'crates' / 'gwb' / 'out' / 'gwb'
    yield top / 'out' / 'gwb-unproved'
    if top.parts[-2:] == ('share', 'gwb'):
        yield top.parents[1] / 'bin' / 'gwb'


class Pipe:
    """The program, started, and what it says."""

    def __init__(self, program: str) -> None:
        """Starts it, in a session of its own, so what a terminal sends to this process doesn't end it."""
        self._over, self._in_step = '', True
        try:
            self._process = subprocess.Popen([program], stdin=subprocess.PIPE, stdout=subprocess.PIPE, stderr=subprocess.PIPE, start_new_session=True)
        except OSError as error:
            raise ProgramMissing(f'{error.filename}: {error.strerror}') from None
        assert self._process.stdin and self._process.stdout, 'both are pipes'
        self._to, self._from = self._process.stdin, self._process.stdout

    def ask(self, line: str) -> Reply:
        """The reply to one line that is a command, or a fault. Where an exception leaves it, replies are no longer in step."""
        data = command_bytes(line)
        if self._over:
            raise Ended(self._over)
        if not self._in_step:
            raise OutOfStep(f'{line}: another call was left, whose reply is awaited')
        self._in_step = False
        self._send(data)
        reply = self._listing() if first_word(data) == 'list' else only_reply([self._receive()])
        self._in_step = True
        return reply

    def model(self) -> Model:
        """The model held, from its listing."""
        return model_of(self.ask('list'))

    def close(self) -> None:
        """Ends the program."""
        if not self._in_step:
            self._process.kill()
        if not self._to.closed:
            self._process.communicate()
        self._over = self._over or 'the session is closed'

    def _send(self, data: bytes) -> None:
        try:
            self._to.write(data + b'\n')
            self._to.flush()
        except BrokenPipeError:
            raise self._ended() from None

    def _receive(self) -> str:
        line = self._from.readline()
        if not line.endswith(b'\n'):
            raise self._ended()
        return line[:-1].decode('ascii', 'backslashreplace')

    def _listing(self) -> Reply:
        """A listing has no end mark, so a query is sent after it, whose reply ends it."""
        self._send(_AFTER_LISTING.encode())
        lines: List[str] = [self._receive()]
        while is_listed(lines[-1]) or len(lines) == 1:
            lines.append(self._receive())
        return only_reply(lines[:-1])

    def _ended(self) -> Ended:
        """The error that says how the program ended; no reply is due any more."""
        complaint = self._process.communicate()[1].decode('utf-8', 'replace').strip()
        self._over = complaint or f'the program ended with status {self._process.returncode}'
        self._in_step = True
        return Ended(self._over)
