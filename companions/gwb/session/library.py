"""The kernel in this process, the library `libgwb.so`: lines are given to it, and the model is read without text."""

import ctypes
import os
import re
from functools import partial
from pathlib import Path
from typing import Any, Callable, Dict, Iterable, Iterator, List, Optional, Sequence, Set, Tuple
from weakref import ReferenceType

from ..errors import CompanionError, Ended, ProgramMissing
from ..geometry.free_numbers import KINDS, from_least
from ..geometry.model import Face, Loop, Model
from ..geometry.vectors import Vector
from ..protocol.complaints import complaint, memory_refused
from ..protocol.language import command_bytes, first_word
from ..protocol.replies import ACCEPTED, Reply, only_reply
from ..version import VERSION
from .c_calls import ADDRESS, FOUND, OK, PLANE, PROTOTYPES, SIZE, WORD, BecameRow, EdgeRow, FaceRow, Handle, Pair, PlaneRow, Point, Refusal, whole

_NO_TEXT = SIZE(-1).value
_PLACES = {kind: place for place, kind in enumerate(KINDS)}
_ROOM = 256
_MAJOR = int(VERSION.split('.')[0])
_PACKAGE = Path(__file__).resolve().parents[1]


class TextRefused(CompanionError):
    """Memory for the text of a reply was refused; the command itself was answered."""


def find_path() -> str:
    """The library: what the environment variable GWB names, else the one that lies in this package, is built in this repository, proved before
    unproved, or installed with this package, else that of the system. Raises ProgramMissing."""
    named, top = os.environ.get('GWB', ''), _PACKAGE.parents[1]
    places = [_PACKAGE / '_lib' / 'libgwb.so', top / 'bindings' / 'out' / 'libgwb.so', top / 'out' / 'unproved' / 'libgwb.so']
    if top.parts[-2:] == ('share', 'gwb'):    # (`make install` puts it into PREFIX/lib, and this package into PREFIX/share/gwb)
        places.append(top.parents[1] / 'lib' / f'libgwb.so.{_MAJOR}')
    built = (str(path) for path in places if path.is_file())
    path = named if is_library(named) else next(built, '') or _of_system()
    if path is None:
        raise ProgramMissing('libgwb.so was not found: the environment variable GWB may name it; in a copy of the sources '
                             '`make try` builds it, unproved')
    return path


def _of_system() -> Optional[str]:
    from ctypes.util import find_library
    return find_library('gwb')


def is_library(path: str) -> bool:
    """Whether the name is that of a shared object, libgwb.so or libgwb.so.3; the environment variable GWB may name a program too."""
    return re.search(r'\.so(\.[0-9]+)*$', path) is not None


def load(path: str) -> ctypes.PyDLL:
    """The library with the types of its calls. The interpreter's lock is kept in a call, so that a handle has one at a time. Raises
    ProgramMissing, in one line, also where it is of another version."""
    try:
        library = ctypes.PyDLL(path)
    except OSError as error:
        raise ProgramMissing(f'{error}; sessions in Python need libgwb.so') from None
    if not hasattr(library, 'gwb_version'):
        raise ProgramMissing(f'{path}: this is no library of gwb')
    found = library.gwb_version()
    if found // 10_000 != _MAJOR:
        raise ProgramMissing(f'{path}: version {found // 10_000}.{found // 100 % 100}.{found % 100} of the library, where {_MAJOR} is needed')
    for name, (result, taken) in PROTOTYPES.items():
        function = getattr(library, name, None)
        if function is None:
            raise ProgramMissing(f'{path}: this is no library of gwb, or an older one: it has no {name}')
        function.restype, function.argtypes = result, taken
        setattr(library, name.replace('gwb_', '').replace('lent_', ''), function)
    return library


def is_proved() -> Optional[bool]:
    """Whether the library that sessions take says that its kernel is proved; None where there is none."""
    try:
        return hasattr(load(find_path()), 'gwb_proved')
    except ProgramMissing:
        return None


class _Closing(ReferenceType['Library']):
    """What closes a session that nothing refers to any more. No line of Python runs then, in which a Ctrl-C would be lost: the call of the library
    itself is told, and takes this beside the handle, as a number."""

    _as_parameter_ = 0


# Of the sessions that are there, and of some that were.
_CLOSING: Set[_Closing] = set()


class Library:
    """A session of the library, whose accepted commands are recorded, and what it says."""

    def __init__(self, path: str) -> None:
        self.handle, self.library = Handle(), load(path)
        _CLOSING.difference_update([closing for closing in tuple(_CLOSING) if closing() is None])
        _CLOSING.add(_Closing(self, partial(self.library.close, self.handle)))
        # How often something was undone, redone, or taken back in a draft.
        self._taken_back = 0
        if not self.library.open(self.handle) or self.library.record(self.handle) != OK:
            raise MemoryError('no session was opened')
        # Work that takes long ends where a handler of signals raises: the call is answered with that, and nothing has changed.
        self.library.stop_by(self.handle, ctypes.cast(ctypes.pythonapi.PyErr_CheckSignals, ADDRESS), None)

    def close(self) -> None:
        """Ends the session."""
        self.library.close(self.handle)

    @property
    def is_open(self) -> bool:
        """Whether the session isn't closed."""
        return bool(self.handle.is_open)

    def require_open(self) -> None:
        """Raises Ended where the session is closed."""
        if not self.handle.is_open:
            raise Ended('the session is closed')

    # Commands

    def ask(self, line: str) -> Reply:
        """The reply to one line that gwb answers."""
        data = command_bytes(line)
        self.require_open()
        self._taken_back += first_word(data) in ('undo', 'redo')
        said = self.library.line(self.handle, data, len(data))
        return ACCEPTED if said == OK else self.last_reply()

    def command(self, word: str, values: Sequence[Any]) -> bool:
        """Gives a command as a typed call: whether it was accepted. `last_reply` says why it wasn't."""
        self.require_open()
        if word in ('undo', 'redo'):
            self._taken_back += 1
        is_accepted: bool = getattr(self.library, word)(self.handle, *values) == OK
        return is_accepted

    def last_reply(self) -> Reply:
        """The reply to the last line or command."""
        text: bytes = filled(ctypes.c_char, lambda buffer, room: int(self.library.reply(self.handle, buffer, room)))
        return only_reply(text.decode('ascii').split('\n')[:-1])

    def asked(self, line: str) -> Reply:
        """The reply to a line. A complaint is raised."""
        reply = self.ask(line)
        if reply.is_complaint:
            raise complaint(line, reply)
        return reply

    def open_draft(self) -> None:
        """Opens a draft. MemoryRefused is raised where there is none."""
        self.require_open()
        if self.library.draft(self.handle) != OK:
            raise memory_refused('draft')

    def commit(self) -> None:
        """The steps of the draft are one command."""
        said = self.library.commit(self.handle)
        assert said == OK, 'a draft is open'

    def abandon(self) -> None:
        """Takes the steps of the draft back, if one is open. A closed session has no steps."""
        self._taken_back += self.mark() > 0
        self.library.abandon(self.handle)

    def mark(self) -> int:
        """How many steps the draft has, for `back`: 0 where no draft is open."""
        return int(self.library.mark(self.handle))

    def back(self, place: int) -> None:
        """Takes the steps of the draft since a mark back. A closed session has no steps."""
        self._taken_back += self.mark() > place
        self.library.back(self.handle, place)

    def fresh(self, *kinds: str) -> List[Tuple[int, ...]]:
        """The fresh numbers of each of the kinds of the last command that was accepted: none where it took none, as a split that cuts nothing."""
        self.require_open()
        read, handle, row = self.library.fresh, self.handle, Pair()
        return [tuple(range(row.first, row.second + 1)) if read(handle, _PLACES[kind], row) == FOUND else () for kind in kinds]

    def became(self, kind: str) -> Dict[int, Tuple[int, ...]]:
        """What came of things of the kind by the last command, both rising. MemoryRefused is raised where there is none."""
        self.require_open()
        try:
            rows = filled(BecameRow, lambda buffer, room: int(self.library.became(self.handle, buffer, room)))
        except TextRefused:
            raise memory_refused('became') from None
        found: Dict[int, Tuple[int, ...]] = {}
        for row in rows:
            if row.kind == _PLACES[kind]:
                found[row.old] = (*found.get(row.old, ()), row.made)
        return found

    # What is recorded

    @property
    def depth(self) -> int:
        """How many commands are held, in a draft those before it."""
        return (self.recorded or 0) - self.is_drafting

    def state(self) -> Tuple[int, int, int]:
        """Numbers that are the same only while the model is."""
        return (self.depth, self.mark(), self._taken_back)

    @property
    def recorded(self) -> Optional[int]:
        """How many commands are held, a draft that is open being one more; None where the session is closed."""
        return int(self.library.recorded(self.handle)) if self.handle.is_open else None

    @property
    def settled(self) -> Optional[int]:
        """How many commands are held; None where a draft is open, or the session is closed."""
        held = self.recorded
        return held if held == self.library.depth(self.handle) else None

    @property
    def ahead(self) -> int:
        """How many commands can be redone."""
        return int(self.library.ahead(self.handle)) if self.handle.is_open else 0

    @property
    def is_drafting(self) -> bool:
        """Whether a draft is open."""
        return self.handle.is_open and int(self.library.recorded(self.handle)) > int(self.library.depth(self.handle))

    def script(self, first: int, count: int) -> str:
        """The lines of so many commands that are held, from a place on; those of the draft that is open come last."""
        self.require_open()
        lines: bytes = filled(ctypes.c_char, lambda buffer, room: int(self.library.script(self.handle, first, count, buffer, room)))
        return lines.decode('utf-8', 'surrogateescape')

    # The model

    def in_use(self, kind: str, number: int) -> bool:
        """Whether the number of the kind is in use."""
        return number > 0 and self._number('number_after', KINDS.index(kind), number - 1) == number

    def greatest(self, kind: str) -> int:
        """The greatest number of the kind in use, 0 where none is."""
        self.require_open()
        return int(self.library.greatest_number(self.handle, _PLACES[kind]))

    def numbers(self, kind: str) -> Tuple[int, ...]:
        """All numbers of a kind in use, rising."""
        return tuple(self._rising('number_after', KINDS.index(kind)))

    def faces_of(self, solid: int) -> Tuple[int, ...]:
        """The faces of a solid, rising."""
        return tuple(self._rising('face_after', solid))

    def face(self, face: int) -> Optional[Face]:
        """A face; None where it is not there."""
        row = self._read('face', FaceRow(), face)
        return row and Face(row.solid, row.outer_loop, tuple(self._rising('ring_after', face)))

    def solid_of(self, face: int) -> int:
        """The solid of a face; 0 where it is not there."""
        row = self._read('face', FaceRow(), face)
        return int(row.solid) if row else 0

    def normal(self, face: int) -> Optional[Vector]:
        """The normal of a face, as its plane has it; None where it is not there."""
        row = PlaneRow()
        self.require_open()
        if self.library.plane(self.handle, face, row, Refusal()) != PLANE:
            return None
        a, b, c, _ = map(whole, row.numbers)
        return (a, b, c)

    def loop(self, loop: int) -> Optional[Loop]:
        """A loop, its half-edges from the least on; None where it is not there."""
        vertex = self._number('lone_vertex', loop)
        codes = [] if vertex else filled(WORD, lambda buffer, room: int(self.library.half_edges(self.handle, loop, buffer, room)))
        halves = from_least(map(_half, codes)) if codes else ()
        return Loop(halves, vertex or None) if halves or vertex else None

    def face_of_loop(self, loop: int) -> int:
        """The face of a loop; 0 where it is not there."""
        return self._number('loop', loop)

    def face_at(self, half: int) -> int:
        """The face in whose loops a half-edge stands that is there."""
        return self.face_of_loop(self._number('half_edge_loop', _code(half)))

    def next_half(self, half: int) -> int:
        """The half-edge after another in its loop; 0 where it is not there."""
        return _half(self._number('next_half_edge', _code(half)))

    def tail(self, half: int) -> int:
        """The vertex at which a half-edge starts that is there."""
        row = self._read('edge', EdgeRow(), abs(half))
        return int(row.start if half > 0 else row.end)

    def edge(self, edge: int) -> Optional[Tuple[int, int]]:
        """The vertices of an edge; None where it is not there."""
        row = self._read('edge', EdgeRow(), edge)
        return row and (row.start, row.end)

    def vertex(self, vertex: int) -> Optional[Vector]:
        """The point of a vertex; None where it is not there."""
        row = self._read('vertex', Point(), vertex)
        return row and (row.x, row.y, row.z)

    def model(self, faces: Optional[Iterable[int]] = None) -> Model:
        """The model held, or that of those of these faces that are there, without the rest: of an edge the other side may be missing."""
        rows = {face: row for face in (self.numbers('face') if faces is None else sorted(faces)) for row in [self.face(face)] if row}
        loops = {loop: row for loop in sorted(loop for face in rows.values() for loop in face.loops) for row in [self.loop(loop)] if row}
        edges = {edge: ends for edge in sorted({abs(half) for loop in loops.values() for half in loop.halves}) for ends in [self.edge(edge)] if ends}
        used = {vertex for ends in edges.values() for vertex in ends} | {loop.vertex for loop in loops.values() if loop.vertex}
        vertices = {vertex: point for vertex in sorted(used) for point in [self.vertex(vertex)] if point}
        return Model(tuple(sorted({row.solid for row in rows.values()})), rows, loops, edges, vertices)

    def _read(self, name: str, row: Any, *given: int) -> Any:
        """The row, with what a reader writes of the numbers given; None where it finds nothing."""
        self.require_open()
        return row if getattr(self.library, name)(self.handle, *given, row) == FOUND else None

    def _number(self, name: str, *given: int) -> int:
        """The number that a reader finds; 0 where there is none."""
        row = self._read(name, WORD(), *given)
        found: int = 0 if row is None else row.value
        return found

    def _rising(self, name: str, of: int) -> Iterator[int]:
        number = 0
        while number := self._number(name, of, number):
            yield number


def _code(half: int) -> int:
    """A half-edge as the library takes it."""
    return 2 * half if half > 0 else 1 - 2 * half


def _half(code: int) -> int:
    """A half-edge as the library gives it."""
    return -(code // 2) if code % 2 else code // 2


def filled(kind: Any, write: Callable[[Any, int], int]) -> Any:
    """All that a call writes, which is given more room where there is more."""
    room = _ROOM
    while True:
        buffer = (kind * room)()
        length = write(buffer, room)
        if length == _NO_TEXT:
            raise TextRefused('memory for the text of the reply was refused')
        if length <= room:
            return buffer[:length]
        room = length
