"""Runs a script, command by command, for the page that plays it."""

import os
import re
from contextlib import closing
from typing import Callable, Dict, Iterable, Iterator, List, NamedTuple, Optional, Sequence, Set, Tuple, TypeVar, Union

from ..drawing.page import Step
from ..drawing.page_rows import EMPTY, Changes
from ..errors import ProgramMissing
from ..geometry.model import Model
from ..geometry.vectors import Vector
from ..protocol.language import first_word, is_answered, is_comment
from ..protocol.replies import Reply, shortened
from ..scripts.marks import mark_in
from ..session.library import Library, find_path, is_library
from .explain import meaning
from .pipe import Pipe, find_program

# By the words of a command, in their order, the faces that it may change: a face, the one of a loop, those at a half-edge or a corner, those of a
# solid, or of the solid of a face (T). Those of `_FRESH` make more; those of `_WHOLE` may change the ends of all edges of these faces.
_PLACES = {'mvfs': '.F', 'kvfs': 'S', 'mev': 'H', 'mef': 'H..F', 'kef': 'H', 'kemr': 'H', 'mekr': 'H', 'kfmrh': 'FF', 'mfkrh': 'LF', 'ringmv': 'LF',
           'sweep': 'F', 'glue': 'TT', 'split': 'S'}
_FRESH, _WHOLE = ('lamina', 'block', 'sweep', 'split'), ('glue', 'split')
# Where the command stands that is taken back or done again, from how many are held.
_TURNS = {'undo': -1, 'redo': 0}
_NUMBER = re.compile('@?([+-]?)0*([0-9]{1,9})')
# The reply to a command, and the model before and after it, or that of some faces, among which are all that it changed.
Answer = Tuple[Reply, Model, Model]
InLibrary = TypeVar('InLibrary', bound=Library)
InProgram = TypeVar('InProgram', bound=Pipe)


class Played(NamedTuple):
    """A script that was run: its steps, and the model that it leaves."""

    steps: List[Step]
    model: Model


class ProgramPlayer(Pipe):
    """Runs commands by the program, whose model is listed after each that is accepted."""

    _held = EMPTY

    def give(self, line: str) -> Answer:
        """Runs a command."""
        before, reply = self._held, self.ask(line)
        if reply.word == 'ok':
            self._held = super().model()
        return reply, before, self._held

    def model(self) -> Model:
        """The model held."""
        return self._held


class _Near(NamedTuple):
    """What a command may change: faces, and of what is there edges whose ends may become others."""

    faces: Set[int]
    edges: Set[int]


class LibraryPlayer(Library):
    """Runs commands by the library, of which those faces are read that a command may change. Edges and points are held for as long as they stay."""

    def __init__(self, path: str) -> None:
        super().__init__(path)
        self._edges: Dict[int, Optional[Tuple[int, int]]] = {}
        self._points: Dict[int, Optional[Vector]] = {}
        self._commands: List[_Near] = []

    def edge(self, edge: int) -> Optional[Tuple[int, int]]:
        """The vertices of an edge."""
        return self._edges.get(edge) or super().edge(edge)

    def vertex(self, vertex: int) -> Optional[Vector]:
        """The point of a vertex."""
        return self._points.get(vertex) or super().vertex(vertex)

    def give(self, line: str) -> Answer:
        """Runs a command."""
        word, *given = line.split() or ['']
        near, place = self._near(word, given), self.depth
        before = self.model(near.faces)
        reply = self.ask(line)
        if reply.word != 'ok':
            return reply, before, before
        near.faces.update(*(self.fresh('face') if word in _FRESH else ()))
        near.edges.update(before.edges if word in _WHOLE else ())
        if word not in _TURNS:
            self._commands[place:] = [near]
        self._edges.update(dict.fromkeys(near.edges))
        after = self.model(near.faces)
        self._edges.update({**dict.fromkeys(before.edges), **after.edges})
        self._points.update({**dict.fromkeys(before.vertices), **after.vertices})
        return reply, before, after

    def _near(self, word: str, given: Sequence[str]) -> _Near:
        """What a command may change, should it be accepted; `undo` and `redo` change what theirs did."""
        if word in _TURNS:
            place = self.depth + _TURNS[word]
            return next(iter(self._commands[place:place + 1]), _Near(set(), set()))
        faces = {face for kind, named in zip(_PLACES.get(word, ''), given) for face in self._faces(kind, named)}
        halves = self._turned(word, [_number(named) for named in given[:2] if named[0] in '+-'])
        return _Near(faces.union(map(self.face_at, halves)), {abs(half) for half in halves})

    def _faces(self, kind: str, named: str) -> Iterable[int]:
        """The faces that a word of a command names by something of this kind."""
        number = _number(named)
        if kind in 'ST':
            return self.faces_of(number if kind == 'S' else self.solid_of(number))
        if kind == 'L' or named.startswith('@'):
            return (self.face_of_loop(number),)
        if kind == 'H':
            return (self.face_at(number), self.face_at(-number))
        return (number,) if kind == 'F' else ()

    def _turned(self, word: str, halves: Sequence[int]) -> List[int]:
        """The half-edges that `mev` or `kev` makes start at another vertex, and one more."""
        if word == 'mev' and len(halves) == 2:
            return self._round(*halves)
        return self._round(-halves[0], 0) if word == 'kev' and halves else []

    def _round(self, first: int, last: int) -> List[int]:
        """The half-edges that start at a vertex, from one round to the last, or all."""
        found = [first]
        while found[-1] != last and (after := self.next_half(-found[-1])) not in (0, first):
            found.append(after)
        return found


def _number(word: str) -> int:
    """The number that a word of a command has, 0 where it has none."""
    found = _NUMBER.fullmatch(word)
    return int(found[1] + found[2]) if found else 0


def _begun(by_library: Callable[[str], InLibrary], by_program: Callable[[str], InProgram]) -> Union[InLibrary, InProgram]:
    """What runs a script by the library; by the program where the environment variable GWB names one, or there is no library."""
    named = os.environ.get('GWB', '')
    if not named or is_library(named):
        try:
            return by_library(find_path())
        except ProgramMissing:
            if named:
                raise
    return by_program(find_program())


def _given(script: bytes) -> Iterator[Tuple[int, bytes]]:
    """The lines of a script that are given to gwb, with their numbers: comments aren't, whatever their letters."""
    return ((number, line) for number, line in enumerate(script.split(b'\n'), 1) if is_answered(line) and not is_comment(line))


def played(script: bytes) -> Played:
    """The commands of a script, run one after another."""
    changes, steps, called = Changes(), [], _rows_of(script)
    with closing(_begun(LibraryPlayer, ProgramPlayer)) as player:
        for number, line in _given(script):
            reply, before, after = player.give(line.decode('utf-8', 'surrogateescape'))
            told = shortened(line.decode('ascii', 'backslashreplace').strip(), 200)
            steps.append(Step(told, _told(line, reply), reply.is_complaint, changes.between(before, after), called.get(number, '')))
        return Played(steps, player.model())


def _rows_of(script: bytes) -> Dict[int, str]:
    """What a list of steps calls those that begin with lines, by the numbers of these: commands alone, and those that a mark makes one step."""
    called: Dict[int, str] = {}
    words: List[str] = []
    left, first, name = 0, 0, ''
    for number, line in enumerate(script.split(b'\n'), 1):
        mark = mark_in(line)
        if mark and not left:
            left, first, name, words = mark.commands, 0, ', '.join(mark.names), []
        if not is_answered(line) or is_comment(line):
            continue
        if left:
            left, first, words = left - 1, first or number, [*words, first_word(line)]
            called[first] = name or f'{len(words)} commands: {" ".join(dict.fromkeys(words))}'
        else:
            called[number] = shortened(line.decode('ascii', 'backslashreplace').strip(), 200)
    return called


class Ended(NamedTuple):
    """The model that a script leaves, and what is said of each command that wasn't accepted, with its line."""

    model: Model
    complaints: List[str]


def run_to_its_end(script: bytes) -> Ended:
    """Runs the commands of a script."""
    complaints: List[str] = []
    with closing(_begun(Library, Pipe)) as bench:
        for number, line in _given(script):
            if first_word(line) == 'list':
                continue
            reply = bench.ask(line.decode('utf-8', 'surrogateescape'))
            if reply.is_complaint:
                told = shortened(line.decode('ascii', 'backslashreplace').strip(), 60)
                complaints.append(f'line {number}: {told}: {_told(line, reply)}')
        return Ended(bench.model(), complaints)


def models_of(script: bytes) -> Iterator[Model]:
    """The models that a script lists, and the one that it leaves."""
    with closing(_begun(Library, Pipe)) as bench:
        for _, line in _given(script):
            if first_word(line) == 'list':
                yield bench.model()
            else:
                bench.ask(line.decode('utf-8', 'surrogateescape'))
        yield bench.model()


def _told(line: bytes, reply: Reply) -> str:
    """The reply in words."""
    if reply.is_complaint:
        return f'{reply.lines[0]}: {meaning(first_word(line), reply)}'
    return reply.lines[0] if len(reply.lines) == 1 else f'a listing of {len(reply.lines)} lines'
