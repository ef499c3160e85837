"""The stored table of features as lines of a program: random parts, what each feature leaves of them, and what is refused; and cuts between whole points,
with what is said of them. library_same.py gives the lines to a session in each language.

Each row of tests/library_features.table is a feature, and behind `=` what it gives: `ok`, and six times the volume, the vertices, edges, faces and rings of
the solid and a sum over its points; or the name of what is refused, its value, and of what isn't possible the cause, what was met and where. A face is told
by the ends of a side of its outer loop, an edge by its own, in the direction of its first half-edge; a solid that is cut by its listing. `halve` cuts it in
two, and tells of both; `union` adds a block at a point, `subtract` takes one away, and `intersect` leaves what is in it too; `around` tells of all of a row;
`chamfers` takes a width and the ends of its edges; `pocket_along` and others take a vector in place of a depth. `block`, `profile` and `model` begin a
part. A row `undo` takes the last feature back. A row that begins with `:` is a line of the program as it is, and what it gives to the letter (`measures`
tells of a solid); one with `!` is given to the other languages alone, as the session in Python refuses such arguments by ValueError. The table, but for
these, was written by features in Python that shared no code with those of the library, a row by turned points, chamfers of several edges by cuts, features by
vectors by products of areas with these, and parts of Booleans by unit cubes; what is undone was compared at random points with what was cut out or put on,
and in what is refused as Meets in slanted parts gwb-check found that it would touch itself. Of random parts those are in it that reach a branch of the library
or give an outcome which no other row does. From the block of 40 by 20 by 10 on, up to the large blocks, volumes were worked out by hand.
"""
import re
from itertools import takewhile
from typing import Iterator, List, NamedTuple, Optional, Protocol, Sequence, Tuple

from counts import TOP

from gwb import FacePart, Impossible, Refused, Workbench
from gwb.geometry.lattice_cuts import off_lattice_cut

TABLE = TOP / 'tests' / 'library_features.table'
# What is said of a parallel plane that is too far, in the place of its line.
FAR = re.compile(r'# a parallel plane that cuts at whole points moves the cut by at least (\S+ along an edge)')
Point = Tuple[int, int, int]
# The number of the solid of a part, and of the one above a cut of which is said what to do.
SOLID, ABOVE = 1, 77
# What rows are called in the program, where it isn't the same.
_CALLS = {'halve': 'cut', 'around': 'pattern_around', 'chamfers': 'chamfer_edges', 'cut': 'off_lattice'}
_BOOLEANS, _BEGINNINGS = ('union', 'subtract', 'intersect'), ('block', 'profile', 'model')


class Line(NamedTuple):
    """A line of the program, and what it has to give where the session in Python isn't asked."""
    word: str
    numbers: Sequence[object] = ()
    wanted: Optional[str] = None


class Session(Protocol):
    """Where lines are given."""
    bench: Workbench
    given: str

    def listing(self) -> str:
        """The text of the model."""


def measures(bench: Workbench, solid: int) -> str:
    """What is told of a solid."""
    count = bench.count(solid)
    total = sum((x + 101) * (y + 211) * (z + 307) for x, y, z in (vertex.point for vertex in bench.solid(solid).vertices))
    return f'{6 * bench.volume(solid)} {count.vertices} {count.edges} {count.faces} {count.rings} {total}'


def refusal(refused: Refused) -> str:
    """The name of what is refused and its value; and what was met, as far as that is told."""
    told: List[object] = [refused.name, refused.value]
    if isinstance(refused, Impossible):
        told += [*filter(None, [refused.cause]), *(refused.hit or ()), *(('at', *refused.point) if refused.point else ())]
    return ' '.join(map(str, told))


class Table:
    """The rows as lines, and what is wrong with them: each line has to be given to the session before the next one is taken."""

    def __init__(self, session: Session) -> None:
        self._session, self.wrong = session, list[str]()
        # The number of the last solid that a row made beside that of the part; and the last cut of which something is said.
        self._other, self._cut = SOLID, list[int]()

    def lines(self) -> Iterator[Line]:
        """All of them. What is said of a cut stands behind it."""
        rows = TABLE.read_text().splitlines()
        for place, row in enumerate(rows):
            if not row.startswith('> '):
                yield from self._row(row)
            if row.startswith('cut '):
                yield from self._advice([said[2:] for said in takewhile(lambda said: said.startswith('> '), rows[place + 1:])])

    def _row(self, row: str) -> Iterator[Line]:
        words, _, stored = row.partition(' = ')
        word, _, rest = words.partition(' ')
        if word == 'undo':
            yield Line(word)
            return
        if word in (':', '!'):
            yield from self._numbered(rest, stored, word == '!')
            return
        if word in _BEGINNINGS:
            yield Line('part')
        before = '' if word in _BEGINNINGS else self._session.listing()
        yield from self._feature(word, rest)
        after, given = self._session.listing(), self._session.given
        is_made = given.startswith('ok') and word != 'cut'
        told = ' '.join(['ok', *(measures(self._session.bench, solid) for solid in self._told(word))]) if is_made else given
        if told != stored:
            self.wrong.append(f'{row}: {told}')
        yield from self._undone(row, before, after, is_made)

    def _numbered(self, line: str, stored: str, is_unasked: bool) -> Iterator[Line]:
        """A row that is a line of the program, and what it gives; or what is told of a solid."""
        word, *numbers = line.split(' ')
        if word == 'measures':
            told = measures(self._session.bench, int(numbers[0]))
        else:
            yield Line(word, list(map(int, numbers)), stored if is_unasked else None)
            told = self._session.given
        if told != stored and not is_unasked:
            self.wrong.append(f': {line}: {told}')

    def _undone(self, row: str, before: str, after: str, is_made: bool) -> Iterator[Line]:
        """What is made is one command, which is undone and redone; what is refused changes nothing."""
        if not is_made or not before:
            self.wrong += [f'{row}: it changes something'] if before and after != before else []
            return
        for word, listing in (('undo', before), ('redo', after)):
            yield Line(word)
            self.wrong += [f'{row}: {word} gives another model'] if self._session.listing() != listing else []

    def _feature(self, word: str, rest: str) -> Iterator[Line]:
        """The lines of a row, of which the session holds what the feature gives."""
        self._other = 1 + max((solid.number for solid in self._session.bench.solids()), default=0)
        if word == 'model':
            yield Line('load', [rest])
            return
        numbers = list(map(int, rest.split(' ')))
        if word in _BOOLEANS:
            yield from self._boolean(word, numbers)
        elif word == 'cut':
            self._cut = numbers
            yield Line('off_lattice', [SOLID, *numbers])
        else:
            yield Line(_CALLS.get(word, word), self._numbers(word, numbers))

    def _boolean(self, word: str, block: Sequence[int]) -> Iterator[Line]:
        yield Line('draft')
        yield Line('block', [self._other, *block])
        yield Line(word, [SOLID, self._other])
        given = self._session.given
        yield Line('commit' if given.startswith('ok') else 'abandon')
        self._session.given = given

    def _numbers(self, word: str, numbers: List[int]) -> List[int]:
        """What the line takes: numbers of faces and edges in the place of points."""
        if word == 'block':
            return [SOLID, 0, 0, 0, *numbers]
        if word in ('profile', 'trim', 'around'):
            return [SOLID, *numbers]
        if word == 'halve':
            return [SOLID, *numbers, self._other]
        if word == 'chamfers':
            width, *ends = numbers
            return [width, *(self._edge(ends[place:place + 6])[0] for place in range(0, len(ends), 6))]
        if word == 'chamfer':
            edge, is_first = self._edge(numbers[:6])
            return [edge, *numbers[6:][::1 if is_first else -1]]
        if word in ('shoulder', 'shoulder_along'):
            return [self._face(numbers[:6]).number, self._edge(numbers[6:12])[0], *numbers[12:]]
        return [self._face(numbers[:6]).number, *numbers[6:]]

    def _face(self, ends: Sequence[int]) -> FacePart:
        """The face with a side between two points."""
        side = (tuple(ends[:3]), tuple(ends[3:]))
        return next(face for face in self._session.bench.solid(SOLID).faces
                    for points in [face.outer.points] if side in zip(points, (*points[1:], points[0])))

    def _edge(self, ends: Sequence[int]) -> Tuple[int, bool]:
        """The edge between two points, and whether its first half-edge begins at the first one."""
        wanted = (tuple(ends[:3]), tuple(ends[3:]))
        found = next(edge for edge in self._session.bench.solid(SOLID).edges if set(edge.points) == set(wanted))
        return found.number, found.points == wanted

    def _told(self, word: str) -> List[int]:
        """The solids of which the row tells."""
        others = {'halve': [self._other], 'around': list(map(int, self._session.given.split(' ')[1:]))}
        return [SOLID, *others.get(word, [])]

    def _advice(self, stored: List[str]) -> Iterator[Line]:
        """What is said of the last cut. The table has all planes nearby. Of those that are too far Python says none, but for how far the parallel one is."""
        lines = off_lattice_cut(self._session.bench.listing(), SOLID, self._cut).advice(ABOVE)
        said = [FAR.sub(r'# parallel, the cut moves by at most \1:', line) for line in lines]
        left = iter(stored)
        if not all(line in left for line in said) or not all(line.startswith(('# tilted', 'split')) for line in set(stored) - set(said)):
            self.wrong.append(f'{stored} is stored, {said} is given')
        yield Line('advice', [SOLID, *self._cut], '\n'.join(stored))
