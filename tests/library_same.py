#!/usr/bin/env python3
"""One program of features in several languages: the session in Python over the library, and programs that read it and write what each line gives.

    tests/library_same.py LIBRARY PROGRAM..

The PROGRAMs are built of library_same_c.c, library_same_cpp.cpp and library_same_rust.rs; each may be a command of several words. A line of the program is a
word and numbers, in the order of the arguments in gwb_features.h: first those of the stored table (library_features.py), of which the session in Python has
to give what is stored, then random ones. Compared are for each line the numbers that come back, or the name of what is refused, its value and what was met;
and the listing after each line, to the letter. What languages do differently by their conventions isn't in it: bindings/README.md says what that is. The last
line counts.
"""
import random
import shlex
import subprocess
import sys
import tempfile
from collections import Counter
from fractions import Fraction
from itertools import chain
from pathlib import Path
from typing import Any, Callable, Counter as Counts, Dict, Iterator, List, Optional, Sequence, Tuple

from counts import TOP, there

sys.path.insert(0, str(TOP / 'companions'))

from gwb import FacePart, InDraft, Refused, Workbench  # noqa: E402
from gwb.refusals import CAUSES  # noqa: E402
from library_features import Line, Table, refusal  # noqa: E402

PARTS, LINES = 150, 11
# A part before the random ones: a groove over the floor of a drilled hole takes corners away at the mouth of the hole, which is far from it.
FIRST: List[Tuple[str, List[int]]] = [
    ('part', []), ('block', [1, 2, 3, 1, 10, 7, 5]), ('drill', [2, 5, 6, 1, 1, 8, 2]), ('groove', [7, 4, 6, 3, 6, 6, 3, 2, 2])]
# Then Booleans of solids that cross, lie apart and within each other; components; and seams, which gluing leaves. (Of what has none of them separate and
# join_faces are no commands in Python.)
for at in (1, 2, 3):
    FIRST += [('part', []), *(('block', [number, *low, *size]) for number, low, size in (
                  (5, (0, 0, 0), (9, 9, 9)), (2, (at, at, at), (9, 2, 2)), (3, (7, -1, 7), (4, at, 4)), (4, (20, 0, 0), (at, 4, 4)), (8, (1, 1, -1), (at, 4, 20)))),
              ('subtract', [5, 2, 8]), ('union', [3, 5, 4]), ('separate', [3]), ('block', [9, -1, 0, 0, 8, 8, 3 + at]), ('intersect', [9, 3]), ('undo', []), ('redo', []),
              ('intersect', [9, 4]), ('intersect', [9, 77]), ('subtract', [9, 77]), ('separate', [77]), ('join_faces', [77]),
              ('part', []), ('block', [1, 0, 0, 0, 4, 4, at]), ('block', [2, 4, 0, 0, 4, 4, at]), ('glue_all', [1, 2]), ('join_faces', [1]), ('undo', []),
              ('draft', []), ('join_faces', [1]), ('commit', []),
              # and features by vectors
              ('part', []), ('block', [1, 0, 0, 0, 20, 20, 10]), ('pocket_along', [1, at, -1, -3, 4, 4, 10, 8, 4, 10, 8, 8, 10, 4, 8, 10]),
              ('pocket_along', [1, at, -1, 3, 9, 9, 10, 10, 9, 10, 9, 10, 10]), ('boss_along', [1, -at, 0, 2, 12, 12, 10, 15, 12, 10, 15, 15, 10]),
              ('drill_along', [2, 14, 5, 0, 2, 8, at, at, 4]),
              ('part', []), ('block', [1, 0, 0, 0, 20, 20, 10]), ('shoulder_along', [1, 9, 2, -at, 0, -2]),
              ('notch_along', [1, at, 0, -3, 4, 4, 10, 8, 4, 10, 4, 8, 10]), ('pad_along', [1, 0, at, 2, 11, 4, 10, 15, 4, 10, 11, 7, 10]),
              ('slot_along', [2, 0, 14, 0, 20, 14, 0, 2, 0, at, 2]), ('groove_along', [2, 0, 5, 0, 20, 5, 0, 2, 0, at, 2])]
# Then each cause for which a feature isn't possible.
SQUARE, SLOPE = [6, 6, 10, 8, 6, 10, 8, 8, 10, 6, 8, 10], [112, -2, 3, 108, -2, 6, 108, -5, 6]
FIRST += [('part', []), ('block', [1, 0, 0, 0, 10, 10, 10]),
          ('pocket', [1, 2, 1, 1, 10, 12, 1, 10, 1, 5, 10]), ('pocket', [1, 2, 1, 1, 10, 10, 5, 10, 1, 8, 10]),
          ('pocket', [1, 2, 1, 1, 10, 10, 10, 10, 1, 8, 10]), ('ring', [1, 20, 20, 10, 22, 20, 10, 20, 22, 10]),
          ('pocket', [1, 2, 1, 1, 10, 2, 1, 10, 3, 1, 10]), ('pocket', [1, 2, 1, 1, 10, 4, 4, 10, 4, 1, 10, 1, 4, 10]),
          ('pocket', [1, 2, 1, 1, 10, 2, 1, 10, 1, 2, 9]), ('pocket', [1, 10, *SQUARE]), ('pocket', [1, 15, *SQUARE]),
          ('pocket', [1, 2, 3, 3, 10, 5, 3, 10, 5, 5, 10, 3, 5, 10]), ('pocket', [1, 2, 4, 4, 10, 8, 4, 10, 8, 8, 10, 4, 8, 10]),
          ('block', [2, 10, 10, 0, 5, 5, 5]), ('union', [1, 2]),
          ('profile', [3, 0, 0, 4, 100, 0, 0, 104, 0, 0, 104, 4, 0, 100, 4, 1]),
          ('profile', [3, 0, -10, 0, 100, 0, 0, 116, 0, 0, 100, 0, 12]), ('pocket', [21, 2, *SLOPE]), ('pocket', [21, 5, *SLOPE]),
          ('block', [5, 113, -5, 1, 10, 3, 10]), ('subtract', [3, 5]),
          ('profile', [4, 0, 10, 0, 200, 0, 0, 210, 0, 0, 200, 0, 10]), ('pocket', [32, 2, 208, 2, 2, 206, 2, 4, 206, 5, 4]),
          ('part', []), ('profile', [1, 0, 10, 0, 0, 0, 0, 16, 0, -12, 14, 0, -13, -2, 0, -1]), ('hole', [3, 4, 2, -3, 8, 2, -6, 8, 5, -6]),
          ('polyhedron', [7, 4, 3, 0, 0, 0, 9, 0, 0, 0, 9, 0, 0, 0, 9, 0, 2, 1, 0, 1, 3, 1, 2, 3]),
          ('polyhedron', [7, 4, 3, 0, 0, 0, 9, 0, 0, 0, 9, 0, 0, 0, 9, 0, 2, 1, 0, 3, 1, 1, 2, 3, 0, 3, 2]),
          ('part', []), ('block', [1, 0, 0, 0, 10, 10, 2]), ('pad', [1, 3, 4, 0, 2, 7, 3, 2, 1, 3, 2]), ('chamfer_edges', [1, 7, 16]),
          ('block', [2, 20, 0, 0, 9, 9, 9]), ('chamfer_edges', [1, 7, 32]), ('pocket', [1, 1, 8, 4, 2, 9, 9, 2, 9, 4, 2, 8, 8, 2]),
          ('part', []), ('profile', [1, 0, 24, 32, 0, 0, 0, 90, 0, 0, 90, 30, 0, 30, 30, 0, 30, 90, 0, 0, 90, 0]), ('chamfer_edges', [20, 3, 4]),
          ('chamfer_edges', [1, 3, 12]),
          ('profile', [2, 0, 0, 1000, 200, 0, 0, 400212, 0, 4, 200, 400076, 8]), ('pocket', [10, 2, 100203, 100019, 3, 200206, 100019, 4, 100203, 200038, 5])]
Point = Tuple[int, int, int]
# How often each word has to be accepted, so that it is tried.
LEAST = 3


class Abandoned(Exception):
    """Leaves a draft."""


class Session:
    """What the session in Python gives for a line."""

    def __init__(self, library: str) -> None:
        self._library = library
        self.bench = Workbench(library, step=1)
        self._draft = self.bench.draft()
        self.is_drafting = False
        # How many lines of the draft may have changed something, and whether the last line took something back.
        self.steps, self.is_undone = 0, False
        # What the last line gave.
        self.given = ''

    def give(self, word: str, numbers: Sequence[object]) -> str:
        """What a line gives, as text."""
        self.given = self._gives(word, numbers)
        return self.given

    def _gives(self, word: str, numbers: Sequence[Any]) -> str:
        left = iter(numbers)
        one = lambda: next(left)  # noqa: E731
        try:
            made = _CALLS[word](self, one, left)
            is_step = word not in ('faces', 'edges', 'crossings', 'off_lattice') and (word, len(numbers)) != ('glue_all', 1)
            self.steps, self.is_undone = self.steps + is_step, word == 'undo'
            return 'ok' + ''.join(f' {number}' for number in made)
        except Refused as refused:
            return refusal(refused)
        except InDraft:
            return 'a draft is open'

    def listing(self) -> str:
        """The text of the model."""
        return '\n'.join(self.bench.ask('list').lines)

    def part(self) -> List[int]:
        """A new session."""
        self.bench.close()
        self.bench, self.is_drafting = Workbench(self._library, step=1), False
        return []

    def load(self, listing: str) -> List[int]:
        """The model of a listing, in which `;` stands for the end of a line."""
        self.bench.close()
        with tempfile.TemporaryDirectory() as folder:
            path = Path(folder) / 'solid'
            path.write_text(listing.replace(';', '\n') + '\n')
            self.bench = Workbench.load(path, self._library)
        return []

    def draft(self) -> List[int]:
        """Opens a draft."""
        self._draft, self.is_drafting, self.steps = self.bench.draft(), True, -1
        self._draft.__enter__()
        return []

    def end(self, is_kept: bool) -> List[int]:
        """Ends the draft."""
        self.is_drafting = False
        abandoned = Abandoned()
        self._draft.__exit__(*((None, None, None) if is_kept else (Abandoned, abandoned, None)))
        return []

    def block(self, solid: int, corner: Point, sizes: Point) -> Any:
        """What makes a block."""
        return self.bench.block(corner, sizes, solid=solid)

    def copy(self, solid: int, way: int, numbers: List[int]) -> List[int]:
        """The number of a copy, its faces, and the half-edges for the first ones of its edges."""
        made = self.bench.copy(solid, move=_point(numbers)) if way == 0 else self.bench.copy(solid, mirror=_across(numbers[0]))
        halves = [made.half_edge(edge) for edge in sorted(made.edges)]
        return [made.solid, *(made.faces[face] for face in sorted(made.faces)), *(2 * abs(half) + (half < 0) for half in halves)]

    def move(self, solid: int, way: int, numbers: List[int]) -> List[int]:
        """A solid elsewhere."""
        if way == 0:
            self.bench.move(solid, _point(numbers))
        elif way == 1:
            self.bench.turn(solid, 'xyz'[numbers[0]], degrees=90 * numbers[1])
        else:
            self.bench.mirror(solid, _across(numbers[0]))
        return []

    def faces(self, solid: int, what: int, numbers: List[int]) -> List[int]:
        """The faces that are sought."""
        asked = {0: {}, 1: {'plane': numbers}, 2: {'normal': numbers}, 3: {'containing': numbers}, 4: {'area': _ratio(numbers)}}[what]
        return [face.number for face in self.bench.faces(solid=solid or None, **asked)]

    def edges(self, solid: int, what: int, numbers: List[int]) -> List[int]:
        """The edges that are sought."""
        asked = {0: {}, 1: {'between': tuple(numbers)}, 2: {'along': numbers}, 3: {'length': _ratio(numbers)}}[what]
        return [edge.number for edge in self.bench.edges(solid=solid or None, **asked)]

    def crossings(self, solid: int, other: int) -> List[object]:
        """Pairs of faces, and where they meet."""
        return [part for first, second, point in self.bench.crossings(solid, other or None) for part in (first, second, *point)]

    def polyhedron(self, solid: int, count: int, size: int, numbers: List[int]) -> List[int]:
        """The first vertex and the first face of a solid of so many points, and of faces of this size."""
        corners = numbers[3 * count:]
        made = self.bench.polyhedron(_points(iter(numbers[:3 * count])), list(zip(*[iter(corners)] * size)), solid=solid)
        return [made.vertices[0], made.faces[0]]

    def outlined(self, made: Any) -> List[int]:
        """The numbers of what a feature of an outline makes."""
        face = made.other if hasattr(made, 'other') else made.face
        return [face, made.loop, *(made.edges + made.vertices if hasattr(made, 'edges') else made.sides)]

    def drilled(self, made: Any) -> List[int]:
        """Those of a drill, and its corners."""
        return [*self.outlined(made), *(part for point in made.points for part in point)]

    def counted(self, *lists: Sequence[int]) -> List[int]:
        """Lists with their lengths."""
        return [number for numbers in lists for number in (len(numbers), *numbers)]


def _point(numbers: Sequence[int]) -> Point:
    return (numbers[0], numbers[1], numbers[2])


def _points(left: Iterator[int]) -> List[Point]:
    numbers = list(left)
    return list(zip(numbers[::3], numbers[1::3], numbers[2::3]))


def _three(left: Iterator[int]) -> Point:
    return (next(left), next(left), next(left))


def _four(left: Iterator[int]) -> Tuple[int, int, int, int]:
    return (*_three(left), next(left))


def _across(axis: int) -> Tuple[int, ...]:
    return tuple(int(place == axis) for place in range(3)) + (0,)


def _ratio(numbers: Sequence[int]) -> Optional[Fraction]:
    return Fraction(numbers[0], numbers[1]) if len(numbers) == 2 else None


def _nothing(_: object) -> List[int]:
    return []


Call = Callable[[Session, Callable[[], Any], Iterator[int]], Sequence[object]]
_CALLS: Dict[str, Call] = {
    'part': lambda s, n, w: s.part(), 'load': lambda s, n, w: s.load(n()), 'undo': lambda s, n, w: _nothing(s.bench.undo()), 'redo': lambda s, n, w: _nothing(s.bench.redo()),
    'draft': lambda s, n, w: s.draft(), 'commit': lambda s, n, w: s.end(True), 'abandon': lambda s, n, w: s.end(False),
    'block': lambda s, n, w: [number for made in [s.block(n(), _three(w), _three(w))] for number in
                              (made.top, made.bottom, *made.sides)],
    'profile': lambda s, n, w: [number for made in [s.bench.profile(solid=n(), along=_three(w), points=_points(w))] for number in
                                (made.far, made.base, *made.sides)],
    'ring': lambda s, n, w: s.outlined(s.bench.ring(n(), _points(w))),
    'pocket': lambda s, n, w: s.outlined(s.bench.pocket(n(), depth=n(), points=_points(w))),
    'boss': lambda s, n, w: s.outlined(s.bench.boss(n(), height=n(), points=_points(w))),
    'pocket_along': lambda s, n, w: s.outlined(s.bench.pocket(n(), along=_three(w), points=_points(w))),
    'boss_along': lambda s, n, w: s.outlined(s.bench.boss(n(), along=_three(w), points=_points(w))),
    'drill_along': lambda s, n, w: s.drilled(s.bench.drill(n(), _three(w), n(), n(), along=_three(w))),
    'hole': lambda s, n, w: s.outlined(s.bench.hole(n(), _points(w))),
    'drill': lambda s, n, w: s.drilled(s.bench.drill(n(), _three(w), n(), n(), depth=n() or None)),
    'notch': lambda s, n, w: s.counted(*s.bench.notch(n(), depth=n(), points=_points(w))),
    'pad': lambda s, n, w: s.counted(*s.bench.pad(n(), height=n(), points=_points(w))),
    'notch_along': lambda s, n, w: s.counted(*s.bench.notch(n(), along=_three(w), points=_points(w))),
    'pad_along': lambda s, n, w: s.counted(*s.bench.pad(n(), along=_three(w), points=_points(w))),
    'slot_along': lambda s, n, w: s.counted(*s.bench.slot(n(), _three(w), _three(w), n(), along=_three(w))),
    'groove_along': lambda s, n, w: s.counted(*s.bench.groove(n(), _three(w), _three(w), n(), along=_three(w))),
    'shoulder_along': lambda s, n, w: s.counted(*s.bench.shoulder(n(), n(), n(), along=_three(w))),
    'slot': lambda s, n, w: s.counted(*s.bench.slot(n(), _three(w), _three(w), n(), n())),
    'groove': lambda s, n, w: s.counted(*s.bench.groove(n(), _three(w), _three(w), n(), n())),
    'shoulder': lambda s, n, w: s.counted(*s.bench.shoulder(n(), n(), n(), n())),
    'chamfer': lambda s, n, w: [s.bench.chamfer(n(), n(), n())], 'kill': lambda s, n, w: _nothing(s.bench.delete(n())),
    'copy': lambda s, n, w: s.copy(n(), n(), list(w)), 'move': lambda s, n, w: s.move(n(), n(), list(w)),
    'pattern': lambda s, n, w: [made.solid for made in s.bench.pattern(n(), n(), _three(w))],
    'pattern_around': lambda s, n, w: [made.solid for made in s.bench.pattern_around(n(), n(), 'xyz'[n()], degrees=90 * n(), about=_three(w))],
    'chamfer_edges': lambda s, n, w: list(s.bench.chamfer_edges(width=n(), edges=list(w))),
    'polyhedron': lambda s, n, w: s.polyhedron(n(), n(), n(), list(w)),
    'renumber': lambda s, n, w: s.counted([number for pair in s.bench.renumber().solids.items() for number in pair]),
    'scale': lambda s, n, w: _nothing(s.bench.scale(n())), 'glue_all': lambda s, n, w: _nothing(s.bench.glue_all(list(w))),
    'split': lambda s, n, w: [number for made in [s.bench.split(n(), _four(w), above=n())] for number in s.counted(made.lower_caps, made.upper_caps)],
    'cut': lambda s, n, w: [number for made in [s.bench.cut(n(), _four(w), above=n())] for number in s.counted(made.lower_caps, made.upper_caps)],
    'trim': lambda s, n, w: s.counted(s.bench.trim(n(), _four(w))), 'union': lambda s, n, w: _nothing(s.bench.union(list(w))),
    'subtract': lambda s, n, w: _nothing(s.bench.subtract(n(), list(w))), 'intersect': lambda s, n, w: _nothing(s.bench.intersect(list(w))),
    'separate': lambda s, n, w: [number for solid in [n()] for number in s.counted([one for part in s.bench.separate(solid) for one in (solid, part)])],
    'join_faces': lambda s, n, w: _nothing(s.bench.join_faces(n())),
    'off_lattice': lambda s, n, w: [number for said in [s.bench.off_lattice(n(), _four(w))] for number in (len(said.crossings), said.factor)],
    'faces': lambda s, n, w: s.faces(n(), n(), list(w)), 'edges': lambda s, n, w: s.edges(n(), n(), list(w)),
    'crossings': lambda s, n, w: s.crossings(n(), n())}


class Author:
    """Writes the lines of the program, by what the session holds."""

    def __init__(self, session: Session) -> None:
        self._session, self._random = session, random.Random(31)

    def part(self) -> Iterator[Tuple[str, List[int]]]:
        """The lines of one part."""
        yield 'part', []
        yield self._solid()
        for _ in range(LINES - 2):
            yield self._line()
        if self._session.is_drafting:
            yield 'abandon', []

    def _below(self, most: int) -> int:
        return self._random.randrange(most)

    def _solid(self) -> Tuple[str, List[int]]:
        if self._below(3):
            return 'block', [self._new(), *(self._below(5) for _ in range(3)), *(5 + self._below(10) for _ in range(3))]
        outline = [0, 0, 0, 12, 0, 0, 12, 4 + self._below(3), 0, 5, 6, 0, 4, 12, 0, 0, 12, 0]
        return 'profile', [self._new(), self._below(2), 0, self._random.choice([9, 6, -8]), *outline]

    def _line(self) -> Tuple[str, List[int]]:
        if not self._solids():
            return self._solid()
        if self._session.is_undone and self._below(2):
            return 'redo', []
        if self._session.is_drafting and not self._below(3):
            # (a draft of no steps is no command in Python)
            return self._random.choice(['commit', 'commit', 'abandon'] if self._session.steps else ['abandon']), []
        kinds = [self._of_outline] * 7 + [self._of_solids] * 4 + [self._of_strip, self._of_edge, self._drill, self._query, self._query]
        kinds += [self._of_session] * 2
        return self._random.choice(kinds)()

    # What there is

    def _solids(self) -> List[int]:
        return [solid.number for solid in self._session.bench.solids()]

    def _any_solid(self) -> int:
        return self._random.choice(self._solids() * 9 + [77])

    def _new(self) -> int:
        """The number of a new solid: hardly ever one that is there."""
        return max(self._solids(), default=0) + (self._below(12) != 0)

    def _face(self) -> Tuple[int, Optional[FacePart]]:
        faces = list(self._session.bench.faces())
        face = self._random.choice(faces)
        return (face.number, face) if self._below(40) else (999, None)

    # Lines

    def _spots(self, face: Optional[FacePart], count: int) -> List[Point]:
        """Points in a face, or near it: of a rectangle where it lies across an axis."""
        if face is None:
            return [(0, 0, 0), (1, 0, 0), (0, 1, 0), (1, 1, 0)][:count]
        points, normal = list(face.outer.points), face.normal
        axes = [axis for axis in range(3) if normal[axis] == 0]
        if len(axes) != 2:
            return [self._random.choice(points) for _ in range(count)]
        ranges = [sorted(self._random.sample(range(min(p[axis] for p in points) - 1, max(p[axis] for p in points) + 2), 2)) for axis in axes]
        spots = []
        for first, second in ((0, 0), (1, 0), (1, 1), (0, 1)):
            spot = list(points[0])
            spot[axes[0]], spot[axes[1]] = ranges[0][first], ranges[1][second]
            spots.append(_point(spot))
        if not self._below(12):
            spots[1] = spots[0] if self._below(2) else (spots[1][0] + 1, spots[1][1] + 1, spots[1][2] + 1)
        return spots[:count][::self._random.choice([1, -1])]

    def _of_outline(self) -> Tuple[str, List[int]]:
        number, face = self._face()
        word = self._random.choice(['pocket', 'pocket', 'boss', 'hole', 'ring', 'ring', 'notch', 'notch', 'pad'])
        spots = self._spots(face, self._random.choice([3, 4, 4, 4, 2] if not self._below(6) else [3, 4]))
        lengths = [] if word in ('hole', 'ring') else [1 + self._below(5)]
        return word, [number, *lengths, *(part for spot in spots for part in spot)]

    def _of_strip(self) -> Tuple[str, List[int]]:
        number, face = self._face()
        start, _, _, end = self._spots(face, 4)
        if face is not None and len(start) == 3 and face.normal.count(0) == 2:
            along, across = [axis for axis in range(3) if face.normal[axis] == 0][::self._random.choice([1, -1])]
            places = sorted(point[along] for point in face.outer.points)
            level = self._random.randint(*(f(point[across] for point in face.outer.points) for f in (min, max)))
            start, end = (tuple({along: place, across: level}.get(axis, start[axis]) for axis in range(3)) for place in (places[0], places[-1]))
        return self._random.choice(['slot', 'groove']), [number, *start, *end, self._random.choice([2, 2, 2, 4, 1]), 1 + self._below(3)]

    def _of_edge(self) -> Tuple[str, List[int]]:
        number, face = self._face()
        edges = list(face.edges) if face is not None else []
        edge = self._random.choice(edges).number if edges and self._below(20) else 1 + self._below(30)
        if not self._below(4) and face is not None:
            corner = face.outer.half_edges[self._below(len(edges)) % len(face.outer.half_edges)]
            several = list(dict.fromkeys(edge.number for edge in face.edges)) if self._below(2) else [abs(corner), edge]
            return 'chamfer_edges', [self._random.choice([1, 1, 2]), *dict.fromkeys(several)]
        if self._below(2):
            return 'chamfer', [edge, 1 + self._below(3), 1 + self._below(3)]
        return 'shoulder', [number, edge, 1 + self._below(3), 1 + self._below(3)]

    def _drill(self) -> Tuple[str, List[int]]:
        number, face = self._face()
        start, _, across, _ = self._spots(face, 4)
        middle = [(one + other) // 2 for one, other in zip(start, across)]
        return 'drill', [number, *middle, 1 + self._below(3), self._random.choice([3, 4, 4, 6, 8, 12]), self._random.choice([0, 0, 1, 2, 9])]

    def _motion(self, is_copy: bool) -> List[int]:
        way = self._random.choice([0, 0, 2] if is_copy else [0, 1, 2])
        if way == 0:
            return [0, *(self._random.choice([0, 20, -3, 7, 40, 999_999_999 if not self._below(9) else 1]) for _ in range(3))]
        return [way, self._below(3), *([self._below(4)] if way == 1 else [])]

    def _of_solids(self) -> Tuple[str, List[int]]:
        solid, solids = self._any_solid(), self._solids()
        word = self._random.choice(['copy', 'copy', 'move', 'kill', 'kill', 'pattern', 'around', 'scale', 'glue_all', 'split', 'split', 'renumber',
                                    'polyhedron', 'new', 'beside', 'union', 'union', 'subtract', 'subtract', 'intersect', 'cut', 'cut', 'trim'])
        if word == 'beside':
            return self._beside(self._random.choice(solids))
        if word == 'around':
            quarters = 1 + self._below(3)
            return 'pattern_around', [solid, 2 + self._below(1 if quarters == 2 else 3), self._below(3), quarters, -20, self._below(3), 40]
        if word == 'new' or (word == 'kill' and len(solids) == 1):
            return self._solid()
        if word == 'renumber':
            return word, []
        if word == 'polyhedron':
            places = [0, 2, 1, 0, 1, 3, 1, 2, 3, 0, 3, 2] if self._below(4) else [0, 2, 1, 0, 1, 3, 1, 2, 3]
            return word, [self._new(), 4, 3, *(self._below(9) for _ in range(12)), *places]
        if word == 'scale':
            return word, [self._random.choice([1, 2, 3, 100_000_000])]
        if word == 'glue_all' or (word in ('union', 'subtract', 'intersect') and len(solids) > 1):
            return word, self._random.sample(solids, self._random.randint(1 if word == 'glue_all' else 2, len(solids)))
        if word in ('union', 'subtract', 'intersect', 'trim'):
            return 'trim', [solid, *self._plane()]
        if word in ('split', 'cut'):
            return word, [solid, *self._plane(), self._new()]
        given = {'copy': lambda: self._motion(True), 'move': lambda: self._motion(False), 'kill': list,
                 'pattern': lambda: [self._random.choice([2, 3, 4]), self._random.choice([15, 0]), 20, 1]}
        return word, [solid, *given[word]()]

    def _beside(self, solid: int) -> Tuple[str, List[int]]:
        """A block where the solid ends in x, which touches it there, or reaches into it."""
        points = [vertex.point for vertex in self._session.bench.vertices(solid=solid)]
        end = max(point[0] for point in points)
        low = [min(point[axis] for point in points if point[0] == end) for axis in (1, 2)]
        return 'block', [self._new(), end - self._below(3), *low, *(2 + self._below(9) for _ in range(3))]

    def _plane(self) -> List[int]:
        across = self._random.choice([[1, 0, 0], [0, 1, 0], [0, 0, 1], [1, 1, 0], [2, 0, 0], [0, 3, 0], [1, 2, 3]])
        return [*across, -self._below(12)]

    def _query(self) -> Tuple[str, List[int]]:
        number, face = self._face()
        solid = self._random.choice([0, 0, self._any_solid()])
        word = self._random.choice(['faces', 'edges', 'crossings', 'off_lattice'])
        if word == 'crossings':
            return word, [self._any_solid(), solid]
        if word == 'off_lattice':
            return word, [self._any_solid(), *self._plane()]
        if word == 'faces':
            asked = self._random.choice([[0], [1, *self._plane()], [2, *(list(face.normal) if face is not None else [1, 0, 0])],
                                         [3, *self._spots(face, 3)[1]], [4, self._below(90) + 1, 1 + self._below(2)]])
            return word, [solid, *asked]
        other, _ = self._face()
        beside = [side.number for side in face.edges[0].faces] if face is not None else [number, other]
        asked = self._random.choice([[0], [1, *beside], [2, *self._random.choice([(1, 0, 0), (0, 0, 5), (1, 1, 0)])],
                                     [3, 1 + self._below(14), 1]])
        return word, [solid, *asked]

    def _of_session(self) -> Tuple[str, List[int]]:
        if self._session.is_drafting:
            return self._solid()
        return self._random.choice(['undo', 'undo', 'undo', 'redo', 'draft', 'draft']), []


def _blocks(text: str) -> List[str]:
    """What a program wrote for each line."""
    return [block.partition('\n')[2].rstrip('\n') for block in text.split('> ')[1:]]


def written(library: str) -> Tuple[List[str], List[str], List[str]]:
    """The lines of the program, what the session in Python gives for each, and what is wrong with the table."""
    session = Session(library)
    table, author, lines, given = Table(session), Author(session), list[str](), list[str]()
    numbered = chain(FIRST, chain.from_iterable(author.part() for _ in range(PARTS)))
    for word, numbers, wanted in chain(table.lines(), (Line(word, numbers) for word, numbers in numbered)):
        lines += [' '.join(map(str, [word, *numbers])), 'list']
        given += [session.give(word, numbers) if wanted is None else wanted, session.listing()]
    return lines, given, table.wrong


def untried(lines: Sequence[str], given: Sequence[str]) -> List[str]:
    """What the program doesn't try: words that are hardly ever accepted, and too few kinds of refusals."""
    accepted: Counts[str] = Counter(line.split(' ')[0] for line, gives in zip(lines, given) if gives.split(' ')[0] == 'ok')
    refused = {gives.split(' ')[0] for line, gives in zip(lines, given) if not line.startswith(('list', 'advice')) and gives.split(' ')[0] != 'ok'}
    print(f'{len(lines) // 2} lines, {sum(accepted.values())} accepted; refused were {" ".join(sorted(refused))}')
    tried = {word for gives in given for word in gives.split(' ')[2:3]}
    causes = [f'{name} was no cause of a refusal' for name, _ in CAUSES.values() if name not in tried]
    few = causes + [f'{word} was accepted {accepted[word]} times' for word in _CALLS if accepted[word] < LEAST]
    return few + ([f'{len(refused)} kinds of refusals alone'] if len(refused) < 15 else [])


def main() -> int:
    if len(sys.argv) < 3 or sys.argv[1] in ('-h', '--help'):
        print(__doc__)
        return 0 if len(sys.argv) > 1 and sys.argv[1] in ('-h', '--help') else 2
    library, programs = str(there(sys.argv[1])), sys.argv[2:]
    lines, given, wrong = written(library)
    wrong += untried(lines, given)
    for program in programs:
        ran = subprocess.run(shlex.split(program), input='\n'.join(lines) + '\n', capture_output=True, text=True, check=False)
        gives = _blocks(ran.stdout)
        if ran.returncode or len(gives) != len(given):
            wrong.append(f'{program}: status {ran.returncode}, {len(gives)} answers for {len(given)} lines: {ran.stderr[-300:]}')
        wrong += [f'{Path(program).name}, line {place}, {line}: {one!r}, and in Python {other!r}'
                  for place, (line, one, other) in enumerate(zip(lines, gives, given), 1) if one != other]
    print(*(text[:600] for text in wrong[:20]), f'{len(given) * len(programs)} compared, {len(wrong)} wrong', sep='\n')
    return 1 if wrong else 0


if __name__ == '__main__':
    sys.exit(main())
