"""The boundary model that a listing describes: solids, faces, loops, half-edges and vertices by their numbers."""

from array import array
from collections import defaultdict
from dataclasses import dataclass, field
from functools import cached_property
from itertools import chain
from operator import neg
from typing import DefaultDict, Dict, Iterable, Iterator, List, MutableSequence, NamedTuple, Optional, Set, Tuple, Union

from .vectors import Vector

_SPARSE = 8

# No number is 0, so that 0 stands for none.
ByHalf = Union[MutableSequence[int], DefaultDict[int, int]]


def by_half(greatest: int, count: int) -> ByHalf:
    """A table of zeros for the half-edges of edges up to the greatest, of which some `count` are used.

    It is an array, which -e indexes from its end; for few edges of large numbers it is a dictionary."""
    if greatest > _SPARSE * (count + _SPARSE):
        return defaultdict(int)
    return array('i', bytes(4 * (2 * greatest + 1)))


def are_of_the_same(one: ByHalf, other: ByHalf) -> bool:
    """Whether two tables up to the same edge have numbers for the same half-edges."""
    if isinstance(one, dict) and isinstance(other, dict):
        return {half for half, number in one.items() if number} == {half for half, number in other.items() if number}
    return list(map(bool, one)) == list(map(bool, other))


class Loop(NamedTuple):
    """A cycle of half-edges (`+e` is e, `-e` is -e), or, where it is lone, one vertex without an edge."""

    halves: Tuple[int, ...]
    vertex: Optional[int] = None

    @property
    def is_lone(self) -> bool:
        """Whether the loop is one vertex."""
        return self.vertex is not None


class Face(NamedTuple):
    """A face of a solid, with its outer loop and its rings."""

    solid: int
    outer: int
    rings: Tuple[int, ...] = ()

    @property
    def loops(self) -> Tuple[int, ...]:
        """The outer loop and then the rings."""
        return (self.outer, *self.rings)


class Outlines(Dict[int, Tuple[int, ...]]):
    """The vertices of loops in their order. Those of a loop are found when they are first asked for."""

    def __init__(self, loops: Dict[int, Loop], tails: ByHalf) -> None:
        super().__init__()
        self._loops, self._tail = loops, tails.__getitem__

    def __missing__(self, loop: int) -> Tuple[int, ...]:
        halves, lone = self._loops[loop]
        self[loop] = found = tuple(map(self._tail, halves)) if lone is None else (lone,)
        return found

    def find_all(self) -> None:
        """Finds those of all loops: together that takes less time."""
        tail = self._tail
        self.update({loop: tuple(map(tail, halves)) if lone is None else (lone,) for loop, (halves, lone) in self._loops.items()})


@dataclass(frozen=True)
class Model:
    """All things of a listing by their numbers, each kind in rising order."""

    solids: Tuple[int, ...]
    faces: Dict[int, Face]
    loops: Dict[int, Loop]
    edges: Dict[int, Tuple[int, int]]
    vertices: Dict[int, Vector]
    outlines: Outlines = field(init=False, repr=False, compare=False)
    _sides: ByHalf = field(init=False, repr=False, compare=False)
    _tails: ByHalf = field(init=False, repr=False, compare=False)

    def __post_init__(self) -> None:
        try:
            self._take(*(by_half(self._greatest(), len(self.edges)) for _ in range(2)))
        except OverflowError:    # (where numbers are out of range, which is told later)
            self._take(defaultdict(int), defaultdict(int))

    def _greatest(self) -> int:
        """The greatest number of an edge that is there, or is named by a loop."""
        return max(max(self.edges, default=0), max([abs(half) for row in self.loops.values() for half in row.halves], default=0))

    def _take(self, sides: ByHalf, tails: ByHalf) -> None:
        """Puts the faces of half-edges, and the vertices at which they start, into tables."""
        for number, face in self.faces.items():
            for loop in face.loops if face.rings else (face.outer,):
                for half in self.loops[loop].halves if loop in self.loops else ():
                    sides[half] = number
        for edge, (start, end) in self.edges.items():
            tails[edge], tails[-edge] = start, end
        object.__setattr__(self, '_sides', sides)
        object.__setattr__(self, '_tails', tails)
        object.__setattr__(self, 'outlines', Outlines(self.loops, tails))

    def _repr_svg_(self) -> Optional[str]:
        """A notebook draws the model, where there is something of it."""
        from ..drawing.svg import svg_text
        return svg_text(self, (2, -3, 2)) if self.vertices else None

    def tail(self, half: int) -> int:
        """The vertex at which the half-edge starts."""
        return self._tails[half]

    def tails(self, halves: Iterable[int]) -> List[int]:
        """The vertices at which half-edges start."""
        return list(map(self._tails.__getitem__, halves))

    def is_paired(self) -> bool:
        """Whether the half-edges that stand in the loops of faces are the two of each edge."""
        return are_of_the_same(self._sides, self._tails)

    def some_half_at(self) -> Dict[int, int]:
        """For each vertex with edges one half-edge that starts there."""
        found = {start: edge for edge, (start, _) in self.edges.items()}
        found.update({end: -edge for edge, (_, end) in self.edges.items()})
        return found

    def face_of(self, half: int) -> int:
        """The face in whose loops the half-edge stands."""
        return self._sides[half]

    def point(self, half: int) -> Vector:
        """The point at which the half-edge starts."""
        return self.vertices[self.tail(half)]

    def faces_beyond(self, loop: int) -> List[int]:
        """The faces on the other side of the loop's half-edges, in its order."""
        return self.faces_at(map(neg, self.loops[loop].halves))

    def faces_at(self, halves: Iterable[int]) -> List[int]:
        """The faces in whose loops half-edges stand."""
        return list(map(self._sides.__getitem__, halves))

    def rim(self, faces: Iterable[int]) -> Set[int]:
        """The half-edges of some faces across which there is none of these faces."""
        halves = set(chain.from_iterable(map(self.face_halves, faces)))
        return halves.difference(map(neg, halves))

    def loop_vertices(self, loop: int) -> List[int]:
        """The vertices of the loop in its order."""
        return list(self.outlines[loop])

    def loop_points(self, loop: int) -> List[Vector]:
        """The points of the loop in its order. They are found without its outline, where that isn't known yet."""
        halves, lone = self.loops[loop]
        outline = self.outlines.get(loop) or (map(self._tails.__getitem__, halves) if lone is None else (lone,))
        return list(map(self.vertices.__getitem__, outline))

    def face_halves(self, face: int) -> Iterator[int]:
        """The half-edges of all loops of the face."""
        row, loops = self.faces[face], self.loops
        return chain.from_iterable([loops[loop].halves for loop in row.loops]) if row.rings else iter(loops[row.outer].halves)

    def face_vertices(self, face: int) -> List[int]:
        """The vertices of all loops of the face, the outer loop first; one may come more than once."""
        row = self.faces[face]
        return [vertex for loop in row.loops for vertex in self.outlines[loop]] if row.rings else list(self.outlines[row.outer])

    def face_points(self, face: int) -> List[Vector]:
        """The points of all loops of the face."""
        vertices = self.vertices
        row, outlines = self.faces[face], self.outlines
        return [vertices[vertex] for loop in (row.loops if row.rings else (row.outer,)) for vertex in outlines[loop]]

    def faces_of(self, solid: int) -> List[int]:
        """The faces of the solid, rising."""
        return list(self._faces_by_solid.get(solid, ()))

    @cached_property
    def _faces_by_solid(self) -> Dict[int, List[int]]:
        found: Dict[int, List[int]] = {solid: [] for solid in self.solids}
        for number, face in self.faces.items():
            found.setdefault(face.solid, []).append(number)
        return found

    def shells(self, solid: int) -> List[List[int]]:
        """The faces of the solid in connected parts, by their least faces."""
        seen: Set[int] = set()
        return [sorted(self._spread(face, seen)) for face in self.faces_of(solid) if face not in seen]

    def _spread(self, start: int, seen: Set[int]) -> List[int]:
        """The faces that one comes to from a face across edges, which are seen then."""
        seen.add(start)
        reached, sides, faces, loops = [start], self._sides, self.faces, self.loops
        for face in reached:
            row = faces[face]
            for loop in row.loops if row.rings else (row.outer,):
                for half in loops[loop].halves:
                    beyond = sides[-half]
                    if beyond not in seen:
                        seen.add(beyond)
                        reached.append(beyond)
        return reached

    def only(self, solid: int) -> 'Model':
        """The model of one of its solids alone, at the cost of that solid. What is of no face is in none."""
        if self.solids == (solid,):
            return self
        faces = {number: self.faces[number] for number in self.faces_of(solid)}
        loops = {loop: self.loops[loop] for loop in sorted(loop for row in faces.values() for loop in row.loops)}
        edges = {edge: self.edges[edge] for edge in sorted({abs(half) for row in loops.values() for half in row.halves})}
        vertices = {vertex: self.vertices[vertex] for vertex in sorted({vertex for loop in loops for vertex in self.loop_vertices(loop)})}
        return Model((solid,), faces, loops, edges, vertices)
