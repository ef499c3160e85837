"""The model held, part by part: solids, faces, loops, edges and vertices that are read when they are asked for."""

from dataclasses import dataclass
from fractions import Fraction
from operator import and_, index, or_, sub
from typing import Callable, ClassVar, FrozenSet, Iterable, Iterator, Optional, Sequence, Tuple, TypeVar, Union, overload

from ..errors import NotOne, Refused
from ..geometry.solid_measures import root, square_area
from ..geometry.plane_figures import Exact
from ..geometry.vectors import Vector, reduced
from ..meanings import NUMBERS
from .kernel import Kernel
from .lengths import ExactPlace, Place, along_way, direction as whole_direction, place
from .turns import TakesTurns

Found = TypeVar('Found', bound='Part')
Read = TypeVar('Read')
_PLURALS = {'vertex': 'vertices'}


@dataclass(repr=False, unsafe_hash=True)
class Part(TakesTurns):
    """One thing of the model held, by its number. What it says is read anew each time, so it follows the commands."""

    kind: ClassVar[str] = ''
    _kernel: Kernel
    number: int

    def __index__(self) -> int:
        return self.number

    def __repr__(self) -> str:
        return f'<{self.kind} {self.number}>'

    @property
    def vertices(self) -> 'Sequence[VertexPart]':
        """Its vertices; of a vertex itself."""
        raise NotImplementedError

    @property
    def points(self) -> Tuple[ExactPlace, ...]:
        """The points of its vertices, in their order, in millimetres."""
        return tuple(vertex.point for vertex in self.vertices)

    def _there(self, found: Optional[Read]) -> Read:
        """What was read of it. Refused where there is no such thing."""
        if not found:
            name = f'No{self.kind.capitalize()}'
            raise (Refused if name in NUMBERS else NotThere)(name, self.number, NUMBERS.get(name, 0), f'{name}: there is no {self.kind} {self.number}')
        return found


class NotThere(Refused, LookupError):
    """There is no such vertex, or none in the original of a copy: no command is refused for one, so the refusal has no number of its own."""


class Selection(Sequence[Found]):
    """Things that were found, rising by their numbers."""

    def __init__(self, kind: str, wanted: str, parts: Sequence[Found]) -> None:
        self._kind, self._wanted, self._parts = kind, wanted, tuple(parts)
        self._set = frozenset(self._parts)

    def __len__(self) -> int:
        return len(self._parts)

    def __contains__(self, part: object) -> bool:
        return part in self._set

    @overload
    def __getitem__(self, place: int) -> Found: ...

    @overload
    def __getitem__(self, place: slice) -> 'Selection[Found]': ...

    def __getitem__(self, place: Union[int, slice]) -> 'Union[Found, Selection[Found]]':
        if isinstance(place, slice):
            return Selection(self._kind, self._wanted, self._parts[place])
        return self._parts[place]

    def __iter__(self) -> Iterator[Found]:
        return iter(self._parts)

    def __repr__(self) -> str:
        return f'<{_PLURALS.get(self._kind, self._kind + "s")} {", ".join(map(str, self.numbers)) or "none"}>'

    @property
    def numbers(self) -> Tuple[int, ...]:
        """Their numbers.

        >>> bench.edges(along=(0, 0, 1)).numbers
        (5, 6, 8, 10)
        """
        return tuple(part.number for part in self._parts)

    def __and__(self, other: 'Selection[Found]') -> 'Selection[Found]':
        """Those of this selection that are in the other one too."""
        return self._with(other, 'and', and_)

    def __sub__(self, other: 'Selection[Found]') -> 'Selection[Found]':
        """Those of this selection that aren't in the other one."""
        return self._with(other, 'but not', sub)

    def __or__(self, other: 'Selection[Found]') -> 'Selection[Found]':
        """Those of either selection."""
        return self._with(other, 'or', or_)

    def where(self, fits: Callable[[Found], object]) -> 'Selection[Found]':
        """Those for which the function says something true.

        >>> bench.faces().where(lambda face: face.area == 800)
        <faces 1, 2>
        """
        return Selection(self._kind, self._wanted, [part for part in self._parts if fits(part)])

    def _with(self, other: 'Selection[Found]', word: str, merged: Callable[[FrozenSet[Found], FrozenSet[Found]], FrozenSet[Found]]) -> 'Selection[Found]':
        """What comes of both, which are of the same kind."""
        if not isinstance(other, Selection) or other._kind != self._kind:
            raise TypeError(f'a selection of the kind {self._kind} is wanted, not {other!r}')
        return Selection(self._kind, f'{self._wanted} {word}{other._wanted}', sorted(merged(self._set, other._set), key=index))

    def one(self) -> Found:
        """The only one; NotOne says what was found where there isn't exactly one.

        >>> bench.faces(normal=(0, 0, 1)).one()
        <face 1>
        """
        if len(self._parts) == 1:
            return self._parts[0]
        found = f'{len(self)} were found: {", ".join(map(str, self.numbers))}' if self else 'none was found'
        raise NotOne(f'one {self._kind}{self._wanted} was wanted; {found}')

    def farthest(self, direction: Place) -> 'Selection[Found]':
        """Those whose nearest point lies farthest along the direction; more than one where they are level.

        >>> bench.faces().farthest((1, 0, 0)).one().normal
        (1, 0, 0)
        """
        way = whole_direction('direction', direction)
        return self._best(lambda part: min(along_way(way, point) for point in part.points), f', farthest along {way}')

    def nearest(self, point: Place) -> 'Selection[Found]':
        """Those with the corner that lies nearest to the point; more than one where they are as near.

        >>> bench.vertices().nearest((38, 19, 9)).one().point
        (40, 20, 10)
        """
        spot = place('point', point)
        word = f', nearest to ({", ".join(map(str, spot))})'
        return self._best(lambda part: max(-sum((at - to) ** 2 for at, to in zip(corner, spot)) for corner in part.points), word)

    def top(self) -> 'Selection[Found]':
        """Those that lie highest, along z.

        >>> bench.faces().top().one().normal
        (0, 0, 1)
        """
        return self.farthest((0, 0, 1))

    def bottom(self) -> 'Selection[Found]':
        """Those that lie lowest, along z.

        >>> bench.faces().bottom().one().normal
        (0, 0, -1)
        """
        return self.farthest((0, 0, -1))

    def _best(self, reach: Callable[[Part], Exact], word: str) -> 'Selection[Found]':
        reaches = [reach(part) for part in self._parts]
        most = max(reaches, default=0)
        return Selection(self._kind, self._wanted + word, [part for part, own in zip(self._parts, reaches) if own == most])


class VertexPart(Part):
    """A vertex."""

    kind = 'vertex'

    @property
    def point(self) -> ExactPlace:
        """Where it lies, in millimetres."""
        return self._kernel.lengths.place(self._there(self._kernel.lines.vertex(self.number)))

    @property
    def vertices(self) -> 'Sequence[VertexPart]':
        """It alone."""
        return (self,)


class EdgePart(Part):
    """An edge."""

    kind = 'edge'

    @property
    def vertices(self) -> Tuple[VertexPart, VertexPart]:
        """The vertices at which `+e` and `-e` start."""
        start, end = self._there(self._kernel.lines.edge(self.number))
        return (VertexPart(self._kernel, start), VertexPart(self._kernel, end))

    @property
    def faces(self) -> 'Tuple[FacePart, FacePart]':
        """The faces in which `+e` and `-e` stand, which may be one."""
        self._there(self._kernel.lines.edge(self.number))
        right, left = (FacePart(self._kernel, self._kernel.lines.face_at(half)) for half in (self.number, -self.number))
        return (right, left)

    @property
    def solid(self) -> 'SolidPart':
        """The solid it is of."""
        return self.faces[0].solid

    @property
    def length(self) -> Union[Fraction, float]:
        """Its length in millimetres: a fraction where it is one, as `edges(length=)` takes it, else rounded."""
        start, end = self.points
        return root(Fraction(sum((to - at) ** 2 for at, to in zip(start, end))))


class LoopPart(Part):
    """A loop: a cycle of half-edges, or one vertex."""

    kind = 'loop'

    @property
    def half_edges(self) -> Tuple[int, ...]:
        """Its half-edges in their order, from the least on."""
        return self._there(self._kernel.lines.loop(self.number)).halves

    @property
    def edges(self) -> Tuple[EdgePart, ...]:
        """The edges of its half-edges, in their order."""
        return tuple(EdgePart(self._kernel, abs(half)) for half in self.half_edges)

    @property
    def vertices(self) -> Tuple[VertexPart, ...]:
        """The vertices at which its half-edges start, in their order, or its one vertex."""
        halves, lone = self._there(self._kernel.lines.loop(self.number))
        return tuple(VertexPart(self._kernel, vertex) for vertex in ([lone] if lone else map(self._kernel.lines.tail, halves)))

    @property
    def face(self) -> 'FacePart':
        """The face it is of."""
        return FacePart(self._kernel, self._there(self._kernel.lines.face_of_loop(self.number)))


class FacePart(Part):
    """A face."""

    kind = 'face'

    @property
    def solid(self) -> 'SolidPart':
        """The solid it is of."""
        return SolidPart(self._kernel, self._there(self._kernel.lines.solid_of(self.number)))

    @property
    def loops(self) -> Tuple[LoopPart, ...]:
        """Its outer loop and then its rings, rising."""
        return tuple(LoopPart(self._kernel, loop) for loop in self._there(self._kernel.lines.face(self.number)).loops)

    @property
    def outer(self) -> LoopPart:
        """Its outer loop."""
        return self.loops[0]

    @property
    def rings(self) -> Tuple[LoopPart, ...]:
        """Its rings, rising."""
        return self.loops[1:]

    @property
    def edges(self) -> Tuple[EdgePart, ...]:
        """The edges of its loops, each once, as they come."""
        return tuple(dict.fromkeys(edge for loop in self.loops for edge in loop.edges))

    @property
    def vertices(self) -> Tuple[VertexPart, ...]:
        """The vertices of its loops, each once, as they come."""
        return tuple(dict.fromkeys(vertex for loop in self.loops for vertex in loop.vertices))

    @property
    def normal(self) -> Vector:
        """Its normal, as the shortest whole vector: the first three numbers of its plane."""
        found = self._there(self._kernel.lines.normal(self.number))
        return reduced(found) if any(found) else found

    @property
    def area(self) -> Union[Fraction, float]:
        """Its area in square millimetres: a fraction where it is one, as `faces(area=)` takes it, else rounded. Raises Unfit where it isn't flat."""
        self._there(self._kernel.lines.solid_of(self.number))
        return root(square_area(self._kernel.lines.model([self.number]), self.number) * self._kernel.lengths.step ** 4)


class SolidPart(Part):
    """A solid."""

    kind = 'solid'

    @property
    def faces(self) -> Selection[FacePart]:
        """Its faces, rising."""
        return self._selected('face', [FacePart(self._kernel, face) for face in self._there(self._kernel.lines.faces_of(self.number))])

    @property
    def loops(self) -> Selection[LoopPart]:
        """The loops of its faces, rising."""
        return self._selected('loop', [loop for face in self.faces for loop in face.loops])

    @property
    def edges(self) -> Selection[EdgePart]:
        """Its edges, rising."""
        return self._selected('edge', {edge for loop in self.loops for edge in loop.edges})

    @property
    def vertices(self) -> Selection[VertexPart]:
        """Its vertices, rising."""
        return self._selected('vertex', {vertex for loop in self.loops for vertex in loop.vertices})

    def _selected(self, kind: str, parts: Iterable[Found]) -> Selection[Found]:
        return Selection(kind, f' of solid {self.number}', sorted(parts, key=index))
