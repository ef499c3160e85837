"""What a workbench holds, read: things by where they lie, exactly, measures (solid_measures.py), sections (sections.py), cuts off the lattice, and
arrays."""

from ctypes import pointer, sizeof
from dataclasses import dataclass
from fractions import Fraction
from typing import Any, Iterable, List, Optional, Sequence, Tuple, Type

from ..geometry import sections, solid_measures
from ..geometry.plane_figures import Exact
from . import arguments
from .bench import Methods
from .c_calls import LENGTH, WORD, CrossingRow, CutPlane, EdgeQuery, FaceQuery, Point, ratio, whole
from .kernel import OffLattice
from .lengths import ExactPlace, Lengths, direction, place, plain
from .reading import EdgePart, FacePart, Found, LoopPart, Selection, SolidPart, VertexPart
from .results import FaceCrossing, Plane

# How many tilted planes are named beside a cut off the lattice.
_MOST_TILTED = 3


@dataclass(frozen=True)
class Crossing:
    """Where the plane of a cut meets an edge, in millimetres, and whether that is on the lattice."""

    edge: int
    point: ExactPlace
    is_whole: bool


@dataclass(frozen=True)
class OffLatticeCut:
    """A cut of a solid by a plane, of which some points may not be multiples of the step."""

    crossings: Tuple[Crossing, ...]
    factor: int
    """How many times finer the step must be at least, as `refine` makes it; 1 where no point lies between."""
    fits: bool
    """Whether the model is in range in such a step."""
    parallel: Optional[Plane]
    """The nearest plane with the same normal that cuts at multiples of the step, where there is one."""
    tilted: Tuple[Plane, ...]
    """Other planes that do, the nearest first."""

    @classmethod
    def of(cls, found: OffLattice, lengths: Lengths) -> 'OffLatticeCut':
        """What was found in steps."""
        parallel, tilted = ([Plane(*lengths.plane_out((near.plane.a, near.plane.b, near.plane.c, near.plane.d))) for near in found.planes
                             if near.is_parallel == wanted] for wanted in (True, False))
        return cls(tuple(_crossing(cut, lengths) for cut in found.cuts), found.factor, found.fits, next(iter(parallel), None), tuple(tilted))

    @property
    def off_lattice(self) -> Tuple[Crossing, ...]:
        """The cut edges whose points aren't multiples of the step, rising."""
        return tuple(crossing for crossing in self.crossings if not crossing.is_whole)


def _crossing(cut: Any, lengths: Lengths) -> Crossing:
    """Where an edge is cut, of a row of the library."""
    x, y, z = (Fraction(whole(above), whole(below)) for above, below in zip(cut.numerators, cut.denominators))
    return Crossing(cut.edge, lengths.place((x, y, z)), x.denominator == y.denominator == z.denominator == 1)


class Reading(Methods):
    """Parts of the model by their numbers, and by where they lie.

    Exact measures, each of the part that it names, in millimetres, square millimetres and so on: an int where it is whole, else a Fraction, and a float
    where it is a root. Where a face isn't flat they raise Unfit.

    Arrays are rows of numbers, as a memoryview in two dimensions, which `tolist()` makes lists of; their coordinates are steps of the lattice, as those of
    scripts are: times `step` they are millimetres. Of nothing there are no rows. An array stays what it is when the model changes."""

    def solid(self, solid: arguments.Solid) -> SolidPart:
        """The solid of this number. If there is none, what is asked of it raises Refused; the same holds for the four kinds below.

        >>> bench.solid(1).faces
        <faces 1, 2, 3, 4, 5, 6>
        """
        return SolidPart(self._kernel, self._number('solid', solid))

    def face(self, face: arguments.Face) -> FacePart:
        """The face of this number.

        >>> bench.face(block.top).normal
        (0, 0, 1)
        """
        return FacePart(self._kernel, self._number('face', face))

    def loop(self, loop: arguments.LoopNumber) -> LoopPart:
        """The loop of this number.

        >>> bench.loop(1).face
        <face 1>
        """
        return LoopPart(self._kernel, self._number('loop', loop))

    def edge(self, edge: arguments.Edge) -> EdgePart:
        """The edge of this number.

        >>> bench.edge(1).points
        ((0, 0, 0), (40, 0, 0))
        """
        return EdgePart(self._kernel, self._number('edge', edge))

    def vertex(self, vertex: arguments.Vertex) -> VertexPart:
        """The vertex of this number.

        >>> bench.vertex(7).point
        (40, 20, 10)
        """
        return VertexPart(self._kernel, self._number('vertex', vertex))

    def solids(self) -> 'Selection[SolidPart]':
        """All solids.

        >>> bench.solids()
        <solids 1>
        """
        return self._selected(SolidPart, self._kernel.lines.numbers('solid'))

    def faces(self, *, solid: Optional[arguments.Solid] = None, plane: Optional[arguments.Point] = None,
              normal: Optional[arguments.Point] = None, containing: Optional[arguments.Point] = None,
              area: Optional[arguments.Length] = None) -> 'Selection[FacePart]':
        """The faces that fit: of the solid; wholly in the plane a x + b y + c z + d = 0, four numbers or what `plane` returns, whichever way
        they look; flat, and looking the way of the normal; flat, with the point inside or on the outline; flat, and so large, exactly.

        >>> bench.faces(plane=Plane(x=40)).one().normal
        (1, 0, 0)
        """
        query = FaceQuery(
            solid=self._sought_in(solid),
            plane=None if plane is None else pointer(CutPlane(*self._kernel.lengths.plane_across('plane', plane))),
            normal=None if normal is None else pointer(Point(*direction('normal', normal))),
            containing=None if containing is None else pointer(Point(*self._kernel.lengths.point('containing', containing))),
            area=None if area is None else pointer(ratio(arguments.factor('area', area) / self._kernel.lengths.step ** 2)))
        found = self._kernel.find('find_faces', query)
        return self._selected(FacePart, found, solid=solid, plane=plane, normal=normal, containing=containing, area=area)

    def edges(self, *, solid: Optional[arguments.Solid] = None, between: Optional[Tuple[arguments.Face, arguments.Face]] = None,
              along: Optional[arguments.Point] = None, length: Optional[arguments.Length] = None) -> 'Selection[EdgePart]':
        """The edges that fit: of the solid; between two faces; along the vector, one way or the other; so long, exactly.

        >>> bench.edges(along=(0, 0, 1))
        <edges 5, 6, 8, 10>
        """
        pair = self._several('between', (0, 0) if between is None else between, 'face')
        if len(pair) != 2:
            raise ValueError(f'between: two numbers are wanted, not {len(pair)}')
        query = EdgeQuery(
            solid=self._sought_in(solid),
            between=(WORD * 2)(*([] if between is None else [arguments.positive('between', face) for face in pair])),
            along=None if along is None else pointer(Point(*direction('along', along))),
            length=None if length is None else pointer(ratio(arguments.factor('length', length) / self._kernel.lengths.step)))
        return self._selected(EdgePart, self._kernel.find('find_edges', query), solid=solid, between=between, along=along, length=length)

    def vertices(self, *, solid: Optional[arguments.Solid] = None, at: Optional[arguments.Point] = None) -> 'Selection[VertexPart]':
        """The vertices of the solid, or all; `at` a point.

        >>> bench.vertices(at=(40, 20, 10))
        <vertices 7>
        """
        spot = None if at is None else self._kernel.lengths.point('at', at)
        numbers = self._kernel.lines.numbers('vertex') if solid is None else self.solid(solid).vertices.numbers
        fitting = [number for number in numbers if spot is None or self._kernel.lines.vertex(number) == spot]
        return self._selected(VertexPart, fitting, solid=solid, at=at)

    def crossings(self, solid: arguments.Solid, other: Optional[arguments.Solid] = None) -> List[FaceCrossing]:
        """The pairs of faces of a solid that have a point in common which lies on no edge or vertex of both, rising; or of a face of the solid and one of
        the other that have any. Refused: NoSolid; NotFlat, with a face.

        >>> bench.crossings(block)
        []
        """
        number = self._number('solid', solid)
        rows = self._kernel.find('find_crossings', number, self._sought_in(other, 'other'), kind=CrossingRow)
        return [FaceCrossing(row.first, row.second, self._kernel.exact_point(row.point, whole(row.scale))) for row in rows]

    def bounding_box(self, solid: arguments.Solid) -> solid_measures.BoundingBox:
        """The least box with sides along the axes around the solid. Refused: NoSolid.

        >>> bench.bounding_box(block)
        BoundingBox(low=(0, 0, 0), high=(40, 20, 10))
        """
        found, lengths = solid_measures.bounding_box(*self._alone(solid)), self._kernel.lengths
        return solid_measures.BoundingBox(lengths.place(found.low), lengths.place(found.high))

    def centroid(self, solid: arguments.Solid) -> ExactPlace:
        """The centre of mass of the solid, of even density. Refused: NoSolid. Raises NoVolume where it encloses none.

        >>> bench.centroid(block)
        (20, 10, 5)
        """
        return self._kernel.lengths.place(solid_measures.centroid(*self._alone(solid)))

    def inertia(self, solid: arguments.Solid, about: Optional[arguments.Point] = None) -> solid_measures.Inertia:
        """The moments of inertia of the solid, of density one, about a point or else its centroid. Refused: NoSolid. Raises NoVolume where it
        encloses none and no point is given.

        >>> bench.inertia(block).moments
        (Fraction(1000000, 3), Fraction(3400000, 3), Fraction(4000000, 3))
        """
        step = self._kernel.lengths.step
        middle = None if about is None else _times(place('about', about), 1 / step)
        found = solid_measures.inertia(*self._alone(solid), middle)
        return solid_measures.Inertia(*(_times(row, step ** power) for row, power in ((found.about, 1), (found.moments, 5), (found.products, 5))))

    def surface_area(self, solid: arguments.Solid) -> float:
        """The area of all faces of the solid, rounded. Refused: NoSolid.

        >>> bench.surface_area(block)
        2800.0
        """
        return float(solid_measures.surface_area(*self._alone(solid)) * self._kernel.lengths.step ** 2)

    def area(self, face: arguments.Face) -> float:
        """The area of the face, rounded: the root of square_area. Refused: NoFace.

        >>> bench.area(block.top)
        800.0
        """
        return float(solid_measures.area(*self._faces(face=face)) * self._kernel.lengths.step ** 2)

    def square_area(self, face: arguments.Face) -> Fraction:
        """The square of the area of the face. Refused: NoFace.

        >>> bench.square_area(block.top)
        Fraction(640000, 1)
        """
        return solid_measures.square_area(*self._faces(face=face)) * self._kernel.lengths.step ** 4

    def length(self, edge: arguments.Edge) -> float:
        """The length of the edge, rounded: the root of square_length. Refused: NoEdge.

        >>> bench.length(1)
        40.0
        """
        return float(solid_measures.root(Fraction(self.square_length(edge))))

    def square_length(self, edge: arguments.Edge) -> Exact:
        """The square of the length of the edge. Refused: NoEdge.

        >>> bench.square_length(1)
        1600
        """
        start, end = EdgePart(self._kernel, abs(self._half_edge('edge', edge))).points
        return plain(Fraction(sum((to - at) ** 2 for at, to in zip(start, end))))

    def distance(self, face: arguments.Face, other: arguments.Face) -> float:
        """The distance of the planes of two parallel faces, rounded: the root of square_distance. Refused: NoFace. Raises NotParallel.

        >>> bench.distance(block.top, block.bottom)
        10.0
        """
        return float(solid_measures.distance(*self._faces(face=face, other=other)) * self._kernel.lengths.step)

    def square_distance(self, face: arguments.Face, other: arguments.Face) -> Fraction:
        """The square of the distance of the planes of two parallel faces. Refused: NoFace. Raises NotParallel.

        >>> bench.square_distance(block.top, block.bottom)
        Fraction(100, 1)
        """
        return solid_measures.square_distance(*self._faces(face=face, other=other)) * self._kernel.lengths.step ** 2

    def section(self, solid: arguments.Solid, plane: arguments.Point) -> List[sections.Polygon]:
        """The polygons in which the plane a x + b y + c z + d = 0 cuts the solid, seen from above the plane: outlines run counterclockwise,
        holes clockwise; none where it misses the solid. Refused: NoSolid. Raises ValueError where a, b and c are zero.

        >>> bench.section(block, Plane(z=5))[0]
        ((0, 0, 5), (40, 0, 5), (40, 20, 5), (0, 20, 5))
        """
        coefficients = self._kernel.lengths.plane('plane', plane)
        return [tuple(map(self._kernel.lengths.place, polygon)) for polygon in sections.section(*self._alone(solid), coefficients)]

    def off_lattice(self, solid: arguments.Solid, plane: arguments.Point) -> OffLatticeCut:
        """Where the plane cuts the edges of the solid, how many times finer the step must be for all of these points to be multiples of it, and planes
        nearby that `split` takes. Refused: NoSolid; PlaneRange: a coefficient is out of range. Raises ValueError where a, b and c are zero.

        >>> bench.off_lattice(block, (7, 0, 0, -1)).factor
        7
        """
        number, lengths = self._number('solid', solid), self._kernel.lengths
        return OffLatticeCut.of(self._kernel.off_lattice(number, lengths.plane_across('plane', plane), _MOST_TILTED), lengths)

    def vertices_array(self) -> memoryview:
        """A row for each vertex, rising: its number, and x, y and z in steps, in 64 bits each.

        >>> bench.vertices_array().tolist()[6]
        [7, 40000, 20000, 10000]
        """
        return self._rows('read_vertices', [], self._kernel.lines.greatest('vertex'), 4, 'q')

    def half_edges_array(self, solid: Optional[arguments.Solid] = None) -> memoryview:
        """A row for each half-edge, of a solid or of all, in 32 bits each: it, the vertex at which it starts, the half-edge after it in its loop, its
        loop and its face. A half-edge is here twice the number of its edge, and 1 more for `-`. Those of a loop come one after another, the outer loop of
        a face before its rings.

        >>> bench.half_edges_array(block).tolist()[0]
        [24, 8, 14, 1, 1]
        """
        return self._rows('read_half_edges', [self._of(solid)], 2 * self._kernel.lines.greatest('edge'), 5, 'I')

    def triangles_array(self, solid: Optional[arguments.Solid] = None) -> memoryview:
        """A row for each triangle of the faces of a solid, or of all, in 32 bits each: the face, and three vertices, counterclockwise as seen from outside.
        A face that isn't flat, or whose loops cross, has none.

        >>> bench.triangles_array(block).shape
        (12, 4)
        """
        return self._rows('read_triangles', [self._of(solid)], 6 * self._kernel.lines.greatest('edge'), 4, 'I')

    def _selected(self, kind: Type[Found], numbers: Iterable[int], **criteria: object) -> 'Selection[Found]':
        """Things of a kind, and what was asked of them."""
        words = [f'{name}={value!r}' for name, value in criteria.items() if value is not None]
        return Selection(kind.kind, f' with {", ".join(words)}' if words else '', [kind(self._kernel, number) for number in numbers])

    def _sought_in(self, solid: Optional[arguments.Solid], name: str = 'solid') -> int:
        """The number of a solid for a query, in which 0 stands for all, or none."""
        return 0 if solid is None else arguments.positive(name, self._number(name, solid, 'solid'))

    def _faces(self, **faces: arguments.Face) -> Tuple[Any, ...]:
        """The faces alone, and their numbers. Refused: NoFace."""
        numbers = [self._number(name, face, 'face') for name, face in faces.items()]
        for number in numbers:
            FacePart(self._kernel, number).loops
        return (self._kernel.lines.model(numbers), *numbers)

    def _of(self, solid: Optional[arguments.Solid]) -> int:
        """The number of a solid that is there, 0 for all. Refused: NoSolid."""
        return 0 if solid is None else self.solid(solid).faces[0].solid.number

    def _rows(self, name: str, solid: List[int], room: int, width: int, letter: str) -> memoryview:
        """What a call writes of numbers that have this letter in buffers, with room for so many rows, at least as many as there are. Raises MemoryError."""
        lines, kind = self._kernel.lines, WORD if letter == 'I' else LENGTH
        rows = (kind * (width * room or 1))()
        count: int = getattr(lines.library, name)(lines.handle, *solid, rows, room)
        if count > room:
            raise MemoryError(f'{name}: memory was refused')
        flat = memoryview(rows).cast('B')[:count * width * sizeof(kind)]
        return flat.cast(letter, (count, width)) if count else flat.cast(letter)


def _times(point: Sequence[Exact], factor: Fraction) -> Tuple[Fraction, Fraction, Fraction]:
    """Three numbers, each times the factor."""
    x, y, z = (part * factor for part in point)
    return (Fraction(x), Fraction(y), Fraction(z))
