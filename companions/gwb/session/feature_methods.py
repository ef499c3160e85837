"""The methods of a workbench that make features of outlines, and shape solids up to the edges of their faces."""

from contextlib import contextmanager
from dataclasses import dataclass, field
from fractions import Fraction
from math import isqrt, lcm, sqrt
from typing import Any, Iterable, Iterator, List, Mapping, Optional, Sequence, Tuple

from ..formats.exact_numbers import told
from ..geometry.free_numbers import LARGEST
from ..geometry.measures import area_vector, why_unfit
from ..geometry.outlines import Impossible
from ..geometry.plane_figures import Exact
from ..geometry.vectors import ZERO, Vector, add, cross, dot, reduced, subtract, total
from ..protocol.complaints import refused
from ..meanings import NUMBERS, with_value
from ..refusals import MISFITS
from . import arguments
from .bench import Methods
from .c_calls import FLOOR, WALLS, WORD, Pair, Point, rows, words
from .circles import WITHIN, Circle, wanted
from .kernel import Kernel
from .lengths import ExactPlace, Length, along_way, direction, exact, place, plain
from .reading import EdgePart, FacePart
from .results import Hole, Notch, Numbers, Pad, Pocket, Polyhedron, Profile, Ring
from .steps import Block


@dataclass(frozen=True)
class Sketch:
    """Two coordinates in the plane of a face: (u, v) is the origin, u times the vector to the right and v times the one upwards, in millimetres.

    What it gives are points in space, in millimetres; features take those that are multiples of the step."""

    origin: ExactPlace
    right: ExactPlace
    up: ExactPlace
    _kernel: Kernel = field(repr=False, compare=False)

    def point(self, u: Length, v: Length) -> ExactPlace:
        """The point at two coordinates.

        >>> sketch = bench.sketch(block.top)
        >>> sketch.point(3, 2.5)
        (3, Fraction(5, 2), 10)
        """
        right, upwards = exact('u', u), exact('v', v)
        x, y, z = (plain(at + right * across + upwards * along) for at, across, along in zip(self.origin, self.right, self.up))
        return (x, y, z)

    def points(self, spots: Iterable[Sequence[Length]]) -> List[ExactPlace]:
        """The points at these coordinates: an outline of straight sides.

        >>> sketch = bench.sketch(block.top)
        >>> sketch.points([(0, 0), (3, 0), (0, 2.5)])
        [(0, 0, 10), (3, 0, 10), (0, Fraction(5, 2), 10)]
        """
        return [self.point(*arguments.pair(f'spots[{place}]', spot)) for place, spot in enumerate(arguments.items('spots', spots))]

    def rectangle(self, corner: Sequence[Length], sizes: Sequence[Length]) -> List[ExactPlace]:
        """A rectangle from its lower left corner on, so wide and high.

        >>> sketch = bench.sketch(block.top)
        >>> sketch.rectangle((5, 5), (6, 3))
        [(5, 5, 10), (11, 5, 10), (11, 8, 10), (5, 8, 10)]
        """
        (u, v), (width, height) = arguments.pair('corner', corner), arguments.pair('sizes', sizes)
        return [self.point(*spot) for spot in ((u, v), (u + width, v), (u + width, v + height), (u, v + height))]

    def polygon(self, center: Sequence[Length], radius: Optional[Length] = None, sides: Optional[int] = None, *, diameter: Optional[Length] = None,
                circle: str = 'corners', within: Length = WITHIN) -> List[ExactPlace]:
        """A polygon for a circle around a center, with the corners that `drill` gives it, the first one to the right. On a slope they lie at such
        coordinates as give points of the lattice.

        >>> sketch = bench.sketch(block.top)
        >>> sketch.polygon((20, 10), diameter=10, sides=4)
        [(25, 10, 10), (20, 15, 10), (15, 10, 10), (20, 5, 10)]
        """
        (u, v), lengths = arguments.pair('center', center), self._kernel.lengths
        found = wanted(lengths, radius, diameter, sides, circle, within)
        corners = found.corners(self._kernel.lines, lcm(*(Fraction(part).denominator for part in (*self.right, *self.up))))
        found.reached('polygon', (0, 0), corners, lengths.step)
        return [self.point(u + a * lengths.step, v + b * lengths.step) for a, b in corners]


class FeatureMethods(Methods):
    """Larger things than commands, made of commands. Each method is one command, as a draft is, or in a draft part of it."""

    def profile(self, points: arguments.Points, *, along: Optional[arguments.Point] = None, top: Optional[arguments.Points] = None,
                solid: Optional[int] = None) -> Profile:
        """A new solid: the outline through the points, moved along the vector. It is never inside out, whichever way the points run. It tapers where
        another outline is its `top`: that has as many points, of which each is joined with its like, and is moved along the vector where one is given.

        Refused: FewPoints, RepeatedPoint; NoArea: the outline has no area; NotInPlane: a point lies off the plane of the others;
        OutlineCrossed: the outline crosses or touches itself; AlongPlane: the vector lies in the plane of the points; with `top` NotFlat, where an outline
        or a side isn't flat, with the place of the side from 1 on, and Meets, where the solid would cross or touch itself.

        >>> wedge = bench.profile([(0, 0, 20), (12, 0, 20), (0, 9, 20)], along=(0, 0, 5))
        >>> bench.volume(wedge)
        Fraction(270, 1)
        """
        lengths, outline = self._kernel.lengths, self._kernel.lengths.points('points', points)
        if along is None and top is None:
            raise TypeError('along: a vector is wanted, or top=, another outline')
        way = ZERO if along is None else lengths.point('along', along)
        if top is not None:
            return self._tapered(solid, outline, [add(point, way) for point in lengths.points('top', top)])
        number = self._new('solid', solid)
        return Profile(number, *self._kernel.outline('profile', number, outline, Point(*way)))

    def _tapered(self, solid: Optional[int], base: List[Vector], top: List[Vector]) -> Profile:
        """A new solid between two outlines, with a side from each point to the next."""
        count, across = len(base), area_vector(base)
        if len(top) != count:
            raise ValueError(f'top: {count} points are wanted, as many as the outline has, not {len(top)}')
        if count < 3:
            raise refused('profile', NUMBERS['FewPoints'], count)
        for outline in (base, top):
            if len(set(outline)) < count:
                raise refused('profile', NUMBERS['RepeatedPoint'], next(place for place in range(1, count) if outline[place] in outline[:place]) + 1)
        rise = dot(across, subtract(total(top), total(base)))
        if any(across) and rise == 0:
            raise Impossible('AlongPlane', 0, "the top doesn't lie on one side of the outline")
        sides = [(place, (place + 1) % count, count + (place + 1) % count, count + place) for place in range(count)]
        faces = [tuple(range(count, 2 * count)), tuple(range(count))[::-1], *sides]
        from ..checks.check import check
        with Block(self._kernel, False):
            made = self._solid_of(solid, [*base, *top], faces if rise >= 0 else [face[::-1] for face in faces])
            model = self._kernel.lines.model(made.faces)
            for place, face in enumerate(made.faces, -1):
                why = why_unfit(model, face)
                if why is not None:
                    what = f'the side from points[{place - 1}] on' if place > 0 else 'the outline' if place == 0 else 'the top'
                    raise refused('profile', NUMBERS['NotFlat'], max(place, 0), f"{what} {'has no area' if 'no area' in why else 'is not flat'}")
            if check(model, are_apart=self._kernel.are_apart).findings:
                raise Impossible('Meets', 0, 'the solid would cross or touch itself')
        far, near, *walls = made.faces
        return Profile(made.solid, far, near, tuple(walls))

    def polyhedron(self, points: arguments.Points, faces: Sequence[Sequence[int]], *, solid: Optional[int] = None) -> Polyhedron:
        """A new solid of points, and of faces without rings, each by the places of its corners among the points from 0 on, counterclockwise as seen from
        outside. Whether faces are flat or cross isn't asked. What a memoryview's `tolist()` gives will do.

        Refused: FewPoints: a face has fewer than 3 corners; NotClosed: a side of a face, by its place from 1 on, hasn't one side, of one face, that
        runs the other way; PointRange. ValueError: a point is of no face, or of faces that meet in it alone.

        >>> points = [(50, 0, 0), (53, 0, 0), (50, 3, 0), (50, 0, 3)]
        >>> made = bench.polyhedron(points, [(0, 2, 1), (0, 1, 3), (1, 2, 3), (2, 0, 3)])
        >>> bench.volume(made)
        Fraction(9, 2)
        """
        corners = self._kernel.lengths.points('points', points)
        return self._solid_of(solid, corners, arguments.corners('faces', faces, len(corners)))

    def _solid_of(self, solid: Optional[int], corners: Sequence[Vector], places: Sequence[Sequence[int]]) -> Polyhedron:
        """A new solid of points, and of faces by the places of their corners."""
        number, made = self._new('solid', solid), Pair()
        if not 1 <= number <= LARGEST:
            raise refused('polyhedron', NUMBERS['NumberRange'], number)    # (of which the call says nothing)
        self._kernel.give('polyhedron', number, rows(corners), len(corners), words([corner for face in places for corner in face]),
                                  words([len(face) for face in places]), len(places), made)
        return Polyhedron(number, tuple(range(made.second, made.second + len(places))), tuple(range(made.first, made.first + len(corners))))

    def sketch(self, face: arguments.Face, *, origin: Optional[arguments.Point] = None, right: Optional[arguments.Point] = None,
               up: Optional[arguments.Point] = None, plan: Optional[str] = None) -> Sketch:
        """Two coordinates in the plane of a flat face, as one looks at it from outside, in which outlines are drawn: in millimetres from the origin on, to
        the right and upwards. Without them the origin is the least corner of the face, by x, y and z, and `right` the direction of the first of the axes
        x, y, z that lies in its plane. On a slope where no such vectors of length 1 are fractions, `up` may be given, whose length is then that of a
        step upwards; or with plan='z', 'x' or 'y' the coordinates are those that one sees looking against the axis, and the face gives the third.

        Refused: NoFace; NotFlat; NotInPlane: the origin, `right` or `up` lies off the plane, no axis lies in it, or with `plan` the axis lies in it;
        OffLattice: a vector of length 1 isn't of fractions.

        >>> sketch = bench.sketch(bench.faces(plane=Plane(x=40)).one())
        >>> sketch.right, sketch.up
        ((0, 1, 0), (0, 0, 1))
        """
        part, axis = FacePart(self._kernel, self._number('face', face)), None if plan is None else 'xyz'.index(arguments.word('plan', plan, ('x', 'y', 'z')))
        start = None if origin is None else self._kernel.lengths.place(self._kernel.lengths.point('origin', origin))
        ways = {name: direction(name, way) if name == 'right' else place(name, way) for name, way in (('right', right), ('up', up)) if way is not None}
        points, why = part.points, why_unfit(self._kernel.lines.model([part.number]), part.number)
        if why is not None:
            raise refused('sketch', NUMBERS['NotFlat'], part.number, why)
        across, start = part.normal, start or min(points)
        if along_way(across, start) != along_way(across, points[0]):
            raise Impossible('NotInPlane', part.number, f'the origin {_told(start)} lies off the plane of face {part.number}')
        if axis is not None:
            return Sketch(start, *_seen_along(axis, across, part.number), self._kernel)
        return Sketch(start, *_steps(across, ways, part.number), self._kernel)

    def ring(self, face: arguments.Face, points: arguments.Points) -> Ring:
        """A face inside the face, with the outline through the points, and a ring around it.

        Refused: NoFace; NotFlat: the face isn't flat; FewPoints, RepeatedPoint; NoArea: the outline has no area; NotInPlane: a point lies off
        the plane of the face; OutlineCrossed: the outline crosses or touches itself; OutlineOutside: it crosses or touches the boundary of the
        face, or doesn't lie inside; OutlineAroundRing: a ring of the face lies inside the outline.

        >>> bench.ring(block.top, [(10, 5, 10), (15, 5, 10), (10, 10, 10)])
        Ring(face=7, loop=7, edges=(15, 14, 13), vertices=(9, 11, 10))
        >>> bench.face(block.top).rings
        (<loop 7>,)
        """
        number, outline = self._number('face', face), self._kernel.lengths.points('points', points)
        vertices = (WORD * len(outline))()
        return Ring(*self._kernel.outline('ring', number, outline, beside=[vertices]), tuple(vertices))

    def pocket(self, face: arguments.Face, points: arguments.Points, depth: Optional[Length] = None, *, along: Optional[arguments.Point] = None) -> Pocket:
        """A pocket so deep behind the outline in the face, or moved along a vector into the solid, which may lean.

        Refused as ring is; OffLattice: no whole vector along the normal is so long; AlongPlane: the vector lies in the face or points out of it; Meets:
        the pocket would come through, or meet or touch something of the solid.

        >>> _ = bench.pocket(block.top, [(10, 5, 10), (15, 5, 10), (10, 10, 10)], depth=4)
        >>> bench.volume(block)
        Fraction(7950, 1)
        """
        return self._raised('pocket', face, points, depth=depth, along=along)

    def boss(self, face: arguments.Face, points: arguments.Points, height: Optional[Length] = None, *, along: Optional[arguments.Point] = None) -> Pocket:
        """A boss so high on the outline in the face, or moved along a vector out of the solid, which may lean.

        Refused as ring is; OffLattice: no whole vector along the normal is so long; AlongPlane: the vector lies in the face or points into the solid;
        Meets: the boss would meet or touch something of the solid.

        >>> _ = bench.boss(block.top, [(10, 5, 10), (15, 5, 10), (10, 10, 10)], along=(2, 0, 4))
        >>> bench.volume(block)
        Fraction(8050, 1)
        """
        return self._raised('boss', face, points, height=height, along=along)

    def hole(self, face: arguments.Face, points: arguments.Points) -> Hole:
        """A hole from the outline in the face through to the opposite face.

        Refused as ring is, also for the boundary and the rings of the opposite face; NoOpposite: there is nothing behind the outline; NotParallel: the
        face behind it isn't parallel; OffLattice: its plane lies off the lattice behind the face; Meets: the hole would meet or touch something else of
        the solid.

        >>> _ = bench.hole(block.top, [(10, 5, 10), (15, 5, 10), (10, 10, 10)])
        >>> bench.volume(block)
        Fraction(7875, 1)
        """
        number, outline = self._number('face', face), self._kernel.lengths.points('points', points)
        return Hole(*self._kernel.outline('hole', number, outline), tuple(map(self._kernel.lengths.place, outline)))

    def drill(self, face: arguments.Face, center: arguments.Point, radius: Optional[Length] = None, sides: Optional[int] = None, *,
              diameter: Optional[Length] = None, circle: str = 'corners', within: Length = WITHIN, depth: Optional[Length] = None,
              along: Optional[arguments.Point] = None) -> Hole:
        """A hole with a polygon for a circle of this radius or diameter around the center: through, or so deep, or along a vector into the solid, as a
        pocket. The corners are points of the lattice, as
        near to those of a regular polygon as they can, of two as near the one farther out: `reach` of what it returns says how far from the center the
        nearest side and the farthest corner lie. Warns where they lie farther beside the circle than a hundredth of the radius.

        On the circle lie the corners; with circle='flats' the sides, none of which comes inside, so that a bolt passes; with 'area' neither, and the
        areas are the same. Without `sides` there are as many as leave the flats within `within` millimetres of corners on the circle.

        Refused: NoFace; NotFlat: the face isn't flat; NotAcross: it doesn't lie across an axis; RepeatedPoint: two corners of the polygon fall
        on one point; NotInPlane: the center lies off the plane of the face; OutlineOutside: the polygon crosses or touches the boundary of the
        face or of the opposite one, or doesn't lie inside; OutlineAroundRing: a ring of either face lies inside the polygon; NoOpposite: there
        is nothing behind it; NotParallel: the face behind it isn't parallel; Meets: the hole would meet or touch something else of the solid,
        or with a depth come through it.

        >>> hole = bench.drill(block.top, (20, 10, 10), diameter=6, circle='flats')
        >>> len(hole.sides), round(hole.reach[0], 3), bench.count(block).rings
        (20, 3.0, 2)
        """
        number, lengths = self._number('face', face), self._kernel.lengths
        middle = lengths.point('center', center)
        ending, *reach = ('', 0) if depth is None and along is None else self._reach(depth=depth, along=along)
        found = wanted(lengths, radius, diameter, sides, circle, within)
        if found.fit == 'corners' and found.diameter % 2 == 0:
            made, walls, corners = Pair(), (WORD * found.sides)(), (Point * found.sides)()
            self._kernel.give(f'drill{ending}', number, Point(*middle), found.diameter // 2, found.sides, *reach, made, walls, corners)
            outline = [(at.x, at.y, at.z) for at in corners]
            numbers = made.first, made.second, tuple(walls)
        else:
            outline = self._around(number, middle, found)
            numbers = self._kernel.outline(f'pocket{ending}', number, outline, *reach) if reach != [0] else self._kernel.outline('hole', number, outline)
        return Hole(*numbers, tuple(map(lengths.place, outline)), found.reached('drill', middle, outline, lengths.step))

    def _around(self, face: int, center: Vector, circle: Circle) -> List[Vector]:
        """The corners of a polygon in a face across an axis, from the axis after its own on. Refused: NoFace. Not possible: NotAcross."""
        across = FacePart(self._kernel, face).normal
        axis = next((place for place, part in enumerate(across) if part), 0)
        if [part != 0 for part in across].count(True) != 1:
            raise Impossible('NotAcross', face, with_value(MISFITS['NotAcross'], face))
        corners = [dict(zip(((axis + 1) % 3, (axis + 2) % 3), corner)) for corner in circle.corners(self._kernel.lines)]
        return [(center[0] + at.get(0, 0), center[1] + at.get(1, 0), center[2] + at.get(2, 0)) for at in corners]

    def glue_all(self, solids: Sequence[arguments.Solid]) -> int:
        """The solids become one along the faces that match: its number, the first one's.

        Refused: NoMatch: no chain of matching faces joins a solid with the first; GluedTwice: two of them match along more than the one face that a
        gluing takes, so that the rest would touch.

        >>> other = bench.block((40, 0, 0), (10, 20, 10))
        >>> bench.volume(bench.glue_all([block, other]))
        Fraction(10000, 1)
        """
        numbers = self._different('solids', solids, 'solid')
        self._kernel.give('glue_all', words(numbers), len(numbers))
        return numbers[0]

    def notch(self, face: arguments.Face, points: arguments.Points, depth: Optional[Length] = None, *, along: Optional[arguments.Point] = None) -> Notch:
        """What lies under an outline in the plane of the face goes, so deep, or along a vector into the solid, which may lean: the outline may leave the face and cross edges, holes, pockets and other
        features, and where it is as deep as the solid it goes through.

        Refused: NoFace; NotFlat: the face isn't flat, or a face near it isn't; NotInPlane, FewPoints, RepeatedPoint, NoArea and OutlineCrossed for the
        points; OutlineOutside: nothing of what the outline goes round lies in the face; OffLattice: no whole vector along the normal is so long, or a
        corner would lie between whole coordinates: with how many times finer all must be, or 0 where nothing helps; AlongPlane: the vector lies in the
        face or points out of it; Meets: the solid would touch itself; NothingLeft.

        >>> _ = bench.notch(block.top, [(0, 0, 10), (5, 0, 10), (5, 5, 10)], depth=4)
        >>> bench.volume(block)
        Fraction(7950, 1)
        """
        number, outline = self._number('face', face), self._kernel.lengths.points('points', points)
        return Notch(*self._shaped('notch', number, rows(outline), len(outline), depth=depth, along=along))

    def pad(self, face: arguments.Face, points: arguments.Points, height: Optional[Length] = None, *, along: Optional[arguments.Point] = None) -> Pad:
        """What lies over an outline in the plane of the face is filled, so high, or along a vector out of the solid: the outline may leave the face, and what is there already becomes one
        with it. Refused as notch is.

        >>> _ = bench.pad(block.top, [(30, 5, 10), (50, 5, 10), (50, 10, 10)], height=4)
        >>> bench.volume(block)
        Fraction(8200, 1)
        """
        number, outline = self._number('face', face), self._kernel.lengths.points('points', points)
        return Pad(*self._shaped('pad', number, rows(outline), len(outline), height=height, along=along))

    def slot(self, face: arguments.Face, start: arguments.Point, end: arguments.Point, width: Length, depth: Optional[Length] = None, *,
             along: Optional[arguments.Point] = None) -> Notch:
        """A slot with a flat floor, so wide, and so deep or along a vector into the solid, whose middle line runs in the face from one point to another. Refused as notch is;
        OffLattice: half of the width isn't whole across the line.

        >>> _ = bench.slot(block.top, (20, 0, 10), (20, 20, 10), width=6, depth=4)
        >>> bench.volume(block)
        Fraction(7520, 1)
        """
        return Notch(*self._shaped('slot', face, start=start, end=end, width=width, depth=depth, along=along))

    def groove(self, face: arguments.Face, start: arguments.Point, end: arguments.Point, width: Length, depth: Optional[Length] = None, *,
               along: Optional[arguments.Point] = None) -> Notch:
        """A groove like a V, so wide at the face, and so deep under its middle line, which runs from one point to another, or along a vector from it; it
        has no floor.
        Refused as notch is; OffLattice: half of the width isn't whole across the line.

        >>> _ = bench.groove(block.top, (20, 0, 10), (20, 20, 10), width=6, depth=4)
        >>> bench.volume(block)
        Fraction(7760, 1)
        """
        return Notch(*self._shaped('groove', face, start=start, end=end, width=width, depth=depth, along=along))

    def shoulder(self, face: arguments.Face, edge: arguments.Edge, width: Length, depth: Optional[Length] = None, *,
                 along: Optional[arguments.Point] = None) -> Notch:
        """A step along an edge of the face: so wide in the face, from the edge on, and so deep behind it, or along a vector into the solid. Refused as notch is; NoEdge,
        NotOfFace: the edge isn't one of the face.

        >>> edge = bench.edges(between=(block.top, block.sides[1])).one()
        >>> _ = bench.shoulder(block.top, edge, width=6, depth=4)
        >>> bench.volume(block)
        Fraction(7520, 1)
        """
        number, beside = self._number('face', face), self._number('edge', edge)
        return Notch(*self._shaped('shoulder', number, beside, width=width, depth=depth, along=along))

    def chamfer(self, edge: arguments.Edge, width: Length, other: Optional[Length] = None) -> int:
        """The edge becomes a sloping face, which begins so far from it in the face of its half-edge `+e`, and in the other one as far, or so
        far as `other` says: the number of the face. At an edge that bends inwards the room is filled.

        Refused: NoEdge; NotFlat: a face of the edge isn't flat, or the slope wouldn't be; FlatEdge: both lie in one plane; OffLattice: a
        corner wouldn't be whole; OutlineOutside, Meets: there is no room for it.

        >>> edge = bench.edges(between=(block.top, block.sides[1])).one()
        >>> _ = bench.chamfer(edge, 2)
        >>> bench.volume(block)
        Fraction(7960, 1)
        """
        number, wide = self._number('edge', edge), self._kernel.lengths.positive('width', width)
        far = wide if other is None else self._kernel.lengths.positive('other', other)
        return self._sloped('chamfer', [number], number, wide, far)[0]

    def chamfer_edges(self, edges: Sequence[arguments.Edge], width: Length) -> Tuple[int, ...]:
        """Different edges become sloping faces at once, which begin so far from them in the faces on both sides: the face of each, 0 where others leave
        nothing of it. Where two or three of the edges that end at a vertex are among them, their slopes meet there.

        Refused: as chamfer is; NoCorner: slopes of edges that end at a vertex don't meet in one point, or more than three edges end there; NotAlike: an
        edge is of another solid than the first, or bends the other way.

        >>> _ = bench.chamfer_edges(bench.face(block.top).edges, 2)
        >>> bench.volume(block)
        Fraction(23312, 3)
        """
        numbers, wide = self._different('edges', edges, 'edge'), self._kernel.lengths.positive('width', width)
        return self._sloped('chamfer_edges', numbers, words(numbers), len(numbers), wide)

    def _raised(self, word: str, face: arguments.Face, points: arguments.Points, **reach: object) -> Pocket:
        """A pocket or a boss, so deep or high, or along a vector."""
        number, outline = self._number('face', face), self._kernel.lengths.points('points', points)
        ending, way = self._reach(**reach)
        with self._told_ways(number, word, way):
            return Pocket(*self._kernel.outline(word + ending, number, outline, way))

    def _reach(self, *, along: object, **lengths: object) -> Tuple[str, Any]:
        """How far a feature goes: the ending of the call's name and what it takes, for the one of a length and a vector that is given."""
        (name, length), = lengths.items()
        if (length is None) == (along is None):
            raise TypeError(f'{name}: a {name} is wanted, or along=, a vector' if along is None else f'along: a {name} is given already')
        if along is None:
            return '', self._kernel.lengths.positive(name, length)
        return '_along', Point(*self._kernel.lengths.point('along', along))

    @contextmanager
    def _told_ways(self, face: int, word: str, length: Any) -> Iterator[None]:
        """Where a length along the normal of a face has no whole steps, what is refused says a vector about so long."""
        try:
            yield
        except Impossible as error:
            if error.cause in ('DepthFraction', 'NoScale'):
                error.args = (f'{error.args[0]}{self._steps_along(face, word, length)}',)
            raise

    def _steps_along(self, face: int, word: str, length: int) -> str:
        """What is said of vectors along the normal of a face about so long: a fitting one, and its length, where one has no whole steps of this length."""
        across, lengths = FacePart(self._kernel, face).normal, self._kernel.lengths
        one = sqrt(dot(across, across))
        times = max(1, round(length / one)) * (1 if word in ('boss', 'pad') else -1)
        way = ', '.join(told(Fraction(part)) for part in lengths.place([times * part for part in across]))
        return f'; along=({way}) is {abs(times) * one * float(lengths.step):.4g} mm long'

    def _shaped(self, word: str, face: arguments.Face, *values: Any, along: object, **more: Any) -> Tuple[Numbers, Numbers]:
        """Gives a feature in a face, with its ends and sizes by name, of which the last may be a vector instead, that leaves a floor and walls in its
        solid, whose labels the parts of its faces get: those. Refused: NoFace."""
        number, lengths, last = self._number('face', face), self._kernel.lengths, more.popitem()
        sizes = [Point(*lengths.point(name, size)) if name in ('start', 'end') else lengths.positive(name, size) for name, size in more.items()]
        ending, way = self._reach(along=along, **dict([last]))
        with self._parting(FacePart(self._kernel, number).solid.number) as new, self._told_ways(number, word, way):
            self._kernel.give(word + ending, number, *values, *sizes, way)
            made = self._kernel.made(FLOOR), self._kernel.made(WALLS)
            new.update(*made)
        return made

    def _sloped(self, word: str, edges: Sequence[int], *values: Any) -> Numbers:
        """Gives a feature that makes slopes of edges, which are returned; the parts of faces get the labels of these."""
        solid, *_ = [EdgePart(self._kernel, edge).solid.number for edge in edges]
        with self._parting(solid) as new:
            made = (WORD * len(edges))()
            self._kernel.give(word, *values, made)
            new.update(made)
        return tuple(made)


def _told(point: Sequence[Exact]) -> str:
    """A point as it is said."""
    return f'({", ".join(map(str, point))})'


def _seen_along(axis: int, across: Vector, face: int) -> Tuple[ExactPlace, ExactPlace]:
    """The vectors in a face that are 1 long along the two other axes as one looks against this one. Not possible: NotInPlane."""
    if across[axis] == 0:
        raise Impossible('NotInPlane', face, f"face {face} isn't seen along {'xyz'[axis]}, which lies in its plane")
    ways: List[List[Exact]] = []
    for other in ((axis + 1) % 3, (axis + 2) % 3):
        way: List[Exact] = [0, 0, 0]
        way[other], way[axis] = 1, plain(Fraction(-across[other], across[axis]))
        ways.append(way)
    (a, b, c), (u, v, w) = ways
    return (a, b, c), (u, v, w)


def _steps(across: Vector, given: Mapping[str, ExactPlace], face: int) -> Tuple[ExactPlace, ExactPlace]:
    """The vectors to the right and upwards in a face, those that are given, or such as are 1 long. Not possible: NotInPlane, OffLattice."""
    axis = next((axis for axis in ((1, 0, 0), (0, 1, 0), (0, 0, 1)) if dot(across, axis) == 0), (0, 0, 0))
    to_right = given.get('right', axis)
    for way in (to_right, given.get('up', to_right)):
        if not any(way) or along_way(across, way) != 0:
            raise Impossible('NotInPlane', face, f'a direction in the plane of face {face} is wanted, not {_told(way)}')
    right = (int(to_right[0]), int(to_right[1]), int(to_right[2]))
    up = reduced(cross(across, right))
    return _one_long('right', right, up, face), given['up'] if 'up' in given else _one_long('up', up, up, face)


def _one_long(name: str, way: Vector, up: Vector, face: int) -> ExactPlace:
    """The vector in this direction that is 1 long. Not possible: OffLattice."""
    length = isqrt(dot(way, way))
    if length * length != dot(way, way):
        steps = f', and up={_told(up)} steps as long as it is' if name == 'up' else ''
        raise Impossible('OffLattice', face, f'in face {face} no vector of fractions along {_told(way)} is 1 long: '
                                             f"plan='z' takes coordinates as seen from above{steps}")
    x, y, z = (plain(Fraction(part, length)) for part in way)
    return (x, y, z)
