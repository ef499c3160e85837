"""Slips within one face: bent faces, and rings that run the wrong way, lie outside, or lie in each other."""

from functools import cached_property
from typing import Dict, Iterator, List, NamedTuple, Optional

from ..geometry.box_index import BoxIndex, box_of
from ..geometry.convexity import is_convex, is_parallelogram
from ..geometry.measures import area_vector, loop_normal, normal, off_plane
from ..geometry.model import Model
from ..geometry.plane_figures import Flat, Place, Segment, locate, segments
from ..geometry.vectors import Vector, ZERO, dot, flat_axes
from .findings import BENT, OUTSIDE, WRONG_WAY, Finding

# Of a loop of more sides those are looked for that a ray may meet.
_FEW_SIDES = 16


class FlatFaces(NamedTuple):
    """The normals of all faces of a model; and the faces that are flat and have an area, each with whether it is a convex triangle or quadrilateral."""

    normals: Dict[int, Vector]
    convex: Dict[int, bool]


def flat_faces(model: Model) -> FlatFaces:
    """What is known of the faces of a model. Triangles and parallelograms with an area are flat and convex."""
    normals: Dict[int, Vector] = {}
    convex: Dict[int, bool] = {}
    model.outlines.find_all()
    for face, (_, outer, rings) in model.faces.items():
        points = model.loop_points(outer)
        normals[face] = across = normal(model, face) if rings else area_vector(points)
        if across == ZERO:
            continue
        if not rings and (len(points) == 3 or len(points) == 4 and is_parallelogram(*points)):
            convex[face] = True
        elif is_flat(model, face, across):
            convex[face] = is_convex(model, face, across)
    return FlatFaces(normals, convex)


def is_flat(model: Model, face: int, across: Vector) -> bool:
    """Whether a face, whose normal is given, has an area, and all its vertices lie on its plane. The normal of a quadrilateral is at right angles
    to both diagonals, so all its corners lie on its plane where two that follow one another do."""
    if across == ZERO:
        return False
    _, outer, rings = model.faces[face]
    outline = model.outlines[outer]
    if rings or len(outline) > 4:
        return off_plane(model, face, across) is None
    return len(outline) == 3 or dot(across, model.vertices[outline[0]]) == dot(across, model.vertices[outline[1]])


def bent_finding(model: Model, face: int, across: Vector) -> Finding:
    """What is said of a face that has an area and isn't flat; its normal is given."""
    return Finding(BENT, f'vertex {off_plane(model, face, across)} lies off the plane of face {face}')


def ring_findings(model: Model, face: int, across: Vector) -> Iterator[Finding]:
    """The slips of a flat face's rings; its normal is given."""
    if model.faces[face].rings:
        yield from _directions(model, face)
        yield from _places(model, face, across)


def _directions(model: Model, face: int) -> Iterator[Finding]:
    """Rings that run as the outer loop does."""
    outer, *rings = model.faces[face].loops
    across = loop_normal(model, outer)
    for ring in rings:
        if dot(loop_normal(model, ring), across) > 0:
            yield Finding(WRONG_WAY, f'ring {ring} of face {face} runs the same way round as its outer loop {outer}')


def _places(model: Model, face: int, across: Vector) -> Iterator[Finding]:
    """Rings outside the outer loop, or in other rings."""
    outer, *rings = (_FlatLoop(model, loop, across) for loop in model.faces[face].loops)
    boxes = BoxIndex({ring: ring.box for ring in rings})
    for ring in rings:
        vertex = ring.first_at(Place.OUTSIDE, outer)
        if vertex is not None:
            yield Finding(OUTSIDE, f'ring {ring.number} of face {face} lies outside its outer loop {outer.number}, at vertex {vertex}')
        for other in boxes.meeting(ring.box):
            vertex = ring.first_at(Place.INSIDE, other) if other is not ring else None
            if vertex is not None:
                yield Finding(OUTSIDE, f'ring {ring.number} of face {face} lies inside ring {other.number}, at vertex {vertex}')


class _FlatLoop:
    """A loop as seen from the front of its face."""

    def __init__(self, model: Model, number: int, across: Vector) -> None:
        self.number = number
        first, second = flat_axes(across)
        self._corners = [(vertex, (model.vertices[vertex][first], model.vertices[vertex][second]))
                         for vertex in model.loop_vertices(number)]
        points = [point for _, point in self._corners]
        self.box = box_of(points)
        self._sides = segments(points)

    @cached_property
    def _index(self) -> BoxIndex[int]:
        return BoxIndex({side: box_of(ends) for side, ends in enumerate(self._sides)})

    def _beside(self, point: Flat) -> List[Segment]:
        """The sides that a point lies on, or that a ray from it to the right may meet."""
        if len(self._sides) <= _FEW_SIDES:
            return self._sides
        return [self._sides[side] for side in self._index.meeting(((point[0], self.box[0][1]), (point[1], point[1])))]

    def first_at(self, place: Place, around: '_FlatLoop') -> Optional[int]:
        """The first vertex of the loop that lies at this place against another one, or None."""
        return next((vertex for vertex, point in self._corners if locate(around._beside(point), point) is place), None)
