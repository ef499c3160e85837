"""Slips of a whole solid: faces that meet, and places where it touches itself.

A flat shell, such as a lamina, has faces back to back: what looks one way may lie on what looks the other way.
"""

from fractions import Fraction
from functools import cached_property
from typing import AbstractSet, Dict, FrozenSet, Iterator, List, Mapping, Optional, Sequence, Set, Tuple

from ..errors import Unfit
from ..geometry.box_index import Box, BoxIndex, box_of
from ..geometry.convexity import is_convex
from ..geometry.flat_face import ExactVector, FlatFace
from ..geometry.model import Model
from ..geometry.plane_figures import Place, locate, turn
from ..geometry.touched_edges import TouchedEdges, touched_edges
from ..geometry.triangulation import face_triangles
from ..geometry.vectors import Vector, ZERO, cross, dot, lies_between, reduced, subtract
from .face_checks import FlatFaces, flat_faces
from .findings import CROSSING, MEETING, TOUCHING, Finding
from .near_pairs import near_pairs, own_pairs
from .patches import shells_of_patches
from .shell_checks import shell_findings


class SolidCheck:
    """One solid of a model, made ready for its parts to be compared."""

    def __init__(self, model: Model, solid: int, known: Optional[FlatFaces] = None, apart: bool = False) -> None:
        """What is known of the model's faces is given where that is at hand; and whether no two faces cross or touch, for what they don't share."""
        self._model = model.only(solid)
        self._solid = solid
        self._normals, convex = known or flat_faces(self._model)
        self._flat = {face: self._normals[face] for face in self._model.faces if face in convex}
        self._known_shapes: Dict[int, FlatFace] = {}
        self._inner: Dict[int, Optional[ExactVector]] = {}
        self._pairs = (own_pairs if apart else near_pairs)(self._model, self._flat, convex)
        self._shells = shells_of_patches(self._model, self._pairs.patch_of)
        self._flat_shells = {face: shell[0] for shell in self._shells if self._is_in_one_plane(shell) for face in shell}

    def findings(self) -> Iterator[Finding]:
        """All slips, each with the numbers concerned."""
        yield from self._equal_points()
        yield from self._equal_edges()
        yield from self._vertices_on_edges()
        yield from self._crossing_edges()
        for face in self._pairs.faces:
            yield from self._vertices_on_face(face)
            yield from self._edges_at_face(face)
        yield from self._faces_on_faces()
        if len(self._flat) == len(self._model.faces):
            yield from shell_findings(self._model, self._solid, self._shells, self._normals)

    # What stands ready

    @cached_property
    def _edges(self) -> BoxIndex[int]:
        return BoxIndex({edge: box_of(self._ends(edge)) for edge in self._model.edges})

    @cached_property
    def _vertices(self) -> BoxIndex[int]:
        return BoxIndex({vertex: box_of([point]) for vertex, point in self._model.vertices.items()})

    @cached_property
    def _around(self) -> Dict[int, Set[int]]:
        """The faces around each vertex."""
        around: Dict[int, Set[int]] = {vertex: set() for vertex in self._model.vertices}
        for face in self._model.faces:
            for vertex in self._model.face_vertices(face):
                around[vertex].add(face)
        return around

    def _edges_to_see(self, known: Mapping[int, AbstractSet[int]]) -> List[int]:
        """The edges that may touch or cross something, rising: those known to, and those of which nothing is known."""
        return sorted(self._pairs.open_edges.union(known))

    def _vertices_near_edge(self, edge: int) -> List[int]:
        """The vertices that may lie on an edge, rising."""
        if edge in self._pairs.open_edges:
            return sorted(self._vertices.meeting(box_of(self._ends(edge))))
        return sorted(self._pairs.vertices_on_edge.get(edge, ()))

    def _edges_near_edge(self, edge: int) -> List[int]:
        """The edges of greater numbers that may cross an edge, rising."""
        if edge in self._pairs.open_edges:
            return sorted(other for other in self._edges.meeting(box_of(self._ends(edge))) if other > edge)
        return sorted(self._pairs.edges_across.get(edge, ()))

    def _vertices_near_face(self, face: int) -> List[int]:
        """The vertices that may lie on a face, rising."""
        return sorted(self._pairs.vertices_at_face.get(face, ()))

    def _edges_near_face(self, face: int) -> List[int]:
        """The edges that may meet a face, rising."""
        return sorted(self._pairs.edges_at_face.get(face, ()))

    def _box(self, face: int) -> Box:
        return box_of(self._model.face_points(face))

    def _shape(self, face: int) -> FlatFace:
        """A flat face as a region of its plane, made once."""
        if face not in self._known_shapes:
            self._known_shapes[face] = FlatFace(self._model, face, self._flat[face])
        return self._known_shapes[face]

    @cached_property
    def _touched(self) -> TouchedEdges:
        return touched_edges(self._model)

    def _ends(self, edge: int) -> Tuple[Vector, Vector]:
        start, end = self._model.edges[edge]
        return (self._model.vertices[start], self._model.vertices[end])

    def _faces_beside(self, edge: int) -> FrozenSet[int]:
        return frozenset((self._model.face_of(edge), self._model.face_of(-edge)))

    def _is_in_one_plane(self, shell: List[int]) -> bool:
        """Whether the normals of a shell's faces that aren't zero lie in one line."""
        normals = [across for across in map(self._normals.__getitem__, shell) if across != ZERO]
        return all(cross(normals[0], across) == ZERO for across in normals)

    def _are_back_to_back(self, some: AbstractSet[int], others: AbstractSet[int]) -> bool:
        """Whether both are faces of one flat shell, and none of the first looks as one of the others does."""
        homes = {self._flat_shells.get(face) for face in some | others}
        if len(homes) != 1 or None in homes:
            return False
        return not any(self._look_alike(face, other) for face in some for other in others)

    def _look_alike(self, face: int, other: int) -> bool:
        return dot(self._normals[face], self._normals[other]) > 0

    # Vertices and edges

    @cached_property
    def _first_there(self) -> Dict[int, int]:
        """For each vertex the first one at its point."""
        first: Dict[Vector, int] = {}
        return {vertex: first.setdefault(point, vertex) for vertex, point in self._model.vertices.items()}

    @cached_property
    def _are_points_different(self) -> bool:
        return len(set(self._model.vertices.values())) == len(self._model.vertices)

    def _are_edges_different(self) -> bool:
        """Whether no two edges have the same two vertices: each pair is taken as one number, which takes less time."""
        ends, far = self._model.edges.values(), max(self._model.vertices) + 1
        return len({one * far + other if one < other else other * far + one for one, other in ends}) == len(ends)

    def _equal_points(self) -> Iterator[Finding]:
        first: Dict[Vector, int] = {}
        for vertex, point in self._model.vertices.items() if not self._are_points_different else ():
            if point in first:
                yield Finding(TOUCHING, f'vertices {first[point]} and {vertex} of solid {self._solid} lie at one point')
            first.setdefault(point, vertex)

    def _equal_edges(self) -> Iterator[Finding]:
        if self._are_points_different and self._are_edges_different():
            return
        first: Dict[Tuple[int, int], int] = {}
        there = self._first_there
        for edge, (one, other) in self._model.edges.items():
            start, end = there[one], there[other]
            beside = first.setdefault((start, end) if start < end else (end, start), edge)
            if beside != edge and not self._are_back_to_back(self._faces_beside(edge), self._faces_beside(beside)):
                yield Finding(TOUCHING, f'edges {beside} and {edge} of solid {self._solid} lie on each other')

    def _vertices_on_edges(self) -> Iterator[Finding]:
        for edge in self._edges_to_see(self._pairs.vertices_on_edge):
            start, end = self._ends(edge)
            for vertex in self._vertices_near_edge(edge):
                if (lies_between(start, end, self._model.vertices[vertex]) and not self._are_back_to_back(
                        self._around[vertex], self._faces_beside(edge))):
                    yield Finding(TOUCHING, f'vertex {vertex} lies on edge {edge}')

    def _crossing_edges(self) -> Iterator[Finding]:
        for edge in self._edges_to_see(self._pairs.edges_across):
            for other in self._edges_near_edge(edge):
                if _cross_between(*self._ends(edge), *self._ends(other)):
                    yield from self._crossing(edge, other)

    def _crossing(self, edge: int, other: int) -> Iterator[Finding]:
        beside, beyond = self._faces_beside(edge), self._faces_beside(other)
        if beside & beyond:
            yield Finding(CROSSING, f'edges {edge} and {other} of face {min(beside & beyond)} cross')
        elif not self._are_back_to_back(beside, beyond):
            yield Finding(MEETING, f'edges {edge} and {other} cross')

    # Faces

    def _vertices_on_face(self, face: int) -> Iterator[Finding]:
        shape = self._shape(face)
        for vertex in self._vertices_near_face(face):
            point = self._model.vertices[vertex]
            if (face not in self._around[vertex] and shape.height(point) == 0 and shape.locate(point) is Place.INSIDE
                    and not self._are_back_to_back(self._around[vertex], {face})):
                yield Finding(TOUCHING, f'vertex {vertex} lies on face {face}')

    def _edges_at_face(self, face: int) -> Iterator[Finding]:
        shape = self._shape(face)
        for edge in self._edges_near_face(face):
            if face in self._faces_beside(edge):
                continue
            start, end = self._ends(edge)
            before, after = shape.height(start), shape.height(end)
            if before < 0 < after or after < 0 < before:
                if _passes_through(shape, start, end, before, after):
                    yield Finding(MEETING, f'edge {edge} passes through face {face}')
            elif (before == after == 0 and _runs_within(shape, start, end)
                    and not self._are_back_to_back(self._faces_beside(edge), {face})):
                yield Finding(TOUCHING, f'edge {edge} runs along face {face}')

    def _faces_on_faces(self) -> Iterator[Finding]:
        """Faces of one plane where one has a point within the other; edges that cross or run along faces are found by then."""
        for faces in self._faces_by_planes():
            for face, other in self._pairs_apart(faces):
                if self._overlap(face, other):
                    yield from self._overlapping(face, other)

    def _pairs_apart(self, faces: Sequence[int]) -> Iterator[Tuple[int, int]]:
        """The pairs of these faces that are of two patches and whose boxes meet, the lesser one first, rising."""
        patches: Dict[int, Dict[int, Box]] = {}
        for face in faces:
            patches.setdefault(self._pairs.patch_of[face], {})[face] = self._box(face)
        if len(patches) == 1:
            return
        around = BoxIndex({patch: box_of(corner for box in held.values() for corner in zip(*box)) for patch, held in patches.items()})
        within: Dict[int, BoxIndex[int]] = {}
        for face in faces:
            patch = self._pairs.patch_of[face]
            box, found = patches[patch][face], []
            for other in around.meeting(box):
                if other != patch:
                    within[other] = within.get(other) or BoxIndex(patches[other])
                    found += [beside for beside in within[other].meeting(box) if beside > face]
            yield from ((face, other) for other in sorted(found))

    def _overlap(self, face: int, other: int) -> bool:
        pairs = (face, other), (other, face)
        if any(self._shape(one).is_apart_from(self._model.face_points(beside)) for one, beside in pairs):
            return False
        return any(point is not None and self._shape(around).locate(point) is Place.INSIDE
                   for point, around in ((self._inner_point(one), beside) for one, beside in pairs))

    def _overlapping(self, face: int, other: int) -> Iterator[Finding]:
        if not self._are_back_to_back({face}, {other}):
            yield Finding(MEETING if self._look_alike(face, other) else TOUCHING, f'faces {face} and {other} lie on each other')

    def _faces_by_planes(self) -> List[List[int]]:
        planes: Dict[Tuple[Vector, int], List[int]] = {}
        for face in self._pairs.faces:
            shape = self._shape(face)
            across = reduced(shape.across)
            across = max(across, (-across[0], -across[1], -across[2]))
            planes.setdefault((across, dot(across, shape.origin)), []).append(face)
        return [faces for faces in planes.values() if len(faces) > 1]

    def _inner_point(self, face: int) -> Optional[ExactVector]:
        """A point within a face, looked for once; None where there is none."""
        if face not in self._inner:
            self._inner[face] = self._new_inner_point(face)
        return self._inner[face]

    def _new_inner_point(self, face: int) -> Optional[ExactVector]:
        touched = {} if is_convex(self._model, face, self._normals[face]) else self._touched
        try:
            corners = [self._model.vertices[vertex] for vertex in face_triangles(self._model, face, touched)[0]]
        except Unfit:
            return None
        x, y, z = (Fraction(sum(axis), 3) for axis in zip(*corners))
        return (x, y, z)


def _on_way(start: Vector, end: Vector, way: Fraction) -> ExactVector:
    x, y, z = (a + way * (b - a) for a, b in zip(start, end))
    return (x, y, z)


def _cross_between(a: Vector, b: Vector, c: Vector, d: Vector) -> bool:
    """Whether the segments a b and c d have one point in common that is an end of neither."""
    along, beyond, way = subtract(b, a), subtract(d, c), subtract(c, a)
    across = cross(along, beyond)
    if across == ZERO or dot(across, way) != 0:
        return False
    whole = dot(across, across)
    return 0 < dot(cross(way, beyond), across) < whole and 0 < dot(cross(way, along), across) < whole


def _passes_through(shape: FlatFace, start: Vector, end: Vector, before: int, after: int) -> bool:
    """Whether a segment, whose ends have these heights of different signs, meets the face's plane within the face. All numbers are whole: the point
    and the face are multiplied by the difference of the heights."""
    (ax, ay), (bx, by), most = shape.flatten(start), shape.flatten(end), abs(before - after)
    low, high = abs(after), abs(before)
    point = (ax * low + bx * high, ay * low + by * high)
    return locate((((x * most, y * most), (u * most, v * most)) for (x, y), (u, v) in shape.sides), point) is Place.INSIDE


def _runs_within(shape: FlatFace, start: Vector, end: Vector) -> bool:
    """Whether a part of a segment in the face's plane lies within the face."""
    if shape.is_apart_from((start, end)):
        return False
    a, b = shape.flatten(start), shape.flatten(end)
    cuts = {Fraction(0), Fraction(1)}
    for c, d in shape.sides:
        before, after = turn(c, d, a), turn(c, d, b)
        if before != after:
            cuts.add(min(max(Fraction(before, before - after), Fraction(0)), Fraction(1)))
    ways = sorted(cuts)
    return any(shape.locate(_on_way(start, end, (one + other) / 2)) is Place.INSIDE for one, other in zip(ways, ways[1:]))
