"""Which vertices and edges of a solid come so near to a face or an edge that they may touch or cross it: all others are left out.

Faces of one patch don't meet. So space is divided into cells, and a cell with one patch alone is passed over. For each face in the other cells,
the box of the face is searched for the vertices in its plane, and for the edges that lie in that plane or pass through it. Whatever lies on an
edge, or crosses it between its ends, is found at the faces beside that edge: it lies in their planes, or passes through them.
"""

from itertools import chain, combinations, product
from math import isqrt
from typing import Dict, Iterator, List, Mapping, NamedTuple, Optional, Sequence, Set, Tuple

from ..geometry.box_index import Box, BoxIndex, box_of, boxes_meet
from ..geometry.measures import anchor
from ..geometry.model import Model
from ..geometry.vectors import Vector, dot
from .patches import patches

# If a face has more corners, only those pairs of its edges are taken whose boxes meet.
_MANY_CORNERS = 8
# About so many faces of a surface lie in a cell.
_IN_CELL = 12
# The mean is taken of about so many faces.
_LOOKED_AT = 1000

_Cell = Tuple[int, ...]


class NearPairs(NamedTuple):
    """The flat faces that may meet others; by face the vertices and the edges that may touch or cross it; by edge those that may touch or cross
    it. Of `open_edges`, which have no flat face beside them, nothing is known. Faces of one patch don't meet."""

    faces: List[int]
    patch_of: Dict[int, int]
    vertices_at_face: Dict[int, List[int]]
    edges_at_face: Dict[int, List[int]]
    vertices_on_edge: Dict[int, Set[int]]
    edges_across: Dict[int, Set[int]]
    open_edges: Set[int]


def near_pairs(model: Model, normals: Mapping[int, Vector], convex: Optional[Mapping[int, bool]] = None) -> NearPairs:
    """The pairs of a solid; `normals` are those of its flat faces with an area, and `convex` says which are convex, where that is known."""
    near = _NearFaces(model, normals, convex)
    found = NearPairs(near.faces, near.patch_of, {}, {}, {}, {}, _open_edges(model, normals))
    for face in normals:
        if not near.convex[face]:
            _put_own(found, model, face)
    for face in near.faces:
        _put(found, model, face, *near.at(face, normals[face]))
    return found


def own_pairs(model: Model, normals: Mapping[int, Vector], convex: Optional[Mapping[int, bool]] = None) -> NearPairs:
    """The same where no two faces have a point in common that they don't share: pairs within one face alone."""
    known = patches(model, normals, convex)
    found = NearPairs([], {**{face: -face for face in model.faces}, **known.patch_of}, {}, {}, {}, {}, _open_edges(model, normals))
    for face in normals:
        if not known.convex[face]:
            _put_own(found, model, face)
    return found


def _open_edges(model: Model, normals: Mapping[int, Vector]) -> Set[int]:
    """The edges that have no face beside them whose normal is given."""
    if len(normals) == len(model.faces):
        return set()
    return {edge for edge in model.edges if model.face_of(edge) not in normals and model.face_of(-edge) not in normals}


def _beside_others(model: Model, patch_of: Mapping[int, int]) -> List[int]:
    """The faces that lie in a cell with one of another patch."""
    width, depth, height = _cell_sizes(model)
    numbers: Dict[_Cell, int] = {}
    number_of = {vertex: numbers.setdefault((x // width, y // depth, z // height), len(numbers)) for vertex, (x, y, z) in model.vertices.items()}
    cells, cell_number = list(numbers), number_of.__getitem__
    # For each face the numbers of its corners' cells: many faces have the same ones.
    places = [frozenset(map(cell_number, model.face_vertices(face) if row.rings else model.outlines[row.outer])) for face, row in model.faces.items()]
    held = {place: _cells([cells[number] for number in place]) for place in set(places)}
    owners: Dict[_Cell, int] = {}
    shared: Set[_Cell] = set()
    for place, patch in set(zip(places, map(patch_of.__getitem__, model.faces))):
        shared.update([cell for cell in held[place] if owners.setdefault(cell, patch) != patch])
    beside = {place for place, around in held.items() if not shared.isdisjoint(around)}
    return [face for face, place in zip(model.faces, places) if place in beside]


def _cell_sizes(model: Model) -> List[int]:
    """The sizes of a cell along the axes: those that leave so many faces of a surface in each, but no less than faces have in the mean."""
    some = list(model.faces)[::1 + len(model.faces) // _LOOKED_AT]
    boxes = [box_of(model.face_points(face)) for face in some]
    per_axis = max(1, isqrt(len(model.faces) // (6 * _IN_CELL)))
    means = [sum(high - low for low, high in axis) // len(boxes) for axis in zip(*boxes)]
    return [int(max((high - low) // per_axis, mean)) + 1 for (low, high), mean in zip(box_of(model.vertices.values()), means)]


def _cells(corners: Sequence[_Cell]) -> Tuple[_Cell, ...]:
    """The cells of the least box around cells."""
    return tuple(product(*[range(min(axis), max(axis) + 1) for axis in zip(*corners)]))


class _NearFaces:
    """The flat faces of a solid that may meet others, and the edges that may meet them."""

    def __init__(self, model: Model, normals: Mapping[int, Vector], convex: Optional[Mapping[int, bool]]) -> None:
        self._model = model
        known = patches(model, normals, convex)
        self.convex = known.convex
        self.patch_of = patch_of = {**{face: -face for face in model.faces}, **known.patch_of}
        self._lone = [loop.vertex for loop in model.loops.values() if loop.vertex is not None]
        near = list(model.faces) if self._lone else _beside_others(model, patch_of)
        self.faces = [face for face in near if face in normals]
        self._face_boxes = {face: box_of(model.face_points(face)) for face in self.faces}
        edges = {abs(half) for face in near for half in model.face_halves(face)}
        self._patches = {edge: (patch_of[model.face_of(edge)], patch_of[model.face_of(-edge)]) for edge in edges}
        points, ends = model.vertices, model.edges
        self._boxes = {edge: box_of((points[ends[edge][0]], points[ends[edge][1]])) for edge in edges}
        self._index = BoxIndex(self._boxes, isqrt(len(edges)) // 3)

    def at(self, face: int, across: Vector) -> Tuple[List[int], List[int]]:
        """The vertices of other patches in the plane of a face, and the edges of other patches that lie in it or pass through it, within its box."""
        box, patch, patches_of = self._face_boxes[face], self.patch_of[face], self._patches
        near = [edge for edge in self._index.near(box) if patch not in patches_of[edge]]
        if not near and not self._lone:
            return [], []
        points, ends, corners = self._model.vertices, self._model.edges, set(self._model.face_vertices(face))
        (a, b, c), level = across, dot(across, anchor(self._model, face))
        beside = {*self._lone, *chain.from_iterable(map(ends.__getitem__, near))}
        heights = {vertex: a * x + b * y + c * z - level for vertex in beside for x, y, z in [points[vertex]]}
        through = []
        for edge in near:
            start, end = ends[edge]
            first, last = heights[start], heights[end]
            if (first < 0 < last or last < 0 < first or first == last == 0) and boxes_meet(self._boxes[edge], box):
                through.append(edge)
        flat = [vertex for vertex, height in heights.items() if height == 0 and vertex not in corners and boxes_meet(box_of((points[vertex],)), box)]
        return flat, through


def _put(found: NearPairs, model: Model, face: int, flat: List[int], through: List[int]) -> None:
    """The vertices in the plane of a face and the edges in it or through it, for the face and for each of its sides."""
    if flat:
        found.vertices_at_face[face] = flat
    if through:
        found.edges_at_face[face] = through
    for half in model.face_halves(face) if flat or through else ():
        side = abs(half)
        found.vertices_on_edge.setdefault(side, set()).update(flat)
        for edge in through:
            found.edges_across.setdefault(min(side, edge), set()).add(max(side, edge))


def _put_own(found: NearPairs, model: Model, face: int) -> None:
    """The pairs within one face."""
    sides = sorted({abs(half) for half in model.face_halves(face)})
    boxes = {side: box_of((model.point(side), model.point(-side))) for side in sides}
    lone = [vertex for loop in model.faces[face].rings if model.loops[loop].is_lone for vertex in model.loop_vertices(loop)]
    for side in sides if lone else ():
        found.vertices_on_edge.setdefault(side, set()).update(lone)
    for one, other in combinations(sides, 2) if len(sides) <= _MANY_CORNERS else _meeting(boxes):
        found.edges_across.setdefault(one, set()).add(other)
        for side, beside in ((one, other), (other, one)):
            found.vertices_on_edge.setdefault(side, set()).update(model.edges[beside])


def _meeting(boxes: Mapping[int, Box]) -> Iterator[Tuple[int, int]]:
    """The pairs of edges whose boxes meet, the lesser one first."""
    index = BoxIndex(boxes, isqrt(len(boxes)))
    return ((one, other) for one, box in boxes.items() for other in index.meeting(box) if other > one)
