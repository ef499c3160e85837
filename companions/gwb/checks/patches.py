"""Patches of a surface that can't meet themselves: faces beside each other that all look the same way, with an outline that doesn't cross itself
as seen from there.

A patch grows from a face across edges, and stays a disc: each face that is added shares with it one way along its edges. The faces are convex and
all run counterclockwise as the viewer sees them, so each point is covered as often as the outline goes round it, which is once.
"""

from operator import neg
from typing import Dict, List, Mapping, NamedTuple, Optional, Sequence, Set, Tuple

from ..geometry.convexity import is_convex
from ..geometry.joined_sets import JoinedSets
from ..geometry.model import Model
from ..geometry.plane_figures import Flat
from ..geometry.vectors import Vector
from .simple_paths import is_simple

# Outlines of more faces aren't tried; each that crosses itself makes those tried after it smaller.
_MOST_FACES = 262_144


class Patches(NamedTuple):
    """For each face the number of its patch, and whether it is a convex triangle or quadrilateral. Faces of one patch meet only where the model
    says so: in edges and corners that they share."""

    patch_of: Dict[int, int]
    convex: Mapping[int, bool]


def patches(model: Model, normals: Mapping[int, Vector], convex: Optional[Mapping[int, bool]] = None) -> Patches:
    """The patches of the faces whose normals are given, which are flat and have an area; `convex` says which are, where that is known."""
    if convex is None:
        convex = {face: is_convex(model, face, across) for face, across in normals.items()}
    growing = _Growing(model, normals, convex)
    for face in normals:
        if face not in growing.patch_of:
            growing.grow(face)
    return Patches(growing.patch_of, convex)


def shells_of_patches(model: Model, patch_of: Mapping[int, int]) -> List[List[int]]:
    """The faces in connected parts, by their least faces. A patch is connected, so those with an edge between them are joined."""
    patch, joined = patch_of.__getitem__, JoinedSets()
    for one, other in set(zip(map(patch, model.faces_at(model.edges)), map(patch, model.faces_at(map(neg, model.edges))))):
        joined.join(one, other)
    name_of = {number: joined.name(number) for number in set(patch_of.values())}
    shells: Dict[int, List[int]] = {}
    for face in model.faces:
        shells.setdefault(name_of[patch_of[face]], []).append(face)
    return list(shells.values())


class _Growing:
    """Faces that are put into patches."""

    def __init__(self, model: Model, normals: Mapping[int, Vector], convex: Mapping[int, bool]) -> None:
        self._model, self._normals = model, normals
        # The convex faces that are in no patch yet.
        self._free = {face for face in normals if convex[face]}
        self._most = _MOST_FACES
        self._count = 0
        self.patch_of: Dict[int, int] = {}

    def grow(self, seed: int) -> None:
        """Makes one more patch, from a face that is in none."""
        faces, way = self._disc(seed) if seed in self._free else ([seed], _signs(self._normals[seed]))
        while len(faces) > 1 and not is_simple(self._outline(faces, way)):
            self._free.update(faces[len(faces) // 2:])
            del faces[len(faces) // 2:]
            self._most = 2 * len(faces)
        self._count += 1
        self.patch_of.update(dict.fromkeys(faces, self._count))

    def _disc(self, seed: int) -> Tuple[List[int], Vector]:
        """Faces of a disc, in an order in which any first ones are a disc too, which are free no more; and the signs of the parts of their normals,
        0 where all are 0. What is added has edges in common with the disc that follow one another, and no corner beside them."""
        model, normals, free = self._model, self._normals, self._free
        rows, outlines, faces_beyond = model.faces, model.outlines, model.faces_beyond
        faces: Dict[int, None] = {}
        corners: Set[int] = set()
        way, beside = _signs(normals[seed]), [seed]
        for face in beside:
            signs = _common(way, normals[face]) if face in free and len(faces) < self._most else None
            if signs is None:
                continue
            loop = rows[face].outer
            outline, beyond = outlines[loop], faces_beyond(loop)
            new = [other for other in beyond if other not in faces]
            if faces and sum(map(corners.__contains__, outline)) != 1 + len(beyond) - len(new):
                continue
            way = signs
            faces[face] = None
            free.discard(face)
            corners.update(outline)
            beside += new
        return list(faces), way

    def _outline(self, faces: Sequence[int], way: Vector) -> List[Flat]:
        """The corners of the outline of a disc in their order, as seen from far away on this way."""
        model = self._model
        rim = model.rim(faces)
        after = dict(zip(model.tails(rim), model.tails(map(neg, rim))))
        start = next(iter(after))
        vertices, vertex = [start], after[start]
        while vertex != start:
            vertices.append(vertex)
            vertex = after[vertex]
        return [_seen(model.vertices[vertex], way) for vertex in vertices]


def _signs(vector: Vector) -> Vector:
    x, y, z = ((part > 0) - (part < 0) for part in vector)
    return (x, y, z)


def _common(way: Vector, across: Vector) -> Optional[Vector]:
    """The signs of the parts of both, or None where they have different ones."""
    (x, y, z), (a, b, c) = way, across
    if x * a < 0 or y * b < 0 or z * c < 0:
        return None
    return way if x and y and z else (x or (a > 0) - (a < 0), y or (b > 0) - (b < 0), z or (c > 0) - (c < 0))


def _seen(point: Vector, way: Vector) -> Flat:
    """Where a point is seen in a plane across a way; what lies behind one another on that way is seen in one place."""
    (x, y, z), (a, b, c) = point, way
    if c:
        return (c * x - a * z, c * y - b * z)
    return (b * x - a * y, z) if b else (y, z)
