"""Solids all of whose faces are seen from behind, from one point within: nothing of them touches or crosses anything else of them.

Seen from that point, each face covers a part of the sky, and is not folded there. Faces beside each other lie on the two sides of their edge, so
every direction is covered equally often. Where one ray meets one face, that is once: then two faces are seen in one direction only where they
have a corner or an edge in common. So all convex bodies are found, and many others, at the cost of their edges.
"""

from fractions import Fraction
from itertools import chain
from operator import itemgetter
from typing import Mapping, Sequence

from ..geometry.convexity import is_convex
from ..geometry.flat_face import FlatFace
from ..geometry.measures import anchor
from ..geometry.model import Model
from ..geometry.plane_figures import Place
from ..geometry.vectors import Vector, cross, dot, subtract
from .face_checks import is_flat
from .simple_paths import is_simple

# The point within is taken to such a part of a unit.
_FINEST = 64


def is_star(model: Model, solid: int, normals: Mapping[int, Vector]) -> bool:
    """Whether a solid is one body whose faces look out, and meet only where the model says so; `normals` are those of its faces."""
    faces = model.faces_of(solid)
    if any(model.faces[face].rings for face in faces):
        return False
    sky = _Sky(model, faces, normals)
    return all(map(sky.is_seen_from_behind, faces)) and sky.is_covered_once() and all(map(sky.is_unfolded, faces))


class _Sky:
    """The faces of a solid as they are seen from the mean of their corners, or a point near it. All points are multiplied by the scale."""

    def __init__(self, model: Model, faces: Sequence[int], normals: Mapping[int, Vector]) -> None:
        self._model, self._faces, self._normals = model, faces, normals
        outlines = [model.outlines[model.faces[face].outer] for face in faces]
        corners = [model.vertices[vertex] for vertex in set(chain.from_iterable(outlines))]
        self._scale = min(_FINEST, len(corners))
        x, y, z = (self._scale * sum(map(itemgetter(axis), corners)) // len(corners) for axis in range(3))
        self._eye = (x, y, z)

    def is_seen_from_behind(self, face: int) -> bool:
        """Whether a face has an area, and the eye lies behind its plane."""
        return self._depth(face) > 0

    def is_unfolded(self, face: int) -> bool:
        """Whether a face with an area is flat, and its outline doesn't meet itself."""
        across = self._normals[face]
        if not is_flat(self._model, face, across):
            return False
        return is_convex(self._model, face, across) or is_simple([(x, y) for (x, y), _ in FlatFace(self._model, face, across).sides])

    def is_covered_once(self) -> bool:
        """Whether the ray to the middle of the first face meets one face, and on no edge."""
        corners = self._model.face_points(self._faces[0])
        x, y, z = (self._scale * sum(axis) - len(corners) * part for axis, part in zip(zip(*corners), self._eye))
        return sum(self._is_met(face, (x, y, z)) for face in self._faces) == 1

    def _depth(self, face: int) -> int:
        """How far the eye lies behind the plane of a face, in lengths of its normal."""
        across = self._normals[face]
        return self._scale * dot(across, anchor(self._model, face)) - dot(across, self._eye)

    def _is_met(self, face: int, ray: Vector) -> bool:
        """Whether a ray from the eye meets a face or its outline."""
        across = self._normals[face]
        slope, depth, scale = dot(across, ray), self._depth(face), self._scale
        if slope <= 0:
            return False
        if is_convex(self._model, face, across):
            ways = [subtract((scale * x, scale * y, scale * z), self._eye) for x, y, z in self._model.face_points(face)]
            return all(dot(ray, cross(ways[place - 1], way)) >= 0 for place, way in enumerate(ways))
        x, y, z = (Fraction(here * slope + part * depth, slope * scale) for here, part in zip(self._eye, ray))
        return FlatFace(self._model, face, across).locate((x, y, z)) is not Place.OUTSIDE
