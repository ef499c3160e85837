"""How the shells of a solid lie in each other, by exact tests."""

from fractions import Fraction
from functools import cached_property
from itertools import count
from typing import Dict, List, NamedTuple, Optional, Sequence

from ..errors import Unfit
from .box_index import Box, BoxIndex, box_of
from .flat_face import FlatFace
from .measures import six_volume
from .model import Model
from .plane_figures import Place
from .vectors import Vector, dot

Shell = List[int]


class Nest(NamedTuple):
    """A shell that holds material, and those that bound hollows in it."""

    outer: Shell
    voids: List[Shell]


class Enclosures:
    """Shells that meet each other at most by touching, and which of them lie in which."""

    def __init__(self, model: Model, shells: Sequence[Shell]) -> None:
        self._model, self._shells = model, shells
        self._walls: Dict[int, _ShellWalls] = {}

    @cached_property
    def _boxes(self) -> List[Box]:
        return [_box(self._model, shell) for shell in self._shells]

    @cached_property
    def _index(self) -> BoxIndex[int]:
        return BoxIndex(dict(enumerate(self._boxes)))

    def around(self, inner: int) -> List[int]:
        """The places of the shells in which a shell lies, rising. Shells must have flat faces with an area."""
        return [place for place in self._beside(inner) if _holds(self._boxes[place], self._boxes[inner]) and self._lies_in(inner, place)]

    def entered(self, inner: int) -> List[int]:
        """As around, for shells that may cross each other: those in which the first corner of a shell lies that isn't on them."""
        return [place for place in self._beside(inner) if self._lies_in(inner, place)]

    def _beside(self, inner: int) -> List[int]:
        """The places of the other shells whose boxes meet that of a shell, rising."""
        if len(self._shells) == 1:
            return []
        return sorted(place for place in self._index.meeting(self._boxes[inner]) if place != inner)

    def _lies_in(self, inner: int, outer: int) -> bool:
        if outer not in self._walls:
            self._walls[outer] = _ShellWalls(self._model, self._shells[outer])
        return _is_within(self._model, self._shells[inner], self._walls[outer])


def lies_in(model: Model, inner: Shell, outer: Shell) -> bool:
    """Whether a shell that meets the other at most by touching it lies within it."""
    return _is_within(model, inner, _ShellWalls(model, outer))


def _is_within(model: Model, inner: Shell, walls: '_ShellWalls') -> bool:
    corners = dict.fromkeys(point for face in inner for point in model.face_points(face))
    places = (walls.place_of(point) for point in corners)
    return next((place for place in places if place is not Place.ON), Place.ON) is Place.INSIDE


def _box(model: Model, shell: Shell) -> Box:
    return box_of({point for face in shell for point in model.face_points(face)})


def _holds(outer: Box, inner: Box) -> bool:
    return all(low <= least and most <= high for (low, high), (least, most) in zip(outer, inner))


def nests(model: Model, solid: int, shells: Optional[Sequence[Shell]] = None) -> List[Nest]:
    """The solid's shells, each void with the least shell around it. The faces are plain flat ones."""
    held = model.shells(solid) if shells is None else shells
    volumes = [six_volume(model, shell) for shell in held]
    for shell, volume in zip(held, volumes):
        if volume == 0:
            raise Unfit(f'the shell of face {shell[0]} of solid {solid} has no volume')
    found = {place: Nest(shell, []) for place, shell in enumerate(held) if volumes[place] > 0}
    enclosures = Enclosures(model, held)
    for place, shell in ((place, shell) for place, shell in enumerate(held) if volumes[place] < 0):
        around = [outer for outer in enclosures.around(place) if outer in found]
        if not around:
            raise Unfit(f'the shell of face {shell[0]} of solid {solid} is inside out, and lies in no other')
        found[min(around, key=lambda outer: volumes[outer])].voids.append(shell)
    return list(found.values())


class _ShellWalls:
    """The faces of a shell, ready for points to be placed against it."""

    def __init__(self, model: Model, faces: Sequence[int]) -> None:
        self._faces = [FlatFace(model, face) for face in faces]
        boxes = [box_of(model.face_points(face)) for face in faces]
        self._shadows = BoxIndex({place: box[:2] for place, box in enumerate(boxes)})

    def place_of(self, point: Vector) -> Place:
        """Where the point lies, by the parity of crossings of a ray that meets no edge: one straight up, which few faces can meet, else
        one of the rays (1, k, k * k), of which at most two lie in any plane through the point, so that only finitely many meet an edge.
        """
        under = [self._faces[place] for place in self._shadows.meeting(((point[0], point[0]), (point[1], point[1])))]
        if any(face.height(point) == 0 and face.locate(point) is not Place.OUTSIDE for face in under):
            return Place.ON
        places = [_hit_above(face, point) for face in under]
        for k in count(3):
            if Place.ON not in places:
                break
            places = [_hit(face, point, (1, k, k * k)) for face in self._faces]
        return Place.INSIDE if places.count(Place.INSIDE) % 2 else Place.OUTSIDE


def _hit_above(face: FlatFace, point: Vector) -> Place:
    """Where the ray straight up from a point meets a face; a face on edge under the ray counts as met on its outline."""
    if face.across[2] == 0:
        return Place.ON if face.height(point) == 0 else Place.OUTSIDE
    return _hit(face, point, (0, 0, 1))


def _hit(face: FlatFace, point: Vector, ray: Vector) -> Place:
    """Where the ray from the point meets the face's plane: in the face, on its outline, or outside of it or not at all."""
    height, slope = face.height(point), dot(face.across, ray)
    if height == 0 or slope == 0 or (height > 0) == (slope > 0):
        return Place.OUTSIDE
    reach = Fraction(-height, slope)
    x, y, z = (start + reach * step for start, step in zip(point, ray))
    return face.locate((x, y, z))
