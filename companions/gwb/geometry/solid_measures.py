"""Exact measures of a solid of a model: its box, volume, centroid, moments, areas, lengths and distances.

Integrals over a solid are sums over its boundary, by the divergence theorem: each face is a signed sum of triangles between a corner of it and
its edges, which make tetrahedra with the origin. The moments of a tetrahedron are those of F. Tonon, Explicit Exact Formulas for the 3-D
Tetrahedron Inertia Tensor in Terms of its Vertex Coordinates (2005). Faces must be flat; then each sum is exact.
"""

from dataclasses import dataclass
from fractions import Fraction
from math import isqrt
from typing import Dict, Iterator, List, Optional, Tuple, Union

from ..errors import Unfit
from .box_index import box_of
from .crossings import require_part
from .flat_face import ExactVector
from .measures import anchor, normal, six_volume, why_unfit
from .model import Model
from .vectors import Vector, ZERO, cross, dot, subtract

ExactPoint = Tuple[Fraction, Fraction, Fraction]
_Triangle = Tuple[Vector, Vector, Vector]


class NoVolume(Unfit):
    """The solid encloses no volume, so that it has no centroid."""


class NotParallel(Unfit):
    """Two faces aren't parallel, so that they have no distance from plane to plane."""


@dataclass(frozen=True)
class BoundingBox:
    """The least box with sides along the axes around a solid."""

    low: ExactVector
    high: ExactVector

    @property
    def sizes(self) -> ExactVector:
        """Its sizes along x, y and z."""
        (x, y, z), (u, v, w) = self.low, self.high
        return (u - x, v - y, w - z)


@dataclass(frozen=True)
class Inertia:
    """The moments of inertia of a solid of density one about axes through a point along x, y and z, in the fifth power of the unit."""

    about: ExactPoint
    moments: ExactPoint
    """About the axes along x, y and z; the diagonal of the matrix."""
    products: ExactPoint
    """Minus the integrals of y z, x z and x y, from the point: the elements of the matrix beside the diagonal."""

    @property
    def matrix(self) -> Tuple[ExactPoint, ExactPoint, ExactPoint]:
        """The symmetric matrix of moments and products."""
        (x, y, z), (yz, xz, xy) = self.moments, self.products
        return ((x, xy, xz), (xy, y, yz), (xz, yz, z))


def bounding_box(model: Model, solid: int) -> BoundingBox:
    """The least box around the solid. Raises NoPart."""
    (x, u), (y, v), (z, w) = box_of({point for face in _faces(model, solid) for point in model.face_points(face)})
    return BoundingBox((int(x), int(y), int(z)), (int(u), int(v), int(w)))


def volume(model: Model, solid: int) -> Fraction:
    """The volume; negative where the solid is inside out. Raises NoPart; Unfit where a face isn't plain and flat."""
    faces = _faces(model, solid)
    for face in faces:
        _require_plain(model, face)
    return Fraction(six_volume(model, faces), 6)


def centroid(model: Model, solid: int) -> ExactPoint:
    """The centre of mass of a solid of even density. Raises NoPart; Unfit where a face isn't plain and flat; NoVolume."""
    six, first, _ = _sums(model, solid)
    if six == 0:
        raise NoVolume(f'solid {solid} encloses no volume: it has no centroid')
    x, y, z = (Fraction(part, 4 * six) for part in first)
    return (x, y, z)


def inertia(model: Model, solid: int, about: Optional[ExactVector] = None) -> Inertia:
    """The moments of inertia about a point, or else about the centroid.

    Raises NoPart; Unfit where a face isn't plain and flat; without a point also NoVolume.
    """
    centre = centroid(model, solid) if about is None else (Fraction(about[0]), Fraction(about[1]), Fraction(about[2]))
    six, first, second = _sums(model, solid)
    mass, shift = Fraction(six, 6), [Fraction(part, 24) for part in first]
    moments = {(i, j): Fraction(second[i, j], 120) - centre[i] * shift[j] - centre[j] * shift[i] + centre[i] * centre[j] * mass
               for i, j in second}
    total = moments[0, 0] + moments[1, 1] + moments[2, 2]
    x, y, z = (total - moments[axis, axis] for axis in range(3))
    return Inertia(centre, (x, y, z), (-moments[1, 2], -moments[0, 2], -moments[0, 1]))


def square_area(model: Model, face: int) -> Fraction:
    """The square of the area of a face. Raises NoPart; Unfit where the face isn't plain and flat."""
    _require_plain(model, face)
    across = normal(model, face)
    return Fraction(dot(across, across), 4)


def area(model: Model, face: int) -> float:
    """The area of a face, rounded: the root of square_area. Raises as it does."""
    return _root(square_area(model, face))


def surface_area(model: Model, solid: int) -> float:
    """The area of all faces of the solid, rounded. Raises NoPart; Unfit where a face isn't plain and flat."""
    return sum(area(model, face) for face in _faces(model, solid))


def square_length(model: Model, edge: int) -> int:
    """The square of the length of an edge. Raises NoPart."""
    require_part(model.edges, 'edge', edge)
    along = subtract(model.point(-edge), model.point(edge))
    return dot(along, along)


def length(model: Model, edge: int) -> float:
    """The length of an edge, rounded: the root of square_length. Raises NoPart."""
    return _root(Fraction(square_length(model, edge)))


def square_distance(model: Model, face: int, other: int) -> Fraction:
    """The square of the distance of the planes of two parallel faces, whichever ways they look.

    Raises NoPart; Unfit where a face isn't plain and flat; NotParallel.
    """
    _require_plain(model, face)
    _require_plain(model, other)
    across = normal(model, face)
    if cross(across, normal(model, other)) != ZERO:
        raise NotParallel(f"faces {face} and {other} aren't parallel")
    return Fraction(dot(across, subtract(anchor(model, other), anchor(model, face))) ** 2, dot(across, across))


def distance(model: Model, face: int, other: int) -> float:
    """The distance of the planes of two parallel faces, rounded. Raises as square_distance does."""
    return _root(square_distance(model, face, other))


def root(square: Fraction) -> Union[Fraction, float]:
    """The root of a square, as a fraction where it is one, else rounded."""
    exact = Fraction(isqrt(square.numerator), isqrt(square.denominator))
    return exact if exact * exact == square else _root(square)


def _root(square: Fraction) -> float:
    """The root, exact where it is a whole number or a ratio of two that a float holds; else within two units of the last place."""
    shift = max(0, 128 - square.numerator.bit_length() + square.denominator.bit_length())
    root = isqrt(square.numerator * square.denominator << 2 * shift)
    return float(Fraction(root, square.denominator << shift))


def _faces(model: Model, solid: int) -> List[int]:
    require_part(model.solids, 'solid', solid)
    return model.faces_of(solid)


def _require_plain(model: Model, face: int) -> None:
    require_part(model.faces, 'face', face)
    why = why_unfit(model, face)
    if why is not None:
        raise Unfit(why)


def _triangles(model: Model, solid: int) -> Iterator[_Triangle]:
    """Triangles that make tetrahedra with the origin whose signed sum is the solid."""
    for face in _faces(model, solid):
        _require_plain(model, face)
        top = anchor(model, face)
        for half in model.face_halves(face):
            yield (top, model.point(half), model.point(-half))


def _sums(model: Model, solid: int) -> Tuple[int, List[int], Dict[Tuple[int, int], int]]:
    """6 times the volume, 24 times the integrals of x, y, z, and 120 times those of their products, over the solid."""
    six, first = 0, [0, 0, 0]
    second = {(i, j): 0 for i in range(3) for j in range(i, 3)}
    for corners in _triangles(model, solid):
        weight = dot(corners[0], cross(corners[1], corners[2]))
        sums = [corners[0][axis] + corners[1][axis] + corners[2][axis] for axis in range(3)]
        six += weight
        first = [part + weight * own for part, own in zip(first, sums)]
        second = {(i, j): part + weight * (sums[i] * sums[j] + sum(corner[i] * corner[j] for corner in corners))
                  for (i, j), part in second.items()}
    return six, first, second
