"""Planes a x + b y + c z + d = 0, and where they cross the edges of a solid, exactly."""

from fractions import Fraction
from math import gcd
from typing import Container, Iterator, List, NamedTuple, Tuple

from ..errors import CompanionError
from ..meanings import NUMBERS, refusal
from .flat_face import ExactVector
from .model import Model
from .vectors import Vector, ZERO, dot

Plane = Tuple[int, int, int, int]


class NoPart(CompanionError, LookupError):
    """The model has no solid, face or edge of the number."""


class Crossing(NamedTuple):
    """An edge whose ends lie on opposite sides of a plane; `along` is where it is met: 0 at its start, 1 at its end."""

    edge: int
    start: Vector
    end: Vector
    along: Fraction

    @property
    def point(self) -> ExactVector:
        """Where the plane meets the edge."""
        x, y, z = (self.start[axis] + self.along * (self.end[axis] - self.start[axis]) for axis in range(3))
        return (x, y, z)

    @property
    def is_whole(self) -> bool:
        """Whether the point has whole coordinates."""
        return all(part.denominator == 1 for part in self.point)


def require_part(parts: Container[int], kind: str, number: int) -> None:
    """Raises NoPart where the solid, face or edge isn't one of those."""
    if number not in parts:
        raise NoPart(refusal(NUMBERS[f'No{kind.capitalize()}'], number).text)


def require_plane(plane: Plane, name: str = 'plane') -> None:
    """Raises ValueError where a, b and c are all zero."""
    if plane[:3] == ZERO:
        raise ValueError(f'{name}: {refusal(NUMBERS["PlaneRange"], 0).text}')


def height(plane: Plane, point: Vector) -> int:
    """Positive where the point lies above the plane, negative below it."""
    return dot(plane[:3], point) + plane[3]


def without_common_factor(plane: Plane) -> Plane:
    """The same plane by the least whole coefficients."""
    a, b, c, d = plane
    divisor = gcd(gcd(a, b), gcd(c, d)) or 1
    return (a // divisor, b // divisor, c // divisor, d // divisor)


def edges_of(model: Model, solid: int) -> List[int]:
    """The edges of the solid, rising. Raises NoPart."""
    require_part(model.solids, 'solid', solid)
    return sorted({abs(half) for face in model.faces_of(solid) for half in model.face_halves(face)})


def crossings(model: Model, solid: int, plane: Plane) -> Iterator[Crossing]:
    """Where the plane crosses edges of the solid, by rising edges. Raises NoPart; ValueError where a, b and c are all zero."""
    require_plane(plane)
    for edge in edges_of(model, solid):
        start, end = model.point(edge), model.point(-edge)
        first, last = height(plane, start), height(plane, end)
        if first < 0 < last or last < 0 < first:
            yield Crossing(edge, start, end, Fraction(first, first - last))
