"""What is to be said of a split that is refused because its points aren't whole (NotLattice): where they lie, and what would do.

    >>> cut = off_lattice_cut(model, 1, (2, 0, 0, -3))
    >>> cut.factor
    2
    >>> cut.advice(above=2)[-1]
    'split 1 3 1 0 -6 2'
"""

from dataclasses import dataclass
from fractions import Fraction
from math import lcm
from typing import Iterable, Iterator, List, Optional, Tuple

from ..refusals import OF_CUTS
from .crossings import Crossing, Plane, crossings
from .model import Model
from .moved import FARTHEST
from .near_planes import FARTHEST_OFFSET, NearPlane, NearPlanes


@dataclass(frozen=True)
class OffLatticeCut:
    """A cut of a solid by a plane, of which some points may not be whole."""

    solid: int
    plane: Plane
    crossings: Tuple[Crossing, ...]
    factor: int
    """The least by which the model must be multiplied for all cut points to be whole; 1 where they are."""
    fits: bool
    """Whether the model times the factor stays within 1,000,000,000, and the plane's offset in its range."""
    parallel: Optional[NearPlane]
    """The nearest plane with the same normal that cuts at whole points, where there is one."""
    tilted: Tuple[NearPlane, ...]
    """Other planes that cut at whole points, the nearest first."""
    longest: int = 0
    """The longest side of the solid's box."""

    @property
    def off_lattice(self) -> Tuple[Crossing, ...]:
        """The cut edges whose points aren't whole, rising."""
        return tuple(crossing for crossing in self.crossings if not crossing.is_whole)

    @property
    def scaled_plane(self) -> Plane:
        """The plane in the model times the factor."""
        a, b, c, d = self.plane
        return (a, b, c, d * self.factor)

    def advice(self, above: int) -> List[str]:
        """Lines of the script language: comments, and the splits that would do; `above` is the number for the solid above the plane."""
        return [*self._places(), *self._scaled(above), *self._near(above)]

    def _places(self) -> Iterator[str]:
        for crossing in self.off_lattice:
            yield _said('CutAt', crossing.edge, ' '.join(map(str, crossing.point)))

    def _scaled(self, above: int) -> Iterator[str]:
        if not self.fits:
            yield _said('PastRange', self.factor)
        elif self.factor > 1 and self.scaled_plane == self.plane:
            yield f'{_said("Scaled", self.factor)}, by the same line'
        elif self.factor > 1:
            yield f'{_said("Scaled", self.factor)}:'
            yield self._split(self.scaled_plane, above)

    def _near(self, above: int) -> Iterator[str]:
        if self.parallel is None and self.factor > 1:
            yield _said('NoParallel')
        elif self.parallel is not None and not self._is_near(self.parallel):
            yield f'# a parallel plane that cuts at whole points moves the cut by at least {_decimal(self.parallel)} along an edge'
        for near in filter(self._is_near, (*([] if self.parallel is None else [self.parallel]), *self.tilted)):
            yield f'{_said("Moved", "parallel" if near.is_parallel else "tilted", _decimal(near))}:'
            yield self._split(near.plane, above)

    def _is_near(self, near: NearPlane) -> bool:
        """Whether a plane moves the cut by at most one, or a tenth of the solid."""
        return near.square_moved <= max(Fraction(1), Fraction(self.longest ** 2, 100))

    def _split(self, plane: Plane, above: int) -> str:
        return ' '.join(map(str, ('split', self.solid, *plane, above)))


def _said(name: str, value: object = '', other: object = '') -> str:
    """A comment, with its values."""
    return f'# {OF_CUTS[name]}'.replace('X', str(value)).replace('Y', str(other))


def _decimal(near: NearPlane) -> str:
    """How far a plane moves the cut along an edge at most, with two decimals."""
    return f'{near.hundredths_moved // 100}.{near.hundredths_moved % 100:02}'


def whole_factor(found: Iterable[Crossing]) -> int:
    """The least factor by which the model must be multiplied for all cut points to be whole."""
    return lcm(*(part.denominator for crossing in found for part in crossing.point))


def off_lattice_cut(model: Model, solid: int, plane: Plane, most: int = 3) -> OffLatticeCut:
    """What is to be said of the cut, with at most so many tilted planes; none where all points are whole.

    Raises NoPart where the model has no such solid, ValueError where a, b and c are all zero.
    """
    found = tuple(crossings(model, solid, plane))
    factor = whole_factor(found)
    reach = max((abs(part) for point in model.vertices.values() for part in point), default=0)
    fits = reach * factor <= FARTHEST and abs(plane[3]) * factor <= FARTHEST_OFFSET
    near = NearPlanes(model, solid, plane) if factor > 1 else None
    return OffLatticeCut(solid, plane, found, factor, fits, parallel=None if near is None else near.parallel(),
                         tilted=() if near is None else tuple(near.tilted(most)), longest=_longest_side(model, solid))


def _longest_side(model: Model, solid: int) -> int:
    """The longest side of the box around a solid."""
    points = [point for face in model.faces_of(solid) for point in model.face_points(face)]
    return max(max(point[axis] for point in points) - min(point[axis] for point in points) for axis in range(3))
