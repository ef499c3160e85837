"""Polygons for circles: their corners, which the library chooses, how many sides they get, and how far they lie from the circle."""

from ctypes import c_int64
from fractions import Fraction
from math import acos, hypot, pi, sqrt
from typing import List, NamedTuple, Optional, Sequence, Tuple

from . import arguments
from .bench import warn
from .lengths import Length, Lengths
from .library import Library

FITS = ('corners', 'flats', 'area')
# Sides are chosen so that the flats lie within this of the circle, in millimetres.
WITHIN = Fraction(1, 20)
_FEWEST_CHOSEN = 8


class Circle(NamedTuple):
    """A circle that is wanted as a polygon: its diameter in steps, the number of sides, and which of its corners, flats and area are the circle's."""

    diameter: int
    sides: int
    fit: str

    def corners(self, library: Library, grain: int = 1) -> List[Tuple[int, int]]:
        """The corners of the polygon around the origin, on multiples of the grain."""
        found = (c_int64 * (2 * self.sides))()
        if not library.library.circle(self.diameter, grain, self.sides, FITS.index(self.fit), found):
            raise ValueError(f'a circle {self.diameter} wide is out of range')
        return list(zip(found[::2], found[1::2]))

    def reached(self, word: str, center: Sequence[int], corners: Sequence[Sequence[int]], step: Fraction) -> Tuple[float, float]:
        """How far from its center, in millimetres, the nearest side and the farthest corner of the polygon lie, whose corners are given in steps. Warns
        where what is to lie on the circle lies farther beside it than a hundredth of its radius."""
        ways = [[float(part - middle) for part, middle in zip(corner, center)] for corner in corners]
        sides = [_side(start, end) for start, end in zip(ways, [*ways[1:], ways[0]])]
        least, greatest, radius = min(side.distance for side in sides), max(hypot(*way) for way in ways), self.diameter / 2
        area = sum(side.area for side in sides)
        on = {'corners': [hypot(*way) for way in ways], 'flats': [least], 'area': [sqrt(area / pi)]}[self.fit]
        least, greatest, scale = (length * float(step) for length in (least, greatest, 1))
        if max(abs(found - radius) for found in on) > radius / 100:
            warn(f'{word}: sides and corners lie {least:.4g} to {greatest:.4g} from the center of a circle of radius {radius * scale:.4g} mm; '
                 'a finer step brings them nearer to it')
        return least, greatest


class _Side(NamedTuple):
    """How far a side of a polygon lies from the center, and the area between both."""

    distance: float
    area: float


def wanted(lengths: Lengths, radius: Optional[Length], diameter: Optional[Length], sides: Optional[int], fit: str, within: Length) -> Circle:
    """The circle of a radius or a diameter, with so many sides, or as many as its flats need to lie within so many millimetres of it."""
    if radius is None and diameter is None:
        raise TypeError('radius: a radius or a diameter is wanted')
    if radius is not None and diameter is not None:
        raise TypeError('diameter: the radius is given already')
    wide = 2 * lengths.positive('radius', radius) if diameter is None else lengths.positive('diameter', diameter)
    most = arguments.factor('within', within, wanted='a length') / lengths.step
    many = _sides_within(wide / 2, float(max(most, Fraction(1)))) if sides is None else arguments.sides('sides', sides)
    return Circle(wide, many, arguments.word('circle', fit, FITS))


def _sides_within(radius: float, within: float) -> int:
    """The least multiple of 4, from 8 on, of which the flats lie no farther inside a circle around the corners."""
    return _FEWEST_CHOSEN if within >= radius else max(_FEWEST_CHOSEN, -int(-pi / acos(1 - within / radius) // 4) * 4)


def _side(start: Sequence[float], end: Sequence[float]) -> _Side:
    """The side between two corners, of which the center is the origin."""
    along = [b - a for a, b in zip(start, end)]
    length = hypot(*along)
    share = -sum(a * b for a, b in zip(start, along)) / (length * length or 1)
    height, distance = (hypot(*(a + part * way for a, way in zip(start, along))) for part in (share, min(max(share, 0), 1)))
    return _Side(distance, height * length / 2)
