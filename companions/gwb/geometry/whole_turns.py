"""Turns about an axis that leave fractions: those that bring an axis along a vector of two whole numbers whose length is whole, such as (4, 3)."""

from math import atan2, degrees as in_degrees, gcd, isqrt, radians, tan
from typing import Iterator, NamedTuple, Optional, Tuple

# Of turns that come near an angle, those with no longer vectors are looked at.
_LONGEST = 200


class WholeTurn(NamedTuple):
    """A turn that brings an axis along the vector, whose length is that number: points that are whole are multiples of its inverse afterwards."""

    way: Tuple[int, int]
    length: int

    @property
    def degrees(self) -> float:
        """How far it turns: from 0 to less than 360."""
        return in_degrees(atan2(self.way[1], self.way[0])) % 360

    def repeated(self, times: int) -> 'WholeTurn':
        """The turn, so many times."""
        u, v, length = 1, 0, 1
        for _ in range(times):
            u, v, length = u * self.way[0] - v * self.way[1], u * self.way[1] + v * self.way[0], length * self.length
        return WholeTurn((u, v), length)


def whole_turn(u: int, v: int) -> Optional[WholeTurn]:
    """The turn along the vector, in the least numbers; None where its length isn't whole, or zero."""
    length, common = isqrt(u * u + v * v), gcd(u, v)
    return WholeTurn((u // common, v // common), length // common) if common and length * length == u * u + v * v else None


def nearest_turn(degrees: float) -> WholeTurn:
    """Of turns with short vectors the one that comes nearest to an angle."""
    quarters, rest = divmod(degrees % 360, 90)
    found = min(_turns_near(rest), key=lambda turn: abs(turn.degrees - rest))
    (u, v), length = found
    for _ in range(int(quarters)):
        u, v = -v, u
    return WholeTurn((u, v), length)


def _turns_near(degrees: float) -> Iterator[WholeTurn]:
    """Turns near an angle from 0 to 90 degrees: half of it has a tangent that is a ratio of two whole numbers."""
    tangent = tan(radians(degrees) / 2)
    for below in range(1, isqrt(_LONGEST) + 1):
        for above in {int(tangent * below), int(tangent * below) + 1}:
            found = whole_turn(below ** 2 - above ** 2, 2 * above * below)
            if found and found.length <= _LONGEST and above <= below:
                yield found
