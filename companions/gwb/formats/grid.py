"""Points of a file as whole ones."""

from fractions import Fraction
from typing import List, Sequence

from ..errors import OffGrid, Unfit
from ..geometry.flat_face import ExactVector
from ..geometry.moved import FARTHEST
from ..geometry.plane_figures import Exact
from ..geometry.vectors import Vector
from .exact_numbers import told_point

# Places that a file says to be less exact than this aren't taken for whole ones unasked.
MOST_INEXACT = Fraction(1, 100)


class Grid:
    """Points times a factor as whole ones, and the square of the greatest distance that one was moved."""

    def __init__(self, scale: Exact, rounded: bool, within: Exact = 0) -> None:
        """Points are rounded where `rounded` is set, or where they lie no farther than `within` beside a whole place."""
        self.square_moved: Exact = 0
        self._scale = scale
        self._rounded = rounded
        self._within = within

    def whole(self, points: Sequence[ExactVector], accuracy: Exact) -> List[Vector]:
        """The points on the grid. Raises Unfit where one lies beside it by more than the file's accuracy and isn't to be rounded, or too far away."""
        reach = max(min(accuracy * self._scale, MOST_INEXACT), self._within) ** 2
        return [self._on_grid(point, reach) for point in points]

    def _on_grid(self, point: ExactVector, square_reach: Exact) -> Vector:
        x, y, z = (point[0] * self._scale, point[1] * self._scale, point[2] * self._scale) if self._scale != 1 else point
        if not all(-FARTHEST <= part <= FARTHEST for part in (x, y, z)):
            raise Unfit(f'the point {told_point((x, y, z))} would lie past {FARTHEST:,}')
        if isinstance(x, int) and isinstance(y, int) and isinstance(z, int):
            return (x, y, z)
        return self._rounded_to((x, y, z), square_reach)

    def _rounded_to(self, point: ExactVector, square_reach: Exact) -> Vector:
        x, y, z = (round(part) for part in point)
        moved = (point[0] - x) ** 2 + (point[1] - y) ** 2 + (point[2] - z) ** 2
        if moved > square_reach and not self._rounded:
            error = OffGrid(f'the point {told_point(point)} is not whole: --scale multiplies, --round rounds, --within D rounds what lies as near as D')
            error.point = point
            raise error
        self.square_moved = max(self.square_moved, moved)
        return (x, y, z)
