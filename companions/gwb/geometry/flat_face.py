"""A flat face as a region of its plane."""

from functools import cached_property
from typing import Iterable, List, Optional, Tuple

from .convexity import is_convex
from .measures import anchor, normal
from .model import Model
from .plane_figures import Exact, Flat, Place, Segment, locate, segments, turn
from .vectors import Vector, dot, flat_axes, subtract

ExactVector = Tuple[Exact, Exact, Exact]


class FlatFace:
    """A face with an area all of whose vertices lie on one plane."""

    def __init__(self, model: Model, face: int, across: Optional[Vector] = None) -> None:
        """`across` is its normal, where that is known."""
        self.across = normal(model, face) if across is None else across
        self.origin = anchor(model, face)
        self._axes = flat_axes(self.across)
        self._model, self._face = model, face

    @cached_property
    def sides(self) -> List[Segment]:
        """The sides of all its loops, as seen from its front."""
        return [side for loop in self._model.faces[self._face].loops
                for side in segments([self.flatten(point) for point in self._model.loop_points(loop)])]

    @cached_property
    def is_convex(self) -> bool:
        """Whether it is a triangle or a quadrilateral that turns left at each corner."""
        return is_convex(self._model, self._face, self.across)

    def is_apart_from(self, points: Iterable[Vector]) -> bool:
        """Whether it is convex, and the line of one of its sides parts it from points of its plane, which may lie on that line."""
        if not self.is_convex:
            return False
        flat = [self.flatten(point) for point in points]
        return any(all(turn(start, end, point) <= 0 for point in flat) for start, end in self.sides)

    def flatten(self, point: ExactVector) -> Flat:
        """The point as seen from the face's front."""
        return (point[self._axes[0]], point[self._axes[1]])

    def height(self, point: Vector) -> int:
        """Positive where the point lies before the face's plane, negative behind it."""
        return dot(self.across, subtract(point, self.origin))

    def locate(self, point: ExactVector) -> Place:
        """Where a point of the plane lies against the face."""
        return locate(self.sides, self.flatten(point))
