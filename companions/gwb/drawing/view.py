"""Where the viewer stands, and where points come to lie on the screen, in whole numbers."""

from math import sqrt
from typing import Tuple

from ..geometry.vectors import Vector, ZERO, cross, dot, negative, reduced

Spot = Tuple[int, int]


class View:
    """A view from far away, with z upwards. Screen coordinates are whole; their units across and up differ."""

    def __init__(self, stand: Vector) -> None:
        """The viewer stands in this direction, which isn't zero, from the model."""
        self.into: Vector = negative(reduced(stand))
        level = (self.into[1], -self.into[0], 0)
        self.across: Vector = (1, 0, 0) if level == ZERO else level
        self.up = cross(self.across, self.into)

    def spot(self, point: Vector) -> Spot:
        """Where the point lies on the screen."""
        return (dot(self.across, point), dot(self.up, point))

    @property
    def units(self) -> Tuple[float, float]:
        """How long a step across and one up are, in lengths of the model."""
        return (1 / sqrt(dot(self.across, self.across)), 1 / sqrt(dot(self.up, self.up)))
