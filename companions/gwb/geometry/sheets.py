"""Faces as flat regions of space, by the points of their sides."""

from typing import Iterator, NamedTuple, Sequence

from .vectors import Vector, dot, negative, reduced


class Side(NamedTuple):
    """A directed side, with the region on its left: its ends, and the half-edge that it is, or is a part of, or 0."""

    start: Vector
    end: Vector
    half: int = 0


Cycle = Sequence[Side]


class Level(NamedTuple):
    """A plane, whichever way it is looked at: its reduced normal, the first part of which that isn't zero is positive, and its height."""

    across: Vector
    height: int


class Sheet(NamedTuple):
    """A region: the face that it is, its normal, and its cycles, the outline first."""

    owner: int
    across: Vector
    cycles: Sequence[Cycle]

    @property
    def level(self) -> Level:
        """The plane in which it lies."""
        normal = reduced(self.across)
        across = max(normal, negative(normal))
        return Level(across, dot(across, self.cycles[0][0].start))

    @property
    def sides(self) -> Iterator[Side]:
        """The sides of all its cycles."""
        return (side for cycle in self.cycles for side in cycle)

    def lies_in(self, level: Level) -> bool:
        """Whether all its corners lie in a plane."""
        return all(dot(level.across, side.start) == level.height for side in self.sides)
