"""A model in another place: moved, turned by quarters about an axis, mirrored, or made larger."""

from fractions import Fraction
from math import lcm
from typing import Callable, List, NamedTuple, Tuple

from ..errors import Unfit
from .flat_face import ExactVector
from .free_numbers import from_least
from .model import Loop, Model
from .plane_figures import Exact
from .vectors import Vector, ZERO, add, dot, subtract

FARTHEST = 1_000_000_000

PlaneNumbers = Tuple[int, int, int, int]


class Displaced(Unfit):
    """A vertex would come where none can lie: off the whole coordinates, or out of their range. `name` says which."""

    def __init__(self, name: str, vertex: int, message: str) -> None:
        super().__init__(message)
        self.name, self.vertex = name, vertex


class Change(NamedTuple):
    """A change of place: where a point comes to, and whether left and right change sides."""

    place: Callable[[Vector], ExactVector]
    mirrors: bool = False


def moving(by: Vector) -> Change:
    """Moves points by a vector."""
    return Change(lambda point: add(point, by))


def scaling(factor: Exact) -> Change:
    """Multiplies the coordinates of points."""
    return Change(lambda point: (point[0] * factor, point[1] * factor, point[2] * factor))


def turning(axis: str, times: int = 1, about: Vector = ZERO) -> Change:
    """Turns points by quarters about the axis through a point: counterclockwise as seen from where the axis points."""
    first, second = {'x': (1, 2), 'y': (2, 0), 'z': (0, 1)}[axis]

    def turned(point: Vector) -> Vector:
        parts = list(subtract(point, about))
        for _ in range(times % 4):
            parts[first], parts[second] = -parts[second], parts[first]
        return add((parts[0], parts[1], parts[2]), about)
    return Change(turned)


def turning_to(axis: str, way: Tuple[int, int], length: int, about: Vector = ZERO) -> Change:
    """Turns points about the axis through a point, so that the next of the axes comes to lie along `way`, of which that is the length."""
    first, second = {'x': (1, 2), 'y': (2, 0), 'z': (0, 1)}[axis]

    def turned(point: Vector) -> ExactVector:
        parts: List[Exact] = list(subtract(point, about))
        u, v = parts[first], parts[second]
        parts[first], parts[second] = Fraction(u * way[0] - v * way[1], length), Fraction(u * way[1] + v * way[0], length)
        x, y, z = (part + middle for part, middle in zip(parts, about))
        return (x, y, z)
    return Change(turned)


def mirroring(plane: PlaneNumbers, by: Vector = ZERO) -> Change:
    """Mirrors points in the plane a x + b y + c z + d = 0, where a, b and c are not all zero, and then moves them by a vector."""
    across = plane[:3]
    square = dot(across, across)

    def mirrored(point: Vector) -> ExactVector:
        way = Fraction(2 * (dot(across, point) + plane[3]), square)
        x, y, z = (along - way * part + more for along, part, more in zip(point, across, by))
        return (x, y, z)
    return Change(mirrored, mirrors=True)


def whole_factor(model: Model, change: Change) -> int:
    """The least number by which coordinates must be multiplied for the points of the model to be whole once they are changed."""
    return lcm(*(part.denominator for point in model.vertices.values() for part in change.place(point)))


def changed(model: Model, change: Change) -> Model:
    """The model with its points changed; mirrored, its loops run the other way, so that what was outside is.

    Raises Displaced, `OffLattice` or `PointRange`, where a point wouldn't be whole or would leave the range."""
    vertices = {vertex: _placed(vertex, change.place(point)) for vertex, point in model.vertices.items()}
    loops = {number: _turned(loop) for number, loop in model.loops.items()} if change.mirrors else model.loops
    return Model(model.solids, model.faces, loops, model.edges, vertices)


def _placed(vertex: int, point: ExactVector) -> Vector:
    if any(part.denominator != 1 for part in point):
        raise Displaced('OffLattice', vertex, 'vertex {} would lie at {} {} {}, between whole coordinates'.format(vertex, *point))
    place = (int(point[0]), int(point[1]), int(point[2]))
    require_in_range(vertex, place)
    return place


def _turned(loop: Loop) -> Loop:
    return loop if loop.is_lone else Loop(from_least(-half for half in reversed(loop.halves)))


def require_in_range(vertex: int, point: Vector) -> None:
    """Raises Displaced where a coordinate is out of range."""
    if max(abs(part) for part in point) > FARTHEST:
        raise Displaced('PointRange', vertex, 'vertex {} would lie at {} {} {}, past 1,000,000,000'.format(vertex, *point))
