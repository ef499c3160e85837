"""The numbers that commands of a workbench return."""

from fractions import Fraction
from typing import Dict, NamedTuple, Optional, Tuple

from ..geometry.plane_figures import Exact
from .lengths import ExactPlace, Length, Place, direction, exact, place, plain

Numbers = Tuple[int, ...]


class NewSolid(NamedTuple):
    """What mvfs makes."""

    solid: int
    face: int
    loop: int
    vertex: int


class NewEdge(NamedTuple):
    """What mev makes."""

    edge: int
    vertex: int


class NewFace(NamedTuple):
    """What mef makes."""

    edge: int
    face: int
    loop: int


class FaceCrossing(NamedTuple):
    """Two faces that cross or touch: of one solid the lesser number first, of two the face of the first; and a point that both have, in millimetres."""

    first: int
    second: int
    point: ExactPlace


class Lamina(NamedTuple):
    """What lamina makes: the face that has the points in their order, the one at its back, edge i from point i on."""

    solid: int
    front: int
    back: int
    edges: Numbers
    vertices: Numbers


class Block(NamedTuple):
    """What block makes: sides and edges in the order of their numbers, vertices from the base up."""

    solid: int
    top: int
    bottom: int
    sides: Numbers
    edges: Numbers
    vertices: Numbers


class Sweep(NamedTuple):
    """What sweep makes, for each corner of the face in order: the side over its half-edge, the edge that rises there,
    the far edge of the side, and the far vertex."""

    face: int
    sides: Numbers
    rising: Numbers
    far: Numbers
    vertices: Numbers


class Split(NamedTuple):
    """What split makes: the solid above, the caps of both solids, and all new faces, edges and vertices."""

    solid: int
    lower_caps: Numbers
    upper_caps: Numbers
    faces: Numbers
    edges: Numbers
    vertices: Numbers


class Cut(NamedTuple):
    """What a cut leaves: the solids below and above the plane, None for one that was thrown away, and the faces that close them."""

    below: Optional[int]
    above: Optional[int]
    lower_caps: Numbers
    upper_caps: Numbers


class _Plane(NamedTuple):
    """A plane by its numbers."""

    a: Exact
    b: Exact
    c: Exact
    d: Exact
    flat: bool


class Plane(_Plane):
    """The plane a x + b y + c z + d = 0 of points in millimetres, and of a face whether it is flat.

    Plane(z=8) lies across an axis, Plane(2, 3, 0, -11) is given by its numbers, and Plane.through(point, normal) by a point of it. What lies above is on the
    side to which (a, b, c) points; -plane has the other side above."""

    def __new__(cls, a: Length = 0, b: Length = 0, c: Length = 0, d: Length = 0, flat: bool = True, *, x: Optional[Length] = None,
                y: Optional[Length] = None, z: Optional[Length] = None) -> 'Plane':
        levels = [exact(name, level) for name, level in (('x', x), ('y', y), ('z', z)) if level is not None]
        numbers = [plain(exact(name, number, 'a number')) for name, number in (('a', a), ('b', b), ('c', c), ('d', d))]
        if len(levels) > 1 or levels and any(numbers):
            raise TypeError('Plane: four numbers are wanted, or one of x, y and z')
        if levels:
            numbers = [*(int(level is not None) for level in (x, y, z)), plain(-levels[0])]
        return super().__new__(cls, numbers[0], numbers[1], numbers[2], numbers[3], flat)

    @classmethod
    def through(cls, point: Place, normal: Place) -> 'Plane':
        """The plane through a point, across a direction.

        >>> Plane.through((0, 0, 8), (0, 0, 2))
        Plane(a=0, b=0, c=1, d=-8, flat=True)
        """
        spot, way = place('point', point), direction('normal', normal)
        return cls(*way, -sum(Fraction(along) * at for along, at in zip(way, spot)))

    def __neg__(self) -> 'Plane':
        """The same plane, seen from its other side."""
        return Plane(-self.a, -self.b, -self.c, -self.d, self.flat)


class Count(NamedTuple):
    """How many vertices, edges, faces and rings a solid has, and vertices - edges + faces - rings."""

    vertices: int
    edges: int
    faces: int
    rings: int
    sum: int


class Profile(NamedTuple):
    """What profile makes: the face that was moved, the one that stayed, and for each point the side from it to the next."""

    solid: int
    far: int
    base: int
    sides: Numbers


class Polyhedron(NamedTuple):
    """What polyhedron makes: the faces and vertices in the order of those that were given."""

    solid: int
    faces: Numbers
    vertices: Numbers


class Ring(NamedTuple):
    """What ring makes: the face inside the outline, the ring around it, and for each point the edge from it to the next, and the vertex there."""

    face: int
    loop: int
    edges: Numbers
    vertices: Numbers


class Pocket(NamedTuple):
    """What pocket and boss make: the floor or top, the ring in the face, and for each point the side from it to the next."""

    face: int
    loop: int
    sides: Numbers


class Hole(NamedTuple):
    """What hole and drill make: the face it ends in, the ring at its start, the points of the outline, and for each the side from it to the
    next; of a drill how far from its center the nearest side and the farthest corner lie. All in millimetres."""

    other: int
    loop: int
    sides: Numbers
    points: Tuple[ExactPlace, ...]
    reach: Optional[Tuple[float, float]] = None


class Renumbered(NamedTuple):
    """What numbers have become, by those that they were."""

    solids: Dict[int, int]
    faces: Dict[int, int]
    loops: Dict[int, int]
    edges: Dict[int, int]
    vertices: Dict[int, int]


class Became(NamedTuple):
    """What came of faces, edges and vertices, by the numbers of those: others, rising."""

    faces: Dict[int, Numbers]
    edges: Dict[int, Numbers]
    vertices: Dict[int, Numbers]


class Notch(NamedTuple):
    """What a notch, slot, groove or shoulder leaves: its floor, in as many faces as there are, none where it goes through, and its walls."""

    floor: Numbers
    walls: Numbers


class Pad(NamedTuple):
    """What a pad is: its top, in as many faces as there are, and its walls."""

    top: Numbers
    walls: Numbers
