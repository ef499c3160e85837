"""What a file of polygons holds: its parts, with names and colours."""

from typing import Dict, List, Mapping, NamedTuple, Optional, Sequence, Tuple

from ..errors import CompanionError
from ..geometry.flat_face import ExactVector
from ..geometry.plane_figures import Exact
from .appearance import Appearance, Colour

# An outline and then rings, as places of points.
Polygon = List[List[int]]

# 1,000,000 edges, the most that a model has, are those of 666,666 triangles.
MOST_POLYGONS = 700_000


class NotAMesh(CompanionError):
    """The bytes aren't a file of the form, are cut short, or hold more than a model can."""


class Part(NamedTuple):
    """The polygons of an object, over its points.

    Where `parted` holds the file doesn't say which shells are a solid, and where `whole` does its polygons are faces that aren't to be
    joined. Parts of one `solid`, where it has a name, are one solid. Points may lie beside whole places by `accuracy`, as the file says.
    `groups` are the names of groups of polygons, of which a solid of one group alone has the name. `scaled` says what was made of lengths in
    other units than millimetres, `notes` what else is to be said of the file, and `left_out` what of it isn't read.
    """

    points: List[ExactVector]
    polygons: List[Polygon]
    parted: bool = False
    whole: bool = False
    solid: str = ''
    look: Appearance = Appearance()
    face_looks: Dict[int, Appearance] = {}
    accuracy: Exact = 0
    groups: Mapping[int, str] = {}
    scaled: str = ''
    notes: Tuple[str, ...] = ()
    left_out: Tuple[str, ...] = ()

    @property
    def called(self) -> str:
        """The name in brackets, for messages."""
        return f' ({self.look.name})' if self.look.name else ''


class Gathered:
    """Polygons as they are read: those of colours of their own are kept apart."""

    def __init__(self, points: List[ExactVector]) -> None:
        self.points = points
        self.polygons: List[Polygon] = []
        self.looks: Dict[int, Appearance] = {}

    def add(self, corners: Sequence[int], colour: Optional[Colour] = None) -> None:
        """One more polygon, by places of points. Raises NotAMesh where a place isn't there, or there are fewer than three corners."""
        count = len(self.points)
        if len(corners) < 3:
            raise NotAMesh(f'face {len(self.polygons) + 1} has {len(corners)} corners')
        if min(corners) < 0 or max(corners) >= count:
            raise NotAMesh(f'face {len(self.polygons) + 1} has vertex {next(c for c in corners if not 0 <= c < count)}, '
                           f'and there are {count}')
        require_few(len(self.polygons) + 1)
        if colour is not None:
            self.looks[len(self.polygons)] = Appearance(colour=colour)
        self.polygons.append([list(corners)])


def require_few(polygons: int) -> None:
    """Raises NotAMesh where there are more polygons than a model has room for."""
    if polygons > MOST_POLYGONS:
        raise NotAMesh(f'it has more than {MOST_POLYGONS:,} faces, and a model has room for 1,000,000 edges')
