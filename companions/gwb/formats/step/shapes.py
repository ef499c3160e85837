"""The flat boundary representations of a STEP file as polygons, in the file's own coordinates."""

from collections import Counter
from typing import Any, Dict, Iterator, List, Mapping, NamedTuple, Sequence, Tuple

from ...errors import Unfit
from ...geometry.flat_face import ExactVector
from ...geometry.plane_figures import Exact
from ..exact_vectors import added, cross, dot
from ..parts import Polygon, require_few
from .flatness import Flatness
from .lexer import StepFile
from .points import StepPoints

SOLIDS = ('MANIFOLD_SOLID_BREP', 'BREP_WITH_VOIDS', 'FACETED_BREP', 'FACETED_BREP_AND_BREP_WITH_VOIDS')
SURFACE_MODEL = 'SHELL_BASED_SURFACE_MODEL'
# What bounds solids.
BODIES = (*SOLIDS, SURFACE_MODEL)
_WITH_VOIDS = ('BREP_WITH_VOIDS', 'FACETED_BREP_AND_BREP_WITH_VOIDS')
_ORIENTED_SHELLS = ('ORIENTED_CLOSED_SHELL', 'ORIENTED_OPEN_SHELL')
_FACES = ('ADVANCED_FACE', 'FACE_SURFACE', 'FACE')
_NAMED = 12


class Brep(NamedTuple):
    """A boundary representation: its points, its polygons, and for each polygon the reference of its face.

    `curved` are the faces and edges that are curved, each with what it is; a solid that has one can't be read. `open_shells` are the shells of
    a surface model that bound nothing, each with the reason; their polygons are left out.
    """

    points: List[ExactVector]
    polygons: List[Polygon]
    faces: List[str]
    curved: Dict[str, str]
    open_shells: Dict[str, str]


class _Edge(NamedTuple):
    """The points along an edge from its start to its end, and what its curve is where it isn't made of straight pieces."""

    points: List[ExactVector]
    curved: str


class StepShapes:
    """Reads boundary representations."""

    def __init__(self, file: StepFile) -> None:
        self._file = file
        self.points = StepPoints(file)
        self._flatness = Flatness(file, self.points)
        self._edges: Dict[str, _Edge] = {}
        self._curved: Dict[str, str] = {}

    def brep(self, reference: str) -> Brep:
        """One solid. Raises Unfit where something in it isn't understood."""
        places: Dict[ExactVector, int] = {}
        self._curved = {}
        found = Brep([], [], [], self._curved, {})
        for shell, turned in self._shells(reference):
            first = len(found.polygons)
            self._put(found, places, shell, turned)
            unpaired = _unpaired(found.polygons[first:]) if self._file.kind(reference) == SURFACE_MODEL else 0
            if unpaired:
                found.open_shells[shell] = f'{unpaired} edge{" is" if unpaired == 1 else "s are"} not used by two faces, once each way'
                del found.polygons[first:], found.faces[first:]
        return found._replace(points=list(places))

    def _put(self, found: Brep, places: Dict[ExactVector, int], shell: str, turned: bool) -> None:
        """Adds the faces of a shell, over the places of points."""
        for face in self._file.at(shell).items[1]:
            loops = self._face(face, turned)
            require_few(len(found.polygons) + 1)
            found.polygons.append([[places.setdefault(point, len(places)) for point in loop] for loop in loops])
            found.faces.append(face)

    def _shells(self, solid: str) -> Iterator[Tuple[str, bool]]:
        """The shells of a solid, and whether they are turned."""
        entity = self._file.at(solid)
        if entity.kind == SURFACE_MODEL and not entity.items[1]:
            raise Unfit(f'the {SURFACE_MODEL} {solid} has no shell')
        if entity.kind == SURFACE_MODEL:
            return (self._shell(shell, ('CLOSED_SHELL', 'OPEN_SHELL')) for shell in entity.items[1])
        return (self._shell(shell, ('CLOSED_SHELL',)) for shell in (entity.items[1], *(entity.items[2] if entity.kind in _WITH_VOIDS else ())))

    def _shell(self, reference: str, kinds: Sequence[str]) -> Tuple[str, bool]:
        entity, turned = self._file.at(reference), False
        if entity.kind in _ORIENTED_SHELLS:
            reference, turned = entity.items[2], entity.items[3] == '.F.'
        if self._file.kind(reference) not in kinds:
            what = 'closed shell' if len(kinds) == 1 else 'shell'
            raise Unfit(f'{reference} is no {what} but {self._file.kind(reference) or "several things at once"}')
        return reference, turned

    def _face(self, reference: str, turned: bool) -> List[List[ExactVector]]:
        face = self._file.at(reference)
        if face.kind not in _FACES:
            raise Unfit(f'{reference} is no face that is understood but {face.kind or "several things at once"}')
        if face.kind != 'FACE' and not self._flatness.is_flat(face.items[2]):
            self._curved[reference] = f'face {self._file.kind(face.items[2]) or "B_SPLINE_SURFACE"}'
        bounds = [self._file.at(bound) for bound in face.items[1]]
        loops = [self._loop(bound.items[1], (bound.items[2] == '.F.') != turned) for bound in bounds]
        outer = [place for place, bound in enumerate(bounds) if bound.kind == 'FACE_OUTER_BOUND']
        first = outer[0] if len(outer) == 1 or not loops else max(range(len(loops)), key=lambda place: _square_area(loops[place]))
        return [loops[first], *loops[:first], *loops[first + 1:]]

    def _loop(self, reference: str, turned: bool) -> List[ExactVector]:
        loop = self._file.at(reference)
        if loop.kind == 'POLY_LOOP':
            points = [self.points.point(point) for point in loop.items[1]]
        elif loop.kind == 'EDGE_LOOP':
            points = [point for oriented in loop.items[1] for point in self._along(oriented)]
        elif loop.kind == 'VERTEX_LOOP':
            points = [self.points.point(self._vertex(loop.items[1]))]
        else:
            raise Unfit(f'{reference} is no loop of edges but {loop.kind or "several things at once"}')
        return points[::-1] if turned else points

    def _along(self, oriented: str) -> List[ExactVector]:
        """The points along an oriented edge, without its last one."""
        values = self._file.at(oriented).items
        reference, sense = values[3], values[4]
        if reference not in self._edges:
            self._edges[reference] = self._edge(reference)
        edge = self._edges[reference]
        if edge.curved:
            self._curved[reference] = f'edge {edge.curved}'
        return edge.points[:-1] if sense == '.T.' else edge.points[:0:-1]

    def _edge(self, reference: str) -> _Edge:
        values = self._file.at(reference).items
        start, end = (self.points.point(self._vertex(vertex)) for vertex in values[1:3])
        corners = self._flatness.corners(values[3])
        if corners and corners[0] == end and corners[-1] == start != end:
            corners = corners[::-1]
        if corners is None or corners and (corners[0] != start or corners[-1] != end):
            return _Edge([start, end], self._file.kind(self._flatness.in_space(values[3])) or 'B_SPLINE_CURVE')
        return _Edge([start, *corners[1:-1], end], '')

    def _vertex(self, reference: str) -> str:
        point: Any = self._file.at(reference).items[1]
        return str(point)


def _unpaired(polygons: Sequence[Polygon]) -> int:
    """How many edges aren't used as often one way as the other."""
    uses = Counter((loop[place - 1], corner) for polygon in polygons for loop in polygon for place, corner in enumerate(loop))
    return len({frozenset(side) for side, times in uses.items() if uses[side[::-1]] != times})


def told_curved(curved: Mapping[str, str]) -> str:
    """What is curved, by name; '' where nothing is."""
    for what in ('face', 'edge'):
        named = [f'{place} {kind[len(what):].strip()}' for place, kind in curved.items() if kind.startswith(what)]
        if named:
            more = f' and {len(named) - _NAMED} more' if len(named) > _NAMED else ''
            return f'{len(named)} {what}{"s are" if len(named) > 1 else " is"} curved: {", ".join(named[:_NAMED])}{more}'
    return ''


def _square_area(loop: List[ExactVector]) -> Exact:
    """The square of twice the area that a loop goes round."""
    across: ExactVector = (0, 0, 0)
    for before, here in zip([loop[-1], *loop], loop):
        across = added(across, cross(before, here))
    return dot(across, across)
