"""Solids of a model that share room: faces of one pass through faces of another, lie within it, or lie on its faces and look the same way."""

from fractions import Fraction
from typing import Dict, Iterator, List, Sequence, Tuple

from ..geometry.box_index import BoxIndex, box_of
from ..geometry.face_crossings import comes_into
from ..geometry.flat_face import FlatFace
from ..geometry.measures import normal, why_unfit
from ..geometry.model import Model
from ..geometry.plane_figures import Place, crossing, locate
from ..geometry.sheets import Sheet, Side
from ..geometry.vectors import Vector, dot, reduced
from .findings import OVERLAPPING, Finding


def overlap_findings(model: Model) -> Iterator[Finding]:
    """The pairs of solids that share room, the lesser number first. Solids that touch share none. Those with a face that isn't plain and flat
    aren't looked at; unfit_solids names them."""
    unfit = unfit_solids(model)
    bodies = {solid: _Body(model, solid) for solid in model.solids if solid not in unfit}
    if len(bodies) < 2:
        return
    index = BoxIndex({solid: body.box for solid, body in bodies.items()})
    for solid, body in bodies.items():
        for other in sorted(index.meeting(body.box)):
            if other > solid and _share_room(body, bodies[other]):
                yield Finding(OVERLAPPING, f'solids {solid} and {other} share room')


def unfit_solids(model: Model) -> Dict[int, str]:
    """The solids that aren't compared with others, each with the reason."""
    found: Dict[int, str] = {}
    for face, row in model.faces.items():
        why = why_unfit(model, face) if row.solid not in found else None
        if why is not None:
            found[row.solid] = why
    return found


class _Body:
    """A solid, as sheets."""

    def __init__(self, model: Model, solid: int) -> None:
        self._model = model
        self.sheets: List[Sheet] = []
        self.levels: Dict[Tuple[Vector, int], List[int]] = {}
        for face in model.faces_of(solid):
            across = reduced(normal(model, face))
            cycles = [[Side(model.point(half), model.point(-half), half) for half in model.loops[loop].halves] for loop in model.faces[face].loops]
            self.sheets.append(Sheet(face, across, cycles))
            self.levels.setdefault((across, dot(across, cycles[0][0].start)), []).append(face)
        self.box = box_of([side.start for sheet in self.sheets for side in sheet.sides])

    def shapes(self, faces: Sequence[int]) -> List[FlatFace]:
        """Some of the faces, ready to be compared."""
        return [FlatFace(self._model, face) for face in faces]


def _share_room(one: _Body, other: _Body) -> bool:
    return _have_common_faces(one, other) or comes_into(one.sheets, other.sheets) or comes_into(other.sheets, one.sheets)


def _have_common_faces(one: _Body, other: _Body) -> bool:
    """Whether a face of each lies in one plane, both look the same way, and they lie on each other."""
    for level in one.levels.keys() & other.levels.keys():
        beyond = other.shapes(other.levels[level])
        if any(_overlap(face, shape) for face in one.shapes(one.levels[level]) for shape in beyond):
            return True
    return False


def _overlap(one: FlatFace, other: FlatFace) -> bool:
    """Whether two faces of one plane have an area in common: sides that cross, the same sides, or a corner or the middle of a side of one within
    the other."""
    return (any(crossing(*side, *beside) for side in one.sides for beside in other.sides) or sorted(one.sides) == sorted(other.sides)
            or _has_within(one, other) or _has_within(other, one))


def _has_within(one: FlatFace, other: FlatFace) -> bool:
    """Whether a corner of one, or the middle of a side, lies within the other."""
    spots = (spot for start, end in one.sides for spot in (start, (Fraction(start[0] + end[0]) / 2, Fraction(start[1] + end[1]) / 2)))
    return any(locate(other.sides, spot) is Place.INSIDE for spot in spots)
