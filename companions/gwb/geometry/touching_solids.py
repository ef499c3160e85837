"""Which solids of a model touch or overlap, by exact tests."""

from fractions import Fraction
from typing import Dict, Iterator, List, Set, Tuple

from .box_index import Box, BoxIndex, box_of, boxes_meet
from .flat_face import FlatFace
from .model import Model
from .nesting import lies_in
from .plane_figures import Place
from .vectors import Vector


def touching_solids(model: Model) -> Iterator[Tuple[int, int]]:
    """Pairs of solids that have a point in common, the lesser number first. The faces are plain flat ones."""
    if len(model.solids) < 2:
        return
    faces: Dict[int, List[int]] = {solid: [] for solid in model.solids}
    for face, row in model.faces.items():
        faces[row.solid].append(face)
    boxes = {solid: box_of([point for face in held for point in model.face_points(face)]) for solid, held in faces.items()}
    index = BoxIndex(boxes)
    for solid, box in boxes.items():
        for other in (other for other in index.meeting(box) if other > solid):
            if _touch(model, faces[solid], faces[other], box, boxes[other]):
                yield (solid, other)


def _touch(model: Model, some: List[int], others: List[int], box: Box, other_box: Box) -> bool:
    """Whether a face of one meets an edge of the other, or one lies within the other."""
    return (_edges_meet(model, some, others, other_box) or _edges_meet(model, others, some, box)
            or lies_in(model, some, others) or lies_in(model, others, some))


def _edges_meet(model: Model, some: List[int], others: List[int], box: Box) -> bool:
    """Whether an edge of the first faces meets one of the second ones, which lie in the box."""
    walls = BoxIndex({face: box_of(model.face_points(face)) for face in others})
    flat: Dict[int, FlatFace] = {}
    seen: Set[int] = set()
    for half in (half for face in some for half in model.face_halves(face)):
        start, end = model.point(half), model.point(-half)
        around = box_of((start, end))
        if abs(half) in seen or not boxes_meet(around, box):
            continue
        seen.add(abs(half))
        for face in walls.meeting(around):
            if face not in flat:
                flat[face] = FlatFace(model, face)
            if _meets(flat[face], start, end):
                return True
    return False


def _meets(face: FlatFace, start: Vector, end: Vector) -> bool:
    """Whether a segment has a point in common with a face. One that lies in its plane is looked at by its ends alone: where it only crosses
    the outline it crosses a face beside this one too."""
    before, behind = face.height(start), face.height(end)
    if before == behind == 0:
        return face.locate(start) is not Place.OUTSIDE or face.locate(end) is not Place.OUTSIDE
    if before * behind > 0:
        return False
    part = Fraction(before, before - behind)
    x, y, z = (a + part * (b - a) for a, b in zip(start, end))
    return face.locate((x, y, z)) is not Place.OUTSIDE
