"""The things of a model as the page reads them, in JSON: a row for each, by kind and number."""

import json
from typing import Dict, Hashable, Iterable, Iterator, List, Mapping, Optional, Sequence, Tuple

from ..errors import Unfit
from ..geometry.measures import anchor, area_vector, normal, off_plane
from ..geometry.model import Face, Model
from ..geometry.plane_figures import turn
from ..geometry.touched_edges import touched_edges
from ..geometry.triangulation import face_triangles
from ..geometry.vectors import ZERO, Vector, dot, flat_axes

EMPTY = Model((), {}, {}, {}, {})
# As the page is written: without spaces.
in_json = json.JSONEncoder(separators=(',', ':')).encode


def rows_of(model: Model) -> List[str]:
    """All things of the model, in pieces of JSON."""
    return _rows(zip(model.faces, _faces(model)), model.edges, model.vertices)


def _rows(faces: Iterable[Tuple[int, str]], edges: Mapping[int, object], vertices: Mapping[int, object]) -> List[str]:
    """The rows of all kinds; those of faces are in JSON already."""
    told = ','.join([f'"{face}":{row}' for face, row in faces])
    return ['{"faces":{', told, '},"edges":', in_json(edges), ',"vertices":', in_json(vertices), '}']


class Changes:
    """What changes from model to model. A face that is as it was in a model before isn't cut anew."""

    def __init__(self) -> None:
        self._faces: Dict[Hashable, str] = {None: 'null'}

    def between(self, before: Model, after: Model) -> str:
        """The rows that differ, as they are after, and null for those that have gone. Of models the same faces do, with all that differ."""
        faces = _differences(_keys(before), _keys(after))
        self._faces.update({key: _face(after, face) for face, key in faces.items() if key not in self._faces})
        edges, vertices = _differences(before.edges, after.edges), _differences(before.vertices, after.vertices)
        return ''.join(_rows([(face, self._faces[key]) for face, key in faces.items()], edges, vertices))


def _differences(before: Mapping[int, Hashable], after: Mapping[int, Hashable]) -> Dict[int, Hashable]:
    """The rows that are others than before, and None for those that have gone."""
    return {**dict.fromkeys(before.keys() - after.keys()), **{number: row for number, row in after.items() if before.get(number) != row}}


def _keys(model: Model) -> Dict[int, Hashable]:
    """For each face all that its row is told by."""
    return {number: (face, tuple(model.loops[loop] for loop in face.loops), tuple((it, model.vertices[it]) for it in model.face_vertices(number)))
            for number, face in model.faces.items()}


def _faces(model: Model) -> Iterator[str]:
    """The rows of all faces. A triangle is flat, and cut already: its row is written at once, which takes less time."""
    loops, tails, point = model.loops, model.tails, model.vertices.__getitem__
    for face, (solid, outer, rings) in model.faces.items():
        halves = loops[outer].halves
        if len(halves) == 3 and not rings:
            corners = tails(halves)
            points = list(map(point, corners))
            (a, b, c), (x, y, z) = area_vector(points), points[0]
            yield '[%d,[[%d,[%d,%d,%d],null]],["%d","%d","%d","%d"],true,[%d,%d,%d]]' % (
                solid, outer, *halves, a, b, c, -(a * x + b * y + c * z), *corners)
        else:
            yield _face(model, face)


def _face(model: Model, face: int) -> str:
    """The solid, the loops, the plane (as text, since its numbers may be large), whether it is flat, and the corners of its triangles."""
    across = normal(model, face)
    loops = ','.join([_loop(loop, *model.loops[loop]) for loop in model.faces[face].loops])
    plane = '","'.join(map(str, (*across, -dot(across, anchor(model, face)))))
    flat = 'true' if off_plane(model, face, across) is None else 'false'
    return f'[{model.faces[face].solid},[{loops}],["{plane}"],{flat},[{_joined(_corners(model, face, across))}]]'


def _loop(number: int, halves: Sequence[int], vertex: Optional[int]) -> str:
    """The number of a loop, its half-edges, and its vertex where it is lone."""
    return f'[{number},[{_joined(halves)}],{"null" if vertex is None else vertex}]'


def _joined(numbers: Sequence[int]) -> str:
    return ','.join(map(str, numbers))


def _corners(model: Model, face: int, across: Vector) -> List[int]:
    """The corners of the face's triangles; a wire has none. One that can't be cut exactly is a fan about its first corner."""
    corners = [model.tail(half) for half in _without_spurs(model.loops[model.faces[face].outer].halves)]
    fan = [vertex for pair in zip(corners[1:], corners[2:]) for vertex in (corners[0], *pair)]
    if not fan or across == ZERO or _is_plain(model, face, across):
        return fan
    # The face alone, without its rings that are one vertex.
    solid, outer, rings = model.faces[face]
    row = Face(solid, outer, tuple(ring for ring in rings if not model.loops[ring].is_lone))
    loops = {loop: model.loops[loop] for loop in row.loops}
    edges = {abs(half): model.edges[abs(half)] for loop in loops.values() for half in loop.halves}
    bare = Model((), {face: row}, loops, edges, model.vertices)
    try:
        return [vertex for triangle in face_triangles(bare, face, touched_edges(bare)) for vertex in triangle]
    except Unfit:
        return fan


def _without_spurs(halves: Sequence[int]) -> List[int]:
    """A loop's half-edges without those that it runs there and at once back."""
    kept: List[int] = []
    for half in halves:
        if kept and kept[-1] == -half:
            kept.pop()
        else:
            kept.append(half)
    ends = next((i for i in range(len(kept) // 2) if kept[i] != -kept[-1 - i]), len(kept) // 2)
    return kept[ends:len(kept) - ends]


def _is_plain(model: Model, face: int, across: Vector) -> bool:
    """Whether the face has three or four corners and no ring, and the fan about the first corner covers it."""
    if model.faces[face].rings or len(model.loops[model.faces[face].outer].halves) > 4:
        return False
    first, second = flat_axes(across)
    start, *others = [(point[first], point[second]) for point in model.loop_points(model.faces[face].outer)]
    return all(turn(start, a, b) > 0 for a, b in [*zip(others, others[1:]), (others[0], others[-1])])
