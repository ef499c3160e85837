"""Why two faces can't be glued because their points aren't the same ones, and which face of another solid would do."""

from typing import Iterator, List, NamedTuple, Sequence, Tuple

from .free_numbers import begun_at
from .measures import anchor, normal
from .model import Model
from .vectors import Vector, dot, negative, reduced

_MATCHES = 3


class _Plane(NamedTuple):
    """The points p with dot(normal, p) = offset; the first part of the normal that isn't zero is above it."""

    normal: Vector
    offset: int

    def __str__(self) -> str:
        terms = [(part, axis) for part, axis in zip(self.normal, 'xyz') if part]
        first, *rest = (f'{"" if abs(part) == 1 else abs(part)}{axis}' for part, axis in terms)
        signs = ('+' if part > 0 else '-' for part, _ in terms[1:])
        return f'{first}{"".join(f" {sign} {term}" for sign, term in zip(signs, rest))} = {self.offset}'


def matching_faces(model: Model, face: int) -> List[int]:
    """The faces of other solids, without rings, whose points read backwards are those of the face."""
    own = model.faces[face]
    wanted = _from_least(model.loop_points(own.outer)[::-1])
    return [other for other, row in model.faces.items()
            if row.solid != own.solid and not row.rings and _from_least(model.loop_points(row.outer)) == wanted]


def glue_advice(model: Model, first: int, second: int) -> List[str]:
    """Lines of the script language: why the second face doesn't match the first one, and the faces that do."""
    matches = [f'# face {match} of solid {model.faces[match].solid} matches face {first}:\nglue {first} {match}'
               for match in matching_faces(model, first)[:_MATCHES]]
    matches += [f'# face {match} of solid {model.faces[match].solid} matches face {second}:\nglue {match} {second}'
                for match in matching_faces(model, second)[:_MATCHES]]
    told = [line for match in matches for line in match.split('\n')]
    return [*_differences(model, first, second), *(told or [f'# no face of another solid matches face {first} or face {second}'])]


def _differences(model: Model, first: int, second: int) -> Iterator[str]:
    """The planes of two flat faces where they differ, or which of them has a corner that the other hasn't, or that both look the same way."""
    one, other = (_plane(model, face) for face in (first, second))
    if one != other:
        yield f'# face {first} lies in {one}, face {second} in {other}'
        return
    corners = {face: set(model.face_points(face)) for face in (first, second)}
    for face, beside in ((first, second), (second, first)):
        alone = sorted(corners[face] - corners[beside])
        if alone:
            more = f', and {len(alone) - 1} more that face {beside} has not' if len(alone) > 1 else f', which face {beside} has not'
            yield f'# face {face} has the corner {" ".join(map(str, alone[0]))}{more}'
    if corners[first] == corners[second] and dot(normal(model, first), normal(model, second)) > 0:
        yield '# both look the same way, and faces that are glued look at each other'


def _plane(model: Model, face: int) -> _Plane:
    across = reduced(normal(model, face))
    across = across if next(part for part in across if part) > 0 else negative(across)
    return _Plane(across, dot(across, anchor(model, face)))


def _from_least(points: Sequence[Vector]) -> Tuple[Vector, ...]:
    """The points of a cycle from the least one on."""
    return begun_at(tuple(points), min(points)) if points else ()
