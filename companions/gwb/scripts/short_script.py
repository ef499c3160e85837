"""Scripts with larger commands: solids that are exactly what lamina, block or lamina and sweeps make."""

from typing import Dict, List, Optional, Sequence

from ..geometry.free_numbers import KINDS, FreeNumbers, from_least, greatest_of, numbers_of, sorted_model
from ..geometry.model import Face, Loop, Model
from ..geometry.vectors import Vector, ZERO, add, subtract
from .inversion import solid_script


def short_script_of(model: Model, beside: Sequence[Model] = ()) -> List[str]:
    """As script_of, but a solid that larger commands make, with its very numbers, is made by them. Solids come by their edges."""
    held = (model, *beside)
    free = {kind: FreeNumbers(kind, (number for other in held for number in numbers_of(other)[kind])) for kind in KINDS[1:]}
    greatest = {kind: max((greatest_of(other)[kind] for other in beside), default=0) for kind in KINDS}
    parts = [model.only(solid) for solid in model.solids]
    lines: List[str] = []
    for part in sorted(parts, key=lambda part: min(part.edges, default=0)):
        lines += prism_script(part, greatest) or solid_script(part, free)
        greatest = {kind: max(greatest[kind], number) for kind, number in greatest_of(part).items()}
    return lines


def prism_script(part: Model, greatest: Dict[str, int]) -> Optional[List[str]]:
    """The larger commands that make the model of one solid where these are the greatest numbers in use, or None."""
    corners, sweeps = _shape(part)
    if not 3 <= corners <= 64 or sweeps < 0:
        return None
    first = {kind: number + 1 for kind, number in greatest.items()}
    layers = [[part.vertices.get(first['vertex'] + layer * corners + i, ZERO) for i in range(corners)] for layer in range(sweeps + 1)]
    steps = [subtract(upper[0], lower[0]) for lower, upper in zip(layers, layers[1:])]
    if ZERO in steps or _prism(part.solids[0], first, layers[0], steps) != part:
        return None
    return _block(part.solids[0], layers[0], steps) or _lamina(part.solids[0], first['face'], layers[0], steps)


def _shape(part: Model) -> List[int]:
    """How many corners and how many sweeps a prism of so many vertices and edges has: (2k + 1) n edges and (k + 1) n vertices."""
    vertices, edges = len(part.vertices), len(part.edges)
    corners = 2 * vertices - edges
    return [corners, vertices // corners - 1] if corners > 0 else [0, 0]


def _prism(solid: int, first: Dict[str, int], points: List[Vector], steps: List[Vector]) -> Model:
    """What `lamina` and then sweeps of its first face make, as docs/MODEL.md says."""
    count = len(points)
    edge, vertex, face, loop = first['edge'], first['vertex'], first['face'], first['loop']
    edges = {edge + i: (vertex + i, vertex + (i + 1) % count) for i in range(count)}
    ring = list(edges)
    loops = {loop: from_least(ring), loop + 1: from_least(-half for half in reversed(ring))}
    vertices = dict(zip(range(vertex, vertex + count), points))
    faces, foot = [face, face + 1], list(vertices)
    for step in steps:
        top = [vertex + len(vertices) + i for i in range(count)]
        start = edge + len(edges)
        rising = [start, *range(start + 1, start + 2 * count - 1, 2)]
        far = [*range(start + 2, start + 2 * count - 1, 2), start + 2 * count - 1]
        for i in range(count):
            following = (i + 1) % count
            vertices[top[i]] = add(vertices[foot[i]], step)
            edges[rising[i]] = (foot[i], top[i])
            edges[far[i]] = (top[i], top[following])
            faces.append(face + len(faces))
            loops[loop + len(loops)] = from_least((ring[i], rising[following], -far[i], -rising[i]))
        ring, foot = far, top
    loops[loop] = from_least(ring)
    return sorted_model([solid], {number: Face(solid, loop + place) for place, number in enumerate(faces)},
                        {number: Loop(halves) for number, halves in loops.items()}, edges, vertices)


def _words(*numbers: int) -> str:
    return ' '.join(map(str, numbers))


def _block(solid: int, points: List[Vector], steps: List[Vector]) -> Optional[List[str]]:
    """The command `block` where the prism is one."""
    if len(points) != 4 or len(steps) != 1:
        return None
    (x, y, z), (dx, dy, dz) = points[0], subtract(add(points[2], steps[0]), points[0])
    corners = [(x, y, z), (x + dx, y, z), (x + dx, y + dy, z), (x, y + dy, z)]
    if points != corners or steps != [(0, 0, dz)] or min(dx, dy, dz) < 1:
        return None
    return ['block ' + _words(solid, x, y, z, dx, dy, dz)]


def _lamina(solid: int, face: int, points: List[Vector], steps: List[Vector]) -> Optional[List[str]]:
    if len(set(points)) < len(points):
        return None
    return ['lamina ' + _words(solid, *(part for point in points for part in point)),
            *(f'sweep {face} {_words(*step)}' for step in steps)]
