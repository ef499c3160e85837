"""Whether the parts of a model fit together: the rules of *Soundness* in docs/MODEL.md."""

from collections import Counter
from itertools import chain
from typing import Dict, Iterable, Sequence

from ..errors import NotAListing
from ..geometry.model import Model
from .sound_at_once import is_sound_at_once

_NUMBERS, _COORDINATES = 1_000_000, 1_000_000_000


def require_sound(model: Model) -> None:
    """Raises NotAListing, with the first rule that the model breaks."""
    _require_ranges(model)
    _require_faces(model)
    _require_loops(model)
    if is_sound_at_once(model):
        _require_one_solid_on_both_sides(model)
        return
    _require_halves(model)
    _require_cycles(model)
    _require_one_solid_on_both_sides(model)
    _require_vertices(model)


def _refuse(wrong: Iterable[str]) -> None:
    """Raises NotAListing with the first of what is wrong, if anything is."""
    for text in wrong:
        raise NotAListing(text)


def _require_once(numbers: Sequence[int], kind: str) -> None:
    if len(set(numbers)) < len(numbers):
        _refuse(f'{kind} {number} stands in {times} places' for number, times in Counter(numbers).items() if times > 1)


def _require_ranges(model: Model) -> None:
    """Numbers and coordinates lie in their ranges."""
    greatest = [max(numbers, default=0) for numbers in (model.solids, model.faces, model.loops, model.edges, model.vertices)]
    _refuse(f'the number {number} is out of range' for number in greatest if number > _NUMBERS)
    _refuse(f'vertex {vertex} lies out of range' for vertex, (x, y, z) in model.vertices.items()
            if not (-_COORDINATES <= x <= _COORDINATES and -_COORDINATES <= y <= _COORDINATES and -_COORDINATES <= z <= _COORDINATES))


def _require_faces(model: Model) -> None:
    """Each face is of a solid that is there, and each solid has a face."""
    solids = set(model.solids)
    _refuse(f'face {number} is of solid {face.solid}, which is missing' for number, face in model.faces.items() if face.solid not in solids)
    _refuse(f"the rings of face {number} don't rise" for number, face in model.faces.items()
            if face.rings and list(face.rings) != sorted(face.rings))
    _refuse(f'solid {solid} has no face' for solid in model.solids if not model.faces_of(solid))


def _require_loops(model: Model) -> None:
    """The faces' loops are there, and each loop is of one face."""
    named = [loop for face in model.faces.values() for loop in (face.loops if face.rings else (face.outer,))]
    if len(named) == len(model.loops) and model.loops.keys() == set(named):
        return
    _require_once(named, 'loop')
    _refuse(f'loop {loop} is missing' for loop in named if loop not in model.loops)
    _refuse(f'loop {loop} is of no face' for loop in model.loops.keys() - set(named))


def _require_halves(model: Model) -> None:
    """Both half-edges of each edge, and nothing else, stand in loops, each once; an edge's ends are two vertices."""
    standing = [half for loop in model.loops.values() for half in loop.halves]
    _require_once(standing, 'half-edge')
    halves, vertices = set(standing), model.vertices
    _refuse(f'edge {abs(half)} is missing' for half in standing if abs(half) not in model.edges)
    _refuse(f'edge {edge} stands in loops with one side, or with none' for edge in model.edges if edge not in halves or -edge not in halves)
    _refuse(f'edge {edge} starts and ends at one vertex' for edge, (start, end) in model.edges.items() if start == end)
    _refuse(f'vertex {vertex} is missing' for vertex in chain.from_iterable(model.edges.values()) if vertex not in vertices)


def _require_cycles(model: Model) -> None:
    """Each half-edge ends where the next one of its loop starts; a loop begins with its least half-edge."""
    for number, loop in model.loops.items():
        if loop.vertex is not None:
            _refuse([f'vertex {loop.vertex} is missing'] if loop.vertex not in model.vertices else ())
        else:
            _require_cycle(model, number, loop.halves)


def _require_cycle(model: Model, number: int, halves: Sequence[int]) -> None:
    starts, edges, first = model.loop_vertices(number), model.edges, halves[0]
    ends = [edges[half][1] if half > 0 else edges[-half][0] for half in halves]
    if ends != starts[1:] + starts[:1]:
        _refuse(f'loop {number} breaks off after {half:+d}' for half, end, start in zip(halves, ends, starts[1:] + starts[:1]) if end != start)
    if abs(first) != abs(min(halves, key=abs)) or first < 0 and -first in halves:
        raise NotAListing(f"loop {number} doesn't begin with its least half-edge")


def _require_one_solid_on_both_sides(model: Model) -> None:
    faces, face_of = model.faces, model.face_of
    _refuse(f'edge {edge} lies between two solids' for edge in (model.edges if len(model.solids) > 1 else ())
            if faces[face_of(edge)].solid != faces[face_of(-edge)].solid)


def _require_vertices(model: Model) -> None:
    """Each vertex is that of one lone loop, or all half-edges that leave it form one cycle around it."""
    lone = [loop.vertex for loop in model.loops.values() if loop.vertex is not None]
    _require_once(lone, 'lone vertex')
    leaving, alone = Counter(chain.from_iterable(model.edges.values())), set(lone)
    _refuse(f'vertex {vertex} is of no loop, or of a lone one and of an edge' for vertex in model.vertices
            if (vertex in alone) == (vertex in leaving))
    around = _next_around(model)
    some_half = {**{end: -edge for edge, (_, end) in model.edges.items()}, **{start: edge for edge, (start, _) in model.edges.items()}}
    _refuse(f'the edges at vertex {vertex} form more than one fan' for vertex, count in leaving.items()
            if _cycle_length(around, some_half[vertex]) != count)


def _next_around(model: Model) -> Dict[int, int]:
    """From each half-edge the next one around the vertex at which it starts."""
    return {-half: following for loop in model.loops.values()
            for half, following in zip(loop.halves, loop.halves[1:] + loop.halves[:1])}


def _cycle_length(following: Dict[int, int], start: int) -> int:
    length, here = 1, following[start]
    while here != start:
        length, here = length + 1, following[here]
    return length
