"""Drawings, sections and faces as DXF, the exchange form of AutoCAD in its release 12, which every reader takes: lines and closed polylines."""

import re
from fractions import Fraction
from typing import Dict, Iterable, Iterator, List, NamedTuple, Sequence, Tuple

from ..errors import Unfit
from ..formats.appearance import Said, unique_names
from ..formats.exact_vectors import dot
from ..geometry.crossings import Plane
from ..geometry.flat_face import ExactVector
from ..geometry.measures import normal, why_unfit
from ..geometry.model import Model
from ..geometry.sections import section
from ..geometry.vectors import Vector
from .drawn_edges import KINDS, DrawnEdges
from .view import View

Place = Tuple[float, float]
# The colours of layers by AutoCAD's numbers: 7 is black or white, as the ground isn't; 8 and 9 are grey.
_PLAIN = 7
_LAYERS = {'visible': ('VISIBLE', _PLAIN, 'CONTINUOUS'), 'hidden': ('HIDDEN', 8, 'DASHED'), 'seam': ('SEAM', 9, 'CONTINUOUS')}
_LONGEST_NAME = 31
_NO_LETTER = re.compile('[^A-Z0-9$_-]')


class Layer(NamedTuple):
    """A layer: its name, its colour by number, and its type of lines."""

    name: str
    colour: int
    line: str


class Line(NamedTuple):
    """A line on a layer."""

    layer: str
    start: Place
    end: Place


class Outline(NamedTuple):
    """A closed polyline on a layer."""

    layer: str
    corners: List[Place]


def drawing_dxf(model: Model, stand: Vector, hidden: bool = True, unit: Fraction = Fraction(1)) -> str:
    """The edges of the model for a viewer who stands in the given direction, as long as they are seen from there."""
    view = View(stand)
    drawn, (wide, high) = DrawnEdges(model, view), view.units
    size = float(unit)
    lines: List[Line] = []
    for edge, pieces in drawn.pieces.items():
        for piece in (piece for piece in pieces if hidden or not piece.hidden):
            (ax, ay), (bx, by) = (drawn.on_screen(edge, float(way)) for way in (piece.start, piece.end))
            if (ax, ay) != (bx, by):
                lines.append(Line(_LAYERS[drawn.kind(edge, piece)][0], (ax * wide * size, ay * high * size), (bx * wide * size, by * high * size)))
    return _text([Layer(*_LAYERS[kind]) for kind in KINDS], lines, [])


def section_dxf(model: Model, plane: Plane, said: Said) -> str:
    """The outlines in which the plane cuts the solids, as seen from where its normal points, on a layer for each solid.

    Raises ValueError where the normal is zero, Unfit where a face isn't plain and flat.
    """
    layers = _layers(model, said)
    cuts = {layers[solid]: section(model, solid, plane) for solid in model.solids}
    return _outlined(plane[:3], [(layer, outline) for layer, outlines in cuts.items() for outline in outlines], list(layers.values()), said.unit)


def face_dxf(model: Model, face: int, said: Said) -> str:
    """The loops of a face, as seen from its front. Raises Unfit where it isn't plain and flat."""
    why = why_unfit(model, face)
    if why is not None:
        raise Unfit(why)
    layer = _layers(model, said)[model.faces[face].solid]
    return _outlined(normal(model, face), [(layer, model.loop_points(loop)) for loop in model.faces[face].loops], [layer], said.unit)


def _layers(model: Model, said: Said) -> Dict[int, str]:
    """The names of the solids' layers, of the letters that layers have in release 12."""
    return unique_names(model.solids, said.looks, 'SOLID_', lambda name: _NO_LETTER.sub('_', name.upper())[:_LONGEST_NAME])


def _outlined(across: Vector, outlines: Iterable[Tuple[str, Sequence[ExactVector]]], layers: Sequence[str], unit: Fraction) -> str:
    view = View(across)
    (wide, high), size = view.units, float(unit)
    flat = [Outline(layer, [(float(dot(view.across, corner)) * wide * size, float(dot(view.up, corner)) * high * size) for corner in corners])
            for layer, corners in outlines]
    return _text([Layer(name, _PLAIN, 'CONTINUOUS') for name in layers], [], flat)


def _text(layers: Sequence[Layer], lines: Sequence[Line], outlines: Sequence[Outline]) -> str:
    """The file: pairs of a code and a value, each on a line of its own."""
    pairs = [*_head(), *_tables(layers), (0, 'SECTION'), (2, 'ENTITIES')]
    for line in lines:
        pairs += [(0, 'LINE'), (8, line.layer), *_at(line.start, 0), *_at(line.end, 1)]
    for outline in outlines:
        pairs += [(0, 'POLYLINE'), (8, outline.layer), (66, 1), *_at((0, 0), 0), (70, 1)]
        for corner in outline.corners:
            pairs += [(0, 'VERTEX'), (8, outline.layer), *_at(corner, 0)]
        pairs += [(0, 'SEQEND'), (8, outline.layer)]
    pairs += [(0, 'ENDSEC'), (0, 'EOF')]
    return ''.join(f'{code}\n{value}\n' for code, value in pairs)


def _head() -> List[Tuple[int, object]]:
    """The head, which says the release, and that lengths are millimetres."""
    return [(0, 'SECTION'), (2, 'HEADER'), (9, '$ACADVER'), (1, 'AC1009'), (9, '$INSUNITS'), (70, 4), (0, 'ENDSEC')]


def _tables(layers: Sequence[Layer]) -> Iterator[Tuple[int, object]]:
    """The tables of types of lines and of layers."""
    yield from ((0, 'SECTION'), (2, 'TABLES'), (0, 'TABLE'), (2, 'LTYPE'), (70, 2))
    yield from ((0, 'LTYPE'), (2, 'CONTINUOUS'), (70, 0), (3, 'Solid line'), (72, 65), (73, 0), (40, 0.0))
    yield from ((0, 'LTYPE'), (2, 'DASHED'), (70, 0), (3, 'Dashed line'), (72, 65), (73, 2), (40, 3.0), (49, 2.0), (49, -1.0))
    yield from ((0, 'ENDTAB'), (0, 'TABLE'), (2, 'LAYER'), (70, len(layers)))
    for layer in layers:
        yield from ((0, 'LAYER'), (2, layer.name), (70, 0), (62, layer.colour), (6, layer.line))
    yield from ((0, 'ENDTAB'), (0, 'ENDSEC'))


def _at(place: Place, which: int) -> Iterator[Tuple[int, object]]:
    """The codes and values of a point: the first one of an entity, or the second."""
    for axis, part in zip((10, 20, 30), (*place, 0.0)):
        yield (axis + which, f'{part + 0.0:.12g}')
