"""Draws a model: visible edges black, or each solid of several in its colour; hidden ones thin and dashed, seams within a plane grey."""

from itertools import cycle
from typing import Dict, Iterable, Iterator, List, NamedTuple, Sequence, Tuple

from ..errors import Unfit
from ..geometry.measures import normal, why_unfit
from ..geometry.model import Model
from ..geometry.plane_figures import Exact, turn
from ..geometry.touched_edges import TouchedEdges, touched_edges
from ..geometry.triangulation import face_triangles
from ..geometry.vectors import Vector, dot, flat_axes, total
from .drawn_edges import KINDS, DrawnEdges
from .hidden_lines import Piece
from .labels import Label, Placed, place
from .view import View

SIZE = 600
_MARGIN = 30
_BY_WORTH = ('face', 'vertex', 'edge')
# The colours of several solids, in turn: blue, orange, green, red, violet, teal, ochre, grey.
_COLOURS = ('#1b5fa8', '#c4690a', '#2f8a2c', '#b0304a', '#6a4fb0', '#1d8787', '#8a7a12', '#606060')
_STYLE = """<style>
line { stroke-linecap: round }
.visible { stroke: #000; stroke-width: 2 }
.seam { stroke: #aaa; stroke-width: 1 }
.hidden { stroke: #999; stroke-width: 0.7; stroke-dasharray: 3 4 }
text { font: 13px sans-serif; text-anchor: middle; stroke: #fff; stroke-width: 3px; paint-order: stroke }
.face { fill: #080; font-weight: bold }
.edge { fill: #06c; font-size: 11px }
.vertex { fill: #b00 }
.away { opacity: 0.5 }
</style>"""


class _Frame:
    """Brings screen coordinates to those of the drawing, which fits its size."""

    def __init__(self, spots: Sequence[Tuple[int, int]], view: View, size: int) -> None:
        self._units = view.units
        across, up = ([spot[axis] * self._units[axis] for spot in spots] for axis in (0, 1))
        self._left, self._top = min(across), max(up)
        wide, high = max(across) - self._left, self._top - min(up)
        self._scale = (size - 2 * _MARGIN) / (max(wide, high) or 1)
        self.width, self.height = (2 * _MARGIN + length * self._scale for length in (wide, high))

    def place(self, x: float, y: float) -> Tuple[float, float]:
        """The place in the drawing of a screen point."""
        return (_MARGIN + (x * self._units[0] - self._left) * self._scale,
                _MARGIN + (self._top - y * self._units[1]) * self._scale)


class _Spot(NamedTuple):
    """A point of a face, times a whole weight."""

    point: Vector
    weight: int


class _Drawing:
    """A model, the scene that a viewer sees of it, and the drawing's frame."""

    def __init__(self, model: Model, view: View, size: int) -> None:
        self._model, self._view = model, view
        self._drawn = DrawnEdges(model, view)
        self._scene = self._drawn.scene
        self._frame = _Frame(list(self._scene.spots.values()), view, size)
        self._touched = touched_edges(model)
        self._colours = dict(zip(model.solids, cycle(_COLOURS))) if len(model.solids) > 1 else {}

    def lines(self, names: Sequence[Label], hidden: bool) -> Iterator[str]:
        """The drawing, line by line."""
        width, height = f'{self._frame.width:.0f}', f'{self._frame.height:.0f}'
        yield f'<svg xmlns="http://www.w3.org/2000/svg" width="{width}" height="{height}" viewBox="0 0 {width} {height}">'
        yield _STYLE
        yield '<rect width="100%" height="100%" fill="#fff"/>'
        yield from self._edges(['hidden', 'seam', 'visible'] if hidden else ['seam', 'visible'])
        yield from self._lone_vertices()
        yield from self._legend()
        for label in names:
            yield f'<text class="{label.kind}" x="{label.x:.1f}" y="{label.y:.1f}">{label.number}</text>'
        yield '</svg>'

    def _edges(self, classes: Sequence[str]) -> Iterator[str]:
        drawn: Dict[str, Dict[str, List[str]]] = {name: {} for name in KINDS}
        for edge, pieces in self._drawn.pieces.items():
            for piece in pieces:
                name = self._drawn.kind(edge, piece)
                drawn[name].setdefault(self._ink(name, edge), []).append(self._line(edge, piece))
        for name in classes:
            for ink, lines in drawn[name].items():
                yield f'<g class="{name}"{ink}>'
                yield from lines
                yield '</g>'

    def _ink(self, name: str, edge: int) -> str:
        """What brings the colour of the edge's solid to its group, where there are several."""
        colour = self._colours.get(self._model.faces[self._model.face_of(edge)].solid)
        if colour is None or name == 'seam':
            return ''
        return f' style="stroke: {colour}{"; opacity: 0.6" if name == "hidden" else ""}"'

    def _legend(self) -> Iterator[str]:
        """The numbers of several solids in their colours, unless a colour is there twice."""
        if 1 < len(self._colours) <= len(_COLOURS):
            numbers = ' '.join(f'<tspan style="fill: {colour}">{solid}</tspan>' for solid, colour in self._colours.items())
            yield f'<text x="6" y="16" style="text-anchor: start">solids {numbers}</text>'

    def _line(self, edge: int, piece: Piece) -> str:
        (x1, y1), (x2, y2) = (self._on_edge(edge, float(way)) for way in (piece.start, piece.end))
        return f'<line x1="{x1:.2f}" y1="{y1:.2f}" x2="{x2:.2f}" y2="{y2:.2f}"/>'

    def _on_edge(self, edge: int, way: float) -> Tuple[float, float]:
        return self._frame.place(*self._drawn.on_screen(edge, way))

    def _lone_vertices(self) -> Iterator[str]:
        for face in self._model.faces.values():
            colour = self._colours.get(face.solid)
            fill = '' if colour is None else f' style="fill: {colour}"'
            for vertex in (self._model.loops[loop].vertex for loop in face.loops):
                if vertex is not None:
                    x, y = self._frame.place(*self._scene.spots[vertex])
                    yield f'<circle cx="{x:.2f}" cy="{y:.2f}" r="3"{fill}/>'

    def names(self) -> Placed:
        """The numbers that have room: those that the viewer sees before the others, faces before vertices and edges."""
        return place(sorted(self._names(), key=lambda label: (label.kind.endswith(' away'), _BY_WORTH.index(label.kind.split(' ')[0]))))

    def _names(self) -> Iterator[Label]:
        seen = {vertex for edge, pieces in self._drawn.pieces.items() for vertex in self._seen_ends(edge, pieces)}
        for vertex, spot in self._scene.spots.items():
            x, y = self._frame.place(*spot)
            yield _label('vertex', vertex, x + 9, y - 4, away=vertex not in seen)
        for edge, pieces in self._drawn.pieces.items():
            if pieces:
                piece = max(pieces, key=lambda piece: (not piece.hidden, piece.end - piece.start))
                x, y = self._on_edge(edge, float(piece.start + piece.end) / 2)
                yield _label('edge', edge, x, y + 4, away=piece.hidden)
        for face in self._model.faces:
            yield self._face_name(face)

    def _seen_ends(self, edge: int, pieces: Sequence[Piece]) -> Iterator[int]:
        """The ends of an edge that the viewer sees."""
        start, end = self._model.edges[edge]
        if pieces and not pieces[0].hidden:
            yield start
        if pieces and not pieces[-1].hidden:
            yield end

    def _face_name(self, face: int) -> Label:
        point, weight = _middle(self._model, face, self._touched)
        spot = self._view.spot(point)
        x, y = self._frame.place(spot[0] / weight, spot[1] / weight)
        turned = dot(self._drawn.normals[face], self._view.into) > 0
        return _label('face', face, x, y + (17 if turned else 4), away=turned or self._scene.is_hidden(point, spot, weight))


def _label(kind: str, number: int, x: float, y: float, away: bool) -> Label:
    return Label(f'{kind}{" away" if away else ""}', number, x, y)


def _middle(model: Model, face: int, touched: TouchedEdges) -> _Spot:
    """A place for the face's number: in the largest of its triangles, or amid its vertices where it has none."""
    corners = model.face_vertices(face)
    if why_unfit(model, face) is None:
        try:
            corners = list(max(face_triangles(model, face, touched), key=lambda triangle: _area(model, face, triangle)))
        except Unfit:
            pass
    return _Spot(total(model.vertices[vertex] for vertex in corners), len(corners))


def _area(model: Model, face: int, triangle: Iterable[int]) -> Exact:
    first, second = flat_axes(normal(model, face))
    a, b, c = ((model.vertices[vertex][first], model.vertices[vertex][second]) for vertex in triangle)
    twice = turn(a, b, c)
    return max(twice, -twice)


class Picture(NamedTuple):
    """A drawing, and how many numbers had no room in it."""

    text: str
    left_out: int


def picture(model: Model, stand: Vector, names: bool = False, hidden: bool = True, size: int = SIZE) -> Picture:
    """The drawing of the model for a viewer who stands in the given direction; its longest side has so many pixels."""
    drawing = _Drawing(model, View(stand), size)
    placed = drawing.names() if names else Placed([], 0)
    return Picture('\n'.join(drawing.lines(placed.labels, hidden)) + '\n', placed.left_out)


def svg_text(model: Model, stand: Vector, names: bool = False, hidden: bool = True) -> str:
    """The text of the drawing, as picture makes it."""
    return picture(model, stand, names, hidden).text
