"""The edges of a model as a drawing shows them: in pieces that are visible, hidden, or seams within a plane."""

from typing import Tuple

from ..geometry.measures import normal
from ..geometry.model import Model
from ..geometry.vectors import ZERO, same_direction
from .hidden_lines import Piece, Scene
from .view import View

KINDS = ('hidden', 'seam', 'visible')


class DrawnEdges:
    """The edges of a model for a viewer."""

    def __init__(self, model: Model, view: View) -> None:
        self.scene = Scene(model, view)
        self.normals = {face: normal(model, face) for face in model.faces}
        self.pieces = {edge: self.scene.pieces(edge) for edge in model.edges}
        self._model = model

    def kind(self, edge: int, piece: Piece) -> str:
        """What a piece of an edge is: one of KINDS."""
        return 'hidden' if piece.hidden else 'seam' if self._is_seam(edge) else 'visible'

    def _is_seam(self, edge: int) -> bool:
        """Whether the edge lies within a plane: between two faces that look the same way, or within one face."""
        across, beyond = (self.normals[self._model.face_of(half)] for half in (edge, -edge))
        return across != ZERO and beyond != ZERO and same_direction(across, beyond)

    def on_screen(self, edge: int, way: float) -> Tuple[float, float]:
        """The screen point after a part of an edge's way, from 0 to 1."""
        (ax, ay), (bx, by) = (self.scene.spots[vertex] for vertex in self._model.edges[edge])
        return (ax + way * (bx - ax), ay + way * (by - ay))
