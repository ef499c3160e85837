"""Finds where faces touch their own edges, so that meshes can have a corner there."""

from typing import Dict, List

from .box_index import BoxIndex, box_of
from .convexity import is_convex
from .measures import normal
from .model import Model
from .vectors import Vector, dot, lies_between, subtract

TouchedEdges = Dict[int, List[int]]


def touched_edges(model: Model) -> TouchedEdges:
    """The edges amid which other vertices of a face of theirs lie, each with one vertex for each such point, on its way."""
    touching: Dict[int, Dict[Vector, int]] = {}
    for face in (face for face in model.faces if not is_convex(model, face, normal(model, face))):
        vertices = BoxIndex({vertex: box_of([model.vertices[vertex]]) for vertex in model.face_vertices(face)})
        for half in model.face_halves(face):
            start, end = model.point(half), model.point(-half)
            for vertex in vertices.meeting(box_of((start, end))):
                if lies_between(start, end, model.vertices[vertex]):
                    touching.setdefault(abs(half), {})[model.vertices[vertex]] = vertex
    return {edge: _on_its_way(model, edge, found) for edge, found in touching.items()}


def _on_its_way(model: Model, edge: int, found: Dict[Vector, int]) -> List[int]:
    start, end = model.point(edge), model.point(-edge)
    along = subtract(end, start)
    return [found[point] for point in sorted(found, key=lambda point: dot(along, subtract(point, start)))]
