"""A model as a mesh of triangles."""

from dataclasses import dataclass
from functools import cached_property
from typing import Dict, List, Tuple

from ..geometry.measures import require_fit
from ..geometry.model import Model
from ..geometry.touched_edges import touched_edges
from ..geometry.triangulation import Triangle, face_triangles
from ..geometry.vectors import Vector


@dataclass(frozen=True)
class Mesh:
    """The triangles of each face, over vertices of the model.

    Vertices of one solid at one point count as one, so that the mesh is closed where the solid touches itself too.
    """

    model: Model
    faces: Dict[int, List[Triangle]]

    @cached_property
    def _by_solid(self) -> Dict[int, List[int]]:
        held: Dict[int, List[int]] = {solid: [] for solid in self.model.solids}
        for face, row in self.model.faces.items():
            held[row.solid].append(face)
        return held

    def faces_of(self, solid: int) -> List[int]:
        """The faces of one solid, rising."""
        return self._by_solid[solid]

    @property
    def triangles(self) -> List[Triangle]:
        """All triangles, by face."""
        return [triangle for triangles in self.faces.values() for triangle in triangles]

    def triangles_of(self, solid: int) -> List[Triangle]:
        """The triangles of one solid, by face."""
        return [triangle for face in self.faces_of(solid) for triangle in self.faces[face]]

    @property
    def vertices(self) -> List[int]:
        """The vertices of triangles, rising."""
        return sorted({vertex for triangle in self.triangles for vertex in triangle})


def mesh_of(model: Model) -> Mesh:
    """The model's faces as triangles; raises Unfit at a face that isn't a plain flat one."""
    require_fit(model)
    touched = touched_edges(model)
    first: Dict[Tuple[int, Vector], int] = {}
    faces: Dict[int, List[Triangle]] = {}
    for face, row in model.faces.items():
        named = (map(lambda vertex: first.setdefault((row.solid, model.vertices[vertex]), vertex), triangle)
                 for triangle in face_triangles(model, face, touched))
        faces[face] = [(a, b, c) for a, b, c in named]
    return Mesh(model, faces)
