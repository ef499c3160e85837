"""Closed surfaces of polygons as models: faces of one plane joined, edges paired, vertices numbered."""

from itertools import accumulate, chain, islice
from typing import Dict, Hashable, Iterator, List, MutableSequence, NamedTuple, Sequence, Tuple

from ..errors import Unfit
from ..geometry.free_numbers import LARGEST, from_least
from ..geometry.joined_sets import JoinedSets
from ..geometry.measures import area_vector
from ..geometry.model import Face, Loop, Model
from ..geometry.moved import require_in_range
from ..geometry.vectors import Vector, ZERO, dot, subtract
from .sides import Sides
from .soup import Cycles, Soup, direction


class Surface(NamedTuple):
    """Faces of cycles of sides, the outline first; for each the places of the polygons that it comes from. And for each side its vertex."""

    sides: Sides
    faces: List[Sequence[Sequence[int]]]
    origins: List[Tuple[int, ...]]
    vertex: MutableSequence[int]

    def cycle_points(self, cycle: Sequence[int]) -> List[Vector]:
        """The points along a cycle of sides."""
        return [self.sides.points[self.sides.start[side]] for side in cycle]


def surface_of(soup: Soup) -> Surface:
    """The soup as a closed surface. Raises Unfit, with the place, where it isn't closed."""
    sides = Sides(soup)
    ends = list(accumulate(chain((0,), (len(cycle) for face in soup.faces for cycle in face))))
    cycles = map(range, ends, islice(ends, 1, None))
    return Surface(sides, [tuple(islice(cycles, len(face))) for face in soup.faces], [(origin,) for origin in soup.origins], sides.vertices())


def with_joined_faces(surface: Surface, tags: Sequence[Hashable], drop_arealess: bool = False) -> Surface:
    """Faces beside each other in one plane, of polygons with one tag, are one face. A joined face without one outer loop stays as it was.

    Where faces without an area are to be dropped, each is joined to the face across its longest side.
    """
    start, points = surface.sides.start, surface.sides.points
    directions = [direction([[points[start[side]] for side in cycle] for cycle in face]) for face in surface.faces]
    regions = _regions(surface, directions, tags)
    if drop_arealess:
        _join_arealess(surface, regions)
    sets = regions.sets()
    first, later = {held[0]: held for held in sets}, {place for held in sets for place in held[1:]}
    found = surface._replace(faces=[], origins=[])
    for place, face in enumerate(surface.faces):
        if place in first:
            _put_joined(found, surface, first[place], directions, regions)
        elif place not in later:
            found.faces.append(face)
            found.origins.append(surface.origins[place])
    return found


def _put_joined(found: Surface, surface: Surface, held: Sequence[int], directions: Sequence[Vector], regions: JoinedSets) -> None:
    """Appends the one face that some are together, or each of them where they are none."""
    looks = next((directions[place] for place in held if directions[place] != ZERO), ZERO)
    faces: Sequence[Sequence[Sequence[int]]] = _joined(surface, held, looks, regions)
    origins = [surface.origins[place] for place in held]
    found.faces.extend(faces or [surface.faces[place] for place in held])
    found.origins.extend([tuple(chain.from_iterable(origins))] if faces else origins)


def _regions(surface: Surface, directions: Sequence[Vector], tags: Sequence[Hashable]) -> JoinedSets:
    """The faces in sets of those that are to be one."""
    regions = JoinedSets()
    face, origins = surface.sides.face, surface.origins
    for side, mate in enumerate(surface.sides.mate):
        if side < mate:
            one, other = face[side], face[mate]
            if directions[one] == directions[other] != ZERO and tags[origins[one][0]] == tags[origins[other][0]]:
                regions.join(one, other)
    return regions


def _join_arealess(surface: Surface, regions: JoinedSets) -> None:
    """Faces without an area go to the sets of the faces across their longest sides."""
    sides = surface.sides
    for place in arealess(surface):
        beside = [(_square_length(sides, side), sides.face[sides.mate[side]]) for cycle in surface.faces[place] for side in cycle]
        others = [held for held in beside if regions.name(held[1]) != regions.name(place)]
        if others:
            regions.join(max(others)[1], place)


def arealess(surface: Surface) -> List[int]:
    """The faces without rings, all of whose corners lie on a line."""
    return [place for place, face in enumerate(surface.faces) if len(face) == 1 and _on_a_line(surface.cycle_points(face[0]))]


def _on_a_line(points: Sequence[Vector]) -> bool:
    return all(area_vector((points[0], points[1], point)) == ZERO for point in points[2:])


def _square_length(sides: Sides, side: int) -> int:
    along = subtract(sides.points[sides.end(side)], sides.points[sides.start[side]])
    return dot(along, along)


def _joined(surface: Surface, held: Sequence[int], across: Vector, regions: JoinedSets) -> List[Cycles]:
    """The one face that some are together; none where they have no outline or several."""
    cycles = _outlines(surface, held, regions)
    areas = [dot(across, area_vector(surface.cycle_points(cycle))) for cycle in cycles]
    outer = [place for place, area in enumerate(areas) if area > 0]
    if len(outer) != 1:
        return []
    return [[cycles[outer[0]], *cycles[:outer[0]], *cycles[outer[0] + 1:]]]


def _outlines(surface: Surface, held: Sequence[int], regions: JoinedSets) -> Cycles:
    """The cycles of the sides that have no other of the faces beside them."""
    mate, face, after = surface.sides.mate, surface.sides.face, surface.sides.after
    name = regions.name(held[0])
    left = {side: None for place in held for cycle in surface.faces[place] for side in cycle if regions.name(face[mate[side]]) != name}
    cycles: Cycles = []
    while left:
        side = next(iter(left))
        cycle: List[int] = []
        while side in left:
            del left[side]
            cycle.append(side)
            side = after[side]
            while regions.name(face[mate[side]]) == name:
                side = after[mate[side]]
        cycles.append(cycle)
    return cycles


def model_of_surfaces(surfaces: List[Surface]) -> Model:
    """A model with a solid for each surface, numbered as they come. The surfaces are taken out of the list, since they are as large as the model."""
    builder, solids = _Builder(), len(surfaces)
    for solid in range(1, solids + 1):
        builder.add(solid, surfaces.pop(0))
    return builder.model(solids)


def _used(surface: Surface) -> Iterator[int]:
    """The sides of the faces, in their order."""
    return chain.from_iterable(chain.from_iterable(surface.faces))


class _Builder:
    """A model as it grows."""

    def __init__(self) -> None:
        self._faces: Dict[int, Face] = {}
        self._loops: Dict[int, Loop] = {}
        self._edges: Dict[int, Tuple[int, int]] = {}
        self._vertices: Dict[int, Vector] = {}

    def add(self, solid: int, surface: Surface) -> None:
        """One more solid."""
        half = self._numbered(surface)
        for face in surface.faces:
            number, first = len(self._faces) + 1, len(self._loops) + 1
            first = number if first == number else first    # (one object for both takes less room)
            rings = tuple(range(first + 1, first + len(face))) if len(face) > 1 else ()
            self._faces[number] = Face(solid, first, rings)
            for loop, cycle in zip((first, *rings), face):
                self._loops[loop] = Loop(from_least(map(half.__getitem__, cycle)))

    def _numbered(self, surface: Surface) -> List[int]:
        """For each side its half-edge, or 0 where it isn't used. Vertices and edges are numbered in the order of their first use."""
        vertex, mate, half = self._named(surface), surface.sides.mate, [0] * len(surface.vertex)
        for side in _used(surface):
            if not half[side]:
                edge, other = len(self._edges) + 1, mate[side]
                self._edges[edge] = (vertex[side], vertex[other])
                half[side], half[other] = edge, -edge
        return half

    def _named(self, surface: Surface) -> List[int]:
        """For each side the number of the vertex at which it starts, or 0 where none of its vertex's sides is used."""
        vertex, start, points = surface.vertex, surface.sides.start, surface.sides.points
        names = [0] * (max(vertex, default=-1) + 1)
        for side in _used(surface):
            if not names[vertex[side]]:
                names[vertex[side]] = number = len(self._vertices) + 1
                self._vertices[number] = points[start[side]]
        return list(map(names.__getitem__, vertex))

    def model(self, solids: int) -> Model:
        """The model. Raises Unfit where it has more edges than there are numbers, or a point is out of range."""
        if len(self._edges) > LARGEST:
            raise Unfit(f'there are {len(self._edges):,} edges, and {LARGEST:,} numbers')
        for vertex, point in self._vertices.items():
            require_in_range(vertex, point)
        return Model(tuple(range(1, solids + 1)), self._faces, self._loops, self._edges, self._vertices)
