"""Makes a model of the parts of a file: whole points, closed surfaces, faces joined, shells turned right, solids told apart."""

from collections import Counter
from typing import Callable, Dict, Hashable, Iterator, List, NamedTuple, Optional, Sequence, Set, Tuple

from ..errors import Unfit
from ..geometry.flat_face import ExactVector
from ..geometry.free_numbers import from_least, sorted_model
from ..geometry.measures import area_vector, normal, why_unfit
from ..geometry.model import Face, Loop, Model
from ..geometry.nesting import Enclosures, Shell, nests
from ..geometry.plane_figures import Exact
from ..geometry.vectors import ZERO, dot
from ..joining.sides import NotClosed
from ..joining.soup import Soup, soup_of
from ..joining.surfaces import Surface, arealess, model_of_surfaces, surface_of, with_joined_faces
from .appearance import Appearance, Thing
from .exact_numbers import told
from .grid import Grid
from .parts import Part, Polygon
from .repair import DROPPED, Repairs, count, cure, repaired

Stage = Callable[[str], None]


class Imported(NamedTuple):
    """A model that was read, and what is to be said of it.

    `square_moved` is the square of the greatest distance that a point was moved to a whole place. `looks` are the names and colours of
    solids and faces by their numbers, `said` what was changed or left out in good order, and `wrong` what is wrong with the model, or
    missing in it.
    """

    model: Model
    square_moved: Exact
    looks: Dict[Thing, Appearance]
    said: List[str]
    wrong: List[str]


def model_of_parts(parts: List[Part], scale: Exact, rounded: bool, keep_triangles: bool, repair: bool = False,
                   stage: Stage = lambda name: None, within: Exact = 0) -> Imported:
    """The model with a solid for each part, for the parts of one named solid together, or for each outer shell where the file doesn't
    say which shells are a solid. The polygons of parts, which are as large as the model, are taken out of the list."""
    work = _Work(Grid(scale, rounded, within), scale, keep_triangles, repair)
    held: List[Tuple[Part, Sequence[Sequence[int]]]] = []
    surfaces: List[Surface] = []
    for place, part in enumerate(parts):
        surface = work.surface(place + 1, part)
        parts[place] = part._replace(points=[], polygons=[])
        if surface is not None:
            held.append((parts[place], surface.origins))
            surfaces.append(surface)
    del part, surface
    model = model_of_surfaces(surfaces)
    stage('looking for shells')
    shells, measured = {solid: model.shells(solid) for solid in model.solids}, _Measured(model)
    work.name_unfit(measured.unfit)
    model = _turned_right(model, shells, measured)
    groups = list(_solids(model, [part for part, _ in held], shells, measured))
    work.name_empty(groups, measured)
    looks = _looks(held, groups, model)
    said = [*dict.fromkeys(note for part in parts for note in (part.scaled, *part.notes) if note), *work.said()]
    left_out = dict.fromkeys(what for part in parts for what in part.left_out)
    return Imported(_with_solids(model, groups), work.grid.square_moved, looks, said, [*left_out, *work.wrong])


class _Work:
    """Makes surfaces of parts, and gathers what is to be said."""

    def __init__(self, grid: Grid, scale: Exact, keep_triangles: bool, repair: bool) -> None:
        self.grid = grid
        self._scale = scale
        self.wrong: List[str] = []
        self._keep_triangles, self._repair = keep_triangles, repair
        self._repairs: Repairs = {}
        self._collapsed = 0

    def surface(self, number: int, part: Part) -> Optional[Surface]:
        """The closed surface of a part, None where nothing is left of it. Raises Unfit where it isn't closed."""
        where = f'part {number}{part.called}: ' if number > 1 or part.look.name else ''
        try:
            soup = self._soup(part)
        except Unfit as error:
            error.args = (f'{where}{error}{self._multiplied(part)}{_also_open(part)}',)
            raise
        try:
            surface = self._joined(surface_of(soup), part)
        except NotClosed as error:
            raise Unfit(f'{where}{error}{"" if self._repair else cure(soup, error)}{self._multiplied(part)}') from None
        except Unfit as error:
            raise Unfit(f'{where}{error}{self._multiplied(part)}') from None
        if len(part.polygons) and not surface.faces:
            self.wrong.append(f'part {number}{part.called} comes to nothing and is left out: no face of it keeps three corners')
            return None
        return surface

    def _multiplied(self, part: Part) -> str:
        """In brackets by what the places in messages are more than those in the file, '' where they aren't."""
        factors = [part.scaled] * bool(part.scaled) + [f'--scale multiplied by {told(self._scale)}'] * (self._scale != 1)
        return f' ({"; ".join(factors)})' if factors else ''

    def _soup(self, part: Part) -> Soup:
        """The polygons of a part on whole points, mended where that is wanted."""
        points, polygons = _used(part)
        soup = soup_of(self.grid.whole(points, part.accuracy), polygons)
        self._collapsed += len(part.polygons) - len(soup.faces)
        return repaired(soup, self._repairs) if self._repair else soup

    def _joined(self, surface: Surface, part: Part) -> Surface:
        tags: List[Hashable] = list(range(len(part.polygons)))
        if not self._keep_triangles and not part.whole:
            tags = [part.face_looks.get(place) for place in range(len(part.polygons))]
        elif not self._repair:
            return surface
        before = len(arealess(surface)) if self._repair else 0
        joined = with_joined_faces(surface, tags, self._repair)
        count(self._repairs, DROPPED, before - len(arealess(joined)) if before else 0)
        return joined

    def name_unfit(self, unfit: Dict[int, str]) -> None:
        """Says which faces are bent or have no area: how many, and the first."""
        for what, sign in (("aren't flat", 'flat'), ('have no area', 'area')):
            held = [why for why in unfit.values() if sign in why.split(':')[0]]
            if held:
                hint = '' if self._repair else ' (--repair mends what can be mended)'
                self.wrong.append(f'{len(held)} faces {what}: {held[0]}{hint}' if len(held) > 1 else held[0] + hint)

    def name_empty(self, groups: 'Sequence[_Solid]', measured: '_Measured') -> None:
        """Says which solids have no volume."""
        held = [solid for solid, group in enumerate(groups, 1) if measured.volume(group.faces) == 0]
        if held:
            self.wrong.append(f'solid {held[0]} has no volume' + (f', and {len(held) - 1} more have none' if held[1:] else ''))

    def said(self) -> List[str]:
        """What was done to faces, with how many."""
        lines = [f'{times} {"face" if times == 1 else "faces"} {what}' for what, times in self._repairs.items()]
        if self._collapsed:
            lines.append(f'{self._collapsed} polygon{"" if self._collapsed == 1 else "s"} of fewer than three different corners left out')
        return lines


def _also_open(part: Part) -> str:
    """What is to be said besides where the polygons of a part whose points aren't whole have open edges too."""
    first: Dict[ExactVector, int] = {}
    name = [first.setdefault(point, place) for place, point in enumerate(part.points)]
    sides = Counter(frozenset((name[a], name[b])) for polygon in part.polygons for loop in polygon for a, b in zip(loop, [*loop[1:], loop[0]]))
    single = sum(1 for side, times in sides.items() if times == 1 and len(side) == 2)
    return f'; and it is open: {single} edges have one face' if single else ''


def _used(part: Part) -> Tuple[List[ExactVector], List[Polygon]]:
    """The points that a part uses, of those that it may have in common with the other parts of its file, and its polygons over them."""
    used = sorted({corner for polygon in part.polygons for loop in polygon for corner in loop})
    if len(used) == len(part.points):
        return part.points, part.polygons
    place = {corner: at for at, corner in enumerate(used)}
    return [part.points[corner] for corner in used], [[[place[corner] for corner in loop] for loop in polygon] for polygon in part.polygons]


class _Measured:
    """What is reckoned of each face once: why it isn't plain and flat, of those that aren't, and its share of six times the volume."""

    def __init__(self, model: Model) -> None:
        self.unfit: Dict[int, str] = {}
        self._volumes: List[int] = []    # (by the faces' numbers, which are 1 and on)
        for face, row in model.faces.items():
            points = model.loop_points(row.outer)
            across = normal(model, face) if row.rings else area_vector(points)
            self._volumes.append(dot(across, points[0]))
            why = None if len(points) == 3 and not row.rings and across != ZERO else why_unfit(model, face)
            if why is not None:
                self.unfit[face] = why

    def volume(self, faces: Sequence[int]) -> int:
        """Six times the volume that faces enclose."""
        return sum(self._volumes[face - 1] for face in faces)

    def are_fit(self, faces: Sequence[int]) -> bool:
        """Whether all of the faces are plain flat ones."""
        return not self.unfit or self.unfit.keys().isdisjoint(faces)


def _turned_right(model: Model, shells: Dict[int, List[Shell]], measured: _Measured) -> Model:
    """Each outermost shell that is inside out is turned, with all shells within it."""
    turned: Set[int] = set()
    for held in shells.values():
        turned.update(_wrong_way(model, held, measured))
    return _with_turned(model, turned) if turned else model


def _wrong_way(model: Model, shells: Sequence[Shell], measured: _Measured) -> Iterator[int]:
    """The faces of the shells of one solid that are to be turned."""
    around = _around(model, shells, measured)
    wrong = {place for place, outer in enumerate(around) if not outer and measured.volume(shells[place]) < 0}
    for place, outer in enumerate(around):
        if place in wrong or wrong.intersection(outer):
            yield from shells[place]


def _around(model: Model, shells: Sequence[Shell], measured: _Measured) -> List[List[int]]:
    """For each shell those in which it lies; a shell with a face that isn't plain and flat has none in it that is known of."""
    flat = [place for place, shell in enumerate(shells) if measured.are_fit(shell)] if len(shells) > 1 else []
    enclosures = Enclosures(model, [shells[place] for place in flat])
    around: List[List[int]] = [[] for _ in shells]
    for inner, place in enumerate(flat):
        around[place] = [flat[outer] for outer in enclosures.around(inner)]
    return around


def _with_turned(model: Model, faces: Set[int]) -> Model:
    loops = {loop for face in faces for loop in model.faces[face].loops}
    new = {number: Loop(from_least(-half for half in reversed(loop.halves))) if number in loops else loop
           for number, loop in model.loops.items()}
    return sorted_model(model.solids, model.faces, new, model.edges, model.vertices)


class _Solid(NamedTuple):
    """A solid of the file: the place of its first part, and its faces."""

    part: int
    faces: List[int]


def _solids(model: Model, parts: Sequence[Part], shells: Dict[int, List[Shell]],
            measured: _Measured) -> Iterator[_Solid]:
    """The solids that the file means. Where it doesn't say them, each shell that holds material is one, with the hollows in it."""
    groups: Dict[Hashable, _Solid] = {}
    for place, (part, number) in enumerate(zip(parts, model.solids)):
        held = shells[number]
        apart = part.parted and len(held) > 1
        for group, faces in enumerate(_groups(model, number, held, measured) if apart else [[face for shell in held for face in shell]]):
            groups.setdefault(part.solid or (place, group), _Solid(place, [])).faces.extend(faces)
    return iter(groups.values())


def _groups(model: Model, solid: int, shells: Sequence[Shell], measured: _Measured) -> Iterator[List[int]]:
    if not all(map(measured.are_fit, shells)):
        return iter(shells)
    return ([face for shell in (nest.outer, *nest.voids) for face in shell] for nest in nests(model, solid, shells))


def _with_solids(model: Model, groups: Sequence[_Solid]) -> Model:
    """The model whose solids are these: mostly they are as they were, and then so is the model."""
    if len(groups) == len(model.solids) and all(model.faces[face].solid == solid for solid, group in enumerate(groups, 1) for face in group.faces):
        return model
    faces = {face: Face(solid, *model.faces[face][1:]) for solid, group in enumerate(groups, 1) for face in group.faces}
    return sorted_model(range(1, len(groups) + 1), faces, model.loops, model.edges, model.vertices)


def _looks(held: Sequence[Tuple[Part, Sequence[Sequence[int]]]], groups: Sequence[_Solid], model: Model) -> Dict[Thing, Appearance]:
    """The names and colours of solids and of faces by their numbers."""
    plain = Appearance()
    marked = any(part.groups or part.face_looks for part, _ in held)
    origins = dict(zip(model.faces, ((part, origins) for part, of_faces in held for origins in of_faces))) if marked else {}
    looks: Dict[Thing, Appearance] = {}
    for solid, group in enumerate(groups, 1):
        part = held[group.part][0]
        looks['solid', solid] = part.look._replace(name=part.look.name or _group_of(part, [origins[face][1] for face in group.faces] if part.groups else []))
    for face, (part, places) in origins.items():
        looks['face', face] = part.face_looks.get(places[0], plain)
    shown = ((thing, look.unnumbered()) for thing, look in looks.items() if look != plain)
    return {thing: look for thing, look in shown if look != plain}


def _group_of(part: Part, origins: Sequence[Sequence[int]]) -> str:
    """The name of the group that has all polygons of some faces, '' where there is no such one."""
    names = {part.groups.get(place, '') for places in origins for place in places} if part.groups else set()
    return names.pop() if len(names) == 1 else ''
