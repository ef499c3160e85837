"""What `--repair` does to polygons before they are joined: nothing of it is done unasked, and each is counted."""

from typing import Dict, Hashable, List, Optional, Sequence, Tuple

from ..errors import Unfit
from ..geometry.free_numbers import from_least
from ..geometry.plane_figures import Corner
from ..geometry.triangulation import triangulate
from ..geometry.vectors import ZERO, flat_axes
from ..joining.sides import NotClosed
from ..joining.soup import Cycles, Soup, across, is_bent

Repairs = Dict[str, int]
TRIANGULATED, DROPPED, TURNED, DOUBLED = 'bent, cut into triangles', 'without an area, dropped', 'turned', 'there twice, left out once'


def repaired(soup: Soup, repairs: Repairs) -> Soup:
    """The soup without doubled and bent faces, and with its faces turned alike wherever they can be; what was done is added to the counts."""
    return _turned_alike(_without_bent(_without_folded(_without_doubled(soup, repairs), repairs), repairs), repairs)


def cure(soup: Soup, wrong: NotClosed) -> str:
    """What of a soup that isn't closed `--repair` would mend, as words to put behind what is wrong."""
    doubled: Repairs = {}
    if wrong.are_several and len(_without_doubled(soup, doubled).faces) < len(soup.faces):
        return ': --repair leaves faces out that are there twice'
    return ': --repair turns faces' if wrong.are_turned else ''


def count(repairs: Repairs, what: str, times: int) -> None:
    """Adds to a count."""
    if times:
        repairs[what] = repairs.get(what, 0) + times


def _without_doubled(soup: Soup, repairs: Repairs) -> Soup:
    """One face of those that have the same corners in the same order."""
    kept: Dict[Hashable, int] = {}
    for place, face in enumerate(soup.faces):
        kept.setdefault(tuple(map(from_least, face)), place)
    count(repairs, DOUBLED, len(soup.faces) - len(kept))
    return Soup(soup.points, [soup.faces[place] for place in kept.values()], [soup.origins[place] for place in kept.values()])


def _without_folded(soup: Soup, repairs: Repairs) -> Soup:
    """The soup without pairs of faces without an area that lie on each other and look against each other."""
    flat = [place for place in range(len(soup.faces)) if across(soup.loops(place)) == ZERO]
    places = {tuple(map(from_least, soup.faces[place])): place for place in flat}
    back = ((place, tuple(from_least(cycle[::-1]) for cycle in soup.faces[place])) for place in flat)
    folded = {place for place, key in back if places.get(key, place) != place}
    count(repairs, DROPPED, len(folded))
    left = [place for place in range(len(soup.faces)) if place not in folded]
    return Soup(soup.points, [soup.faces[place] for place in left], [soup.origins[place] for place in left])


def _without_bent(soup: Soup, repairs: Repairs) -> Soup:
    """The soup with triangles in place of faces that aren't flat. Raises Unfit where one can't be cut."""
    found = Soup(soup.points, [], [])
    bent = 0
    for place, origin in enumerate(soup.origins):
        triangles = _triangles(soup, place)
        bent += triangles is not None
        faces = [soup.faces[place]] if triangles is None else triangles
        found.faces.extend(faces)
        found.origins.extend([origin] * len(faces))
    count(repairs, TRIANGULATED, bent)
    return found


def _triangles(soup: Soup, place: int) -> Optional[List[Cycles]]:
    """The triangles of a bent face, cut as it looks from its front; None for a flat one, or one without an area."""
    loops = soup.loops(place)
    normal = across(loops)
    if normal == ZERO or not is_bent(loops, normal):
        return None
    first, second = flat_axes(normal)
    outline, *rings = [[Corner(vertex, (soup.points[vertex][first], soup.points[vertex][second])) for vertex in cycle]
                       for cycle in soup.faces[place]]
    try:
        return [[list(triangle)] for triangle in triangulate(outline, rings)]
    except Unfit as error:
        raise Unfit(f'polygon {soup.origins[place] + 1} is bent and can\'t be cut into triangles: {error}') from None


def _turned_alike(soup: Soup, repairs: Repairs) -> Soup:
    """Faces that are joined by edges of two run alike: of each connected part the fewer are turned."""
    beside = _neighbours(soup)
    turned: List[Optional[bool]] = [None] * len(soup.faces)
    wrong: List[int] = []
    for start in range(len(soup.faces)):
        if turned[start] is None:
            part = _spread(start, beside, turned)
            flipped = [place for place in part if turned[place]]
            wrong += flipped if 2 * len(flipped) <= len(part) else [place for place in part if not turned[place]]
    count(repairs, TURNED, len(wrong))
    faces = list(soup.faces)
    for place in wrong:
        faces[place] = [cycle[::-1] for cycle in faces[place]]
    return Soup(soup.points, faces, soup.origins)


def _neighbours(soup: Soup) -> List[List[Tuple[int, bool]]]:
    """For each face those beside it, along edges of two faces, and whether both run the same way there."""
    held: Dict[Tuple[int, int], List[Tuple[int, bool]]] = {}
    sides = ((place, cycle[i - 1], cycle[i]) for place, face in enumerate(soup.faces) for cycle in face for i in range(len(cycle)))
    for place, start, end in sides:
        held.setdefault((min(start, end), max(start, end)), []).append((place, start < end))
    beside: List[List[Tuple[int, bool]]] = [[] for _ in soup.faces]
    for one, other in (pair for pair in held.values() if len(pair) == 2):
        beside[one[0]].append((other[0], one[1] == other[1]))
        beside[other[0]].append((one[0], one[1] == other[1]))
    return beside


def _spread(start: int, beside: Sequence[Sequence[Tuple[int, bool]]], turned: List[Optional[bool]]) -> List[int]:
    """The faces that are reached from one, each marked as turned or not against it."""
    turned[start] = False
    reached, waiting = [start], [start]
    while waiting:
        here = waiting.pop()
        for place, same_way in beside[here]:
            if turned[place] is None:
                turned[place] = bool(turned[here]) != same_way
                reached.append(place)
                waiting.append(place)
    return reached
