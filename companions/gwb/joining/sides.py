"""The sides of polygons, paired where faces meet."""

from array import array
from functools import cmp_to_key
from itertools import chain, repeat
from typing import Dict, List, MutableSequence, NamedTuple, Optional, Sequence, Set, Tuple

from ..errors import Unfit
from ..geometry.vectors import Vector, ZERO, cross, dot, negative, subtract
from .soup import Soup, across


_OPEN, _TURNED = 'open edge', 'face that turns'


class NotClosed(Unfit):
    """The faces aren't a closed surface; `are_turned` where some edge has two that run the same way, and `are_several` where one has more than two."""

    def __init__(self, text: str, are_turned: bool, are_several: bool) -> None:
        super().__init__(text)
        self.are_turned, self.are_several = are_turned, are_several


class Sides:
    """The sides of a soup by numbers: the place of the point at which each starts, the side after it, its face, and its mate, which is the
    side of another face, or of the same, along which the surface goes on."""

    def __init__(self, soup: Soup) -> None:
        """Raises NotClosed, with the place, where the faces aren't a closed surface."""
        self.points = soup.points
        self.start = array('i', chain.from_iterable(chain.from_iterable(soup.faces)))
        self.after = array('i', range(1, len(self.start) + 1))
        self.face = array('i', chain.from_iterable([repeat(place, sum(map(len, face))) for place, face in enumerate(soup.faces)]))
        first = 0
        for cycle in chain.from_iterable(soup.faces):
            last = first + len(cycle)
            self.after[last - 1] = first
            first = last
        self.mate = _mates(self, soup)

    def end(self, side: int) -> int:
        """The place of the point at which the side ends."""
        return self.start[self.after[side]]

    def vertices(self) -> MutableSequence[int]:
        """For each side the number of the vertex at which it starts. Where fans of faces meet at a point alone each has a vertex there."""
        vertex = _none(len(self.start))
        count = 0
        for side in range(len(vertex)):
            if vertex[side] < 0:
                self._name_fan(side, count, vertex)
                count += 1
        return vertex

    def _name_fan(self, first: int, name: int, vertex: MutableSequence[int]) -> None:
        side, after, mate = first, self.after, self.mate
        while vertex[side] < 0:
            vertex[side] = name
            side = after[mate[side]]


class _Wrong(NamedTuple):
    """An edge at which the surface isn't closed: its ends, and how many faces run forth and back along it."""

    start: int
    end: int
    forth: int
    back: int


def _none(count: int) -> MutableSequence[int]:
    """So many places, each -1, which no side and no vertex has."""
    return array('i', (-1,)) * count


def _mates(sides: Sides, soup: Soup) -> MutableSequence[int]:
    mate = _none(len(sides.start))
    left = _left_alone(sides, mate)
    wrong: List[_Wrong] = []
    for held in _by_ends(sides, left).values():
        pairs = _pairs(held, sides, soup)
        if pairs is None:
            forth = [side for side in held if sides.start[side] == sides.start[held[0]]]
            wrong.append(_Wrong(sides.start[held[0]], sides.end(held[0]), len(forth), len(held) - len(forth)))
            continue
        for one, other in pairs:
            mate[one], mate[other] = other, one
    if wrong:
        kinds = {_kind(edge) for edge in wrong}
        raise NotClosed(_told(wrong, soup.points), _TURNED in kinds, bool(kinds - {_OPEN, _TURNED}))
    return mate


def _left_alone(sides: Sides, mate: MutableSequence[int]) -> List[int]:
    """Makes mates of the sides that are two between their points and run against each other. These are the others, rising."""
    first: Dict[int, int] = {}
    crowded: Set[int] = set()
    count, start, after = len(sides.points), sides.start, sides.after
    for side, begin in enumerate(start):
        end = start[after[side]]
        ends = begin * count + end if begin < end else end * count + begin
        other = first.setdefault(ends, side)
        if other == side:
            continue
        if mate[other] < 0 and start[other] != begin:
            mate[side], mate[other] = other, side
        else:
            crowded.add(ends)
    return [side for side, other in enumerate(mate) if other < 0 or crowded and _ends(sides, side) in crowded]


def _ends(sides: Sides, side: int) -> int:
    """A number for the two points that a side lies between, whichever way it runs."""
    begin, end = sides.start[side], sides.end(side)
    return min(begin, end) * len(sides.points) + max(begin, end)


def _by_ends(sides: Sides, some: Sequence[int]) -> Dict[int, List[int]]:
    """Some sides, by the two points that they lie between."""
    held: Dict[int, List[int]] = {}
    for side in some:
        held.setdefault(_ends(sides, side), []).append(side)
    return held


def _pairs(held: List[int], sides: Sides, soup: Soup) -> Optional[Sequence[Tuple[int, int]]]:
    """Sides that go together: two that run against each other, or of more those that have material between them. None where they
    can't be paired."""
    if len(held) == 2:
        return [(held[0], held[1])] if sides.start[held[0]] != sides.start[held[1]] else None
    forth = [side for side in held if sides.start[side] == sides.start[held[0]]]
    if 2 * len(forth) != len(held):
        return None
    return _around(held, set(forth), sides, soup)


def _around(held: List[int], forth: Set[int], sides: Sides, soup: Soup) -> Optional[Sequence[Tuple[int, int]]]:
    """Pairs around an edge. Seen against the way of the edge, counterclockwise, material begins at a side that runs back and ends at the
    next one that runs forth; walls that lie on each other end one material before they begin another."""
    along = subtract(sides.points[sides.end(held[0])], sides.points[sides.start[held[0]]])
    ways = {side: _into(along, across(soup.loops(sides.face[side])), side in forth) for side in held}
    if ZERO in ways.values():
        return None
    first = ways[held[0]]

    def compare(a: int, b: int) -> int:
        return _compare(first, along, ways[a], ways[b]) or (a not in forth) - (b not in forth)

    turn = sorted(held, key=cmp_to_key(compare))
    turn = turn[1:] + turn[:1] if turn[0] in forth else turn
    pairs = list(zip(turn[::2], turn[1::2]))
    return pairs if all(one not in forth and other in forth for one, other in pairs) else None


def _into(along: Vector, normal: Vector, is_forth: bool) -> Vector:
    """From an edge into a face beside it, in its plane and across the edge."""
    return cross(normal, along if is_forth else negative(along))


def _compare(first: Vector, along: Vector, a: Vector, b: Vector) -> int:
    """Negative where a comes before b, turning about `along` from `first`."""
    halves = [_is_past_half(first, along, way) for way in (a, b)]
    if halves[0] != halves[1]:
        return 1 if halves[0] else -1
    turned = dot(cross(a, b), along)
    return -1 if turned > 0 else int(turned < 0)


def _is_past_half(first: Vector, along: Vector, way: Vector) -> bool:
    """Whether a way comes half a turn behind the first one, or later."""
    turned = dot(cross(first, way), along)
    return turned < 0 or turned == 0 and dot(first, way) < 0


def _told(wrong: Sequence[_Wrong], points: Sequence[Vector]) -> str:
    """What is wrong, by kind: how many edges, and where the first is."""
    kinds: Dict[str, List[_Wrong]] = {}
    for edge in wrong:
        kinds.setdefault(_kind(edge), []).append(edge)
    told = [_told_kind(kind, held, points) for kind, held in kinds.items()]
    return '; '.join(told)


def _kind(edge: _Wrong) -> str:
    if edge.forth + edge.back == 1:
        return _OPEN
    if edge.forth + edge.back == 2:
        return _TURNED
    return f'edge of {edge.forth + edge.back} faces'


def _told_kind(kind: str, held: Sequence[_Wrong], points: Sequence[Vector]) -> str:
    start, end = points[held[0].start], points[held[0].end]
    where = 'the edge from ({} {} {}) to ({} {} {})'.format(*start, *end)
    if kind == _OPEN:
        what = f'{kind}: {where} has one face'
    elif kind == _TURNED:
        what = f'{kind}: at {where} both faces run the same way'
    else:
        what = f'{kind}: {where}'
    more = f', and {len(held) - 1} more' if len(held) > 1 else ''
    return what + more + (_holes(held) if kind == _OPEN else '')


def _holes(held: Sequence[_Wrong]) -> str:
    """How many holes the open edges go round, where each is a cycle of its own."""
    following = {edge.end: edge.start for edge in held}
    if set(following) != set(following.values()) or len(following) != len(held):
        return ''
    count, left = 0, dict(following)
    while left:
        here = next(iter(left))
        count += 1
        while here in left:
            here = left.pop(here)
    return f', round {count} {"hole" if count == 1 else "holes"}'
