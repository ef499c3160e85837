"""Numbers of things: the kinds, those in use, and those that are free."""

from typing import Collection, Dict, Iterable, Iterator, List, Mapping, Tuple, TypeVar

from ..errors import Unfit
from .model import Face, Loop, Model
from .vectors import Vector

KINDS = ('solid', 'face', 'loop', 'edge', 'vertex')
LARGEST = 1_000_000
Item = TypeVar('Item')


def numbers_of(model: Model) -> Dict[str, Collection[int]]:
    """For each kind the numbers in use."""
    return dict(zip(KINDS, (model.solids, model.faces, model.loops, model.edges, model.vertices)))


def greatest_of(model: Model) -> Dict[str, int]:
    """For each kind the greatest number in use, 0 where there is none."""
    return {kind: max(numbers, default=0) for kind, numbers in numbers_of(model).items()}


class FreeNumbers:
    """The numbers of one kind that aren't in use: those above the greatest, then those in gaps."""

    def __init__(self, kind: str, used: Iterable[int]) -> None:
        self._kind = kind
        self._used = set(used)
        self._given_back: List[int] = []
        self._left = self._rising()

    def take(self) -> int:
        """A free number, which is in use from now on. Raises Unfit where there is none."""
        if self._given_back:
            return self._given_back.pop()
        number = next(self._left, None)
        if number is None:
            raise Unfit(f'no {self._kind} number is free, and one is needed')
        return number

    def give_back(self, number: int) -> None:
        """The number is free again."""
        self._given_back.append(number)

    def _rising(self) -> Iterator[int]:
        first = max(self._used, default=0) + 1
        yield from range(first, LARGEST + 1)
        yield from (number for number in range(1, first) if number not in self._used)


def renumbered_after(model: Model, other: Model) -> Model:
    """The model with numbers that are free in the other one, in the same order wherever they lie above its greatest."""
    used = numbers_of(other)
    return renumbered(model, {kind: renumbering(FreeNumbers(kind, used[kind]), numbers) for kind, numbers in numbers_of(model).items()})


def renumbered(model: Model, new: Mapping[str, Mapping[int, int]]) -> Model:
    """The model with new numbers, said for each kind and number."""
    solid, face, loop, edge, vertex = (new[kind] for kind in KINDS)
    return sorted_model(
        solids=[solid[number] for number in model.solids],
        faces={face[number]: Face(solid[row.solid], loop[row.outer], tuple(sorted(loop[ring] for ring in row.rings)))
               for number, row in model.faces.items()},
        loops={loop[number]: _renumbered_loop(row, edge, vertex) for number, row in model.loops.items()},
        edges={edge[number]: (vertex[start], vertex[end]) for number, (start, end) in model.edges.items()},
        vertices={vertex[number]: point for number, point in model.vertices.items()})


def renumbering(free: FreeNumbers, numbers: Collection[int]) -> Dict[int, int]:
    """A free number for each of these, in their order."""
    return {number: free.take() for number in sorted(numbers)}


def _renumbered_loop(loop: Loop, edge: Mapping[int, int], vertex: Mapping[int, int]) -> Loop:
    if loop.vertex is not None:
        return Loop((), vertex[loop.vertex])
    return Loop(from_least(edge[half] if half > 0 else -edge[-half] for half in loop.halves))


def from_least(halves: Iterable[int]) -> Tuple[int, ...]:
    """The cycle from its least half-edge on, by edge, `+` before `-`."""
    cycle = tuple(halves)
    least = min([abs(half) for half in cycle])
    least = least if least in cycle else -least
    return cycle if cycle[0] == least else begun_at(cycle, least)


def begun_at(cycle: Tuple[Item, ...], first: Item) -> Tuple[Item, ...]:
    """The cycle from one of its items on."""
    place = cycle.index(first)
    return cycle[place:] + cycle[:place]


def sorted_model(solids: Iterable[int], faces: Mapping[int, Face], loops: Mapping[int, Loop], edges: Mapping[int, Tuple[int, int]],
                 vertices: Mapping[int, Vector]) -> Model:
    """A model with each kind in rising order."""
    return Model(tuple(sorted(solids)), dict(sorted(faces.items())), dict(sorted(loops.items())), dict(sorted(edges.items())),
                 dict(sorted(vertices.items())))
