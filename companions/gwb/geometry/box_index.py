"""Finds which of many boxes meet a given one, by a grid."""

from itertools import product
from typing import Dict, Generic, Iterable, Iterator, List, Mapping, Optional, Sequence, Set, Tuple, TypeVar

from .plane_figures import Exact

Box = Tuple[Tuple[Exact, Exact], ...]
Key = TypeVar('Key')

_MANY_CELLS = 256


def box_of(points: Iterable[Sequence[Exact]]) -> Box:
    """The least box around the points: for each axis the least and the greatest coordinate."""
    return tuple([(min(axis), max(axis)) for axis in zip(*points)])


def boxes_meet(a: Box, b: Box) -> bool:
    """Whether the boxes have a point in common."""
    for (low, high), (other_low, other_high) in zip(a, b):
        if low > other_high or other_low > high:
            return False
    return True


class BoxIndex(Generic[Key]):
    """Boxes by their keys. More may be added; those that lie outside the first ones are found too."""

    def __init__(self, boxes: Mapping[Key, Box], per_axis: Optional[int] = None) -> None:
        """The grid has so many cells along each axis; as many as there are boxes in all, where no number is given."""
        self._boxes: Dict[Key, Box] = {}
        self._cells: Dict[Tuple[int, ...], List[Key]] = {}
        self._wide: List[Key] = []
        around = box_of(corner for box in boxes.values() for corner in zip(*box))
        cells = round(len(boxes) ** (1 / max(1, len(around)))) if per_axis is None else min(_MANY_CELLS, per_axis)
        self._steps = [(high - low) // max(1, cells) + 1 for low, high in around]
        for key, box in boxes.items():
            self.add(key, box)

    def add(self, key: Key, box: Box) -> None:
        """Puts one more box in."""
        self._boxes[key] = box
        ranges = self._ranges(box)
        if _count(ranges) > _MANY_CELLS:
            self._wide.append(key)
            return
        for cell in product(*ranges):
            self._cells.setdefault(cell, []).append(key)

    def meeting(self, box: Box) -> Iterator[Key]:
        """The keys of the boxes that have a point in common with the box, each once."""
        boxes = self._boxes
        for key in self._candidates(box):
            if boxes_meet(boxes[key], box):
                yield key

    def near(self, box: Box) -> Set[Key]:
        """The keys of all boxes that may meet the box: those in its cells."""
        ranges = self._ranges(box)
        if _count(ranges) > len(self._boxes):
            return set(self._boxes)
        cells = self._cells
        return set(self._wide).union(*[cells[cell] for cell in product(*ranges) if cell in cells])

    def _candidates(self, box: Box) -> Iterator[Key]:
        """Keys of all boxes that may meet the box, each once."""
        ranges = self._ranges(box)
        if _count(ranges) > len(self._boxes):
            yield from self._boxes
            return
        yield from self._wide
        seen: Set[Key] = set()
        for cell in product(*ranges):
            for key in self._cells.get(cell, ()):
                if key not in seen:
                    seen.add(key)
                    yield key

    def _ranges(self, box: Box) -> List[range]:
        return [range(low // step, high // step + 1) for (low, high), step in zip(box, self._steps)]


def _count(ranges: Sequence[range]) -> int:
    count = 1
    for cells in ranges:
        count *= len(cells)
    return count
