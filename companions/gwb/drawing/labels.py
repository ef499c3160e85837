"""Puts labels into a drawing so that none overlaps another."""

from typing import Dict, Iterator, List, NamedTuple, Optional, Sequence, Tuple

_DIGIT, _HEIGHT = 7.5, 13.0
# Where a label is tried, in order: at its place, and then near it.
_STEPS = ((0, 0), (0, -13), (0, 13), (14, 0), (-14, 0), (14, -13), (-14, -13), (14, 13), (-14, 13))


class Label(NamedTuple):
    """A number with its class, at the middle of its base line."""

    kind: str
    number: int
    x: float
    y: float

    @property
    def half(self) -> float:
        """Half of its width."""
        return len(str(self.number)) * _DIGIT / 2

    def moved(self, across: float, down: float) -> 'Label':
        """The label somewhere else."""
        return self._replace(x=self.x + across, y=self.y + down)

    def overlaps(self, other: 'Label') -> bool:
        """Whether the boxes of both have room in common."""
        return abs(self.x - other.x) < self.half + other.half and abs(self.y - other.y) < _HEIGHT


class Placed(NamedTuple):
    """The labels that found a place, and how many found none."""

    labels: List[Label]
    left_out: int


class _Cells:
    """Labels by squares of the drawing, so that only near ones are compared."""

    _SIDE = 64.0

    def __init__(self) -> None:
        self._held: Dict[Tuple[int, int], List[Label]] = {}

    def put(self, label: Label) -> None:
        """Holds a label."""
        self._held.setdefault(self._cell(label), []).append(label)

    def is_free(self, label: Label) -> bool:
        """Whether no held label overlaps it."""
        return not any(label.overlaps(other) for other in self._near(label))

    def _near(self, label: Label) -> Iterator[Label]:
        column, row = self._cell(label)
        for x in (column - 1, column, column + 1):
            for y in (row - 1, row, row + 1):
                yield from self._held.get((x, y), ())

    def _cell(self, label: Label) -> Tuple[int, int]:
        return (int(label.x // self._SIDE), int(label.y // self._SIDE))


def place(wanted: Sequence[Label]) -> Placed:
    """Each label at its place, or near it where others have taken that, or left out; the first ones have first choice."""
    cells, labels = _Cells(), []
    for label in wanted:
        found = _free_place(label, cells)
        if found is not None:
            cells.put(found)
            labels.append(found)
    return Placed(labels, len(wanted) - len(labels))


def _free_place(label: Label, cells: _Cells) -> Optional[Label]:
    return next((moved for moved in (label.moved(*step) for step in _STEPS) if cells.is_free(moved)), None)
