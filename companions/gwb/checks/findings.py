"""What `check` finds."""

from typing import NamedTuple


class Finding(NamedTuple):
    """A slip: its kind, and what is wrong with which numbers."""

    kind: str
    text: str

    def __str__(self) -> str:
        return f'{self.kind}: {self.text}'


BENT = 'bent'
WRONG_WAY = 'wrong-way'
OUTSIDE = 'outside'
CROSSING = 'crossing'
MEETING = 'meeting'
TOUCHING = 'touching'
INSIDE_OUT = 'inside-out'
OVERLAPPING = 'overlapping'
SLIVER = 'sliver'
