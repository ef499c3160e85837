"""Edges of a surface that has one vertex and one loop, in pairs: the first parts the loop, and the second lies between the parts."""

from typing import Iterator, List, Tuple

from ..geometry.model import Loop
from .linked_halves import LinkedHalves


def handle_pairs(cycle: List[int]) -> Iterator[Tuple[int, int]]:
    """The edges of a cycle that has both half-edges of each, two by two in the order in which they are to be taken out.

    The minus side of the second is in the part that follows the plus side of the first. One walks along the cycle until both sides
    of an edge were met. What lies between them has one side only of each edge, so each of it leads across. What was met and is still
    in one piece needn't be walked again.
    """
    ring, left, standing = LinkedHalves([Loop(tuple(cycle))]), list(cycle), len(cycle)
    met: List[int] = []
    known = set(met)
    while standing:
        half = ring.after[met[-1]] if met else _last_left(ring, left)
        if -half not in known:
            met.append(half)
            known.add(half)
            continue
        place = met.index(-half)
        before, between = met[:place], met[place + 1:]
        across = between.pop()
        yield (abs(half), abs(across)) if (half < 0) == (across < 0) else (abs(across), abs(half))
        for gone in (half, across):
            ring.take(abs(gone))
        standing -= 4
        met = _one_piece(before, between, -across)
        known = set(met)


def _last_left(ring: LinkedHalves, left: List[int]) -> int:
    """The last half-edge of the list that still stands in the ring."""
    while not ring.after[left[-1]]:
        left.pop()
    return left[-1]


def _one_piece(before: List[int], between: List[int], mate: int) -> List[int]:
    """Where the mate was met, what lay between comes to its place; else the two are apart, and the longer one is taken."""
    if mate not in before:
        return max(before, between, key=len)
    place = before.index(mate)
    return before[:place] + between + before[place + 1:]
