"""Whether a model is sound, found out by comparing all its half-edges at once: that takes less time than walks, but doesn't tell what is wrong."""

from itertools import chain, filterfalse
from operator import neg
from typing import Collection, Dict, Iterable

from ..geometry.model import Loop, Model


def is_sound_at_once(model: Model) -> bool:
    """Whether half-edges, cycles and vertices keep the rules of soundness, in a model whose loops are each of one face. False too where there are
    lone loops: those are looked at rule by rule."""
    loops = model.loops.values()
    if not model.is_paired() or any(vertex is not None for _, vertex in loops) or not _are_ends_sound(model):
        return False
    standing, following = list(chain.from_iterable([loop.halves for loop in loops])), list(_following(loops))
    return (len(standing) == 2 * len(model.edges) and _begin_with_least(loops)
            and model.tails(map(neg, standing)) == model.tails(following)
            and _is_one_fan_each(dict(zip(standing, following)), model.some_half_at()))


def _are_ends_sound(model: Model) -> bool:
    """Whether each edge ends at another vertex than it starts at, and the ends of edges are all vertices."""
    ends = model.edges.values()
    return all(start != end for start, end in ends) and model.vertices.keys() == set(chain.from_iterable(ends))


def _following(loops: Iterable[Loop]) -> Iterable[int]:
    """For each half-edge of loops, in their order, the next one of its loop."""
    return chain.from_iterable([halves[1:] + halves[:1] for halves, _ in loops])


def _begin_with_least(loops: Collection[Loop]) -> bool:
    """Whether each loop begins with the half-edge of its least edge, and with the positive one where it has both."""
    firsts = [halves[0] for halves, _ in loops]
    return [min(halves, key=abs) for halves, _ in loops] == firsts and not any(first < 0 and -first in loop.halves for first, loop in zip(firsts, loops))


def _is_one_fan_each(after: Dict[int, int], some_half: Dict[int, int]) -> bool:
    """Whether one comes, around the vertices, from one half-edge of each vertex to all others that start there. A step is made at all vertices at
    once. Around a vertex one comes back first to the half-edge where one began, so none is counted twice."""
    starts, count = set(some_half.values()), 0
    here = list(starts)
    while here:
        count += len(here)
        opposite: Iterable[int] = map(neg, here)
        here = list(filterfalse(starts.__contains__, map(after.__getitem__, opposite)))
    return count == len(after)
