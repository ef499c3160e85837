"""Loops as linked rings of half-edges, from which edges are taken in constant time."""

from typing import Collection

from ..geometry.model import Loop, by_half


class LinkedHalves:
    """For each half-edge the ones after and before it in its loop, 0 where it is gone."""

    def __init__(self, loops: Collection[Loop]) -> None:
        edges = [abs(half) for loop in loops for half in loop.halves]
        self.after, self.before = (by_half(max(edges, default=0), len(edges)) for _ in range(2))
        after, before = self.after, self.before
        for halves, _ in loops:
            last = halves[-1] if halves else 0
            for half in halves:
                after[last], before[half] = half, last
                last = half

    def take(self, edge: int) -> None:
        """The edge goes: its two loops become one, or its loop falls in two, or the edge that sticks out is cut off."""
        after, before = self.after, self.before
        if abs(after[edge]) != edge != abs(after[-edge]):
            for half, following in ((before[edge], after[-edge]), (before[-edge], after[edge])):
                after[half], before[following] = following, half
            after[edge] = after[-edge] = before[edge] = before[-edge] = 0
            return
        ways = [(half, self._past(half)) for half in (before[edge], before[-edge]) if abs(half) != edge]
        after[edge] = after[-edge] = before[edge] = before[-edge] = 0
        for half, following in ways:
            after[half], before[following] = following, half

    def _past(self, half: int) -> int:
        """What comes after a half-edge where the edge that it leads to is missing."""
        edge = following = self.after[half]
        while abs(following) == abs(edge):
            following = self.after[-following]
        return following

    def contract(self, edge: int) -> None:
        """The edge goes, and its ends become one vertex: what came before each side leads to what came after it."""
        after, before = self.after, self.before
        for half in (edge, -edge):
            half_before, following = before[half], after[half]
            after[half] = before[half] = 0
            if following != half:
                after[half_before], before[following] = following, half_before
