"""Sets that only grow together (union-find)."""

from typing import Dict, List


class JoinedSets:
    """Numbers in sets, each known by the name of one of its members. At first each number is a set of its own."""

    def __init__(self) -> None:
        self._above: Dict[int, int] = {}

    def name(self, member: int) -> int:
        """The name of the set that the number is in. Paths are made short on the way (R. E. Tarjan, 1975)."""
        above, top = self._above, member
        while top in above:
            top = above[top]
        while member != top:
            above[member], member = top, above[member]
        return top

    def join(self, kept: int, gone: int) -> bool:
        """Makes one set of two, with the name of the first. Whether they were two."""
        name, other = self.name(kept), self.name(gone)
        if name != other:
            self._above[other] = name
        return name != other

    def sets(self) -> List[List[int]]:
        """The members, rising, of each set of two or more."""
        found: Dict[int, List[int]] = {}
        for member in sorted({*self._above, *self._above.values()}):
            found.setdefault(self.name(member), []).append(member)
        return list(found.values())
