"""Spanning trees of the edges of a model, chosen so that few leaves are where an edge begins.

`mev` makes the end of an edge, so a leaf at which its edge ends takes one line of a script, and one at which it begins takes three.
"""

from typing import Collection, Dict, Iterable, Iterator, List, NamedTuple, Set

from ..geometry.joined_sets import JoinedSets
from ..geometry.model import Model


class Tree(NamedTuple):
    """A tree of edges: its root, and the half-edges that lead away from it, each after the one that leads to its tail."""

    root: int
    halves: List[int]


def spanning_trees(model: Model, vertices: Collection[int], edges: List[int]) -> List[Tree]:
    """A tree for each connected part of the vertices; a vertex without an edge has a tree of none."""
    ways: Dict[int, List[int]] = {vertex: [] for vertex in vertices}
    for edge in _chosen(model, ways, edges):
        start, end = model.edges[edge]
        ways[start].append(edge)
        ways[end].append(-edge)
    return list(_rooted(model, ways))


def _chosen(model: Model, vertices: Collection[int], edges: List[int]) -> List[int]:
    """Edges that make no cycle and join what can be joined: first two that leave each vertex where none ends, then one that
    ends at each of the others, so that no leaf begins an edge where it can be helped."""
    leaving: Dict[int, List[int]] = {vertex: [] for vertex in vertices}
    ending: Dict[int, List[int]] = {vertex: [] for vertex in vertices}
    for edge in edges:
        start, end = model.edges[edge]
        leaving[start].append(edge)
        ending[end].append(edge)
    forest = _Forest(model, len(vertices) - 1)
    for vertex, wanted in leaving.items():
        if not ending[vertex]:
            forest.grow(wanted, 2)
    for wanted in ending.values():
        forest.grow(wanted, 1)
    forest.grow(edges, len(vertices))
    return forest.edges


class _Forest:
    """Edges that make no cycle, of which there can be so many at most."""

    def __init__(self, model: Model, most: int) -> None:
        self.edges: List[int] = []
        self._ends, self._most, self._joined = model.edges, most, JoinedSets()

    def grow(self, wanted: Iterable[int], count: int) -> None:
        """Takes the first of these edges that make no cycle, so many at most."""
        ends, join, most = self._ends, self._joined.join, min(self._most, len(self.edges) + count)
        for edge in wanted:
            if len(self.edges) == most:
                return
            if join(*ends[edge]):
                self.edges.append(edge)


def _rooted(model: Model, ways: Dict[int, List[int]]) -> Iterator[Tree]:
    """The trees of a forest, given by the half-edges that leave each vertex. Where a leaf begins an edge it is a root first."""
    leaves = (vertex for vertex, halves in ways.items() if len(halves) == 1 and halves[0] > 0)
    seen: Set[int] = set()
    for root in (*leaves, *ways):
        if root not in seen:
            yield Tree(root, _from_root(model, ways, root, seen))


def _from_root(model: Model, ways: Dict[int, List[int]], root: int, seen: Set[int]) -> List[int]:
    seen.add(root)
    found: List[int] = []
    waiting = list(ways[root])
    while waiting:
        half = waiting.pop()
        end = model.tail(-half)
        if end not in seen:
            seen.add(end)
            found.append(half)
            waiting += ways[end]
    return found
