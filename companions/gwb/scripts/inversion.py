"""A listing turned round: the script of Euler operators that makes a model, with its very numbers, from nothing, or that takes it away.

Each solid is taken apart by operators whose inverses the script can say; these, the last one first, make it. Rings become faces;
edges between two faces go until each connected part has one; then handles go, two edges at a time, and the tree that is left.
"""

from typing import Dict, List, Sequence, Set

from ..geometry.free_numbers import FreeNumbers, numbers_of
from ..geometry.joined_sets import JoinedSets
from ..geometry.model import Model, by_half
from ..geometry.solids_apart import solids_apart
from .handle_pairs import handle_pairs
from .linked_halves import LinkedHalves
from .spanning_tree import Tree, spanning_trees


def script_of(model: Model, beside: Sequence[Model] = ()) -> List[str]:
    """The lines of a script which, run on the empty workbench, makes the model: its listing is the same, byte for byte.

    It may also be run where the models `beside` are, whose numbers it leaves alone. Raises Unfit where a spare number is needed on
    the way and the kind has none free. Cost: n log n for n edges, and for handles the walks of handle_pairs.
    """
    free = spare_numbers((model, *beside))
    return [line for alone in solids_apart(model) for line in solid_script(alone, free)]


def taking_away(model: Model, beside: Sequence[Model] = ()) -> List[str]:
    """The lines of a script which, run where the model is, takes its solids away, and leaves the models `beside` as they are.

    Raises Unfit as script_of does. Cost: as script_of."""
    free = spare_numbers((model, *beside))
    return [line for alone in solids_apart(model) for line in TakenApart(alone, free, is_making=False).steps()]


def spare_numbers(held: Sequence[Model]) -> Dict[str, FreeNumbers]:
    """The numbers that are free in the models, of the kinds that scripts need on the way."""
    return {kind: FreeNumbers(kind, (number for model in held for number in numbers_of(model)[kind])) for kind in ('face', 'loop', 'edge')}


def solid_script(model: Model, free: Dict[str, FreeNumbers]) -> List[str]:
    """The script of a model that has one solid. Raises Unfit where a spare number is needed and none is free."""
    return TakenApart(model, free, is_making=True).steps()[::-1]


class TakenApart:
    """A solid as it is taken apart: of each step the operator is kept that takes something away, or the one that makes it again."""

    def __init__(self, model: Model, free: Dict[str, FreeNumbers], is_making: bool) -> None:
        self._is_making = is_making
        self._model = model
        self._free = free
        self._steps: List[str] = []
        self._halves = LinkedHalves(model.loops.values())
        self._loop_of = by_half(max(model.edges, default=0), len(model.edges))
        for loop, (halves, _) in model.loops.items():
            for half in halves:
                self._loop_of[half] = loop
        self._face_of = {row.outer: face for face, row in model.faces.items()}
        self._loops = JoinedSets()
        self._vertices = JoinedSets()

    def steps(self) -> List[str]:
        """The steps, in the order in which they take the solid away. Raises Unfit where a spare number is needed and none is free."""
        spare_faces = self._rings_out()
        trees = spanning_trees(self._model, self._model.vertices, list(self._model.edges))
        handles = self._merge_faces({abs(half) for tree in trees for half in tree.halves})
        self._handles_out(handles)
        for tree in trees:
            self._tree_out(tree)
        self._join_parts([tree.root for tree in trees])
        for face in spare_faces:
            self._free['face'].give_back(face)
        return self._steps

    def _step(self, takes: str, makes: str) -> None:
        self._steps.append(makes if self._is_making else takes)

    def _rings_out(self) -> List[int]:
        """Each ring becomes the outer loop of a face of its own: these faces."""
        spare = []
        for face, row in self._model.faces.items():
            for ring in row.rings:
                spare.append(self._free['face'].take())
                self._face_of[ring] = spare[-1]
                self._step(f'mfkrh {ring} {spare[-1]}', f'kfmrh {face} {spare[-1]}')
        return spare

    def _loop(self, half: int) -> int:
        return self._loops.name(self._loop_of[half])

    def _merge_faces(self, kept: Set[int]) -> List[int]:
        """All edges between two faces go except the kept ones. Returns the edges that then have one face on both sides."""
        handles, name, loop_of = [], self._loops.name, self._loop_of
        for edge in self._model.edges:
            if edge not in kept:
                kept_loop, gone = name(loop_of[edge]), name(loop_of[-edge])
                if kept_loop == gone:
                    handles.append(edge)
                else:
                    self._kef(edge, gone)
                    self._loops.join(kept_loop, gone)
        return handles

    def _kef(self, edge: int, gone: int) -> None:
        """The edge goes, and the face and the loop on its mate's side."""
        after = self._halves.after
        self._step(f'kef +{edge}', f'mef {after[-edge]:+d} {after[edge]:+d} {edge} {self._face_of[gone]} {gone}')
        self._halves.take(edge)

    def _handles_out(self, edges: List[int]) -> None:
        """The edges that have one loop on both sides go, in each connected part by itself."""
        by_loop: Dict[int, List[int]] = {}
        for edge in edges:
            by_loop.setdefault(self._loop(edge), []).append(edge)
        for loop, held in by_loop.items():
            self._part_out(loop, self._cycle(held))

    def _cycle(self, edges: List[int]) -> List[int]:
        """The half-edges of these edges, in the order of the one loop that they stand in."""
        wanted, start = set(edges), edges[0]
        cycle, half = [start], self._halves.after[start]
        while half != start:
            if abs(half) in wanted:
                cycle.append(half)
            half = self._halves.after[half]
        return cycle

    def _part_out(self, loop: int, cycle: List[int]) -> None:
        """Each pair of edges goes by `kemr`, whose ring becomes a spare face, and by the `kef` that takes one of the two faces."""
        ring, face = self._free['loop'].take(), self._free['face'].take()
        after = self._halves.after
        for edge, across in handle_pairs(cycle):
            self._step(f'kemr +{edge} {ring}', f'mekr {after[-edge]:+d} {after[edge]:+d} {edge}')
            self._step(f'mfkrh {ring} {face}', f'kfmrh {self._face_of[loop]} {face}')
            self._halves.take(edge)
            self._step(f'kef +{across}', f'mef {after[-across]:+d} {after[across]:+d} {across} {face} {ring}')
            self._halves.take(across)
        self._free['loop'].give_back(ring)
        self._free['face'].give_back(face)

    def _tree_out(self, tree: Tree) -> None:
        """The edges of a tree go: those that begin below and lead up, and then leaves."""
        inner = {self._model.tail(half) for half in tree.halves}
        rising = [half for half in tree.halves if half < 0]
        hanging = [half for half in rising if self._model.tail(-half) not in inner]
        for half in rising:
            if self._model.tail(-half) in inner:
                self._kev(-half)
        for half in hanging:
            self._leaf_out(-half)
        for half in reversed(tree.halves):
            if half > 0:
                self._kev(half)

    def _kev(self, edge: int) -> None:
        """The edge goes, and the vertex at its end."""
        after, gone = self._halves.after, self._vertices.name(self._model.tail(-edge))
        first = after[edge] if after[edge] != -edge else after[-edge]
        second = after[-edge] if after[-edge] != edge else after[edge]
        corners = f'{first:+d} {second:+d}'
        if abs(first) == edge:
            corners = '@{0} @{0}'.format(self._loop(edge))
        self._step(f'kev +{edge}', f'mev {corners} {edge} {gone} {self._point(gone)}')
        self._halves.contract(edge)
        self._vertices.join(self._model.tail(edge), gone)

    def _point(self, vertex: int) -> str:
        return '{} {} {}'.format(*self._model.vertices[vertex])

    def _leaf_out(self, edge: int) -> None:
        """An edge that begins at a leaf goes: a spare edge to the leaf takes its place, and then goes as any."""
        corner = self._halves.after[edge]
        if corner == -edge:
            return self._kev(edge)
        leaf = self._vertices.name(self._model.tail(edge))
        spare, face, loop = (self._free[kind].take() for kind in ('edge', 'face', 'loop'))
        self._step(f'mef -{edge} +{edge} {spare} {face} {loop}', f'kef +{spare}')
        self._step(f'kef +{edge}', f'mef -{spare} {corner:+d} {edge} {face} {loop}')
        self._step(f'kev +{spare}', f'mev {corner:+d} {corner:+d} {spare} {leaf} {self._point(leaf)}')
        self._halves.take(edge)
        for kind, number in zip(('edge', 'face', 'loop'), (spare, face, loop)):
            self._free[kind].give_back(number)
        return None

    def _join_parts(self, roots: List[int]) -> None:
        """What is left is a face of one vertex for each part: all but the first grow from it by an edge that is cut again."""
        lone = {row.vertex: loop for loop, row in self._model.loops.items()}
        some_half = self._model.some_half_at()
        ends = [(self._loop(some_half[root]) if root in some_half else lone[root], self._vertices.name(root)) for root in roots]
        (first, vertex), *others = ends
        for loop, grown in others:
            spare = self._free['edge'].take()
            self._step(f'kfmrh {self._face_of[first]} {self._face_of[loop]}', f'mfkrh {loop} {self._face_of[loop]}')
            self._step(f'mekr @{first} @{loop} {spare}', f'kemr +{spare} {loop}')
            self._step(f'kev +{spare}', f'mev @{first} @{first} {spare} {grown} {self._point(grown)}')
            self._free['edge'].give_back(spare)
        solid = self._model.solids[0]
        self._step(f'kvfs {solid}', f'mvfs {solid} {self._face_of[first]} {first} {vertex} {self._point(vertex)}')
