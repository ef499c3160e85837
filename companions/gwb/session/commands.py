"""The commands of the script language as methods."""

from fractions import Fraction
from itertools import islice
from typing import List, Optional

from ..protocol.complaints import refused
from ..meanings import NUMBERS
from ..protocol.replies import Reply
from . import arguments
from .bench import Methods
from .c_calls import rows
from .reading import FacePart
from .results import Block, Count, Lamina, NewEdge, NewFace, NewSolid, Plane, Sweep


class Commands(Methods):
    """A running gwb. Each command is a method; one that isn't accepted raises Refused, Faulted or MemoryRefused."""

    def mvfs(self, point: arguments.Point, *, solid: Optional[int] = None, face: Optional[int] = None,
             loop: Optional[int] = None, vertex: Optional[int] = None) -> NewSolid:
        """A new solid of one face, whose outer loop is one vertex at the point.

        >>> bench.mvfs((50, 0, 0))
        NewSolid(solid=2, face=7, loop=7, vertex=9)
        >>> bench.vertex(9).point
        (50, 0, 0)
        """
        place = self._kernel.lengths.point('point', point)
        made = NewSolid(self._new('solid', solid), self._new('face', face), self._new('loop', loop), self._new('vertex', vertex))
        self._kernel.do('mvfs', *made, *place)
        return made

    def kvfs(self, solid: arguments.Solid) -> None:
        """The solid goes, with its one face, loop and vertex.

        >>> made = bench.mvfs((50, 0, 0))
        >>> bench.kvfs(made.solid)
        >>> bench.solids()
        <solids 1>
        """
        self._kernel.do('kvfs', self._number('solid', solid))

    def mev(self, first: arguments.Corner, second: arguments.Corner, point: arguments.Point, *,
            edge: Optional[int] = None, vertex: Optional[int] = None) -> NewEdge:
        """A new edge from the vertex of both corners to a new one at the point.

        >>> half = bench.face(block.top).outer.half_edges[0]
        >>> bench.mev(half, half, (5, 5, 10))
        NewEdge(edge=13, vertex=9)
        >>> bench.edge(13).points
        ((0, 0, 10), (5, 5, 10))
        """
        corners = self._corner('first', first), self._corner('second', second)
        place = self._kernel.lengths.point('point', point)
        made = NewEdge(self._new('edge', edge), self._new('vertex', vertex))
        self._kernel.do('mev', *corners, *made, *place)
        return made

    def kev(self, half: arguments.Edge) -> None:
        """The edge goes, and the vertex at which the half-edge ends.

        >>> half = bench.face(block.top).outer.half_edges[0]
        >>> spur = bench.mev(half, half, (5, 5, 10))
        >>> bench.kev(spur.edge)
        >>> len(bench.edges())
        12
        """
        self._kernel.do('kev', self._half('half', half))

    def mef(self, first: arguments.Edge, second: arguments.Edge, *, edge: Optional[int] = None,
            face: Optional[int] = None, loop: Optional[int] = None) -> NewFace:
        """A new edge across a face; the part of its loop from the first half-edge to before the second is of the new face.

        >>> first, _, third, _ = bench.face(block.top).outer.half_edges
        >>> bench.mef(first, third)
        NewFace(edge=13, face=7, loop=7)
        >>> len(bench.face(7).edges)
        3
        """
        halves = self._half('first', first), self._half('second', second)
        made = NewFace(self._new('edge', edge), self._new('face', face), self._new('loop', loop))
        self._kernel.do('mef', *halves, *made)
        return made

    def kef(self, half: arguments.Edge) -> None:
        """The edge goes, and the face on the other side of the half-edge.

        >>> first, _, third, _ = bench.face(block.top).outer.half_edges
        >>> bench.kef(bench.mef(first, third).edge)
        >>> len(bench.faces())
        6
        """
        self._kernel.do('kef', self._half('half', half))

    def kemr(self, half: arguments.Edge, *, loop: Optional[int] = None) -> int:
        """The edge goes, and the part of its loop after the half-edge is a new ring: its number.

        >>> half = bench.face(block.top).outer.half_edges[0]
        >>> spur = bench.mev(half, half, (5, 5, 10))
        >>> bench.kemr(spur.edge)
        7
        >>> bench.face(block.top).rings
        (<loop 7>,)
        """
        word, made = self._half('half', half), self._new('loop', loop)
        self._kernel.do('kemr', word, made)
        return made

    def mekr(self, first: arguments.Corner, second: arguments.Corner, *, edge: Optional[int] = None) -> int:
        """A new edge from the first corner to one in a ring of the same face, which becomes part of the first one's loop.

        >>> half = bench.face(block.top).outer.half_edges[0]
        >>> spur = bench.mev(half, half, (5, 5, 10))
        >>> bench.mekr(half, Lone(bench.kemr(spur.edge)))
        14
        >>> bench.face(block.top).rings
        ()
        """
        corners, made = (self._corner('first', first), self._corner('second', second)), self._new('edge', edge)
        self._kernel.do('mekr', *corners, made)
        return made

    def kfmrh(self, face: arguments.Face, other: arguments.Face) -> None:
        """The other face goes, and its loop becomes a ring of the face.

        >>> ring = bench.ring(block.top, [(10, 5, 10), (15, 5, 10), (10, 10, 10)])
        >>> _ = bench.sweep(ring.face, (0, 0, -10))
        >>> bench.kfmrh(block.bottom, ring.face)
        >>> bench.count(block).rings
        2
        """
        self._kernel.do('kfmrh', self._number('face', face), self._number('other', other, 'face'))

    def mfkrh(self, ring: arguments.LoopNumber, *, face: Optional[int] = None) -> int:
        """The ring becomes the outer loop of a new face: its number.

        >>> ring = bench.ring(block.top, [(10, 5, 10), (15, 5, 10), (10, 10, 10)])
        >>> bench.mfkrh(ring.loop)
        8
        >>> bench.loop(ring.loop).face
        <face 8>
        """
        loop, made = self._number('ring', ring, 'loop'), self._new('face', face)
        self._kernel.do('mfkrh', loop, made)
        return made

    def ringmv(self, ring: arguments.LoopNumber, face: arguments.Face, way: str) -> None:
        """The ring becomes a ring of the face (way `in`), or its outer loop (way `out`).

        >>> ring = bench.ring(block.top, [(10, 5, 10), (15, 5, 10), (10, 10, 10)])
        >>> bench.ringmv(ring.loop, ring.face, 'in')
        >>> bench.loop(ring.loop).face
        <face 7>
        """
        self._kernel.do('ringmv', self._number('ring', ring, 'loop'), self._number('face', face), arguments.word('way', way, ('in', 'out')))

    def lamina(self, points: arguments.Points, *, solid: Optional[int] = None) -> Lamina:
        """A new solid of two faces, back to back, through up to 64 points. The front is seen with the points counterclockwise.

        >>> bench.lamina([(0, 0, 30), (5, 0, 30), (0, 5, 30)])
        Lamina(solid=2, front=7, back=8, edges=(13, 14, 15), vertices=(9, 10, 11))
        >>> bench.area(7)
        12.5
        """
        places = self._kernel.lengths.points('points', points, arguments.MOST_LAMINA_POINTS)
        number = self._new('solid', solid)
        self._kernel.do('lamina', number, *(part for place in places for part in place), typed=(number, rows(places), len(places)))
        (front, back), edges, vertices = self._kernel.lines.fresh('face', 'edge', 'vertex')
        return Lamina(number, front, back, edges, vertices)

    def block(self, point: arguments.Point, sizes: arguments.Point, *, solid: Optional[int] = None) -> Block:
        """A new solid: the block from the point on with edges along the axes, so long as the sizes say.

        >>> bench.volume(bench.block((50, 0, 0), (12.5, '1/4 in', 3)))
        Fraction(1905, 8)
        """
        kernel = self._kernel
        lengths = kernel.lengths
        place, size, number = lengths.point('point', point), lengths.point('sizes', sizes), self._new('solid', solid)
        if min(size) < 1:
            at = next(at for at, length in enumerate(size) if length < 1)
            raise refused('block', NUMBERS['SizeRange'], at + 1, f'sizes[{at}] is {lengths.out(size[at])}; sizes are above 0')
        kernel.do('block', number, *place, *size)
        (top, bottom, *sides), edges, vertices = kernel.lines.fresh('face', 'edge', 'vertex')
        return Block(number, top, bottom, tuple(sides), edges, vertices)

    def sweep(self, face: arguments.Face, vector: arguments.Point) -> Sweep:
        """The face moves by the vector and leaves a side behind each of its half-edges.

        A lamina's front is swept along its normal, its back along the opposite one: the other way the solid is inside out.

        >>> _ = bench.sweep(block.top, (0, 0, 2))
        >>> bench.volume(block)
        Fraction(9600, 1)
        """
        number, way = self._number('face', face), self._kernel.lengths.point('vector', vector)
        self._kernel.do('sweep', number, *way)
        sides, fresh, vertices = self._kernel.lines.fresh('face', 'edge', 'vertex')
        edges = iter(fresh)
        rising: List[int] = []
        far: List[int] = []
        for loop in FacePart(self._kernel, number).loops:
            round_loop = list(islice(edges, 2 * len(loop.half_edges)))
            rising += [round_loop[0], *round_loop[1:-1:2]]
            far += [*round_loop[2::2], round_loop[-1]]
        return Sweep(number, sides, tuple(rising), tuple(far), vertices)

    def glue(self, face: arguments.Face, other: arguments.Face) -> int:
        """The solids of the two faces become one along them: its number.

        >>> other = bench.block((40, 0, 0), (10, 20, 10))
        >>> bench.glue(block.sides[1], other.sides[3])
        1
        >>> bench.solids()
        <solids 1>
        """
        faces = self._number('face', face), self._number('other', other, 'face')
        kept = self._kernel.lines.solid_of(faces[0])
        self._kernel.do('glue', *faces)
        return kept

    def undo(self, *, command: bool = False) -> None:
        """The last step is taken back: a command, or all those of a feature or a group; with `command=True` one command of it. A draft is one
        command. Refused: NothingToUndo. In a draft InDraft, in a group InGroup.

        >>> bench.undo()
        >>> bench.solids()
        <solids none>
        """
        self._kernel.step('undo', arguments.flag('command', command))

    def redo(self, *, command: bool = False) -> None:
        """The step that was taken back last is done again; with `command=True` one command of it. Refused: NothingToRedo.

        >>> bench.undo()
        >>> bench.redo()
        >>> bench.solids()
        <solids 1>
        """
        self._kernel.step('redo', arguments.flag('command', command))

    def plane(self, face: arguments.Face) -> Plane:
        """The plane of the face, which `split` and `faces` take, with the shortest whole normal, of points in millimetres.

        >>> bench.plane(block.top)
        Plane(a=0, b=0, c=1, d=-10, flat=True)
        """
        reply = self._asked('plane', 'face', face)
        a, b, c, d = reply.numbers
        return Plane(*self._kernel.lengths.plane_out((a, b, c, d)), reply.lines[0].endswith(' flat'))

    def volume(self, solid: arguments.Solid) -> Fraction:
        """The volume of the solid, exactly, in cubic millimetres.

        >>> bench.volume(block)
        Fraction(8000, 1)
        """
        return Fraction(self._asked('volume', 'solid', solid).numbers[0], 6) * self._kernel.lengths.step ** 3

    def count(self, solid: arguments.Solid) -> Count:
        """How many things of each kind the solid has.

        >>> bench.count(block)
        Count(vertices=8, edges=12, faces=6, rings=0, sum=2)
        """
        return Count(*self._asked('count', 'solid', solid).numbers)

    def _asked(self, word: str, kind: str, thing: object) -> Reply:
        """The reply to a question of one thing. Refused: that it isn't there."""
        number = self._number(kind, thing)
        return self._kernel.lines.asked(f'{word} {number}')
