"""The methods of a workbench that take solids as wholes. The library places them where axes go to axes; in another plane they are mirrored here."""

import ctypes
from dataclasses import dataclass, field
from math import atan2, lcm, pi
from typing import Any, Dict, List, Mapping, Optional, Sequence, Tuple

from ..errors import Refused
from ..geometry.crossings import Plane, without_common_factor
from ..geometry.free_numbers import KINDS, LARGEST, renumbered
from ..geometry.model import Model
from ..geometry.moved import FARTHEST, Change, Displaced, changed, mirroring, moving, scaling, turning_to, whole_factor
from ..geometry.outlines import Impossible
from ..geometry.vectors import ZERO, negative
from ..geometry.whole_turns import WholeTurn, nearest_turn, whole_turn
from ..protocol.complaints import refused
from ..meanings import NUMBERS
from ..protocol.replies import Reply
from . import arguments
from .bench import Methods, warn
from .c_calls import EDGES, FACES, INTO, LOOPS, LOWER_CAPS, SOLIDS, UPPER_CAPS, VERTICES, WORD, CutPlane, FaceQuery, Motion, Point, words
from .kernel import NewNumbers
from .lengths import Length, exact
from .reading import Found, NotThere, Part
from .results import Cut, Numbers, Renumbered, Split
from .steps import Block

_AXES = ('x', 'y', 'z')
_REFINES = 'refine=True cuts in a finer step, in which all solids are as large as before'
# Where the first axis lies after no turn, a quarter, two and three.
_QUARTERS = ((1, 0), (0, 1), (-1, 0), (0, -1))


@dataclass(frozen=True)
class Copy:
    """A copy of a solid: its number, and for each face, loop, edge and vertex of the original, by its number, that of the copy.

    What is asked for its copy is a number or a thing of the same workbench, else a ValueError or TypeError says so. NotThere, a LookupError: the original
    has no such thing."""

    solid: int
    faces: Mapping[int, int]
    loops: Mapping[int, int]
    edges: Mapping[int, int]
    vertices: Mapping[int, int]
    original: int
    _bench: Methods = field(repr=False, compare=False)

    def face(self, face: arguments.Face) -> int:
        """The copy of the face.

        >>> made = bench.copy(block, move=(0, 0, 30))
        >>> bench.plane(made.face(block.top)).d
        -40
        """
        return self._copied('face', self._bench._number('face', face))

    def loop(self, loop: arguments.LoopNumber) -> int:
        """The copy of the loop.

        >>> made = bench.copy(block, move=(0, 0, 30))
        >>> made.loop(1)
        7
        """
        return self._copied('loop', self._bench._number('loop', loop))

    def edge(self, edge: arguments.Edge) -> int:
        """The copy of the edge.

        >>> made = bench.copy(block, move=(0, 0, 30))
        >>> bench.edge(made.edge(1)).points
        ((0, 0, 30), (40, 0, 30))
        """
        return self._copied('edge', self._bench._number('edge', edge))

    def half_edge(self, half: arguments.Edge) -> int:
        """The copy of the half-edge: it starts at the copy of its vertex. In a mirrored copy the loop of its mate has it.

        >>> made = bench.copy(block, mirror=Plane(x=0))
        >>> made.half_edge(-1)
        -13
        """
        edge = self._bench._half_edge('half', half)
        copied = self._copied('edge', abs(edge))
        return copied if edge > 0 else -copied

    def vertex(self, vertex: arguments.Vertex) -> int:
        """The copy of the vertex.

        >>> made = bench.copy(block, move=(0, 0, 30))
        >>> bench.vertex(made.vertex(7)).point
        (40, 20, 40)
        """
        return self._copied('vertex', self._bench._number('vertex', vertex))

    def of(self, part: Found) -> Found:
        """The copy of a thing of the original, as a thing of the same kind.

        >>> made = bench.copy(block, move=(0, 0, 30))
        >>> made.of(bench.solid(block))
        <solid 2>
        """
        if not isinstance(part, Part):
            raise arguments.wrong('part', 'a thing of the model', part)
        return type(part)(part._kernel, self._copied(part.kind, self._bench._number('part', part, part.kind)))

    def _copied(self, kind: str, number: int) -> int:
        """The copy of a thing, by its number. Raises NotThere."""
        numbers = dict(zip(KINDS, ({self.original: self.solid}, self.faces, self.loops, self.edges, self.vertices)))[kind]
        if number not in numbers:
            name = f'No{kind.capitalize()}'
            raise NotThere(name, number, 0, f'{name}: the original, solid {self.original}, has no {kind} {number}')
        return numbers[number]


class SolidMethods(Methods):
    """Solids as things. Each method is one command; one that is refused leaves everything as it was."""

    def delete(self, solid: arguments.Solid) -> None:
        """The solid goes, with all that it has. Refused: NoSolid.

        >>> bench.delete(block)
        >>> bench.solids()
        <solids none>
        """
        self._kernel.give('kill_solid', self._number('solid', solid))

    def copy(self, solid: arguments.Solid, *, move: arguments.Point = ZERO, mirror: Optional[arguments.Point] = None) -> Copy:
        """A copy of the solid, mirrored in a plane where one is given, and then moved by the vector: the numbers of its things by those of
        the original.

        Refused: NoSolid; PointRange: a point would leave the range; OffLattice: one would be mirrored between whole coordinates;
        NumbersSpent: there are no free numbers.

        >>> made = bench.copy(block, move=(0, 0, 30))
        >>> bench.bounding_box(made).low
        (0, 0, 30)
        """
        number, by = self._number('solid', solid), self._kernel.lengths.point('move', move)
        return self._copied(number, moving(by) if mirror is None else mirroring(self._kernel.lengths.plane_across('mirror', mirror), by))

    def pattern(self, solid: arguments.Solid, count: int, step: arguments.Point) -> Tuple[Copy, ...]:
        """Copies of the solid, each a step farther than the one before, so that there are `count` of it with itself. Refused as copy is. Raises
        ValueError where the count is below 2 or the step is zero.

        >>> bench.pattern(block, 3, (50, 0, 0))[-1].solid
        3
        >>> bench.bounding_box(3).low
        (100, 0, 0)
        """
        number, many, way = self._number('solid', solid), arguments.positive('count', count), self._kernel.lengths.vector('step', step)
        if many < 2:
            raise ValueError(f'count: {many} is below 2')
        if many > LARGEST:
            raise refused('pattern', NUMBERS['NumbersSpent'], 1, f'there are {LARGEST:,} numbers for solids, not {many:,}')
        return self._in_a_row('pattern', number, many - 1, many, Point(*way))

    def pattern_around(self, solid: arguments.Solid, count: int, axis: str, times: None = None, *, degrees: Length = 90,
                       to: Optional[Sequence[Length]] = None, about: arguments.Point = ZERO) -> Tuple[Copy, ...]:
        """Copies of the solid around the axis 'x', 'y' or 'z' through a point, each turned on from the one before it, by degrees or `to` a vector as
        `turn` says, so that there are `count` of it with itself. Refused as copy is; OffLattice: a point would not be whole. Raises ValueError as turn
        does, and where one would come to lie where another is.

        >>> copies = bench.pattern_around(block, 4, 'z', degrees=90, about=(-5, -5, 0))
        >>> bench.bounding_box(copies[0]).low
        (-30, 0, 0)
        """
        number, round_axis, middle = self._number('solid', solid), arguments.word('axis', axis, _AXES), self._kernel.lengths.point('about', about)
        turn, many = _wanted_turn('pattern_around', times, degrees, to), arguments.whole('count', count, 2)
        if turn.length == 1:
            quarters = _QUARTERS.index(turn.way)
            if quarters == 0:
                raise ValueError(f'{"degrees" if to is None else "to"}: copies by 0 degrees lie where the solid does')
            if many > (4, 2, 4)[quarters - 1]:
                raise ValueError(f'count: {many} copies by {turn.degrees:g} degrees lead back')
            return self._in_a_row('pattern_around', number, many - 1, many, _AXES.index(round_axis), quarters, Point(*middle))
        with Block(self._kernel, False):
            return tuple(self._copied(number, turning_to(round_axis, *turn.repeated(times), middle)) for times in range(1, many))

    def move(self, solid: arguments.Solid, vector: arguments.Point) -> int:
        """The solid moves by the vector: its number, which stays, as all of its numbers do. Refused: NoSolid; PointRange: a point would
        leave the range.

        >>> _ = bench.move(block, (0, 0, 2.5))
        >>> bench.bounding_box(block).low
        (0, 0, Fraction(5, 2))
        """
        return self._placed(solid, moving(self._kernel.lengths.point('vector', vector)))

    def turn(self, solid: arguments.Solid, axis: str, times: None = None, *, degrees: Length = 90, to: Optional[Sequence[Length]] = None,
             about: arguments.Point = ZERO) -> int:
        """The solid turns about the axis 'x', 'y' or 'z' through a point, counterclockwise as seen from where the axis points: its number. It turns by
        degrees, which are a multiple of 90; or so that the next of the axes comes to lie along `to`, two whole numbers whose length is whole, such as
        (4, 3): about 'z' that axis is x, about 'x' it is y, and about 'y' it is z.

        Refused as move is; OffLattice: a point would not be whole, and in a step how many times finer all would be. Raises ValueError for other angles
        and vectors, which names one that is near.

        >>> _ = bench.turn(block, 'z', to=(4, 3))
        >>> bench.bounding_box(block).high
        (32, 40, 10)
        """
        round_axis, turn = arguments.word('axis', axis, _AXES), _wanted_turn('turn', times, degrees, to)
        return self._placed(solid, turning_to(round_axis, *turn, self._kernel.lengths.point('about', about)))

    def mirror(self, solid: arguments.Solid, plane: arguments.Point) -> int:
        """The solid becomes its image in the plane a x + b y + c z + d = 0 of points in millimetres: its number. Each loop runs the other way, by the
        mates of its half-edges. Refused as move is; OffLattice: a point would come between whole coordinates, as none does in planes across an axis or a
        diagonal of two axes that lie well.

        >>> _ = bench.mirror(block, Plane(x=0))
        >>> bench.bounding_box(block).low
        (-40, 0, 0)
        """
        return self._placed(solid, mirroring(self._kernel.lengths.plane_across('plane', plane)))

    def scale(self, factor: arguments.Length) -> None:
        """All solids become so many times larger, from the origin on: by a number above zero, such as 3 or '1/2'. Refused: PointRange; OffLattice: a point
        would be no multiple of the step, and in a step how many times finer all would be.

        >>> bench.scale('1/2')
        >>> bench.bounding_box(block).high
        (20, 10, 5)
        """
        times = arguments.factor('factor', factor)
        if times.denominator == 1:
            self._kernel.give('scale', arguments.whole('factor', times.numerator))
        else:
            with Block(self._kernel, False):
                before = self._kernel.listing()
                after = _changed('scale', before, scaling(times))
                for solid in before.solids:
                    self._kernel.give('kill_solid', solid)
                self._kernel.load(after)

    def refine(self, times: int) -> None:
        """The step becomes so many times finer, and all solids stay as large as they are, as one command. Refused: PointRange: a point would lie more than
        1,000,000,000 steps out.

        >>> bench.refine(3)
        >>> bench.step, bench.volume(block)
        (Fraction(1, 3000), Fraction(8000, 1))
        """
        finer = arguments.positive('times', times)
        with Block(self._kernel, False):
            self._make_finer(finer)

    def _make_finer(self, times: int, what: str = '') -> None:
        """The step becomes so many times finer, in a draft that is open, for what asks for it. Refused: PointRange."""
        try:
            self._kernel.give('scale', times)
        except Refused as refused:
            if what:
                refused.args = (f'in a step {times} times finer all points of {what} are multiples of it, but {refused}',)
            raise
        self._kernel.notes.now.unit /= times

    def renumber(self) -> Renumbered:
        """All numbers become as low as they can be, from 1 on in the order that they have, and may be taken again when they are free: where none is left.
        Labels go along. Refused: NumbersSpent: a spare number is wanted on the way, and none is free.

        >>> _ = bench.block((50, 0, 0), (1, 1, 1), solid=9)
        >>> bench.renumber().solids
        {1: 1, 9: 2}
        >>> bench.solids()
        <solids 1, 2>
        """
        with Block(self._kernel, False):
            self._kernel.give('renumber')
            made = Renumbered(*(dict(self._kernel.pairs(which)) for which in (SOLIDS, FACES, LOOPS, EDGES, VERTICES)))
            new, labels = {'solid': made.solids, 'face': made.faces}, self._kernel.notes.labels
            looks = [((kind, new[kind][number]), look) for (kind, number), look in labels.items() if number in new[kind]]
            self._kernel.notes.put(*((thing, None) for thing in labels), *looks)
        self._kernel.numbers = NewNumbers(self._kernel.lines)
        return made

    def split(self, solid: arguments.Solid, plane: arguments.Point, *, above: Optional[int] = None, refine: bool = False, scale: None = None) -> Split:
        """The solid is cut by the plane a x + b y + c z + d = 0 of points in millimetres, four numbers or what `plane` returns, or Plane(z=8); what lies
        above it becomes a new solid.

        With refine=True a cut that is refused NotLattice is made in a finer step: as many times finer as makes the points of the cut multiples of it,
        as one command with the cut. Refused besides: PointRange: a point would then lie more than 1,000,000,000 steps out.

        >>> made = bench.split(block, Plane(z=4))
        >>> bench.volume(block), bench.volume(made)
        (Fraction(3200, 1), Fraction(4800, 1))
        """
        arguments.gone('scale', scale, _REFINES)
        new, made = self._cut_by('split', self._number('solid', solid), self._kernel.lengths.plane('plane', plane), refine, above)
        return Split(new, *made)

    def cut(self, solid: arguments.Solid, plane: arguments.Point, *, keep: str = 'both', above: Optional[int] = None, refine: bool = False,
            scale: None = None) -> Cut:
        """The solid is cut by the plane a x + b y + c z + d = 0. What lies below it stays the solid, and what lies above it becomes a new one,
        of the number `above` where one is given. With keep='below' or 'above' the other part is thrown away, and the part that is kept keeps
        the number of the solid. With refine=True it is cut in a finer step where its points ask for one, as `split` does.

        Where split refuses the plane for what it touches or how it runs through faces and holes, the solid is cut face by face, and faces in
        the plane are one with the caps beside them. Refused: what split says of the solid, the plane and its points: NoSolid,
        SolidTaken, LoneLoop, NotFlat, PlaneMisses, NotLattice; Meets: a part would touch itself.

        >>> _ = bench.cut(block, (7, 0, 0, -1), keep='below', refine=True)
        >>> bench.step, bench.volume(block)
        (Fraction(1, 7000), Fraction(200, 7))
        """
        arguments.gone('scale', scale, _REFINES)
        number, level = self._number('solid', solid), self._kernel.lengths.plane('plane', plane)
        wanted = arguments.word('keep', keep, ('both', 'below', 'above'))
        if above is not None and wanted != 'both':
            raise ValueError(f'above: the part above the plane gets no number of its own where {keep!r} alone is kept')
        if wanted == 'above':
            _, (lower, upper) = self._cut_by('trim', number, (*negative(level[:3]), -level[3]), refine, None)
            return Cut(None, number, upper, lower)
        new, (lower, upper) = self._cut_by('cut' if wanted == 'both' else 'trim', number, level, refine, above)
        return Cut(number, new if wanted == 'both' else None, lower, upper)

    def trim(self, solid: arguments.Solid, plane: arguments.Point, *, refine: bool = False, scale: None = None) -> Numbers:
        """What lies above the plane is cut off and thrown away: the faces that close what is left. With refine=True it is cut in a finer step
        where its points ask for one. Refused as cut is.

        >>> _ = bench.trim(block, Plane(z=4))
        >>> bench.volume(block)
        Fraction(3200, 1)
        """
        return self.cut(solid, plane, keep='below', refine=refine, scale=scale).lower_caps

    def union(self, solids: Sequence[arguments.Solid], *, refine: bool = False) -> int:
        """The solids, which may cross, touch or lie apart, become one: the number of the first of them. Faces of one plane beside each other
        become one, and so do the edges that go on straight.

        With refine=True they are combined in a finer step where a corner of what is made asks for one, as one command.

        Refused: NoSolid, NotFlat; OffLattice, with how many times finer the step must be, or 0 where that passes 2^32 - 1; Meets: what is made would touch
        itself; with `refine` PointRange. All are combined at once, so their order doesn't matter.

        >>> other = bench.block((30, 10, 5), (20, 20, 20))
        >>> bench.volume(bench.union([block, other]))
        Fraction(15500, 1)
        """
        numbers = self._different('solids', solids, 'solid', 2)
        return self._combined('union', numbers[0], words(numbers), len(numbers), refine=refine)

    def subtract(self, solid: arguments.Solid, tools: Sequence[arguments.Solid], *, refine: bool = False) -> int:
        """The solid becomes what is left of it without the tools, which go: its number. What falls apart stays one solid. Refused: as `union`, and
        NothingLeft.

        >>> other = bench.block((30, 10, 5), (20, 20, 20))
        >>> bench.volume(bench.subtract(block, [other]))
        Fraction(7500, 1)
        """
        number, gone = self._number('solid', solid), self._different('tools', tools, 'solid', 1)
        if number in gone:
            raise ValueError(f'tools: the solid {number} itself is one of them')
        return self._combined('subtract', number, number, words(gone), len(gone), refine=refine)

    def intersect(self, solids: Sequence[arguments.Solid], *, refine: bool = False) -> int:
        """The first of the solids becomes what all have in common, and the others go: its number. Refused: as `subtract`.

        >>> other = bench.block((30, 10, 5), (20, 20, 20))
        >>> bench.volume(bench.intersect([block, other]))
        Fraction(500, 1)
        """
        numbers = self._different('solids', solids, 'solid', 2)
        return self._combined('intersect', numbers[0], words(numbers), len(numbers), refine=refine)

    def join_faces(self, solid: arguments.Solid) -> int:
        """Faces of one plane beside each other in a solid become one, and so do edges that go on straight: its number. Refused: NoSolid, NotFlat; Meets:
        the solid touches itself so that no outlines come of it.

        >>> other = bench.block((40, 0, 0), (10, 20, 10))
        >>> _ = bench.glue_all([block, other])
        >>> bench.count(bench.join_faces(block)).faces
        6
        """
        number = self._number('solid', solid)
        return self._combined('join_faces', number, number)

    def separate(self, solid: arguments.Solid) -> Numbers:
        """Each connected component of a solid becomes a solid, with the cavities that it holds: all of them, by their least faces, of which the first keeps
        the number, and all have its label. Refused: NoSolid, NotFlat, NumbersSpent.

        >>> other = bench.block((60, 0, 0), (10, 20, 10))
        >>> _ = bench.union([block, other])
        >>> bench.separate(block)
        (1, 2)
        >>> bench.solids()
        <solids 1, 2>
        """
        number = self._number('solid', solid)
        with Block(self._kernel, False):
            self._kernel.give('separate', number)
            pairs = self._kernel.pairs(SOLIDS)
            self._label_alike('solid', [pair for pair in pairs if pair[0] != pair[1]])
        return tuple(part for _, part in pairs)

    def _combined(self, word: str, number: int, *given: Any, refine: object = False) -> int:
        """What comes of solids, of which this one stays, whose faces have the labels of what went into them."""
        may_refine = arguments.flag('refine', refine)
        with Block(self._kernel, False):
            try:
                self._kernel.give(word, *given)
            except Impossible as error:
                if error.name != 'OffLattice' or not error.value:
                    raise
                if not may_refine:
                    error.args = (f'{error.args[0]}; in a step {error.value} times finer they are multiples of it, as refine=True makes it',)
                    error.advised(lambda: [])   # (which it says already)
                    raise
                self._make_finer(error.value, 'what is made')
                self._kernel.give(word, *given)
            merged: Dict[int, List[int]] = {}
            for face, part in self._kernel.pairs(INTO):
                merged.setdefault(part, []).insert(0 if face == part else len(merged[part]), face)
            for part, faces in merged.items():
                if len({self._kernel.notes.labels.get(('face', face)) for face in faces}) > 1:
                    warn('faces {} become one, which keeps the label of face {}'.format(' and '.join(map(str, faces)), faces[0]))
                self._label_alike('face', [(faces[0], part)])
        return number

    def _copied(self, number: int, change: Change) -> Copy:
        """A copy of the solid in another place, with its labels. Refused: NoSolid, PointRange, OffLattice, NumbersSpent."""
        motion = _motion(change)
        if motion is not None:
            return self._in_a_row('copy_solid', number, 1, motion)[0]
        model = _changed('copy_solid', self._alone(number)[0], change)
        new = self._kernel.numbers.instead_of(model)
        with Block(self._kernel, False):
            self._kernel.load(renumbered(model, new))
            return self._labelled(Copy(new['solid'][number], new['face'], new['loop'], new['edge'], new['vertex'], number, self))

    def _in_a_row(self, word: str, solid: int, count: int, *way: Any) -> Tuple[Copy, ...]:
        """So many copies of the solid, which a feature makes of where each lies."""
        made = (WORD * count)()
        with Block(self._kernel, False):
            self._kernel.give(word, solid, *way, made)
            lists = [self._kernel.pairs(which) for which in (FACES, LOOPS, EDGES, VERTICES)]
            shares = [[dict(pairs[place * len(pairs) // count:(place + 1) * len(pairs) // count]) for pairs in lists] for place in range(count)]
            copies = (Copy(number, faces, loops, edges, vertices, solid, self) for number, (faces, loops, edges, vertices) in zip(made, shares))
            return tuple(map(self._labelled, copies))

    def _labelled(self, copy: Copy) -> Copy:
        """A copy, with the labels that the solid and its faces have."""
        self._label_alike('solid', [(copy.original, copy.solid)])
        self._label_alike('face', copy.faces.items())
        return copy

    def _placed(self, solid: arguments.Solid, change: Change) -> int:
        """A solid comes to another place, and all its numbers stay: its number. Refused: NoSolid, PointRange, OffLattice."""
        number, motion = self._number('solid', solid), _motion(change)
        if motion is not None:
            self._kernel.give('move_solid', number, motion)
        else:
            after = _changed('move_solid', self._alone(number)[0], change)
            with Block(self._kernel, False):
                self._kernel.give('kill_solid', number)
                self._kernel.load(after)
        return number

    def _cut_by(self, word: str, solid: int, plane: Plane, refine: object, above: object) -> Tuple[int, Sequence[Numbers]]:
        """Cuts a solid by a plane: the number for what is above it, and what is made. Where points of the cut aren't whole, it is refused with the
        least factor by which they are, or made once the step is so much finer. Refused besides: PointRange: a point would then leave the range."""
        may_refine = arguments.flag('refine', refine)
        new = self._new('solid', None) if above is None else self._number('above', above, 'solid')
        try:
            return new, self._parted(word, solid, plane, new)
        except Refused as refused:
            if refused.number:    # (what would do is what would for a split)
                line, reply = ' '.join(map(str, ('split', solid, *plane, new))), Reply((f'refused {refused.number} {refused.value}',))
                self._kernel.advised(refused, line, reply)
            if refused.name != 'NotLattice':
                raise
            factor = self._kernel.off_lattice(solid, plane).factor
            if not may_refine:
                refused.args = (f'{refused.args[0]}; in a step {factor} times finer all its points are multiples of it, as refine=True makes it; '
                                'off_lattice() names planes near by',)
                raise
        with Block(self._kernel, False):
            self._make_finer(factor, 'the cut')
            # (its offset stays in range, since it meets edges whose ends do)
            return new, self._parted(word, solid, without_common_factor((*plane[:3], plane[3] * factor)), new)

    def _parted(self, word: str, solid: int, plane: Plane, above: int) -> Sequence[Numbers]:
        """Cuts a solid as one command: the caps of both parts, and of a split all new faces, edges and vertices. The part above, if it is kept, and
        parts of faces have the labels of what they were part of."""
        kernel, lines, level = self._kernel, self._kernel.lines, CutPlane(*plane)
        with self._parting(solid, above) as new:
            if word == 'split':
                kernel.do('split', solid, *plane, above)
                # (some fresh numbers are taken on the way)
                kinds = 'face', 'edge', 'vertex'
                made = [tuple(number for number in fresh if lines.in_use(kind, number)) for kind, fresh in zip(kinds, lines.fresh(*kinds))]
                flat = [kernel.find('find_faces', FaceQuery(solid=side, plane=ctypes.pointer(level))) for side in (solid, above)]
                made = [*(tuple(face for face in faces if face in made[0]) for faces in flat), *made]
            else:
                kernel.give(word, solid, level, *([above] if word == 'cut' else []))
                made = [kernel.made(LOWER_CAPS), kernel.made(UPPER_CAPS)]
            if lines.in_use('solid', above):
                self._label_alike('solid', [(solid, above)])
            new.update(*made[:2])
        return made


def _wanted_turn(word: str, times: object, degrees: object, to: object) -> WholeTurn:
    """The turn that is wanted, by degrees or along a vector. Raises ValueError where it isn't by quarters, or the vector's length isn't whole."""
    arguments.gone('times', times, f'{word} takes degrees=90, a multiple of 90, or to=(4, 3), along which the next of the axes comes to lie')
    if to is not None:
        if degrees != 90:
            raise ValueError('to: an angle in degrees is given already')
        across, along = arguments.pair('to', to)
        below = lcm(across.denominator, along.denominator)
        u, v = int(across * below), int(along * below)
        found = whole_turn(u, v)
        if found is None:
            raise ValueError(f'to: the length of ({u}, {v}) is not whole{_near_by(atan2(v, u) * 180 / pi) if (u, v) != (0, 0) else ""}')
        return found
    angle = exact('degrees', degrees, 'an angle')
    if angle % 90:
        raise ValueError(f'degrees: {float(angle):g} is no multiple of 90, and turns no whole points to whole ones{_near_by(float(angle))}')
    return WholeTurn(_QUARTERS[int(angle // 90) % 4], 1)


def _near_by(degrees: float) -> str:
    """What is said of the nearest turn that leaves fractions."""
    near = nearest_turn(degrees)
    return f': to={near.way} turns by {near.degrees:.2f} degrees, and wants a step {near.length} times finer at most' if near.length > 1 else ''


def _motion(change: Change) -> Any:
    """A change of place as the library has it; None where axes don't go to axes, or points go far out of range."""
    start, *ends = map(change.place, (ZERO, (1, 0, 0), (0, 1, 0), (0, 0, 1)))
    images = [[part - other for part, other in zip(end, start)] for end in ends]
    is_near = all(part.denominator == 1 and -4 * FARTHEST <= part <= 4 * FARTHEST for part in start)
    if not is_near or any(sorted(part * part for part in image) != [0, 0, 1] for image in images):
        return None
    axes = [int(sum(number * image[axis] for number, image in enumerate(images, 1))) for axis in range(3)]
    return Motion((ctypes.c_int32 * 3)(*axes), Point(*map(int, start)))


def _changed(word: str, model: Model, change: Change) -> Model:
    """The model in another place, for the feature of this word. Refused: PointRange, OffLattice, with the vertex."""
    try:
        return changed(model, change)
    except Displaced as error:
        if error.name == 'PointRange':
            raise refused(word, NUMBERS[error.name], error.vertex, str(error)) from None
        text = f'{error}; in a step {whole_factor(model, change)} times finer, which refine() makes, all points would be multiples of it'
        raise Impossible(error.name, error.vertex, text) from None
