"""Where the solids of a STEP file stand: representations, the placements that assemblies give them, and how often each is used."""

from graphlib import CycleError, TopologicalSorter
from typing import Dict, Iterator, List, NamedTuple, Sequence

from ...errors import Unfit
from ...geometry.flat_face import ExactVector
from ...geometry.joined_sets import JoinedSets
from ...geometry.plane_figures import Exact
from ..parts import NotAMesh
from ..placement import IN_PLACE, Placement, frame
from .lexer import StepFile
from .points import StepPoints
from .shapes import BODIES, SOLIDS
from .units import MILLIMETRE, StepUnits, Unit

_SUFFIX, _PLACING = 'SHAPE_REPRESENTATION', 'CONTEXT_DEPENDENT_SHAPE_REPRESENTATION'
# What bounds no solid and places nothing by itself.
_SILENT = ('AXIS2_PLACEMENT_3D', 'AXIS1_PLACEMENT', 'CARTESIAN_POINT', 'DIRECTION', 'PLANE')
_RELATION, _TRANSFORMED = 'REPRESENTATION_RELATIONSHIP', 'REPRESENTATION_RELATIONSHIP_WITH_TRANSFORMATION'
_MOST_USES = 200_000


class Use(NamedTuple):
    """A representation within another, and how it is placed there, in millimetres."""

    child: str
    parent: str
    placement: Placement


class Instance(NamedTuple):
    """A solid as it stands in the whole: its reference, the representation that holds it, and its placement in millimetres."""

    solid: str
    representation: str
    placement: Placement
    unit: Unit


class StepAssembly:
    """The representations of shapes in a file, and how they stand in each other."""

    def __init__(self, file: StepFile, points: StepPoints) -> None:
        self._file, self._points, self._units = file, points, StepUnits(file)
        self._items: Dict[str, List[str]] = {}
        self._unit: Dict[str, Unit] = {}
        self._same = JoinedSets()
        for reference in self._representations():
            items, context = file.at(reference).items[1:3]
            self._items[reference], self._unit[reference] = items, self._units.of_context(context)
        for reference in file.of_kinds('SHAPE_REPRESENTATION_RELATIONSHIP'):
            self._same.join(*(int(end[1:]) for end in file.at(reference).items[2:4]))
        self._uses = self._by_parent([*self._relations(), *self._mapped()])

    def instances(self) -> Iterator[Instance]:
        """All solids as they stand. Raises Unfit where placements go round, or there are too many."""
        members: Dict[str, List[str]] = {}
        for reference in self._items:
            members.setdefault(self.group(reference), []).append(reference)
        self._require_few(members)
        yield from self._standing(members)
        held = {item for items in self._items.values() for item in items}
        yield from (Instance(solid, '', IN_PLACE, MILLIMETRE) for solid in self._file.of_kinds(*SOLIDS) if solid not in held)

    def _require_few(self, members: Dict[str, List[str]]) -> None:
        """Raises Unfit where placements go round, or solids and placements are too many, each counted as often as it stands."""
        within = {group: {self.group(use.child) for use in self._uses.get(group, [])} for group in (*members, *self._uses)}
        times: Dict[str, int] = {}
        try:
            for group in TopologicalSorter(within).static_order():
                own = sum(len(self._items[reference]) for reference in members.get(group, []))
                times[group] = 1 + own + sum(times[self.group(use.child)] for use in self._uses.get(group, []))
        except CycleError as error:
            raise Unfit(f'the placements of {error.args[1][0]} go round in a circle') from None
        if sum(times[group] for group in self._outermost(members)) > _MOST_USES:
            raise Unfit(f'there are more than {_MOST_USES:,} solids and placements, each counted as often as it stands')

    def _outermost(self, members: Dict[str, List[str]]) -> List[str]:
        """The shapes that stand in no other."""
        held = {self.group(use.child) for uses in self._uses.values() for use in uses}
        return [group for group in members if group not in held]

    def _representations(self) -> Iterator[str]:
        return self._file.of_kinds(*(kind for kind in self._file.kinds() if kind.endswith(_SUFFIX) and kind != _PLACING))

    def strangers(self) -> List[str]:
        """What shapes have that is neither a solid nor a placement: each kind with how many there are, and the first."""
        strange: Dict[str, List[str]] = {}
        for item in (item for items in self._items.values() for item in items):
            kind = self._file.kind(item)
            if kind not in BODIES and kind not in _SILENT and kind != 'MAPPED_ITEM':
                strange.setdefault(kind or 'what is several things at once', []).append(item)
        return [f'{len(held)} {kind} ({held[0]})' for kind, held in strange.items()]

    def group(self, representation: str) -> str:
        """Representations that are said to be one shape go by one name."""
        return f'#{self._same.name(int(representation[1:]))}'

    def _by_parent(self, uses: Sequence[Use]) -> Dict[str, List[Use]]:
        found: Dict[str, List[Use]] = {}
        for use in uses:
            found.setdefault(self.group(use.parent), []).append(use)
        return found

    def _standing(self, members: Dict[str, List[str]]) -> Iterator[Instance]:
        """The solids of all shapes that stand in no other, with those that stand in them."""
        waiting = [(group, IN_PLACE) for group in reversed(self._outermost(members))]
        while waiting:
            group, placement = waiting.pop()
            yield from self._solids_of(members.get(group, []), placement)
            waiting += [(self.group(use.child), placement.after(use.placement)) for use in reversed(self._uses.get(group, []))]

    def _solids_of(self, representations: Sequence[str], placement: Placement) -> Iterator[Instance]:
        return (Instance(item, representation, placement, self._unit[representation])
                for representation in representations for item in self._items[representation] if self._file.kind(item) in BODIES)

    def _relations(self) -> Iterator[Use]:
        """Parts of assemblies: a relationship places its first representation in its second, or the other way round where the assembly
        that a usage names says so."""
        turned = self._turned()
        for reference in self._file.complex_with(_TRANSFORMED):
            entity = self._file.at(reference)
            child, parent = entity.of(_RELATION)[2:4]
            operator = entity.of(_TRANSFORMED)[0]
            transformation = self._file.at(operator)
            if transformation.kind != 'ITEM_DEFINED_TRANSFORMATION':
                raise Unfit(f'the placement {operator} is not understood: {transformation.kind}')
            there, here = transformation.items[2:4]
            if reference in turned:
                child, parent, there, here = parent, child, here, there
            if there not in self._items.get(child, ()) and here in self._items.get(child, ()):
                there, here = here, there
            yield Use(child, parent, self._between(there, child, here, parent))

    def _turned(self) -> Dict[str, None]:
        """The relationships whose first representation is that of the assembly."""
        shown = {self._file.at(definition).items[2]: representation for definition, representation in
                 (self._file.at(reference).items[:2] for reference in self._file.of_kinds('SHAPE_DEFINITION_REPRESENTATION'))}
        found: Dict[str, None] = {}
        for reference in self._file.of_kinds(_PLACING):
            relation, shape = self._file.at(reference).items[:2]
            usage = self._file.at(self._file.at(shape).items[2])
            if usage.kind == 'NEXT_ASSEMBLY_USAGE_OCCURRENCE':
                first = self.group(self._file.at(relation).of(_RELATION)[2])
                assembly, part = (self.group(shown[held]) if held in shown else '' for held in usage.items[3:5])
                if first == assembly != part:
                    found[relation] = None
        return found

    def _mapped(self) -> Iterator[Use]:
        """Representations that stand in others as mapped items."""
        held = ((holder, item) for holder, items in self._items.items() for item in items if self._file.kind(item) == 'MAPPED_ITEM')
        for holder, item in held:
            source, target = self._file.at(item).items[1:3]
            origin, mapped = self._file.at(source).items[:2]
            if mapped not in self._items:
                raise Unfit(f'{item} stands for {mapped}, which is no shape that is understood')
            yield Use(mapped, holder, self._between(origin, mapped, target, holder))

    def _between(self, there: str, child: str, here: str, parent: str) -> Placement:
        """What takes an axis system of the child to one of its parent."""
        for end in (child, parent):
            if end not in self._items:
                raise Unfit(f'{end} is placed, and is no shape that is understood')
        child_unit = self._unit[child if there in self._items[child] else parent]
        parent_unit = self._unit[parent if here in self._items[parent] else child]
        return self._frame(here, parent_unit.millimetres).after(self._frame(there, child_unit.millimetres).undone())

    def _frame(self, reference: str, millimetres: Exact) -> Placement:
        entity = self._file.at(reference)
        if entity.kind != 'AXIS2_PLACEMENT_3D':
            raise Unfit(f'the placement {reference} is not understood: {entity.kind or "several things at once"}')
        origin, axis, beside = entity.items[1:4]
        x, y, z = self._points.point(origin)
        along: ExactVector = (0, 0, 1) if axis == '$' else self._points.direction(axis)
        across = _across(along) if beside == '$' else self._points.direction(beside)
        try:
            return frame((x * millimetres, y * millimetres, z * millimetres), along, across)
        except ValueError:
            raise NotAMesh(f'the axes of the placement {reference} lie on a line or have no length') from None


def _across(axis: ExactVector) -> ExactVector:
    """Where the x axis points if a placement doesn't say it."""
    return (0, 1, 0) if axis[1] == 0 and axis[2] == 0 else (1, 0, 0)


def in_millimetres(instance: Instance, points: Sequence[ExactVector]) -> List[ExactVector]:
    """The points of a solid where the instance stands."""
    factor = instance.unit.millimetres
    return [instance.placement.of((x * factor, y * factor, z * factor)) for x, y, z in points]


