"""The session of the library, the notes on its commands, the drafts and groups that are open in it, features, and the numbers of new things."""

import os
import re
from fractions import Fraction
from threading import Condition, RLock
from typing import Any, Callable, Dict, Iterable, Iterator, List, NamedTuple, Optional, Sequence, Set, Tuple, TypeVar, Union
from weakref import ReferenceType, ref

from ..errors import CompanionError, Complaint, InDraft, InGroup, OutOfStep, Refused
from ..formats.appearance import Appearance, Thing
from ..geometry.free_numbers import KINDS, LARGEST, numbers_of
from ..geometry.measures import why_unfit
from ..geometry.model import Model
from ..geometry.outlines import Impossible
from ..geometry.vectors import Vector
from ..protocol.advice import advice
from ..protocol.complaints import complaint, memory_refused, refused
from ..meanings import NUMBERS, refusal, with_value
from ..protocol.language import first_word
from ..protocol.listing import listing_lines
from ..refusals import ADVICE, CAUSES, MISFITS
from ..protocol.replies import Reply
from .c_calls import (ADDRESS, IMPOSSIBLE, MEMORY, NO_CALL, OK, REFUSED, SIZE, WORD, CrossingRow, CutPlane, EdgeCut, HitRow, NearPlane, Pair, Refusal,
                      rows, whole)
from .lengths import ExactPlace, Lengths
from .library import Library, filled
from .notes import Notes
from .results import Numbers
from .turns import Holder

Said = TypeVar('Said')
_PATIENCE = 1.0
# Of a larger model it isn't told what would do in the place of a refused command: that may take long.
_MOST_EDGES = 20_000
# The commands and features after which numbers may be free that were in use.
_FREEING = frozenset((
    'kvfs', 'kev', 'kef', 'kemr', 'mekr', 'kfmrh', 'glue', 'undo', 'redo', 'kill_solid', 'renumber', 'cut', 'trim', 'union', 'subtract', 'intersect',
    'separate', 'join_faces', 'glue_all', 'notch', 'pad', 'slot', 'groove', 'shoulder', 'chamfer', 'chamfer_edges'))
_CUTS = ('cut', 'trim')
# The ways of `ringmv` by the numbers that its call takes, where lone corners begin, and what stands for a word that no call takes.
_WAYS, _LONE, _NO_CODE = ('in', 'out'), 2 ** 31, -2 ** 64
# What may have been met, by the numbers of their kinds.
THINGS = ('solid', 'face', 'loop', 'edge', 'vertex')


class OffLattice(NamedTuple):
    """What the library says of a cut whose points aren't whole: all edges that it cuts, the least number by which the model must be multiplied for all
    points to be whole, whether it would be in range, and planes beside it that would do, as its structs."""

    cuts: List[Any]
    factor: int
    fits: bool
    planes: List[Any]


# The sessions of this process that are there, and some that were.
_KERNELS: 'Set[ReferenceType[Kernel]]' = set()


class Kernel:
    """A session, and what is held beside it. Each turn begins with both in agreement; one thread has the turn."""

    def __init__(self, path: str, unit: Fraction) -> None:
        # While something is held, all waits that isn't part of it.
        self.turn, self.is_inside = RLock(), False
        self.lock = Condition(self.turn)
        self.holder: Optional[Holder] = None
        self.lines, self.notes = Library(path), Notes(unit)
        self.numbers = NewNumbers(self.lines)
        # The drafts and groups that are open, each within the ones before it (steps.py).
        self.blocks: List[Any] = []
        # Whether a command is being given, whether this turn has given one, and whether things may have gone that have labels.
        self._is_giving = self._has_given = self._may_have_gone = False
        # Whether an exception may have left the notes and the commands in disagreement: a call that returns hasn't.
        self.is_ragged = False
        self._listing: Dict[Tuple[int, ...], Model] = {}
        self._lengths = Lengths(unit)
        # The commands that were held when the session ended, and the labels.
        self._ended: Optional[Tuple[List[str], Dict[Thing, Appearance]]] = None
        _KERNELS.difference_update([held for held in tuple(_KERNELS) if held() is None])
        _KERNELS.add(ref(self))

    @property
    def lengths(self) -> Lengths:
        """Lengths in the step that there is now."""
        unit = self.notes.now.unit
        if self._lengths.step is not unit:
            self._lengths = Lengths(unit)
        return self._lengths

    def close(self) -> None:
        """Ends the session. Its script and its labels are kept."""
        if self.lines.is_open:
            self._ended = self.commands(), self.labels()
        self.lines.close()

    def leave_threads(self) -> None:
        """In the child of a process that was forked: where another thread had the turn, which isn't there, the session ends."""
        if self.lock.acquire(blocking=False):
            self.lock.release()
            return
        self.turn, self.is_inside, self.holder = RLock(), False, None
        self.lock = Condition(self.turn)
        self.close()

    def begin_turn(self) -> None:
        """With the lock, waits for the end of what is held, unless what calls this is part of it. What an exception left half-way is put right."""
        if self.blocks:
            self._wait()
        self._is_giving = self._has_given = False
        if self.is_ragged:
            if self.lines.is_drafting and not any(block.is_draft for block in self.blocks):
                self.lines.abandon()    # (nobody has begun it)
            self.settle()
        self.is_ragged = True

    def _wait(self) -> None:
        """Waits for the end of what is held, unless what calls this is part of it."""
        if self.holder:
            self.holder.leave_ended()
        self.end_dropped()
        while self.holder and not self.holder.is_here:
            self.holder.require_end()
            self.lock.wait(_PATIENCE)
            self.end_dropped()

    def end_dropped(self) -> None:
        """A draft or a group that nothing refers to any more ends, with all within it, as by an exception."""
        dropped = next((block for block in self.blocks if block.is_dropped), None)
        if dropped:
            dropped.end(False)

    def settle(self) -> None:
        """The notes follow the commands, unless a draft is open, in which there is nothing new, or the session is closed."""
        depth = self.lines.settled if self.blocks else self.lines.recorded
        if depth is not None:
            self.notes.settle(depth)

    # What is held

    def listing(self) -> Model:
        """The model held."""
        state = self.lines.state()
        if state not in self._listing:
            self._listing = {state: self.lines.model()}
        return self._listing[state]

    def labels(self) -> Dict[Thing, Appearance]:
        """The labels of what is there, or was there when the session ended."""
        return self._ended[1] if self._ended else {thing: look for thing, look in self.notes.labels.items() if self.lines.in_use(*thing)}

    def commands(self, at_once: int = 1) -> List[str]:
        """The lines of so many commands at once that are held, the draft that is open being the last one."""
        held = range(0, self.lines.depth + self.lines.is_drafting, at_once)
        return self._ended[0] if self._ended else [self.lines.script(place, at_once) for place in held]

    # Commands

    def do(self, word: str, *values: Union[int, str], typed: Sequence[Any] = ()) -> None:
        """Gives a command, with the values that its line has, as a typed call, which may take them otherwise. A complaint is raised, as that of the line."""
        reply = self._barred(word, word)
        if reply is None:
            given = typed or [value if type(value) is int else _code(value) for value in values]
            if _NO_CODE in given:
                reply = self.ask(' '.join(map(str, (word, *values))))
            elif self.giving(word, lambda: self.lines.command(word, given)):
                return
            else:
                reply = self.lines.last_reply()
        self._complain(' '.join(map(str, (word, *values))), reply)

    def do_line(self, line: str) -> None:
        """Gives the command of a line. A complaint is raised."""
        self._complain(line, self.ask(line))

    def _complain(self, line: str, reply: Reply) -> None:
        """Raises the error of a reply that is a complaint about the line."""
        if reply.is_complaint:
            raise self.advised(complaint(line, reply), line, reply)

    def advised(self, error: Complaint, line: str, reply: Reply) -> Complaint:
        """The error, with how its advice is found: as that of a line with this reply, while the model is as it is now."""
        state = self.lines.state()

        def as_it_was() -> Model:
            """The model, if no other thread has the turn. A large one isn't searched: an error says that there is no advice."""
            if self.lock.acquire(blocking=False):
                try:
                    if (self.holder is None or self.holder.is_here) and self.lines.state() == state and len(self.listing().edges) <= _MOST_EDGES:
                        return self.listing()
                finally:
                    self.lock.release()
            raise OutOfStep('the model is another one, is large, or others have the turn')

        # (what a program does to a script, a method does to the session)
        error.advised(lambda: [re.sub(r'gwb-script --scale ([0-9]+)', r'refine(\1)', told) for told in advice(line, reply, as_it_was)])
        return error

    def ask(self, line: str) -> Reply:
        """The reply to any line. What it makes, undoes or redoes is taken account of. In a draft or a group nothing is undone or redone."""
        word = first_word(line.encode('utf-8', 'surrogateescape'))
        return self._barred(word, line) or self.giving(word, lambda: self.lines.ask(line))

    def _barred(self, word: str, line: str) -> Optional[Reply]:
        """The reply to an undo or a redo that the library isn't asked for, if the line of this word is one."""
        if word not in ('undo', 'redo'):
            return None
        if self.lines.is_drafting:
            raise InDraft(f'{line}: a draft is open, in which nothing is undone or redone')
        if self.notes.group_from is not None:
            raise InGroup(f'{line}: a group is open, which is undone when it has ended')
        if line.split() == ['redo'] and not self.notes.ahead():
            # (what was given up in a group is undone in the library, and isn't to be redone)
            self.lines.require_open()
            return Reply((f'refused {NUMBERS["NothingToRedo"]} 0',))
        return None

    def giving(self, word: str, give: Callable[[], Said]) -> Said:
        """Gives a command or a feature of this word, which may be a step of the draft."""
        if self._is_giving:
            raise OutOfStep('another call is under way')
        is_new = word not in ('undo', 'redo')
        if is_new:
            self.notes.give(not (self.blocks and self.lines.is_drafting))
        if is_new and self._may_have_gone and not self._has_given:
            # What is gone has no label any more, before a turn makes something that may have its number. Undo gives it back.
            gone = [(thing, None) for thing in self.notes.labels if not self.lines.in_use(*thing)]
            self.notes.put(*gone)
            self._may_have_gone = bool(gone)    # (there still, where nothing comes of what is given)
        if word in _FREEING:
            self.expect_loss()
        if word == 'undo' and self.notes.at > 0 and not self.notes.now.text:
            self.notes.now.text = self.lines.script(self.notes.at - 1, 1)
        self._is_giving = self._has_given = True
        try:
            return give()
        finally:
            self._is_giving = False
            self.settle()

    def expect_loss(self) -> None:
        """What comes takes something away: numbers may be free after it, and things may have gone that have labels."""
        self.numbers.note()
        self._may_have_gone = True

    def step(self, word: str, is_command: bool) -> None:
        """Undoes or redoes a step whole, or a command of it, the word says which. A complaint is raised."""
        before = self.lines.depth
        try:
            for _ in range(1 if is_command else self.notes.step(word)):
                self.do(word)
        except BaseException:
            self.go_to(before)
            raise

    def go_to(self, depth: int) -> None:
        """So many commands are held, of those that are held or can be redone."""
        while self.lines.is_open and self.lines.depth != depth:
            self.lines.asked('undo' if self.lines.depth > depth else 'redo')
        self.settle()

    # Features

    def _ask(self, word: str, *values: Any) -> None:
        """Makes a call. A complaint is raised."""
        why = Refusal()
        said = getattr(self.lines.library, word)(self.lines.handle, *values, why)
        if said != OK:
            raise self._complaint(word, said, why)

    def give(self, word: str, *values: Any) -> None:
        """Gives a feature."""
        self.giving(word, lambda: self._ask(word, *values))

    def outline(self, word: str, number: int, points: Sequence[Vector], *more: Any, beside: Sequence[Any] = ()) -> Tuple[int, int, Numbers]:
        """Gives a feature of an outline in a face, or of a solid to be: two numbers of what it makes, and those that belong to the points."""
        made, along = Pair(), (WORD * len(points))()
        self.give(word, number, rows(points), len(points), *more, made, along, *beside)
        return made.first, made.second, tuple(along)

    def find(self, word: str, *query: Any, kind: Any = WORD) -> List[Any]:
        """What is sought, rising: by default numbers of faces or edges. A complaint is raised."""
        count = SIZE()

        def write(found: Any, room: int) -> int:
            self._ask(word, *query, found, room, count)
            return count.value

        return list(filled(kind, write))

    def are_apart(self, solid: int) -> bool:
        """Whether no two faces of a solid, all of which are flat, cross or touch."""
        try:
            return not self.find('find_crossings', solid, 0, kind=CrossingRow)
        except Refused:
            return False

    def exact_point(self, point: Any, scale: int) -> ExactPlace:
        """A point in millimetres, of coordinates in steps times the scale."""
        x, y, z = (self.lengths.out(Fraction(whole(part), scale)) for part in point)
        return (x, y, z)

    def load(self, model: Model) -> None:
        """Makes what a model has, which isn't empty, with its numbers."""
        text = ''.join(f'{line}\n' for line in listing_lines(model)).encode()
        self.give('load', text, len(text))

    def off_lattice(self, solid: int, plane: Sequence[int], most: int = 0) -> OffLattice:
        """What is said of a cut whose points aren't whole, with at most so many tilted planes."""
        library, advice = self.lines.library, ADDRESS()
        self._ask('off_lattice', solid, CutPlane(*plane), most, advice)
        try:
            cuts, planes = (filled(row, lambda found, room: int(read(advice, found, room)))
                            for row, read in ((EdgeCut, library.advice_cuts), (NearPlane, library.advice_planes)))
            # (the factor is 0 where it is too great to be said: out of range in any case)
            return OffLattice(cuts, whole(library.advice_factor(advice)) or 2 ** 62, bool(library.advice_fits(advice)), planes)
        finally:
            library.advice_free(advice)

    def made(self, which: int) -> Numbers:
        """A list of what the last feature made."""
        return tuple(filled(WORD, lambda found, room: int(self.lines.library.made(self.lines.handle, which, found, room))))

    def pairs(self, which: int) -> List[Tuple[int, int]]:
        """A list of numbers and others in their place."""
        found = self.made(which)
        return list(zip(found[::2], found[1::2]))

    def _complaint(self, word: str, said: int, why: Any) -> CompanionError:
        """The error of an answer, as it is said of a feature."""
        if said == IMPOSSIBLE:
            return self._impossible(word, self.lines.library.misfit_name(why.number).decode(), why.value)
        if said == MEMORY:
            return memory_refused(word)
        if said != REFUSED:
            self.lines.require_open()
            assert said == NO_CALL, f'{word}: an answer of kind {said}'
            raise ValueError(f'{word}: what is given is no solid')
        name, text = refusal(why.number, why.value, word if word in _CUTS else 'feature')
        if name == 'NotFlat' and word not in _CUTS:
            model = self.lines.model([why.value])
            text = (why_unfit(model, why.value) if model.faces else None) or ('' if why.value else "a slope wouldn't be flat")
        return refused(word, why.number, why.value, text)

    def _impossible(self, word: str, name: str, value: int) -> Impossible:
        """The error of a feature that isn't possible, by what it met."""
        hit = HitRow()
        self.lines.library.hit(self.lines.handle, hit)
        cause, text = CAUSES.get(hit.cause, ('', MISFITS[name]))
        if re.search(r'\bY\b', text) and not hit.number:    # (a factor past what can be said)
            text = MISFITS[name]
        error = Impossible(name, value, with_value(text, value, hit.number))
        error.cause, told = cause, ADVICE.get((word.replace('_along', ''), cause), ADVICE.get(('any', cause), ''))
        if told:
            error.advised(lambda: [with_value(told, value, hit.number)])
        if hit.number and hit.kind < len(THINGS):
            error.hit = THINGS[hit.kind], hit.number
            if not re.search(r'\bY\b', text):
                error.args = (f'{error.args[0]} (at {THINGS[hit.kind]} {hit.number})',)
        if scale := whole(hit.scale):
            error.point = self.exact_point(hit.point, scale)
        return error


def _leave_threads() -> None:
    for kernel in [held() for held in tuple(_KERNELS)]:
        if kernel:
            kernel.leave_threads()


os.register_at_fork(after_in_child=_leave_threads)


def _code(value: Union[int, str]) -> int:
    """What a typed call takes for a word of a line: a half-edge, `+e` or `-e`, a corner, which may be `@l`, or a way; a number stands for itself."""
    if isinstance(value, int):
        return value
    if value in _WAYS:
        return _WAYS.index(value)
    number = int(value.lstrip('+-@'))
    if not 1 <= number <= LARGEST:
        return _NO_CODE    # (which the line tells better)
    return _LONE + number if value[0] == '@' else 2 * number + (value[0] == '-')


class NewNumbers:
    """The numbers of new things: above all that are or were in use, or in gaps."""

    def __init__(self, lines: Library) -> None:
        self._lines, self._ever = lines, dict.fromkeys(KINDS, 0)
        # Those that aren't yet looked at as gaps.
        self._unseen = {kind: iter(range(1, LARGEST + 1)) for kind in KINDS}

    def note(self) -> None:
        """The numbers that are in use now may be free after what comes."""
        self._ever = {kind: max(ever, self._lines.greatest(kind)) for kind, ever in self._ever.items()}

    def next(self, kind: str) -> int:
        """One above all that are in use or were, else the next one in a gap, else one past the greatest there is, which the kernel refuses."""
        above = max(self._ever[kind], self._lines.greatest(kind)) + 1
        return above if above <= LARGEST else next(self._free(kind, self._unseen[kind]), LARGEST + 1)

    def instead_of(self, model: Model) -> Dict[str, Dict[int, int]]:
        """For each kind a free number for each of the model's: those that were never in use, then those in gaps. Refused: NumbersSpent."""
        new = {kind: dict(zip(sorted(numbers), self._free(kind))) for kind, numbers in numbers_of(model).items()}
        for place, (kind, numbers) in enumerate(numbers_of(model).items(), 1):
            if len(new[kind]) < len(numbers):
                raise refused('load', NUMBERS['NumbersSpent'], place, f'no {kind} number is free, and one is needed')
        return new

    def _free(self, kind: str, gaps: Iterable[int] = ()) -> Iterator[int]:
        """The numbers after all that are in use or were, and those in gaps: of these, or of all, that aren't in use."""
        above = max(self._ever[kind], self._lines.greatest(kind)) + 1
        yield from range(above, LARGEST + 1)
        yield from (number for number in gaps or range(1, above) if not self._lines.in_use(kind, number))
