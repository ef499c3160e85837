"""What a session holds beside the model and follows its commands: which of them are one step to undo, the unit, and labels."""

from dataclasses import dataclass, field
from fractions import Fraction
from typing import Dict, List, Mapping, Optional, Tuple

from ..formats.appearance import Appearance, Thing


class Given(str):
    """A name that the caller gave, and not that of a method."""


@dataclass(eq=False)
class Note:
    """What goes with a command: whether a step to undo begins with it, the unit after it, the labels that were given from it up to the next
    one, None where one was taken away, its lines, once it was undone, and the methods that were called for it."""

    begins: bool
    unit: Fraction
    looks: List[Tuple[Thing, Optional[Appearance]]] = field(default_factory=list)
    text: str = ''
    calls: List[str] = field(default_factory=list)


class Notes:
    """The notes of all commands that are held or can be redone; a command without a note of its own has one that says nothing new. The commands are
    the library's: `settle` brings the notes to as many as are held there, so whatever exception comes between, they agree."""

    def __init__(self, unit: Fraction) -> None:
        # The first note goes with what was there before all commands; after so many come those of commands that can be redone.
        self.all = [Note(True, unit)]
        self.at = 0
        # That of the draft that is open, or of a command that may have been accepted.
        self._coming: Optional[Note] = None
        # In a group how many commands were held before it.
        self.group_from: Optional[int] = None
        # The method that is called, or what a saved script says of its commands.
        self.called: List[str] = []
        self._labels: Optional[Dict[Thing, Appearance]] = None

    @property
    def now(self) -> Note:
        """That of what comes, as in a draft, or of the last command."""
        return self._coming or self.all[self.at]

    @property
    def labels(self) -> Dict[Thing, Appearance]:
        """The look of each thing that has one, also of what is gone."""
        if self._labels is None:
            looks = {thing: look for note in (*self.all[:self.at + 1], self.now) for thing, look in note.looks}
            self._labels = {thing: look for thing, look in looks.items() if look}
        return self._labels

    def put(self, *looks: Tuple[Thing, Optional[Appearance]]) -> None:
        """Things have other looks, None for none, as part of what comes, or of the last command."""
        labels, self._labels = self.labels, None    # (which are read anew where an exception comes)
        self.now.looks += looks
        for thing, look in looks:
            labels.pop(thing, None)
            if look:
                labels[thing] = look
        self._labels = labels

    def begin_with(self, labels: Mapping[Thing, Appearance]) -> None:
        """These labels were there before all commands."""
        self._labels = None
        self.all[0].looks += labels.items()

    def expect(self) -> None:
        """A command or a draft is about to be given, outside of a draft."""
        self._coming = Note(self.group_from is None or self.at <= self.group_from, self.all[self.at].unit)

    def give(self, is_command: bool) -> None:
        """A command, or a step of the draft that is open, is given by what is called."""
        if is_command:
            self.expect()
        calls = self.now.calls
        for name in self.called:
            if name not in calls:
                calls.append(name)

    def settle(self, depth: int) -> None:
        """So many commands are held, and no draft is open."""
        if depth == self.at and not self._coming:
            return
        if self._coming and depth == self.at + 1:
            self.all[depth:] = [self._coming]
        elif self._coming or depth != self.at:
            self._labels = None
        while len(self.all) <= depth:
            self.all.append(Note(True, self.all[-1].unit))
        self.at, self._coming = depth, None

    def go_back(self, looks: int, unit: Fraction, calls: int) -> None:
        """It is as it was when the same draft, or the same command, had so many labels, this unit, and so many calls."""
        self._labels, self.now.unit = None, unit
        del self.now.looks[looks:], self.now.calls[calls:]

    def ahead(self) -> List[Note]:
        """The notes of the commands that can be redone."""
        return self.all[self.at + 1:]

    def step(self, word: str) -> int:
        """How many commands are undone or redone with the next step, the word says which: 1 where there is none."""
        places = range(self.at, 1, -1) if word == 'undo' else range(self.at + 2, len(self.all))
        return next((count for count, place in enumerate(places, 1) if self.all[place].begins), len(places) + 1)
