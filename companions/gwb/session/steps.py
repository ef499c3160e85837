"""Drafts, which are one command, and groups of commands, which are one step to undo: what isn't made whole leaves nothing behind."""

from typing import Optional, Type
from weakref import ReferenceType, ref

from ..errors import MemoryRefused, NoDraft
from .kernel import Kernel
from .notes import Given
from .turns import Holder


class _Work:
    """What is given in a draft, in a group, or in part of a draft that is open, from its begin on."""

    def __init__(self, kernel: Kernel, is_group: bool, name: str, block: 'ReferenceType[Block]') -> None:
        lines, notes = kernel.lines, kernel.notes
        self._kernel, self._name, self._block, self._is_kept, self._outer = kernel, name, block, False, notes.group_from
        self._is_part, self._before, self._mark, self._ahead = lines.is_drafting, notes.at, lines.mark(), notes.ahead()
        self.is_draft, self._now = not (is_group or self._is_part), (len(notes.now.looks), notes.now.unit, len(notes.now.calls))

    @property
    def is_dropped(self) -> bool:
        """Whether nothing refers to its block any more."""
        return self._block() is None

    def end(self, is_whole: bool) -> None:
        """It is over, with all within it that is still open. It is kept if it is whole; else all is as before, whatever exception comes meanwhile."""
        self._kernel.is_ragged = True
        try:
            if is_whole:
                self._kernel.lines.require_open()
                self._keep()
                self._is_kept = True
        finally:
            try:
                self._unless_kept()
            finally:
                try:
                    self._unless_kept()    # (again, where an exception came on the way)
                finally:
                    blocks = self._kernel.blocks
                    if blocks[0] is self:
                        holder, self._kernel.holder = self._kernel.holder, None
                        if holder:
                            holder.end()
                        self._kernel.lock.notify_all()
                    self._kernel.notes.group_from = self._outer
                    del blocks[blocks.index(self):]

    def _keep(self) -> None:
        """What was given stays: of a draft as one command. The labels and the unit of one without steps go with the command before it, and labels that
        were given before the first command of a group with that."""
        kernel, notes, looks, unit = self._kernel, self._kernel.notes, self._kernel.notes.now.looks, self._kernel.notes.now.unit
        is_empty = self.is_draft and kernel.lines.mark() == 0
        if self._name and (self.is_draft or self._is_part):
            notes.now.calls[self._now[2]:] = [Given(self._name)]
        if self.is_draft:
            (kernel.lines.abandon if is_empty else kernel.lines.commit)()
        kernel.settle()
        for note in notes.all[self._before + 1:notes.at + 1] if self._name and not self._is_part else ():
            note.calls[:] = [Given(self._name)]
        if is_empty:
            notes.put(*looks)
            notes.now.unit = unit
        elif self._outer is None and notes.at > self._before:
            early = notes.all[self._before].looks
            notes.all[self._before + 1].looks[:0] = early[self._now[0]:]
            del early[self._now[0]:]

    def _unless_kept(self) -> None:
        """All is as it was before it, unless it is kept."""
        kernel = self._kernel
        if self._is_kept or not kernel.lines.is_open:
            return
        kernel.expect_loss()
        if self._is_part:
            kernel.lines.back(self._mark)
        else:
            kernel.lines.abandon()
            kernel.go_to(self._before)
        kernel.notes.go_back(*self._now)
        if self._is_part or kernel.lines.ahead == len(self._ahead) and kernel.notes.ahead() == self._ahead:
            return
        # What could be redone is given again, as much as there is memory for.
        try:
            for note in self._ahead:
                kernel.lines.open_draft()
                for line in note.text.splitlines():
                    kernel.lines.asked(line)
                kernel.lines.commit()
        except MemoryRefused:
            kernel.lines.abandon()
        kernel.notes.all[kernel.notes.at + 1:] = self._ahead[:kernel.lines.depth - self._before]
        kernel.go_to(self._before)


class Block:
    """What a `with` statement holds: a draft or a group, or a part of a draft that is open. It is used once. Where an exception comes before its end
    has begun, the next call ends it, once nothing refers to it any more: Python loses a Ctrl-C that comes in a finaliser."""

    _work: Optional[_Work] = None

    def __init__(self, kernel: Kernel, is_group: bool, name: str = '') -> None:
        self._kernel, self._is_group, self._name = kernel, is_group, name

    def __enter__(self) -> None:
        kernel = self._kernel
        with kernel.lock:
            if self._work:
                raise RuntimeError('a draft or a group is begun once: draft() or group() is called for each')
            if not kernel.is_inside:
                kernel.begin_turn()
            kernel.lines.require_open()
            self._work = _Work(kernel, self._is_group, self._name, ref(self))
            kernel.blocks.append(self._work)
            try:
                if self._work.is_draft:
                    kernel.lines.open_draft()
                    kernel.notes.expect()
                elif kernel.notes.group_from is None:
                    kernel.notes.group_from = kernel.notes.at
                if not kernel.is_inside:
                    kernel.holder = kernel.holder or Holder()
            except BaseException:
                self._work.end(False)
                raise

    def __exit__(self, kind: Optional[Type[BaseException]], *_: object) -> None:
        with self._kernel.lock:
            self._kernel.end_dropped()
            if self._work and self._work in self._kernel.blocks:
                self._work.end(kind is None)
            elif kind is None:
                raise NoDraft('the draft has ended before its block did')
