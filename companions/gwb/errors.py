"""What the companions raise. Each message is one line for the reader; that of a complaint may go on with what would do."""

from typing import Any, Callable, Optional, Sequence, Tuple, Type


class CompanionError(Exception):
    """Base of all errors of the companions. Each can be copied and pickled, whatever it is made of."""

    def __reduce__(self) -> Tuple[Any, ...]:
        return _again, (type(self), self.args), self.__dict__


def _again(kind: Type[CompanionError], args: Tuple[Any, ...]) -> CompanionError:
    """An error of the kind as it was made; its attributes are set after it."""
    return kind.__new__(kind, *args)


class NotReplies(CompanionError):
    """The text isn't what gwb writes, or is cut short."""


class NotAListing(CompanionError):
    """The lines aren't the listing of a model, or are cut short."""


class Unfit(CompanionError):
    """The model has something that can't be drawn or written in the wanted form."""


class OffGrid(Unfit):
    """A point of a file isn't whole: which."""

    point: Tuple[Any, Any, Any] = (0, 0, 0)


class ProgramMissing(CompanionError):
    """There is no program to talk to, or the file isn't one."""


class Ended(CompanionError):
    """The program ended while a reply was awaited, or the session is closed."""


class InDraft(CompanionError, RuntimeError):
    """A draft is open, in which nothing is undone or redone; nothing has changed."""


class InGroup(CompanionError, RuntimeError):
    """A group is open, which is undone when it has ended; nothing has changed."""


class OutOfStep(CompanionError, RuntimeError):
    """A call is under way, as where a handler of signals gives another one, or was left before its reply; or a draft or a group is open whose end
    would be waited for in vain. Nothing was sent."""


class NoDraft(CompanionError, RuntimeError):
    """The draft has ended before its block did, as where an outer block was left before an inner one."""


class NotOne(CompanionError, LookupError):
    """One thing was wanted, and what was looked for is there more than once, or not at all."""


class Complaint(CompanionError):
    """A command that wasn't accepted; nothing has changed. Its text goes on with its advice."""

    # The line of a script that it is about, or the name of the feature.
    line = ''
    _advise: Optional[Callable[[], Sequence[str]]] = None
    _advice: Tuple[str, ...] = ()

    @property
    def advice(self) -> Tuple[str, ...]:
        """What would do, as lines of a script; none where that isn't known. It is looked for when it is first asked for, while the model is as
        it was when the command was refused."""
        if self._advise is not None:
            advise, self._advise = self._advise, None
            try:
                self._advice = tuple(advise())
            except CompanionError:
                self._advice = ()
        return self._advice

    def advised(self, advise: Callable[[], Sequence[str]]) -> None:
        """Says how the advice is found."""
        self._advise = advise

    def __str__(self) -> str:
        return '\n    '.join([super().__str__(), *self.advice])

    def __reduce__(self) -> Tuple[Any, ...]:
        return _again, (type(self), self.args), {**self.__dict__, **({'_advice': self.advice, '_advise': None} if self._advise else {})}


class Refused(Complaint):
    """A condition of the command is false: its name, its number and the value that goes with it."""

    def __init__(self, name: str, value: int, number: int = 0, message: str = '') -> None:
        super().__init__(message or f'{name} {value}')
        self.name, self.value, self.number = name, value, number


class Faulted(Complaint):
    """The line is no command, such as one with a coordinate past 64 bits: the fault's name and number."""

    def __init__(self, name: str, number: int, message: str) -> None:
        super().__init__(message)
        self.name, self.number = name, number


class MemoryRefused(Complaint):
    """Memory was refused; the same command may be given again."""
