"""The errors for commands that aren't accepted."""

from typing import TypeVar

from ..errors import Complaint, Faulted, MemoryRefused, Refused
from ..meanings import refusal
from .language import fault, first_word
from .replies import Reply

Said = TypeVar('Said', bound=Complaint)


def complaint(line: str, reply: Reply) -> Complaint:
    """The error for a complaint about a line."""
    if reply.word == 'memory':
        return memory_refused(line)
    if reply.word == 'fault':
        number = reply.numbers[0]
        meaning = fault(number, line)
        return about(line, Faulted(meaning.name, number, str(meaning)))
    number, value = reply.numbers
    return refused(line, number, value)


def about(line: str, error: Said) -> Said:
    """The error, which tells its line, or its feature."""
    error.line = line
    return error


def memory_refused(line: str) -> MemoryRefused:
    """The error for a line for which memory was refused."""
    return about(line, MemoryRefused(f'{line}: memory was refused'))


def refused(line: str, number: int, value: int, text: str = '') -> Refused:
    """The error for a line of which a condition is false, with a text of its own where the condition's doesn't say it."""
    meaning = refusal(number, value, first_word(line.encode()))
    return about(line, Refused(meaning.name, value, number, f'{meaning.name}: {text or meaning.text}'))
