"""What refusals mean (docs/REFUSALS.md)."""

import re
from typing import Dict, NamedTuple

from .refusals import NAMES, OTHERWISE, TEXTS

# The numbers of refusals by their names.
NUMBERS: Dict[str, int] = {name: number for number, name in NAMES.items()}


class Meaning(NamedTuple):
    """The name of a complaint, and what it says in words."""

    name: str
    text: str

    def __str__(self) -> str:
        return f'{self.name}: {self.text}'


def with_value(text: str, value: int, met: int = 0) -> str:
    """A text with the value in the place of its X, and the number of what was met in that of its Y. In brackets they count from 0."""
    for letter, number in (('X', value), ('Y', met)):
        text = re.sub(rf'\b{letter}\b', str(number), text.replace(f'[{letter}]', f'[{number - 1}]'))
    return text


def refusal(number: int, value: int, command: str = '') -> Meaning:
    """What `refused number value` says as the reply to a command with this first word, or of a `feature`."""
    if number not in NAMES:
        return Meaning(f'refusal {number}', f'unknown to these programs, with the value {value}')
    name = NAMES[number]
    text = OTHERWISE.get((command, name)) or OTHERWISE.get((str(value), name)) or TEXTS[number]
    return Meaning(name, with_value(text, value))
