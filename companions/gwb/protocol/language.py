"""The script language: which lines are commands, and what faults mean (docs/SCRIPT.md)."""

from typing import Dict

from .. import refusals
from ..meanings import Meaning
from ..refusals import OTHERWISE, REMEDIES, TEXTS

LINE_LIMIT = 65_536

COMMANDS = ('mvfs', 'kvfs', 'mev', 'kev', 'mef', 'kef', 'kemr', 'mekr', 'kfmrh', 'mfkrh', 'ringmv', 'lamina', 'block', 'sweep', 'glue',
            'split', 'plane', 'volume', 'count', 'undo', 'redo', 'list')

_BLANKS = b' \t\r'
# So many letters of a word that is no command are told.
_LONGEST_WORD = 20
# So many bytes of a line tell what a file is.
_TELLING = 1000


FAULTS: Dict[int, Meaning] = {number: Meaning(*fault) for number, fault in refusals.FAULTS.items()}


def condition_text(number: int) -> str:
    """What a refusal with this number says, with X for its value, and what would do."""
    return '; '.join([TEXTS[number], *([REMEDIES[number]] if number in REMEDIES else [])])


def fault(number: int, line: str) -> Meaning:
    """What `fault number` says as the reply to a line."""
    word = first_word(line.encode('utf-8', 'backslashreplace'))
    name, text = refusals.FAULTS[number]
    return Meaning(name, OTHERWISE.get((word, name), text).replace('`X`', f'`{word[:_LONGEST_WORD]}`'))


def is_answered(line: bytes) -> bool:
    """Whether gwb answers the line (given without its newline): blank ones and comments it reads in silence."""
    if len(line) > LINE_LIMIT or not line.isascii():
        return True
    words = line.strip(_BLANKS)
    return bool(words) and not words.startswith(b'#')


def is_comment(line: bytes) -> bool:
    """Whether the line is a comment of whatever letters: companions leave out those that gwb answers with NotAscii."""
    return len(line) <= LINE_LIMIT and line.lstrip(_BLANKS).startswith(b'#')


def first_answered(data: bytes) -> bytes:
    """The first line that isn't blank or a comment, of whatever letters, or as much of it as tells what it is; empty where there is none."""
    start = 0
    while start < len(data):
        end = data.find(b'\n', start)
        end = len(data) if end < 0 else end
        line = data[start:min(end, start + _TELLING)]
        if is_answered(line) and not is_comment(line):
            return line
        start = end + 1
    return b''


def command_bytes(line: str) -> bytes:
    """The bytes of one line that gwb answers."""
    data = line.encode('utf-8', 'surrogateescape')
    if b'\n' in data or not is_answered(data):
        raise ValueError(f'not one line that gwb answers: {line!r}')
    return data


def first_word(line: bytes) -> str:
    """The first word of a line, which is the command where it is one."""
    words = line.replace(b'\t', b' ').replace(b'\r', b' ').split(b' ')
    return next((word.decode('ascii', 'backslashreplace') for word in words if word), '')
