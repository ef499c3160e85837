"""How a saved script says that the next commands are one step to undo, or one draft, and what that is called; gwb reads over it."""

import json
import re
from typing import List, NamedTuple, Optional

_LONGEST = 200
_MARK = re.compile(rb'# (step|draft) of ([1-9][0-9]{0,8}) commands?(?:: (.+))?')


class Mark(NamedTuple):
    """So many commands are one step, or one draft, and what that is called: the methods that gave it, or the name that the caller gave it."""

    is_step: bool
    commands: int
    names: List[str]


def mark_in(line: bytes) -> Optional[Mark]:
    """The mark that a line of a script is, or None."""
    found = _MARK.fullmatch(line.rstrip(b'\r'))
    return Mark(found[1] == b'step', int(found[2]), _plain((found[3] or b'').decode('utf-8', 'replace'))) if found else None


def _plain(text: str) -> List[str]:
    """The names of a mark, of which letters beyond ASCII are written as in JSON."""
    try:
        text = str(json.loads(f'"{text}"'))
    except ValueError:
        pass
    return text.split(', ') if text else []


def mark_line(mark: Mark) -> str:
    """The line of a script that is the mark."""
    names, commands = json.dumps(', '.join(mark.names)[:_LONGEST])[1:-1], 'command' if mark.commands == 1 else 'commands'
    return f'# {"step" if mark.is_step else "draft"} of {mark.commands} {commands}{names and ": " + names}'
