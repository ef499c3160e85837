"""Names and colours of solids and faces, and the comments of a script that say them.

A comment is `# solid 3 name "Lid" colour #FF8000`, with either of the two or both; a name stands in JSON's quotes. gwb reads over it.
"""

import json
import re
from collections import Counter
from fractions import Fraction
from typing import Callable, Dict, Iterable, Iterator, Mapping, NamedTuple, Optional, Tuple

Colour = Tuple[int, int, int]
# A solid or a face: ('solid', 3).
Thing = Tuple[str, int]

_COMMENT = re.compile(r'#\s*(solid|face) ([0-9]{1,7})(?: name ("(?:[^"\\]|\\.)*"))?(?: colour #([0-9A-Fa-f]{6}))?\s*')
# How many characters a name may have that a script says.
LONGEST_NAME = 200
# The material of what has no colour, in forms that need one.
PLAIN_MATERIAL = 'plain'

# Names that the writers give where they know none, and what they put behind a name that several solids have.
_NUMBERED = re.compile(r'(?:solid|face)[ _][0-9]+|gwb', re.IGNORECASE)
_BEHIND = re.compile(r'[ _]\(solid[ _][0-9]+\)$')


class Appearance(NamedTuple):
    """The name of a thing, empty where it has none, and its colour: red, green and blue from 0 to 255."""

    name: str = ''
    colour: Optional[Colour] = None

    def unnumbered(self) -> 'Appearance':
        """The look without the number of gwb that a writer gave as a name or put behind one."""
        return self._replace(name='' if _NUMBERED.fullmatch(self.name) else _BEHIND.sub('', self.name))


Appearances = Mapping[Thing, Appearance]
NO_APPEARANCES: Appearances = {}
_PLAIN = Appearance()


class Said(NamedTuple):
    """What comments say: the names and colours of solids and faces, and how large a coordinate is."""

    looks: Appearances = NO_APPEARANCES
    unit: Fraction = Fraction(1)


def look_of(appearances: Appearances, kind: str, number: int) -> Appearance:
    """What is said of a thing: nothing where it isn't named."""
    return appearances.get((kind, number), _PLAIN)


def hexadecimal(colour: Colour) -> str:
    """The colour as `#FF8000`."""
    return '#{:02X}{:02X}{:02X}'.format(*colour)


def colour_of(text: str) -> Colour:
    """The colour of `#FF8000` or `FF8000`, with further digits for how opaque it is or without. Raises ValueError."""
    digits = text.lstrip('#')
    if not re.fullmatch('(?:[0-9A-Fa-f]{2}){3,4}', digits):
        raise ValueError(f'no colour: {text[:20]}')
    return (int(digits[0:2], 16), int(digits[2:4], 16), int(digits[4:6], 16))


def colour_of_parts(red: float, green: float, blue: float) -> Colour:
    """The colour of three parts from 0 to 1."""
    r, g, b = (min(255, max(0, round(255 * part))) for part in (red, green, blue))
    return (r, g, b)


def comments(appearances: Appearances) -> Iterator[str]:
    """A comment for each thing that has a name or a colour, solids first."""
    for (kind, number), look in sorted(appearances.items(), key=lambda item: (item[0][0] != 'solid', item[0])):
        if look != _PLAIN:
            name = f' name {json.dumps(look.name[:LONGEST_NAME])}' if look.name else ''
            yield f'# {kind} {number}{name}' + (f' colour {hexadecimal(look.colour)}' if look.colour else '')


def unique_names(numbers: Iterable[int], appearances: Appearances, plain: str, spelled: Callable[[str], str] = str) -> Dict[int, str]:
    """A name for each solid, all of them different in the letters that a form has, as `spelled` makes them: its own, with its number behind it where
    others have it too, or the plain one with its number."""
    own = {number: look_of(appearances, 'solid', number).name for number in numbers}
    names = {number: spelled(name) for number, name in own.items()}
    times = Counter(names.values())
    single = {number: name for number, name in names.items() if name and times[name] == 1 and not _NUMBERED.fullmatch(name)}
    longer = {number: spelled(f'{own[number]} (solid {number})') for number, name in names.items() if name and number not in single}
    known = Counter([*single.values(), *longer.values()])
    return {number: single.get(number) or (longer[number] if known[longer.get(number, '')] == 1 else f'{plain}{number}') for number in names}


def appearances_in(lines: Iterable[str]) -> Dict[Thing, Appearance]:
    """What the comments of a script say; the last one about a thing counts. Other lines are read over."""
    found: Dict[Thing, Appearance] = {}
    for match in filter(None, map(_COMMENT.fullmatch, lines)):
        kind, number, name, colour = match.groups()
        found[kind, int(number)] = Appearance(json.loads(name) if name else '', colour_of(colour) if colour else None)
    return found
