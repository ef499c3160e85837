"""What to say of a line that is no command, word by word: what each word should be, and where a word of other programs is to be found."""

import re
from typing import Dict, Iterator, List

from .language import COMMANDS

# How many words after the command name half-edges, and how many of them may be corners too: half-edges, or `@` and a lone loop.
_HALVES = {'kev': 1, 'kef': 1, 'kemr': 1, 'mef': 2}
_CORNERS = {'mev': 2, 'mekr': 2}
_SCRIPT = 'gwb-script makes the script of a model'
# Words that people try, and where what they mean is to be found.
_ELSEWHERE: Dict[str, str] = {
    **dict.fromkeys(('move', 'translate'), f'{_SCRIPT} that is moved (--move DX DY DZ); in Python it is move'),
    **dict.fromkeys(('copy', 'duplicate'), f'{_SCRIPT} beside it (--copy); in Python it is copy'),
    **dict.fromkeys(('turn', 'rotate'), f'{_SCRIPT} that is turned (--turn AXIS); in Python it is turn'),
    'mirror': f'{_SCRIPT} that is mirrored (--mirror A B C D); in Python it is mirror',
    'scale': f'{_SCRIPT} times a factor (--scale K)',
    **dict.fromkeys(('delete', 'remove', 'erase'), 'gwb-script --away writes the commands that take a solid away; in Python it is delete'),
    **{word: f'it is a method of Python: bench.{word}'
       for word in ('hole', 'slot', 'notch', 'groove', 'pocket', 'boss', 'chamfer', 'shoulder', 'drill', 'trim', 'union', 'subtract', 'intersect',
                    'cut', 'profile', 'pattern', 'label')},
    **dict.fromkeys(('cube', 'box'), 'block S x y z dx dy dz makes a box'),
    'extrude': 'sweep F dx dy dz moves a face and makes the sides',
    **dict.fromkeys(('fillet', 'round', 'sphere', 'cylinder', 'cone'), 'all faces are flat: nothing round is made'),
    **dict.fromkeys(('export', 'save'), 'gwb-step, gwb-mesh and gwb-script write files of what `list` lists'),
    **dict.fromkeys(('import', 'open', 'load'), 'gwb-import writes the script that makes the solids of a file'),
    **dict.fromkeys(('help', 'quit', 'exit', 'explain'), 'gwb-shell has it'),
}
# Names that other programs have for methods, and what does it in Python.
_FLAT = 'all faces are flat'
IN_PYTHON: Dict[str, str] = {
    **dict.fromkeys(('cube', 'box'), 'block(point, sizes) makes one'),
    **dict.fromkeys(('extrude', 'linear_extrude'), 'profile(points, along=vector) makes a solid of an outline, boss() raises one from a face, sweep() moves a face'),
    **dict.fromkeys(('fillet', 'round'), f'{_FLAT}; chamfer(edge, width) and chamfer_edges() cut edges'),
    **dict.fromkeys(('cylinder', 'circle', 'rod'), f'{_FLAT}; sketch(face).polygon() has the corners of a circle for boss() and pocket(), and drill() makes a hole'),
    **dict.fromkeys(('sphere', 'cone', 'torus', 'revolve', 'rotate_extrude'), f'{_FLAT}; polyhedron(points, faces) makes any solid of them'),
    'loft': 'profile(points, along=vector, top=points) makes a solid between two outlines',
    **dict.fromkeys(('shell', 'hollow', 'thicken'), 'subtract(solid, [inside]) leaves walls'),
    **dict.fromkeys(('hull', 'minkowski'), 'polyhedron(points, faces) makes a solid of its corners'),
    **dict.fromkeys(('workplane', 'rectangle', 'polygon'), 'sketch(face) has the points of outlines in a face'),
    **dict.fromkeys(('mirrored', 'reflect'), 'mirror(solid, plane) mirrors one'),
    'rotate': 'turn(solid, axis, degrees=90) turns one, and to=(4, 3) by other angles',
    'translate': 'move(solid, vector) moves one',
    **dict.fromkeys(('duplicate', 'clone'), 'copy(solid, move=vector) makes one'),
    **dict.fromkeys(('difference', 'minus'), 'subtract(solid, tools) takes solids away'),
    **dict.fromkeys(('fuse', 'join', 'add', 'unite'), 'union([solid, other]) makes one of both'),
    **dict.fromkeys(('intersection', 'common'), 'intersect([solid, other]) leaves what both have in common'),
    **dict.fromkeys(('remove', 'erase'), 'delete(solid) takes one away'),
    **dict.fromkeys(('array', 'linear_pattern'), 'pattern(solid, count, step) makes a row'),
    'polar_pattern': 'pattern_around(solid, count, axis) makes solids around an axis',
    **dict.fromkeys(('bevel', 'champfer'), 'chamfer(edge, width) cuts an edge'),
    'slice': 'cut(solid, plane) cuts a solid',
}
# What is said of a number that isn't whole.
FINER_UNIT = 'choose a finer unit, such as tenths'
_FRACTION = re.compile(r'[+-]?(?:[0-9]*\.[0-9]*|[0-9]+/[0-9]+|[0-9]+(?:\.[0-9]+)?[eE][+-]?[0-9]+)')
_WHOLE = re.compile(r'[+-]?[0-9]+')
_SIGNED = re.compile(r'[+-][0-9]+')
_CORNER = re.compile(r'[+-][0-9]+|@[0-9]+')
_LONGEST = 20


def word_advice(line: str, fault: int) -> List[str]:
    """Comments that say why a line has the fault BadWord (1) or BadNumber (2); none where nothing is known of it."""
    words = line.split()
    if not words:
        return []
    return [f'# {told}' for told in (_of_command(words[0]) if fault == 1 else _of_numbers(words) if fault == 2 else ())]


def _of_command(word: str) -> Iterator[str]:
    """What to say of a word that is no command."""
    if word in COMMANDS:
        return
    if word.lower() in COMMANDS:
        yield f'commands are written in small letters: {word.lower()}'
    elif word.lower() in _ELSEWHERE:
        yield f'gwb has no {word.lower()}: {_ELSEWHERE[word.lower()]}'
    else:
        from difflib import get_close_matches
        yield from (f'is {near} meant?' for near in get_close_matches(word.lower(), COMMANDS, 1))


def _of_numbers(words: List[str]) -> Iterator[str]:
    """What to say of the first word of a command that can't be read at its place."""
    command, rest = words[0], words[1:]
    halves, corners = _HALVES.get(command, 0), _CORNERS.get(command, 0)
    for place, word in enumerate(rest):
        told = _of_half(word) if place < halves else _of_corner(word) if place < corners else _of_number(word)
        if told:
            yield told
            return


def _of_half(word: str) -> str:
    """Why a word is no half-edge, '' where it is one."""
    return '' if _SIGNED.fullmatch(word) else f'{_shown(word)} is no half-edge: of edge {_digits(word)} they are +{_digits(word)} and -{_digits(word)}'


def _of_corner(word: str) -> str:
    """Why a word is no corner, '' where it is one."""
    if _CORNER.fullmatch(word):
        return ''
    number = _digits(word)
    return f'{_shown(word)} is no corner: it is +{number} or -{number}, a half-edge, or @{number}, the vertex of lone loop {number}'


def _of_number(word: str) -> str:
    """Why a word is no whole number, '' where it is one that fits."""
    if _FRACTION.fullmatch(word):
        return f'{_shown(word)} is not whole: all numbers are; {FINER_UNIT} (gwb-script --scale 10 multiplies a model)'
    if word[:1] == '+' and _WHOLE.fullmatch(word):
        return f'{_shown(word)}: a sign + stands before half-edges alone'
    if not _WHOLE.fullmatch(word):
        return f'{_shown(word)} is no number'
    return f'{_shown(word)} has more than 18 digits' if len(word.lstrip('-').lstrip('0')) > 18 else ''


def _digits(word: str) -> str:
    """The number in a word, or E where it has none."""
    found = re.search('[0-9]+', word)
    return found[0][:_LONGEST] if found else 'E'


def _shown(word: str) -> str:
    return f'`{word if len(word) <= _LONGEST else word[:_LONGEST] + ".."}`'
