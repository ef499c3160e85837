"""A page to look at a model and to pick from it: one HTML file that stands alone."""

import base64
import hashlib
import html
from fractions import Fraction
from pathlib import Path
from typing import Dict, Iterable, List, Mapping, NamedTuple, Optional, Protocol, Tuple

from ..geometry.model import Model
from .page_rows import EMPTY, in_json, rows_of

_FILES = Path(__file__).resolve().parent / 'page'
_SCRIPTS = ('picture.js', 'section.js', 'measure.js', 'occlusion.js', 'painter.js', 'flat.js', 'panels.js', 'page.js')


class Look(Protocol):
    """The name of a solid or a face, empty where it has none, and its colour: red, green and blue from 0 to 255, or None."""

    @property
    def name(self) -> str:
        """The name."""

    @property
    def colour(self) -> Optional[Tuple[int, int, int]]:
        """The colour."""


# By kind, solid or face, and number.
Looks = Mapping[Tuple[str, int], Look]
_PLAIN: Looks = {}
_LETTERS = {'solid': 's', 'face': 'f'}


class Step(NamedTuple):
    """A command of a script, what was replied to it, and what it changed: rows of the page in JSON, null for what has gone.

    `row` is what the list of steps calls it and those that follow and have none: they are one step of whoever made the script.
    """

    line: str
    reply: str
    is_complaint: bool
    change: str
    row: str = ''


def _looks_data(looks: Looks) -> Dict[str, Dict[str, str]]:
    """Names and colours as the page reads them, by `s1` for a solid and `f3` for a face. Raises ValueError for another kind or colour."""
    names, colours = {}, {}
    for (kind, number), look in looks.items():
        if kind not in _LETTERS:
            raise ValueError(f'{kind!r} is neither solid nor face')
        key = f'{_LETTERS[kind]}{number}'
        if look.name:
            names[key] = look.name
        if look.colour is not None:
            colours[key] = _hexadecimal(look.colour)
    return {'names': names, 'colours': colours}


def _hexadecimal(colour: Tuple[int, int, int]) -> str:
    if len(colour) != 3 or not all(0 <= part <= 255 for part in colour):
        raise ValueError(f'{colour!r} is no colour of three parts from 0 to 255')
    return '#{:02x}{:02x}{:02x}'.format(*colour)


def title_of(model: Model, looks: Looks, otherwise: str) -> str:
    """The title of a page: the name of the model's solid, if it has one solid and that a name."""
    only = looks.get(('solid', next(iter(model.solids)))) if len(model.solids) == 1 else None
    return only.name if only and only.name else otherwise


def page_of(model: Model, title: str = 'gwb', looks: Looks = _PLAIN, unit: Fraction = Fraction(1)) -> str:
    """A page that shows the model, its solids and faces with the names and colours that are given; a coordinate has so many millimetres."""
    return _page(['"frames":[{"change":', *rows_of(model), '}]'], looks, unit, title)


def page_of_steps(steps: Iterable[Step], title: str = 'gwb', looks: Looks = _PLAIN, unit: Fraction = Fraction(1)) -> str:
    """A page that plays a script: the empty workbench, and what each command changes."""
    frames = ','.join([f'{{"change":{"".join(rows_of(EMPTY))}}}', *map(_frame, steps)])
    return _page(['"steps":true,"frames":[', frames, ']'], looks, unit, title)


def _frame(step: Step) -> str:
    line, reply, is_bad, row = map(in_json, (step.line, step.reply, step.is_complaint, step.row))
    return f'{{"line":{line},"reply":{reply},"bad":{is_bad},"change":{step.change},"row":{row}}}'


def _unit_data(unit: Fraction) -> Dict[str, List[str]]:
    return {} if unit == 1 else {'unit': [str(unit.numerator), str(unit.denominator)]}


def _page(frames: List[str], looks: Looks, unit: Fraction, title: str) -> str:
    """The page, of pieces that are joined once, since those of a large model are large."""
    more = in_json({**_looks_data(looks), **_unit_data(unit)})
    name = html.escape(title).encode('ascii', 'xmlcharrefreplace').decode()
    style, script = _lean('page.css'), '\n'.join(_lean(file) for file in _SCRIPTS)
    parts = {'title': [name], 'style': [style], 'script': [script], 'policy': [_policy(style, script)],
             'data': [piece.replace('<', '\\u003c') for piece in ('{', *frames, ',', more[1:])]}
    before, *rest = (_FILES / 'page.html').read_text(encoding='utf-8').split('{')
    return ''.join([before, *(piece for name, after in (piece.split('}', 1) for piece in rest) for piece in (*parts[name], after))])


def _policy(style: str, script: str) -> str:
    """What the page may do: run its own style and script, known by their hashes, and make pictures; nothing is loaded."""
    style_hash, script_hash = (base64.b64encode(hashlib.sha256(text.encode()).digest()).decode() for text in (style, script))
    return (f"default-src 'none'; script-src 'sha256-{script_hash}'; style-src 'sha256-{style_hash}'; "
            "img-src blob: data:; base-uri 'none'; form-action 'none'")


def _lean(name: str) -> str:
    """A file of the page in ASCII, without the spaces at the beginnings of its lines and without lines that are a comment."""
    lines = (line.strip() for line in (_FILES / name).read_text(encoding='utf-8').splitlines())
    text = '\n'.join(line for line in lines if line and not line.startswith('//'))
    return ''.join(letter if letter.isascii() else f'\\u{ord(letter):04x}' for letter in text)
