"""What a companion is given: a script, which is run to its end, replies of gwb, of which the last listing is taken, or a file of a form that is read."""

import argparse
import sys
from fractions import Fraction
from typing import NamedTuple, Optional, Tuple

from ..errors import CompanionError, ProgramMissing, Unfit
from ..formats.appearance import Said
from ..formats.exact_numbers import told
from ..formats.forms import FORMS, READ, titles
from ..formats.importing import fitting
from ..formats.parts import NotAMesh
from ..formats.polygon_files import form_of, told_unread
from ..geometry.crossings import require_part
from ..geometry.model import Model
from ..protocol.language import COMMANDS, first_answered, first_word
from ..protocol.listing import read_listed
from ..protocol.replies import is_listed, shortened
from .command_line import read_bytes, told_later
from .names_of_script import said_in
from .playing import models_of, run_to_its_end

SCRIPT, REPLIES = 'a script', 'replies of gwb'
_ENDING = '.gwb'
_TOLD = 5
# The first words of replies; three of them are commands too.
_REPLY_WORDS = ('ok', 'empty', 'refused', 'fault', 'memory', 'volume', 'plane', 'count')


class Given(NamedTuple):
    """A model, the names, colours and unit that go with it, what it was given as (a script, replies, or the name of a form), and what is to be said
    of it on standard error."""

    model: Model
    said: Said
    kind: str
    warnings: Tuple[str, ...] = ()

    def tell(self, program: str) -> None:
        """Says the warnings, a line for each."""
        for line in self.warnings:
            print(f'{program}: {line}', file=sys.stderr)


def kind_of(data: bytes, path: Optional[str]) -> str:
    """What the bytes of a file are: a script, replies, or the name of a form. Raises NotAMesh where they are none of them."""
    name, line = (path or '').lower(), first_answered(data)
    word, text = first_word(line), line.decode('ascii', 'replace').strip()
    if word in _REPLY_WORDS or is_listed(text) and not _is_facet(data, line):
        return REPLIES
    if word in COMMANDS or name.endswith(_ENDING):
        return SCRIPT
    try:
        return form_of(data, name)
    except NotAMesh:
        if told_unread(name):
            raise
        if not line:
            return REPLIES
        raise NotAMesh(f'`{shortened(ascii(text)[1:-1])}` begins no script, no replies of gwb and no form that is read: {titles(READ)}') from None


def _is_facet(data: bytes, line: bytes) -> bool:
    """Whether a line such as `solid 1` is the head of STL, and not that of a listing."""
    return first_word(first_answered(data[data.find(line) + len(line):])).lower() in ('facet', 'endsolid')


def told_kind(kind: str) -> str:
    """What a file is, in words."""
    return kind if kind in (SCRIPT, REPLIES) else f'a file of {FORMS[kind].title}'


def given(path: Optional[str], names: Optional[str] = None) -> Given:
    """What a file, or standard input, holds; for replies `names` may be their script. Raises CompanionError, with the place, where it is damaged."""
    data = read_bytes(path)
    kind = kind_of(data, path)
    if names is not None and kind != REPLIES:
        raise CompanionError(f'--names goes with replies of gwb, and this is {told_kind(kind)}, which says its own')
    if kind == SCRIPT:
        return _ended(data)
    if kind in READ:
        return _imported(data, kind, path)
    listed = read_listed(data)
    said = Said() if names is None else _named(read_bytes(names), listed.model)
    return Given(listed.model, said, kind, told_later(listed))


def wanted(options: argparse.Namespace) -> Given:
    """What the words of listing_parser name, of it one solid alone where they name one; its warnings are said."""
    found, unit = given(options.listing, getattr(options, 'script_of_names', None)), getattr(options, 'unit', None)
    if unit is not None:
        if found.kind != REPLIES:
            raise CompanionError(f'--unit goes with replies of gwb, and this is {told_kind(found.kind)}, which says its own')
        found = found._replace(said=found.said._replace(unit=Fraction(unit)))
    if options.solid is not None:
        require_part(found.model.solids, 'solid', options.solid)
        found = found._replace(model=found.model.only(options.solid))
    found.tell(options.program)
    return found


def filled(options: argparse.Namespace) -> Given:
    """As wanted, but an empty model is refused."""
    found = wanted(options)
    if not found.model.solids:
        raise CompanionError('the model is empty')
    return found


def _ended(script: bytes) -> Given:
    """The model that a script leaves, with its complaints."""
    if not first_answered(script):
        raise CompanionError('there is no command in the script')
    ended = run_to_its_end(script)
    more = len(ended.complaints) - _TOLD
    rest = [f'{more} more complaint{"" if more == 1 else "s"}'] if more > 0 else []
    return Given(ended.model, said_in(script), SCRIPT, (*ended.complaints[:_TOLD], *rest))


def _imported(data: bytes, form: str, path: Optional[str]) -> Given:
    """The model of a file of polygons. Its unit is a millimetre, or a thousandth of it where its points aren't whole millimetres."""
    try:
        found, unit = fitting(data, form, path)
    except Unfit as error:
        raise Unfit(f'{error} (gwb-import takes these words)' if '--' in str(error) else str(error)) from None
    moved = Fraction(f'{float(found.square_moved) ** 0.5 * float(unit):.3g}')
    rounded = [f'points were moved by {told(moved)} mm at most'] if moved else []
    return Given(found.model, Said(found.looks, unit), form, (*rounded, *found.said, *(f'warning: {wrong}' for wrong in found.wrong)))


def _named(script: bytes, model: Model) -> Said:
    """What the comments of a script say of the model that it makes. Raises CompanionError where it makes another one, or names what isn't there."""
    said = said_in(script)
    for kind, number in said.looks:
        if number not in (model.solids if kind == 'solid' else model.faces):
            raise CompanionError(f'--names is another script: it names {kind} {number}, which the listing has not')
    try:
        is_of_model = not first_answered(script) or model in models_of(script)
    except ProgramMissing:
        is_of_model = True    # (only what it names is compared where nothing runs it)
    if not is_of_model:
        raise CompanionError('--names is another script: run, it makes another model than the one that is listed')
    return said
