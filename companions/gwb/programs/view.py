"""gwb-view: makes a page to look at a model and to pick from it, or to play a script."""

import argparse
from pathlib import Path
from typing import Optional, Sequence

from ..drawing.page import page_of, page_of_steps, title_of
from ..errors import CompanionError
from ..protocol.language import first_answered
from .command_line import OK, listing_parser, read_bytes, run
from .given import REPLIES, SCRIPT, filled, kind_of, told_kind
from .inside_out import warn_of_inside_out
from .names_of_script import add_names, said_in
from .playing import played

PROGRAM = 'gwb-view'


def _require_script(data: bytes, path: Optional[str]) -> None:
    """Refuses what has no command, or is no script."""
    if not first_answered(data):
        raise CompanionError('there is no command in the script')
    kind = kind_of(data, path)
    if kind == REPLIES:
        raise CompanionError('these are replies of gwb, and --steps takes the script: leave it out to see their last listing')
    if kind != SCRIPT:
        raise CompanionError(f'this is {told_kind(kind)}, and --steps takes a script')


def _parser() -> argparse.ArgumentParser:
    parser = listing_parser(PROGRAM, 'Makes a page to look at a model and to pick from it, which stands alone: gwb-view part.gwb > part.html')
    parser.add_argument('--steps', action='store_true', help='show the model after each command of a script')
    add_names(parser)
    return parser


def _stem(path: Optional[str]) -> str:
    """The name of the file, for the title of the page."""
    stem = Path(path or '-').stem.encode('utf-8', 'backslashreplace').decode('utf-8')
    return 'gwb' if stem == '-' else stem


def _page(options: argparse.Namespace) -> str:
    """The page of a model, or of a script that is played, of which nothing else is held then."""
    if options.steps:
        data = read_bytes(options.listing)
        _require_script(data, options.listing)
        said, ended = said_in(data), played(data)
        model, page = ended.model, page_of_steps(ended.steps, title_of(ended.model, said.looks, _stem(options.listing)), *said)
    else:
        model, said, *_ = filled(options)
        page = page_of(model, title_of(model, said.looks, _stem(options.listing)), *said)
    warn_of_inside_out(PROGRAM, model)
    return page


def work(words: Optional[Sequence[str]]) -> int:
    """Reads a model, or runs a script, and writes the page."""
    parser = _parser()
    options = parser.parse_args(words)
    if options.steps and (options.solid is not None or options.script_of_names is not None):
        parser.error('--solid and --names are not for --steps')
    print(_page(options), end='')
    return OK


def main(words: Optional[Sequence[str]] = None) -> int:
    """The program: its status."""
    return run(PROGRAM, work, words)
