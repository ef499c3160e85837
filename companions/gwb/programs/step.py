"""gwb-step: writes a model as STEP."""

from typing import Optional, Sequence

from ..formats.step.write import step_text
from .command_line import OK, listing_parser, run
from .given import filled
from .inside_out import warn_of_inside_out
from .names_of_script import add_names

PROGRAM = 'gwb-step'


def work(words: Optional[Sequence[str]]) -> int:
    """Reads a model and writes it as STEP."""
    parser = listing_parser(PROGRAM, 'Writes a model as STEP AP214 (advanced boundary representation, in millimetres).')
    add_names(parser)
    options = parser.parse_args(words)
    model, said, *_ = filled(options)
    print(step_text(model, *said), end='')
    warn_of_inside_out(PROGRAM, model)
    return OK


def main(words: Optional[Sequence[str]] = None) -> int:
    """The program: its status."""
    return run(PROGRAM, work, words)
