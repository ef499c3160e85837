"""gwb-dxf: writes a drawing, a section or a face of a model as DXF."""

from typing import Optional, Sequence

from ..drawing.dxf import drawing_dxf, face_dxf, section_dxf
from ..geometry.crossings import require_part
from .command_line import OK, listing_parser, run
from .given import filled
from .inside_out import warn_of_inside_out
from .names_of_script import add_names
from .svg import view_step

PROGRAM = 'gwb-dxf'


def work(words: Optional[Sequence[str]]) -> int:
    """Reads a model and writes a drawing of it, or the outlines of a section or a face."""
    parser = listing_parser(PROGRAM, 'Writes a drawing of a model as DXF (AutoCAD release 12), or the outlines of a section or a face, '
                                     'in their true size.')
    kinds = parser.add_mutually_exclusive_group()
    kinds.add_argument('--view', nargs=3, type=view_step, default=(0, 0, 1), metavar=('X', 'Y', 'Z'),
                       help='draw the edges for a viewer who stands in this direction, z is up (default: 0 0 1, from above)')
    kinds.add_argument('--section', nargs=4, type=int, metavar=('A', 'B', 'C', 'D'),
                       help='the outlines in which the plane A x + B y + C z + D = 0 cuts the solids, a layer for each')
    kinds.add_argument('--face', type=int, metavar='F', help='the outlines of face F')
    parser.add_argument('--no-hidden', dest='hidden', action='store_false', help='leave hidden lines out')
    add_names(parser)
    options = parser.parse_args(words)
    if not any(options.view) or options.section is not None and not any(options.section[:3]):
        parser.error('the first three numbers are a direction, and not all zero')
    model, said, *_ = filled(options)
    if options.section is not None:
        a, b, c, d = options.section
        text = section_dxf(model, (a, b, c, d), said)
    elif options.face is not None:
        require_part(model.faces, 'face', options.face)
        text = face_dxf(model, options.face, said)
    else:
        x, y, z = options.view
        text = drawing_dxf(model, (x, y, z), options.hidden, said.unit)
    print(text, end='')
    warn_of_inside_out(PROGRAM, model)
    return OK


def main(words: Optional[Sequence[str]] = None) -> int:
    """The program: its status."""
    return run(PROGRAM, work, words)
