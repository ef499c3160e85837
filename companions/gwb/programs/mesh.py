"""gwb-mesh: writes a model as a mesh of triangles."""

import argparse
import os
import sys
from typing import Optional, Sequence

from ..formats.appearance import Said
from ..formats.forms import FORMS, MESHES, SOLIDS, titles
from ..formats.mesh import mesh_of
from ..formats.obj import mtl_text, obj_text
from ..geometry.model import Model
from ..geometry.touching_solids import touching_solids
from .command_line import OK, listing_parser, run, write_bytes
from .given import filled
from .inside_out import warn_of_inside_out
from .names_of_script import add_names

PROGRAM = 'gwb-mesh'


def work(words: Optional[Sequence[str]]) -> int:
    """Reads a model and writes its mesh."""
    parser = listing_parser(PROGRAM, f'Writes a model as a mesh of triangles, triangulated exactly: {titles(MESHES)}.')
    parser.add_argument('--form', choices=MESHES, default='off', help='the form of the mesh (default: off)')
    parser.add_argument('--materials', metavar='FILE', help='with --form obj: write the colours to this file, which the mesh names')
    parser.add_argument('--groups', action='store_true', help='with --form obj: a group for each face, which many programs take for a mesh of its own')
    add_names(parser)
    options = parser.parse_args(words)
    if options.materials is not None and options.form != 'obj':
        parser.error('argument --materials: it goes with --form obj')
    if options.groups and options.form != 'obj':
        parser.error('argument --groups: it goes with --form obj')
    model, said, *_ = filled(options)
    write_bytes(_written(model, options, said))
    warn_of_inside_out(PROGRAM, model)
    if FORMS[options.form].lacks(SOLIDS):
        warn_of_touching(model, options.form)
    return OK


def _written(model: Model, options: argparse.Namespace, said: Said) -> bytes:
    """The mesh in the form that the words want; the file of materials is written on the way."""
    write = FORMS[options.form].write
    assert write, 'gwb-mesh writes it'
    if options.materials is None and not options.groups:
        return write(model, said)
    name = None if options.materials is None else os.path.basename(options.materials)
    text = obj_text(mesh_of(model), said.looks, name, said.unit, options.groups)
    if options.materials is not None:
        with open(options.materials, 'w', encoding='utf-8') as file:
            file.write(mtl_text(said.looks))
    return text.encode('utf-8')


def warn_of_touching(model: Model, form: str) -> None:
    """One line on standard error where two solids touch, in a form that doesn't keep solids apart."""
    pair = next(touching_solids(model), None)
    if pair is not None:
        print('{}: warning: solids {} and {} touch or overlap, and {} does not keep solids apart: many programs will read one wrong body. '
              '--solid writes each alone, --form 3mf keeps them apart'.format(PROGRAM, *pair, FORMS[form].title), file=sys.stderr)


def main(words: Optional[Sequence[str]] = None) -> int:
    """The program: its status."""
    return run(PROGRAM, work, words)
