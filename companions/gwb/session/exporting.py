"""Names and colours of solids and faces in a session, its step, and the files that are made of what it holds, or taken in.

Pages and forms of files are imported in the methods that need them: together they take as long to load as all the rest.
"""

import os
from fractions import Fraction
from math import lcm
from pathlib import Path
from types import MappingProxyType
from typing import Sequence, Union
from unicodedata import category

from ..errors import OffGrid, Unfit
from ..formats.appearance import LONGEST_NAME, Appearance, Appearances, Said, colour_of
from ..geometry.free_numbers import renumbered
from ..geometry.plane_figures import Exact
from ..geometry.touching_solids import touching_solids
from . import arguments
from .bench import Methods, warn
from .lengths import Length, exact, nearest
from .reading import FacePart, Selection, SolidPart
from .results import Became
from .steps import Block


class ImportedSolids(Selection[SolidPart]):
    """The solids that a file had, rising by their numbers; `moved` is how far a point was moved at most to come to lie on the lattice, in millimetres."""

    def __init__(self, solids: Sequence[SolidPart], moved: float) -> None:
        super().__init__('solid', '', solids)
        self.moved = moved


class Exporting(Methods):
    """Labels go by number, and with the command after which they were given: its undo takes them back, and redo gives them again. What is gone
    has none. Copies and parts of faces get those of what they were."""

    @property
    def labels(self) -> Appearances:
        """The names and colours that were given, by kind and number.

        >>> bench.label(block, 'box')
        >>> dict(bench.labels)
        {('solid', 1): Appearance(name='box', colour=None)}
        """
        return MappingProxyType(self._kernel.labels())

    def label(self, thing: Union[SolidPart, FacePart, arguments.MadeSolid], name: str = '', colour: str = '') -> None:
        """Gives a solid, or what a command returned that made it, or a face a name, and a colour such as '#FF8000'; with neither what it had is
        taken away. Raises ValueError where the colour is none, the name is longer than 200 characters or has control characters, or the thing is of
        another workbench. Refused: NoSolid, NoFace.

        >>> bench.label(bench.face(block.top), 'lid', '#FF8000')
        >>> bench.labels['face', block.top]
        Appearance(name='lid', colour=(255, 128, 0))
        """
        said, shade = arguments.text('name', name, 'strict'), arguments.text('colour', colour)
        try:
            look = Appearance(said, colour_of(shade) if shade else None)
        except ValueError as error:
            raise ValueError(f'colour: {error}') from None
        if any(category(letter) == 'Cc' for letter in look.name):
            raise ValueError(f'name: {look.name!r} has control characters')
        if len(look.name) > LONGEST_NAME:
            raise ValueError(f'name: {len(look.name)} characters are more than {LONGEST_NAME}')
        if not isinstance(thing, (SolidPart, FacePart)):
            number = getattr(thing, 'solid', None)
            if type(number) is not int:
                said = f'{thing} may be a solid or a face: bench.solid({thing})' if isinstance(thing, int) else f'a solid or a face is wanted, not {thing!r}'
                raise TypeError(f'thing: {said}')
            thing = SolidPart(self._kernel, number)
        number = self._number('thing', thing, thing.kind)
        _there = thing.faces if isinstance(thing, SolidPart) else thing.solid
        self._kernel.notes.put(((thing.kind, number), None if look == Appearance() else look))

    def became(self, *, label: bool = False) -> Became:
        """What came of each face, edge and vertex that isn't as it was before the last command: of an edge others that run along it, of a vertex others at
        its point, of a face others in its plane along its sides. What is as it was isn't there, and nothing is while a draft is open. With label=True what
        came of a labelled face has its label, unless it has one.

        >>> _ = bench.split(block, Plane(z=5))
        >>> bench.became().faces
        {3: (7,), 4: (8,), 5: (9,), 6: (10,)}
        """
        may_label, lines = arguments.flag('label', label), self._kernel.lines
        found = Became(lines.became('face'), lines.became('edge'), lines.became('vertex'))
        if may_label:
            labels = self._kernel.notes.labels
            self._label_alike('face', [(old, new) for old, parts in reversed([*found.faces.items()]) for new in parts if ('face', new) not in labels])
        return found

    @property
    def step(self) -> Fraction:
        """How fine lengths are, in millimetres: all points are multiples of it. As the session began, but where `refine` made it finer.

        >>> bench.step
        Fraction(1, 1000)
        """
        return self._kernel.notes.now.unit

    def near(self, length: Length) -> Exact:
        """The multiple of the step that is nearest to a length, in millimetres: the one way to round.

        >>> bench.near('1/3')
        Fraction(333, 1000)
        """
        return nearest(exact('length', length), self.step)

    def page(self) -> str:
        """A page in HTML to turn the model and to pick from it in millimetres, as `gwb-view` makes it, with the labels.

        >>> bench.page()[:15]
        '<!DOCTYPE html>'
        """
        return self._page('gwb')

    def _page(self, title: str) -> str:
        """The page, with this title where the model isn't one solid that has a name."""
        from ..drawing.page import page_of, title_of
        model, looks = self._kernel.listing(), self._kernel.labels()
        return page_of(model, title_of(model, looks, title), looks, self.step)

    def export(self, path: arguments.Path) -> None:
        """Writes what is held to a file, by the ending of its name: .step, .stp or .p21, .3mf, .glb, .obj (colours in a .mtl beside it), .off, .stl, .html.
        Names and colours go where the form has them. All have the size, in millimetres, GLB in metres; what is no decimal fraction of one
        is rounded to 9 places in OBJ, OFF and STL. Raises
        ValueError for another ending, Unfit where a face isn't flat and plain, nothing is held, or a coordinate is past what GLB holds exactly, OSError where
        the file can't be written, or a .mtl is there that the .obj doesn't name. Warns where solids touch and the form doesn't keep them apart.

        >>> bench.export(folder / 'part.stl')
        >>> (folder / 'part.stl').read_text()[:5]
        'solid'
        """
        from ..formats.forms import EXPORTED, FORMS, SOLIDS, by_ending, endings
        from ..formats.writing import written
        file = Path(arguments.path('path', path))
        form = by_ending(file.suffix)
        if form not in EXPORTED:
            raise ValueError(f'{file.name}: the endings are {" ".join(endings(EXPORTED))}')
        model = self._kernel.listing()
        if not model.solids and form != 'html':
            raise Unfit(f'{file.name}: no solid is held, so there is nothing to write')
        touching = next(touching_solids(model), None) if FORMS[form].lacks(SOLIDS) else None
        if touching:
            warn('solids {} and {} touch or overlap, and {} does not keep solids apart: many programs will read one wrong body; .3mf and .step keep them '
                 'apart'.format(*touching, file.suffix))
        file.write_bytes(self._page(file.stem).encode() if form == 'html' else written(model, Said(self._kernel.labels(), self.step), file))

    def import_file(self, path: arguments.Path, *, form: str = '', scale: Length = 1, rounded: bool = False, keep_triangles: bool = False,
                    repair: bool = False, within: Length = 0, flat: bool = False) -> 'ImportedSolids':
        """The solids of a file, as `gwb-import` reads it, beside what is held, with numbers that are free: these, with the names and colours that
        the file has as labels. `moved` of them says how far a point was moved at most, in millimetres.

        `form` is 'step', 'stl', 'obj', 'off', 'ply', 'amf', '3mf' or 'glb' where the file doesn't look like it. Coordinates, in millimetres where the
        file says a unit, are multiplied by `scale`, and must then be multiples of the step; `rounded` rounds them, and
        `within` only those of a point that lies no farther than so many millimetres beside a point of the lattice. Faces of one plane become one but with
        `keep_triangles`; `repair` mends what can be; `flat` takes of STEP the flat solids alone. Warns of what is wrong with the solids, of what is left
        out, and of points that were moved.
        Raises OSError; NotAMesh where it is no such file; Unfit where its surfaces aren't closed, or a point isn't whole or past the range.
        Refused: NumbersSpent.

        >>> bench.export(folder / 'part.step')
        >>> made = bench.import_file(folder / 'part.step')
        >>> made, made.moved
        (<solids 2>, 0.0)
        >>> bench.volume(2)
        Fraction(8000, 1)
        """
        from ..formats.forms import READ
        from ..formats.importing import read_file
        kind = arguments.text('form', form) and arguments.word('form', form, READ)
        size, most = arguments.factor('scale', scale) / self.step, arguments.factor('within', within, or_zero=True, wanted='a length') / self.step
        round_all, keep, mend, flat_alone = (arguments.flag(name, value) for name, value in (
            ('rounded', rounded), ('keep_triangles', keep_triangles), ('repair', repair), ('flat', flat)))
        file = arguments.path('path', path)
        try:
            found = read_file(os.path.abspath(file), form=kind or None, scale=size.numerator if size.denominator == 1 else size,
                              rounded=round_all, keep_triangles=keep, repair=mend, flat=flat_alone, within=most)
        except OffGrid as error:
            place = ', '.join(str(self._kernel.lengths.out(part)) for part in error.point)
            finer = lcm(*(Fraction(part).denominator for part in error.point))
            raise Unfit(f'{file}: the point ({place}) is no multiple of the step, {self.step} mm: refine({finer}) before it makes the step as fine, '
                        'rounded=True rounds, and within=D those points that lie as near as D mm') from None
        for wrong in found.wrong:
            warn(f'{file}: {wrong}')
        moved = float(found.square_moved) ** 0.5 * float(self.step)
        if moved:
            warn(f'{file}: points were moved by {moved:.3g} mm at most')
        new = self._kernel.numbers.instead_of(found.model)
        with Block(self._kernel, False):
            if found.model.solids:
                self._kernel.load(renumbered(found.model, new))
            looks = [((kind, new[kind][number]), look._replace(name=look.name[:LONGEST_NAME])) for (kind, number), look in found.looks.items()]
            self._kernel.notes.put(*looks)
        return ImportedSolids([SolidPart(self._kernel, new['solid'][solid]) for solid in found.model.solids], moved)
