"""What the methods of a workbench share: its kernel, and what is read and labelled by it."""

import sys
import warnings
from contextlib import contextmanager
from traceback import walk_stack
from typing import Iterable, Iterator, List, Optional, Set, Tuple

from ..geometry.flat_face import FlatFace
from ..geometry.measures import why_unfit
from ..geometry.model import Model
from ..geometry.plane_figures import Place
from ..geometry.vectors import same_direction
from . import arguments
from .kernel import Kernel
from .reading import Part, SolidPart
from .steps import Block
from .turns import TakesTurns


def _a(word: str) -> str:
    """The word with an article."""
    return f'an {word}' if word[0] in 'aeiou' else f'a {word}'


class Methods(TakesTurns):
    """Methods of a workbench on one subject: over its kernel, and what their arguments stand for in it."""

    _kernel: Kernel

    def _number(self, name: str, value: object, kind: str = '', least: int = 0) -> int:
        """The number of a thing of the kind, by default the one that the argument is named after: a number, of which those past 1,000,000 are for the
        kernel to refuse, a thing of this workbench, or for a solid what the command that made it returned."""
        wanted = kind or name
        if not isinstance(value, Part):
            made = getattr(value, 'solid', None)
            if made is not None and wanted != 'solid':
                part = next((f'; its .{name} is one' for name in ('top', 'far', 'face') if wanted == 'face' and hasattr(value, name)), '')
                raise TypeError(f'{name}: {_a(wanted)} is wanted, not {_a(type(value).__name__.lower())}{part}')
            return arguments.whole(name, value if made is None else made, least, arguments.GREATEST_WORD)
        if value.kind != wanted:
            raise arguments.wrong(name, _a(wanted), value)
        if value._kernel is not self._kernel:
            raise ValueError(f'{name}: the {wanted} {value.number} is of another workbench')
        return value.number

    def _several(self, name: str, value: object, kind: str) -> List[int]:
        """The numbers of things of the kind."""
        return [self._number(f'{name}[{place}]', item, kind) for place, item in enumerate(arguments.items(name, value))]

    def _different(self, name: str, value: object, kind: str, least: int = 1) -> List[int]:
        """The numbers of different things of the kind, at least so many."""
        found = self._several(name, value, kind)
        if len(found) < least or len(set(found)) < len(found):
            raise ValueError(f'{name}: different numbers are wanted, at least {least}')
        return found

    def _half_edge(self, name: str, value: object) -> int:
        """A half-edge, `+e` or `-e`: an edge's number with a sign, or an edge of this workbench, which stands for `+e`."""
        if isinstance(value, Part) and value.kind != 'edge':
            raise arguments.wrong(name, 'a half-edge', value)
        return self._number(name, value, 'edge', -arguments.GREATEST_WORD)

    def _half(self, name: str, value: object) -> str:
        """The word for a half-edge."""
        return f'{self._half_edge(name, value):+d}'

    def _corner(self, name: str, value: object) -> str:
        """The word for a corner, in a lone loop or at a half-edge."""
        return f'@{self._number(f"{name}.loop", value.loop, "loop")}' if isinstance(value, arguments.Lone) else self._half(name, value)

    def _new(self, kind: str, given: Optional[int]) -> int:
        """The number that was given, by the argument of the kind's name, or a new one."""
        return self._kernel.numbers.next(kind) if given is None else self._number(kind, given)

    def _label_alike(self, kind: str, others: Iterable[Tuple[int, int]]) -> None:
        """Of each pair of solids or faces the second one gets the label that the first one has, if it has one."""
        labels = self._kernel.notes.labels
        self._kernel.notes.put(*(((kind, other), labels[kind, number]) for number, other in others if (kind, number) in labels))

    @contextmanager
    def _parting(self, *solids: int) -> Iterator[Set[int]]:
        """A step that cuts faces of the first solid into parts: new faces of the solids get the labels of the faces in which they lie, except those that
        are put into what this gives."""
        lines, labels = self._kernel.lines, self._kernel.notes.labels
        held = {*lines.faces_of(solids[0])} if any(kind == 'face' for kind, _ in labels) else set()
        model = lines.model(face for face in held if ('face', face) in labels)
        wholes = [(FlatFace(model, face), labels['face', face]) for face in model.faces if why_unfit(model, face) is None]
        made: Set[int] = set()
        with Block(self._kernel, False):
            yield made
            parts = lines.model({face for solid in solids for face in lines.faces_of(solid)} - held - made if wholes else ())
            looks = {face: [look for whole, look in wholes if _lies_in(parts, face, whole)] for face in parts.faces}
            self._kernel.notes.put(*((('face', face), look[0]) for face, look in looks.items() if look))

    def _alone(self, solid: object) -> Tuple[Model, int]:
        """The model of one solid, and its number. Refused: NoSolid."""
        number = self._number('solid', solid)
        return self._kernel.lines.model(SolidPart(self._kernel, number).faces.numbers), number


def _lies_in(model: Model, face: int, shape: FlatFace) -> bool:
    """Whether all corners of a face lie in a flat one that looks the same way."""
    if why_unfit(model, face) is not None or not same_direction(FlatFace(model, face).across, shape.across):
        return False
    return all(shape.height(point) == 0 and shape.locate(point) is not Place.OUTSIDE for point in model.face_points(face))


def warn(text: str) -> None:
    """Warns of something, at the line of the caller's that called the package."""
    names = (frame.f_globals.get('__name__', '') for frame, _ in walk_stack(sys._getframe()))
    warnings.warn(text, stacklevel=next((level for level, name in enumerate(names, 1) if name.split('.')[0] != __package__.split('.')[0]), 1))
