"""Reads the solids of a STEP file with flat faces: as they stand in the whole, in millimetres, with names and colours."""

import re
from typing import Dict, Iterator, List, Sequence

from ...errors import Unfit
from ..appearance import Appearance
from ..parts import NotAMesh, Part
from ..units import told_scaled
from .assembly import Instance, StepAssembly, in_millimetres
from .lexer import StepFile, text_of
from .looks import StepLooks
from .shapes import SURFACE_MODEL, Brep, StepShapes, told_curved

_NAMED = 3
# What is to be done about what isn't flat.
_HINT = ': --flat takes the flat solids alone, and a mesh made there (STL, with --scale and --round) has curved ones too'
_OURS = re.compile(r"'gwb-step'")


def step_parts(text: str, flat: bool = False) -> Iterator[Part]:
    """The solids of a file. Raises NotAMesh where it can't be read, and Unfit at what is curved or isn't understood.

    With `flat` the flat solids are taken, and the first part says what of the file is left out.
    """
    file = StepFile(text)
    shapes = StepShapes(file)
    assembly = StepAssembly(file, shapes.points)
    instances = list(assembly.instances())
    looks = StepLooks(file, assembly.group)
    found = _Solids(shapes, {instance.solid: looks.of_solid(instance.solid, instance.representation).name for instance in instances})
    if not flat:
        found.require_flat(assembly.strangers())
    left_out = (*(f'{stranger} is left out: it is no solid' for stranger in assembly.strangers()), *found.left_out())
    is_ours = _OURS.search(file.header) is not None
    parts = [_part(file, instance, found.breps[instance.solid], looks, is_ours) for instance in instances if instance.solid in found.breps]
    if not parts:
        raise NotAMesh('there is no solid in the STEP file' if not left_out else f'there is no flat solid in the STEP file: {"; ".join(left_out[:_NAMED])}')
    yield parts[0]._replace(left_out=left_out)
    yield from parts[1:]


class _Solids:
    """The boundary representations of solids, by their references; those that are curved or aren't understood are kept apart, with the reason."""

    def __init__(self, shapes: StepShapes, names: Dict[str, str]) -> None:
        """`names` are the solids' names, '' where they have none."""
        self.breps: Dict[str, Brep] = {}
        self._curved: Dict[str, str] = {}
        self._strange: List[str] = []
        self._reasons: Dict[str, str] = {}
        for solid, name in names.items():
            self._read(solid, f' ({name})' if name else '', shapes)

    def _read(self, solid: str, name: str, shapes: StepShapes) -> None:
        try:
            brep = shapes.brep(solid)
        except Unfit as error:
            self._strange.append(str(error))
            self._reasons[f'solid {solid}{name}'] = str(error)
            return
        if brep.curved:
            self._curved.update(brep.curved)
            self._reasons[f'solid {solid}{name}'] = told_curved(brep.curved)
            return
        if brep.polygons:
            self.breps[solid] = brep
        self._strange += (f'shell {shell} of {solid} is open: {why}' for shell, why in brep.open_shells.items())
        self._reasons.update((f'shell {shell} of {solid}{name}', f'it is open: {why}') for shell, why in brep.open_shells.items())

    def require_flat(self, strangers: Sequence[str]) -> None:
        """Raises Unfit, with all reasons, where a solid is curved or isn't understood, or shapes have what is no solid."""
        reasons = [told_curved(self._curved)] * bool(self._curved) + self._strange[:_NAMED]
        if strangers:
            reasons.append(f'the shape has what is not understood: {"; ".join(strangers)}')
        if reasons:
            raise Unfit('; '.join(reasons) + _HINT)

    def left_out(self) -> List[str]:
        """What is said of each solid or shell that isn't read."""
        return [f'{what} is left out: {reason}' for what, reason in self._reasons.items()]


def _part(file: StepFile, instance: Instance, brep: Brep, looks: StepLooks, is_ours: bool) -> Part:
    look = looks.of_solid(instance.solid, instance.representation)
    return Part(in_millimetres(instance, brep.points), brep.polygons, whole=True, parted=file.kind(instance.solid) == SURFACE_MODEL,
                solid=text_of(file.at(instance.solid).items[0]) if is_ours else '',
                look=look, face_looks=_face_looks(brep, looks),
                accuracy=instance.unit.accuracy, scaled=told_scaled(instance.unit.name, instance.unit.millimetres))


def _face_looks(brep: Brep, looks: StepLooks) -> Dict[int, Appearance]:
    held = ((place, looks.of_face(face)) for place, face in enumerate(brep.faces))
    return {place: look for place, look in held if look != Appearance()}
