"""Reads a mesh, polygons or flat STEP as a model."""

import os
import sys
from fractions import Fraction
from typing import BinaryIO, NamedTuple, Optional, Sequence

from ..errors import Unfit
from ..geometry.model import Model
from ..geometry.plane_figures import Exact
from .grid import Grid
from .models_of_parts import Imported, Stage, model_of_parts
from .parts import NotAMesh, Part
from .polygon_files import files_beside, form_of, read_parts

MOST_BYTES = 300_000_000


def imported(path: str, *, form: Optional[str] = None, scale: Exact = 1, rounded: bool = False,
             keep_triangles: bool = False, repair: bool = False, flat: bool = False, within: Exact = 0) -> Model:
    """The model of the solids in a file of polygons. Raises CompanionError, with the place, where they aren't closed surfaces."""
    return read_file(path, form=form, scale=scale, rounded=rounded, keep_triangles=keep_triangles, repair=repair, flat=flat, within=within).model


def read_file(path: Optional[str], *, form: Optional[str] = None, scale: Exact = 1, rounded: bool = False, keep_triangles: bool = False,
              repair: bool = False, flat: bool = False, stage: Stage = lambda name: None, within: Exact = 0) -> Imported:
    """As imported, with all that is to be said; `stage` is told what is being done. No path, or `-`, is standard input.

    With `flat` what of a STEP file is no flat solid is left out, and named in what is wrong. Points no farther than `within` beside a whole place are
    put there, whether or not points are rounded.
    """
    data = _read_bytes(path)
    parts = read_parts(data, form or form_of(data, path or ''), files_beside(path), flat)
    stage('joining faces')
    return model_of_parts(parts, scale, rounded, keep_triangles, repair, stage, within)


# A coordinate in millimetres, or in thousandths where one isn't whole.
_UNITS = (Fraction(1), Fraction(1, 1000))


class Fitted(NamedTuple):
    """A model that was read, and how many millimetres a coordinate of it has."""

    found: Imported
    unit: Fraction


def fitting(data: bytes, form: str, path: Optional[str]) -> Fitted:
    """The model of the solids in the bytes of a file of this form, in the first unit in which all its points are whole. Where none is, points are
    rounded to the finest, and what that bends is mended. `path` says where files lie that it names. Raises as `imported` does."""
    if len(data) > MOST_BYTES:
        raise _too_large()
    parts = read_parts(data, form, files_beside(path))
    unit = next((unit for unit in _UNITS if _is_whole(parts, 1 / unit)), None)
    size = int(1 / (unit or _UNITS[-1]))
    return Fitted(model_of_parts(parts, size, unit is None, False, unit is None), unit or _UNITS[-1])


def _is_whole(parts: Sequence[Part], scale: Fraction) -> bool:
    """Whether all points are whole, or so near that the file doesn't tell them from whole ones."""
    try:
        for points, accuracy in {id(part.points): (part.points, part.accuracy) for part in parts}.values():
            Grid(int(scale), False).whole(points, accuracy)
    except Unfit:
        return False
    return True


def _read_bytes(path: Optional[str]) -> bytes:
    """The bytes of a file. Raises NotAMesh where it is larger than any that a model is made of."""
    if path is None or path == '-':
        return _bounded(sys.stdin.buffer)
    with open(path, 'rb') as file:
        if os.fstat(file.fileno()).st_size > MOST_BYTES:
            raise _too_large()
        return _bounded(file)


def _bounded(file: BinaryIO) -> bytes:
    data = file.read(MOST_BYTES + 1)
    if len(data) > MOST_BYTES:
        raise _too_large()
    return data


def _too_large() -> NotAMesh:
    return NotAMesh(f'the file has more than {MOST_BYTES:,} bytes')
