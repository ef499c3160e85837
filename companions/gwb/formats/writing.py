"""What is to stand in a file, in any form."""

from pathlib import Path

from ..geometry.model import Model
from .appearance import Said
from .forms import FORMS, by_ending
from .mesh import mesh_of
from .obj import mtl_text, obj_text


def written(model: Model, said: Said, file: Path) -> bytes:
    """What is to stand in this file, by the ending of its name; a .mtl beside it is written on the way."""
    form = by_ending(file.name)
    write = FORMS[form].write
    assert write, 'it is exported'
    if form != 'obj' or not any(look.colour for look in said.looks.values()):
        return write(model, said)
    materials = file.with_suffix('.mtl')
    text = obj_text(mesh_of(model), said.looks, materials.name, unit=said.unit)
    is_named = file.exists() and f'mtllib {materials.name}'.encode() in file.read_bytes().splitlines()
    if materials.exists() and not is_named:
        raise FileExistsError(f'{materials} is there, and is of no {file.name} that is there: the colours would be written over it')
    materials.write_text(mtl_text(said.looks), encoding='utf-8')
    return text.encode()
