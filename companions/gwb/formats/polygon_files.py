"""Reads files of polygons by their forms. Coordinates are read exactly."""

import struct
import traceback
import zipfile
import zlib
from pathlib import Path
from typing import List, Optional

from .forms import FORMS, READ, by_beginning, by_ending, titles
from .obj import Beside
from .parts import NotAMesh, Part
from .text_lines import Text, as_utf_8

# What the modules raise that unpack, where a file ends before it should or is packed in an unknown way.
_CUT_SHORT = (zipfile.BadZipFile, zlib.error, struct.error, EOFError, NotImplementedError)
# What a reader raises that took something for what it isn't.
_SLIPS = (ValueError, LookupError, TypeError, AttributeError, OverflowError, RuntimeError, StopIteration)
_MOST_BYTES = 6_400_000


def read_parts(data: bytes, form: str, beside: Optional[Beside] = None, flat: bool = False) -> List[Part]:
    """The parts of a file; `beside` reads the files that it names. With `flat` solids of STEP that are curved or aren't understood are left out.

    Raises NotAMesh or Unfit, with the place, where it can't be read.
    """
    if not data:
        raise NotAMesh('the file is empty')
    row = FORMS[form]
    assert row.read, 'the form is read'
    text = as_utf_8(data) if row.is_text(data) else Text(data, ())
    try:
        parts = [part for part in row.read(text.data, beside or (lambda name: None), flat) if part.polygons]
    except _CUT_SHORT as error:
        raise NotAMesh(f'this is no {row.title} file, or it is cut short: {type(error).__name__}') from None
    except _SLIPS as error:
        raise NotAMesh(f'this is a damaged {row.title} file, or its reader has a slip: {type(error).__name__} at {_place_of(error)}') from None
    if not parts:
        raise NotAMesh('there is no face in it')
    return [parts[0]._replace(notes=(*text.notes, *parts[0].notes)), *parts[1:]]


def _place_of(error: Exception) -> str:
    """Where in the reader an error came up, as `read.py:30`."""
    frame = traceback.extract_tb(error.__traceback__)[-1]
    return f'{Path(frame.filename).name}:{frame.lineno}'


def form_of(data: bytes, name: str) -> str:
    """The form of a file, by its first bytes, else by the end of its name. Raises NotAMesh where neither says it."""
    found = by_beginning(data, name)
    if not found:
        raise NotAMesh(told_unread(name) or f'it is of no form that is known: {titles(READ)}; --form says which, and most programs write one of them')
    return found


def told_unread(name: str) -> str:
    """What is to be said of a file whose name ends as one of a form that is known and not read; nothing of others."""
    row = FORMS.get(by_ending(name))
    return f'it looks like {row.title}, which is not read: {row.instead}' if row and row.instead else ''


def files_beside(path: Optional[str]) -> Beside:
    """Reads files in the folder of the path by their bare names; None where there is none, what is there is no plain file, or no path."""
    def read(name: str) -> Optional[bytes]:
        if path in (None, '-') or Path(name).name != name:
            return None
        there = Path(str(path)).parent / name
        try:
            if not there.is_file():
                return None
            with open(there, 'rb') as file:
                return file.read(_MOST_BYTES)
        except (OSError, ValueError):
            return None
    return read
