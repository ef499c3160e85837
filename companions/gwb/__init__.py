"""The Geometric WorkBench: solids with flat faces. A Workbench is a session with the kernel; the companions read what the kernel writes. Nothing that
is written in Python is proved. `gwb.__proved__` says whether the kernel is: True or False, or None where there is no library."""

from typing import TYPE_CHECKING, Optional

from .errors import (CompanionError, Complaint, Ended, Faulted, InDraft, InGroup, MemoryRefused, NoDraft, NotOne, OutOfStep, ProgramMissing,
                     Refused, Unfit)
from .geometry.crossings import NoPart
from .geometry.model import Face, Loop, Model
from .geometry.outlines import Impossible
from .geometry.solid_measures import BoundingBox, Inertia, NotParallel, NoVolume
from .protocol.listing import read_model
from .session.arguments import Lone
from .session.feature_methods import Sketch
from .session.lengths import OffStep
from .session.library import is_proved
from .session.reading import EdgePart, FacePart, LoopPart, Part, Selection, SolidPart, VertexPart
from .session.results import (Became, Block, Count, Cut, Hole, Lamina, NewEdge, NewFace, NewSolid, Notch, Pad, Plane, Pocket, Polyhedron, Profile, Renumbered,
                              Ring, Split, Sweep)
from .session.selection import OffLatticeCut
from .session.solids import Copy
from .session.workbench import Workbench
from .version import VERSION

if TYPE_CHECKING:
    __proved__: Optional[bool]
    __version__: str
else:
    def __getattr__(name: str) -> object:
        """`__proved__`, and `__version__`, whose local part names a library that is unproved: the library says so, once one of them is wanted."""
        if name not in ('__proved__', '__version__'):
            raise AttributeError(f'module {__name__!r} has no attribute {name!r}')
        proved = is_proved()
        return proved if name == '__proved__' else VERSION + ('+unproved' if proved is False else '')

__all__ = ['Became', 'Block', 'BoundingBox', 'CompanionError', 'Complaint', 'Copy', 'Count', 'Cut', 'EdgePart', 'Ended', 'Face', 'FacePart', 'Faulted', 'Hole',
           'Impossible', 'InDraft', 'InGroup', 'Inertia', 'Lamina', 'Lone', 'Loop', 'LoopPart', 'MemoryRefused', 'Model', 'NewEdge', 'NewFace',
           'NewSolid', 'NoDraft', 'NoPart', 'NoVolume', 'NotOne', 'NotParallel', 'Notch', 'OffLatticeCut', 'OffStep', 'OutOfStep', 'Pad', 'Part', 'Plane',
           'Pocket', 'Polyhedron', 'Profile', 'ProgramMissing', 'Refused', 'Renumbered', 'Ring', 'Selection', 'Sketch', 'SolidPart', 'Split',
           'Sweep', 'Unfit', 'VertexPart', 'Workbench', '__proved__', '__version__', 'read_model']
