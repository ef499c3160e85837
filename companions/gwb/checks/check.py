"""Looks for slips that gwb doesn't: where the geometry of a sound model isn't that of solids."""

from typing import Callable, Dict, Iterator, List, Mapping, NamedTuple, Optional

from ..geometry.model import Model
from ..geometry.vectors import Vector, ZERO
from .face_checks import bent_finding, flat_faces, ring_findings
from .findings import Finding
from .overlap_checks import overlap_findings, unfit_solids
from .sliver_checks import sliver_findings
from .solid_checks import SolidCheck
from .star_solids import is_star


class Report(NamedTuple):
    """What was found, the faces without an area, which weren't looked at, and the solids that weren't compared with others, with the reasons."""

    findings: List[Finding]
    without_area: List[int]
    alone: Dict[int, str] = {}

    def lines(self) -> Iterator[str]:
        """The report, line by line."""
        yield from map(str, self.findings)
        for face in self.without_area:
            yield f'not looked at: face {face} has no area'
        for solid, why in self.alone.items():
            yield f'not compared with other solids: solid {solid}: {why}'
        count = len(self.findings)
        yield f'{count or "no"} finding{"" if count == 1 else "s"}'


def check(model: Model, between: bool = False, slivers: Optional[int] = None, are_apart: Callable[[int], bool] = lambda solid: False) -> Report:
    """Looks at each face, and at each solid by itself; with `between` for solids that share room too, with `slivers` for faces and solids that
    are more than so many times as long as they are wide or thick. `are_apart` says of a solid whether it is known that no two of its faces cross or touch."""
    known = flat_faces(model)
    normals, flat = known
    findings = list(_face_findings(model, normals, flat))
    findings += [finding for solid in model.solids if not is_star(model, solid, normals)
                 for finding in SolidCheck(model, solid, known, are_apart(solid)).findings()]
    if slivers is not None:
        findings += sliver_findings(model, slivers)
    if between:
        findings += overlap_findings(model)
    without_area = [face for face, across in normals.items() if across == ZERO]
    return Report(findings, without_area, unfit_solids(model) if between and len(model.solids) > 1 else {})


def _face_findings(model: Model, normals: Mapping[int, Vector], flat: Mapping[int, bool]) -> Iterator[Finding]:
    """The slips of the faces that have an area, of which those that are flat are given."""
    for face, across in normals.items():
        if face in flat:
            yield from ring_findings(model, face, across)
        elif across != ZERO:
            yield bent_finding(model, face, across)
