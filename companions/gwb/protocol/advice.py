"""What would do in the place of a line that wasn't accepted, as lines of a script: comments, and commands to try."""

from typing import Callable, Dict, List, Optional, Tuple

from ..errors import NotReplies
from ..geometry.crossings import Plane
from ..geometry.lattice_cuts import off_lattice_cut
from ..geometry.matching_faces import glue_advice
from ..geometry.model import Model
from .language import first_word
from ..refusals import NAMES
from .replies import Reply, shortened
from .word_advice import word_advice

# The model as it stood at the line; None where that isn't known.
ModelThere = Callable[[], Optional[Model]]


def advice(line: str, reply: Reply, model_there: ModelThere) -> List[str]:
    """What would do in the place of a line with this reply; nothing where that isn't known. Raises NotReplies where no such line has it."""
    if reply.word == 'fault':
        return word_advice(line, reply.numbers[0])
    adviser = _ADVISERS.get(NAMES.get(reply.numbers[0], '')) if reply.word == 'refused' else None
    return [] if adviser is None else adviser(line, model_there)


def _glue_advice(line: str, model_there: ModelThere) -> List[str]:
    """Why two faces don't match, and which would."""
    words = line.split()
    if words[:1] != ['glue'] or len(words) != 3 or not all(word.isdecimal() for word in words[1:]):
        raise _never(line, 'NoMatch')
    model = model_there()
    if model is None:
        return ['# with a `list` on the line before, it is told here which face would match']
    first, second = map(int, words[1:])
    if first not in model.faces or second not in model.faces:
        raise NotReplies(f'`{shortened(line)}` glues faces which the listing beside it has not')
    return glue_advice(model, first, second)


def _split_advice(line: str, model_there: ModelThere) -> List[str]:
    """Where a split cuts, and what would do."""
    solid, plane, above = _split_words(line)
    model = model_there()
    if model is None:
        return ['# with a `list` on the line before, it is told here where the plane cuts, and what would do']
    if solid not in model.solids:
        raise NotReplies(f'`{shortened(line)}` splits solid {solid}, which the listing beside it has not')
    return off_lattice_cut(model, solid, plane).advice(above)


def _split_words(line: str) -> Tuple[int, Plane, int]:
    """The numbers of a split: the solid, the plane, the solid above it."""
    try:
        solid, a, b, c, d, above = map(int, line.split()[1:])
    except ValueError:
        a = b = c = 0
    if first_word(line.encode('ascii', 'replace')) != 'split' or (a, b, c) == (0, 0, 0):
        raise _never(line, 'NotLattice')
    return solid, (a, b, c, d), above


def _never(line: str, name: str) -> NotReplies:
    return NotReplies(f'`{shortened(line)}` is a line which gwb never refuses {name}: the replies are of another script')


_ADVISERS: Dict[str, Callable[[str, ModelThere], List[str]]] = {'NotLattice': _split_advice, 'NoMatch': _glue_advice}
