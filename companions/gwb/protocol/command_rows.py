"""What docs/SCRIPT.md says of each command: by which conditions it may be refused, in the order in which they are tested (all but `undo`, `redo` and `list`
test NumberRange first), and an example that is accepted. A test compares both with that page."""

from typing import Dict, NamedTuple, Tuple


class CommandRow(NamedTuple):
    """A command: the numbers of its refusals, and an example."""

    refusals: Tuple[int, ...]
    example: str


COMMAND_ROWS: Dict[str, CommandRow] = {
    'block': CommandRow((6, 43, 11, 27), 'block 1 0 0 0 4 4 4'),
    'split': CommandRow((2, 6, 35, 30, 32, 36, 37, 38, 39, 40, 27, 41, 42), 'split 1 1 0 0 -2 2'),
    'lamina': CommandRow((6, 28, 11, 33, 27), 'lamina 1 0 0 0 3 0 0 0 3 0'),
    'sweep': CommandRow((3, 29, 30, 11, 27), 'sweep 1 0 0 3'),
    'glue': CommandRow((3, 31, 20, 30, 32, 33, 34, 27), 'glue 1 8'),
    'plane': CommandRow((3, 2), 'plane 1'),
    'volume': CommandRow((3, 2), 'volume 1'),
    'count': CommandRow((3, 2), 'count 1'),
    'undo': CommandRow((25, 26), 'undo'),
    'redo': CommandRow((25, 26), 'redo'),
    'list': CommandRow((), ''),
    'mvfs': CommandRow((6, 7, 8, 10, 11), 'mvfs 1 1 1 1 0 0 0'),
    'kvfs': CommandRow((2, 12), 'kvfs 1'),
    'mev': CommandRow((5, 4, 13, 9, 10, 11, 14), 'mev -1 -1 2 3 5 5 0'),
    'kev': CommandRow((5, 15, 16), 'kev -1'),
    'mef': CommandRow((5, 9, 7, 8, 17, 18), 'mef +1 -1 2 2 2'),
    'kef': CommandRow((5, 19, 20), 'kef +2'),
    'kemr': CommandRow((5, 8, 17), 'kemr +4 3'),
    'mekr': CommandRow((5, 4, 13, 9, 21, 22, 23, 18), 'mekr @1 @2 1'),
    'kfmrh': CommandRow((3, 19, 24, 20), 'kfmrh 1 2'),
    'mfkrh': CommandRow((4, 7, 23), 'mfkrh 2 2'),
    'ringmv': CommandRow((4, 3, 24, 23, 19), 'ringmv 2 1 out'),
}
