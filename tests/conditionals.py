#!/usr/bin/env python3
"""Looks in the C++ of bindings for an aggregate in a conditional expression, `is_so ? Made{..} : other`: where making a member of it throws, gcc 12
destroys those before it twice. An aggregate whose members own no memory may stand there. The last line counts the conditional expressions.

    tests/conditionals.py
"""
import re
import sys
from typing import Iterator

from counts import TOP, command_line, told

OWNING_NOTHING = ('Along', 'Axes', 'Failure', 'KnownPlane', 'Place', 'Point', 'ScaledPoint', 'Side', 'Span', 'Spot', 'Strip', 'Vector', 'Wide', 'array',
                  'gwb_near_plane')


def complaints() -> Iterator[str]:
    """For each conditional expression what is wrong with it, or nothing."""
    for path in sorted((TOP / 'bindings').glob('*/*.[hc]pp')):
        text = re.sub(r'"(\\.|[^"\\])*"|//[^\n]*', '', path.read_text())
        for expression in re.findall(r'\?[^;]*', text):
            found = set(re.findall(r'\b([A-Z]\w*)\{', expression)) - set(OWNING_NOTHING)
            yield f'{path.relative_to(TOP)}: {" ".join(expression.split())[:90]}' if found else ''


if __name__ == '__main__':
    command_line(__doc__)
    sys.exit(told(complaints()))
