#!/usr/bin/env python3
"""Refuses each allocation of the library in turn.

    tests/library_refusals.py LIBRARY       a shared object that was linked over counting_heap.c

Each script of refused_growths.py is run in a session as often as it asks for memory, each time with another request refused: once with
all its commands as lines, and once with those that have one as typed calls; and so are parts and drafts, which only typed calls make. After
`memory` depths are as before, and the command given again has its answer; a text that was refused is given when it is asked for again; a session
that could not be opened opens when it is tried again; and when it is closed no block is held.
"""
import ctypes
import sys
from itertools import product

from counts import command_line, there
from library_calls import TypedSession
from library_session import MEMORY, Session, loaded
from refused_growths import SCRIPTS


POINTS = 'mvfs 1 1 1 1 0 0 0;mvfs 2 2 2 2 1 1 1;mvfs 3 3 3 3 2 2 2;merge 1 2;merge 1 3;'
# A hole through a block, which gets longer by a block that is cut and glued on. Commands are refused on the way, and others taken back to a mark
# within a mark.
TWELVE = ('block 1 0 0 0 9 9 9;draft;kfmrh 2 2;mev +7 +7 20 20 2 2 9;kev +99;kemr +20 20;sweep 99 0 0 1;mev @20 @20 21 21 2 5 9;block 1 0 0 0 1 1 1;'
          'mev -21 -21 22 22 5 5 9;mev -22 -22 23 23 5 2 9;back 3;mev -21 -21 22 22 5 5 9;glue 1 1;mev -22 -22 23 23 5 2 9;mef -23 +21 24 20 21;'
          'sweep 20 0 0 -9;kfmrh 2 20;back 6;back 5;mef -23 +21 24 20 21;split 1 0 0 1 9 3;sweep 20 0 0 -9;lamina 3 0 0 0 1 0 0;kfmrh 2 20;'
          'kemr +99 9;block 2 9 0 0 6 9 9;split 2 1 0 0 -20 3;split 2 1 0 0 -12 3;glue 4 35;glue 4 30;glue 35 30;glue 35 39;kvfs 1;volume 1;commit;list;'
          'undo;list;redo;list')
TYPED = {
    'part': POINTS + 'part 2 2 3;undo;part 2 9;part 2 3 2;part 2 2 3;list',
    'part in a draft': POINTS + 'draft;part 2 2;part 3 3;commit;list;undo;list',
    'draft committed': 'mvfs 1 1 1 1 0 0 0;draft;mev @1 @1 1 2 3 0 0;mev -1 -1 2 3 0 3 0;mef -2 +1 3 2 2;kev +9;commit;list;undo;list;redo;list',
    'draft abandoned': 'mvfs 1 1 1 1 0 0 0;mev @1 @1 1 2 5 0 0;undo;draft;mev @1 @1 1 2 3 0 0;mev -1 -1 2 3 0 3 0;abandon;redo;list',
    'larger commands in a draft': 'block 1 0 0 0 4 4 4;draft;block 2 0 0 4 4 4 4;glue 1 8;split 1 0 0 1 -6 3;commit;list;undo;list;redo;list',
    'draft taken back to a mark': 'block 1 0 0 0 4 4 4;draft;mev +7 +7 13 9 2 2 4;block 2 0 0 4 4 4 4;lamina 3 0 0 9 3 0 9 0 3 9;sweep 13 0 0 2;back 1;'
                                  'kemr +13 7;commit;list;undo;list',
    'twelve commands in a draft': TWELVE,
    'draft given up': 'block 1 0 0 0 4 4 4;draft;mev +7 +7 13 9 2 2 4;kemr +13 7',
}


class Heap:
    """The counters of the heap below the library."""

    def __init__(self, library):
        self.refused, self.requests, self.held = (
            ctypes.c_long.in_dll(library, name) for name in ('refused_request', 'requests', 'held_blocks'))

    def refuse(self, request):
        """Refuses the request with this number from here on; 0 refuses none."""
        self.requests.value, self.refused.value = 0, request


def answered(session, line):
    """The kind and text of the answer, and the depths after it."""
    kind = session.line(line)
    return kind, session.text(), session.depths()


def given(session, line, wanted, complaints):
    """Gives the line, again where memory was refused, and compares with what is wanted."""
    before = session.depths()
    kind = session.line(line)
    if kind == MEMORY:
        if session.depths() != before or session.text() != b'memory\n':
            complaints.append('%r: depths %r after memory, not %r' % (line, session.depths(), before))
        kind = session.line(line)
    text = session.text()
    got = kind, session.text() if text is None else text, session.depths()
    if got != wanted:
        complaints.append('%r: %r, not %r' % (line, got, wanted))
    return kind


def run(session, heap, lines, wanted, request):
    """What is wrong with a run of the session in which this request for memory is refused."""
    complaints = []
    heap.refuse(request)
    if not session.open():
        if heap.held.value != 0 or not session.open():
            complaints.append('no session after one was refused')
    for line, answer in zip(lines, wanted):
        given(session, line, answer, complaints)
    if heap.requests.value < request:
        complaints.append('only %d requests' % heap.requests.value)
    heap.refuse(0)
    session.close()
    if heap.held.value != 0:
        complaints.append('%d blocks are held after the session is closed' % heap.held.value)
    return complaints


def whole(session, heap, lines):
    """The answers of a run of the session in which nothing is refused, and how often it asks for memory."""
    heap.refuse(0)
    if not session.open():
        sys.exit('no session')
    wanted = [answered(session, line) for line in lines]
    requests = heap.requests.value
    session.close()
    return wanted, requests


def main():
    library = loaded(str(there(command_line(__doc__, library=str).library, 'library')))
    heap = Heap(library)
    count = wrong = 0
    runs = list(product((Session, TypedSession), SCRIPTS.items())) + [(TypedSession, script) for script in TYPED.items()]
    for kind, (name, script) in runs:
        lines = [line.encode() for line in script.split(';')]
        wanted, requests = whole(kind(library), heap, lines)
        for request in range(1, requests + 1):
            complaints = run(kind(library), heap, lines, wanted, request)
            count += 1
            if complaints:
                wrong += 1
                if wrong <= 10:
                    print('%s in %s, request %d: %s' % (name, kind.__name__, request, '; '.join(complaints)[:500]))
    print('%d compared, %d wrong' % (count, wrong))
    return 1 if wrong or not count else 0


if __name__ == '__main__':
    sys.exit(main())
