#!/usr/bin/env python3
"""Compares the answers of the library with the replies of the program, on the same lines.

    tests/library_lines.py LIBRARY PROGRAM [LINES]       LINES is 100000 where it isn't given

The lines are those of random_lines.py. The whole output has to be the same, and a line's kind has to be that of its text. A text that is
asked for with too little room is cut there, its length is told, and asked for again it is whole. The values of an answer are those that its
text has, and there are none of another kind.
"""
import ctypes
import subprocess
import sys

from counts import command_line, there
from library_session import Refusal, Session, loaded
from random_lines import Lines

KINDS = {b'': 0, b'ok': 1, b'refused': 2, b'fault': 3, b'memory': 4, b'plane': 5, b'volume': 6, b'count': 7, b'solid': 8, b'empty': 8}
SEED = 20


class Wide(ctypes.Structure):
    """A number in two halves."""

    _fields_ = [('high', ctypes.c_int64), ('low', ctypes.c_uint64)]

    def whole(self):
        return self.high * 2 ** 64 + self.low


class Plane(ctypes.Structure):
    """A plane, and whether its face is flat."""

    _fields_ = [('coefficients', Wide * 4), ('flat', ctypes.c_uint32)]


# by kind: the call that gives the values, what it writes, and the values written as the text has them
VALUES = {
    2: ('refusal', Refusal, lambda refusal: [refusal.number, refusal.value]),
    3: ('fault', ctypes.c_uint32 * 1, list),
    5: ('plane', Plane, lambda plane: [each.whole() for each in plane.coefficients] + [plane.flat]),
    6: ('volume', Wide, lambda volume: [volume.whole()]),
    7: ('counts', ctypes.c_int64 * 5, list)}
WORDS = {b'flat': 1, b'bent': 0}


def replies(program, lines):
    """What the program writes."""
    done = subprocess.run([program], input=b''.join(line + b'\n' for line in lines), capture_output=True, timeout=300)
    if done.returncode not in (0, 1) or done.stderr:
        sys.exit('the program: status %d, %r' % (done.returncode, done.stderr))
    return done.stdout


def values(session, kind):
    """The values of the last answer by its kind, or None where it has none of this kind."""
    name, row, told = VALUES[kind]
    written = row()
    found = getattr(session.library, 'gwb_lent_last_' + name)(ctypes.byref(session.handle), ctypes.byref(written))
    return told(written) if found else None


def complaint(session, line, output, at):
    """What is wrong with the answer to a line, or None; and where the next reply begins."""
    kind = session.line(line)
    text = session.text()
    wanted = output[at:at + len(text)]
    if text != wanted:
        return '%r, not %r' % (text[:100], output[at:at + 100]), at
    if kind != KINDS[text.split(None, 1)[0] if text else b'']:
        return 'kind %d of %r' % (kind, text[:100]), at
    for other in VALUES:
        numbers = [WORDS[word] if word in WORDS else int(word) for word in text.split()[1:]] if other == kind else None
        if values(session, other) != numbers:
            return 'values %r of %r' % (values(session, other), text[:100]), at
    for room in (0, 1, len(text) // 2):
        if session.reply(room) != (text[:room], len(text)):
            return 'with room for %d bytes %r' % (room, session.reply(room)), at
    return None, at + len(text)


def main():
    given = command_line(__doc__, library=str, program=str, lines=100_000)
    library, program = there(given.library, 'library'), there(given.program)
    lines = list(Lines(SEED).take(given.lines))
    output = replies(program, lines)
    session = Session(loaded(str(library)))
    if not session.open():
        sys.exit('no session')
    count = at = 0
    why = None
    for line in lines:
        count += 1
        why, at = complaint(session, line, output, at)
        if why:
            print('line %d, %r: %s' % (count, line[:100], why))
            break
    if not why and at != len(output):
        why = 'the program wrote more'
        print(why)
    session.close()
    print('%d lines compared' % count)
    return 1 if why else 0


if __name__ == '__main__':
    sys.exit(main())
