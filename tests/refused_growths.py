#!/usr/bin/env python3
"""Refuses each allocation of the built program in turn, and compares its replies.

    tests/refused_growths.py [PROGRAM]        PROGRAM is crates/gwb/out/gwb where none is given

Needs a C compiler, `cc`. Each script is run as often as the program asks for memory, each time with another allocation refused. Where
the memory that a run begins with is refused, nothing is written, the status is 3 and the text `gwb: out of memory`. Otherwise one
command is answered `memory`: then the replies are those to the script without that command, so the refused command changed
nothing; where the script has that command a second time after it, all else is answered as if nothing had been refused; and behind the
refusal as many undos as commands are done lead to the empty model, and as many redos back to the model held.
"""
import os
import subprocess
import sys
import tempfile

from counts import GWB, command_line, needs, there, told

HERE = os.path.dirname(os.path.abspath(__file__))
HOLED = ('block 1 0 0 0 6 6 6;mev +7 +7 13 9 2 2 6;kemr +13 7;mev @7 @7 13 10 2 4 6;mev -13 -13 14 11 4 4 6;mev -14 -14 15 12 4 2 6;mef -15 +13 16 7 8;'
         'sweep 7 0 0 -6;kfmrh 2 7;')
SCRIPTS = {
    'wire': 'mvfs 1 1 1 1 0 0 0;mev @1 @1 1 2 5 0 0;list',
    'wire cut': 'mvfs 1 1 1 1 0 0 0;mev @1 @1 1 2 5 0 0;kemr +1 2;list',
    'wire cut and joined': 'mvfs 1 1 1 1 0 0 0;mev @1 @1 1 2 5 0 0;kemr +1 2;mekr @1 @2 1;list',
    'rings moved': 'mvfs 1 1 1 1 0 0 0;mev @1 @1 1 2 5 0 0;kemr +1 2;ringmv 2 1 out;mfkrh 1 2;kfmrh 1 2;list',
    'triangle': 'mvfs 1 1 1 1 0 0 0;mev @1 @1 1 2 3 0 0;mev -1 -1 2 3 0 3 0;mef -2 +1 3 2 2;mev +1 -3 4 4 1 1 0;list',
    'undone and redone': 'mvfs 1 1 1 1 0 0 0;mev @1 @1 1 2 5 0 0;undo;undo;redo;redo;mev -1 -1 2 3 5 5 0;undo;redo;list',
    'command before redo': 'mvfs 1 1 1 1 0 0 0;mev @1 @1 1 2 5 0 0;undo;mvfs 1000000 9 9 9 0 0 0;redo;list',
    'block': 'block 1 0 0 0 4 4 4;undo;redo;count 1;list',
    'sweep with a ring': 'lamina 1 0 0 0 9 0 0 9 9 0 0 9 0;mev +1 +1 5 5 3 3 0;kemr +5 3;mev @3 @3 5 6 3 6 0;mev -5 -5 6 7 6 6 0;mef -6 +5 7 3 4;'
                         'sweep 1 0 0 4;volume 1;undo;sweep 1 0 0 5;list',
    'glued blocks': 'block 1 0 0 0 4 4 4;block 2 0 0 4 4 4 4;glue 1 8;count 1;volume 1;list',
    'glued and undone': 'block 1 0 0 0 4 4 4;block 2 0 0 4 4 4 4;glue 1 8;undo;undo;undo;list',
    'halved block': 'block 1 0 0 0 4 4 4;split 1 1 0 0 -2 2;count 2;volume 1;undo;redo;list',
    'split through a hole': HOLED + 'split 1 1 0 0 -3 2;volume 2;undo;split 1 0 0 1 -3 2;list',
    'split refused late': 'lamina 1 2 0 2 0 2 -2 -2 0 2 0 -2 -2;mef -4 -2 5 3 3;mev +1 +1 6 5 0 0 0;mef -6 +2 7 4 4;mef +7 +3 8 5 5;mef +8 +4 9 6 6;'
                          'split 1 0 0 1 0 2;undo;redo;list',
    'redo after a refusal': 'mvfs 1 1 1 1 0 0 0;mev @1 @1 1 2 5 0 0;undo;mvfs 9 9 9 9 0 0 0;undo;kvfs 1;undo;list',
}


QUERIES = ['plane 1', 'plane 1000', 'volume 1', 'volume 1000', 'count 1', 'count 1000', 'list']
REFUSED = ['mvfs 1 1 1 1 0 0 0', 'kvfs 1000', 'mev @1000 @1000 1000 1000 0 0 0', 'kev +1000', 'mef +1000 +1000 1 1 1', 'kef +1000', 'kemr +1000 1',
           'mekr @1000 @1000 1', 'kfmrh 1000 1', 'mfkrh 1000 1', 'ringmv 1000 1 in', 'lamina 1000001 0 0 0 1 0 0 0 1 0', 'block 1 0 0 0 0 1 1',
           'sweep 1000 0 0 1', 'glue 1000 1', 'split 1000 0 0 1 0 1', 'no command']
MAKING = ['mvfs 1 1 1 1 0 0 0', 'lamina 1 0 0 0 4 0 0 4 4 0', 'block 1 0 0 0 4 4 4']
RECORD = 3              # the most that a record asks for: its place, and its two lists
POLYGON = [(x, x * x) for x in range(-31, 33)]
COPY = 20               # more than a command asks for beside what there is, and less than a copy of a lamina of 64 points


def built(folder):
    library = os.path.join(folder, 'refuse_growth.so')
    subprocess.run(['cc', '-shared', '-fPIC', '-O1', '-o', library, os.path.join(HERE, 'refuse_growth.c'), '-ldl'], check=True)
    return library


class Program:
    def __init__(self, path, folder):
        self.path = path
        self.library = built(folder)
        self.count = os.path.join(folder, 'count')

    def start(self, words, text, refused):
        """The ended run on words and standard input, with an allocation refused, or none."""
        env = dict(os.environ, LD_PRELOAD=self.library, REFUSE_AT=str(refused), ALLOCATIONS_TO=self.count)
        return subprocess.run([self.path, *words], input=text, capture_output=True, env=env, timeout=60)

    def run(self, commands, refused=0):
        """Replies (the listing is the last), status and text with an allocation refused, or none."""
        done = self.answer(commands, refused)
        lines = done.stdout.decode().splitlines()
        cut = len(commands) - 1
        return lines[:cut] + [lines[cut:]], done.returncode, done.stderr.decode()

    def lines(self, commands, refused=0):
        """The lines of all replies, with an allocation refused, or none."""
        return self.answer(commands, refused).stdout.decode().splitlines()

    def answer(self, commands, refused):
        """The ended run on commands."""
        return self.start([], ''.join(c + '\n' for c in commands).encode(), refused)

    def allocations(self):
        """How many allocations the last run asked for."""
        with open(self.count) as file:
            return int(file.read())


def complaint(program, commands, n, whole, done):
    """What is wrong with a run in which allocation n was refused, or nothing. The whole run had all its memory."""
    replies, status, text = done
    if status == 3:
        return '' if (replies, text) == ([[]], 'gwb: out of memory\n') else 'before the run: %r, %r' % (text, replies)
    if 'memory' not in replies:
        return '' if done == whole else 'other replies without a word of memory: %r' % replies
    if (status, text) != (1, '') or replies.count('memory') != 1:
        return 'status %d, %r: %r' % (status, text, replies)
    k = replies.index('memory')
    if replies[:k] + replies[k + 1:] != program.run(commands[:k] + commands[k + 1:])[0]:
        return 'the refused command changed something: %r' % replies
    twice = program.run(commands[:k + 1] + commands[k:], n)[0]
    if twice != whole[0][:k] + ['memory'] + whole[0][k:]:
        return 'the command given again: %r' % twice
    return ''


def depth(commands, replies):
    """How many of the commands can be undone after these replies."""
    done = [command for command, reply in zip(commands, replies) if reply == 'ok' and command != 'redo']
    return len(done) - 2 * done.count('undo') + sum(pair == ('redo', 'ok') for pair in zip(commands, replies))


def taken_back(program, commands, n, replies):
    """What is wrong with undos and redos behind the command that is answered `memory`, as allocation n is refused, or nothing."""
    k = replies.index('memory')
    held = program.run(commands[:k] + ['list'])[0][-1]
    back = depth(commands[:k], replies)
    found = program.lines(commands[:k + 1] + ['list'] + ['undo'] * back + ['list'] + ['redo'] * back + ['list'], n)
    wanted = replies[:k + 1] + held + ['ok'] * back + ['empty'] + ['ok'] * back + held
    return '' if found == wanted else '%d undos and redos behind the refused command: %r' % (back, found[k + 1:])


def taken(program, commands):
    """How many allocations a script asks for, and its replies."""
    replies = program.run(commands)[0]
    return program.allocations(), replies


def takes_none(program, commands):
    """For each way to go on that takes no memory, whether the script with it asks for no more allocations than without it."""
    script = commands[:-1] if commands[-1] == 'list' else commands
    alone, replies = taken(program, script)
    moves = ['undo'] * len(script) + ['redo'] * len(script)
    for name, more in (('undos and redos', moves), ('queries', QUERIES), ('refused commands', REFUSED)):
        count, longer = taken(program, script + more)
        yield name, count == alone and longer[:len(script) - 1] == replies[:len(script) - 1]


def keeps_room(program, command):
    """Whether a command that is given again after its undo asks for its record alone, and so for none of the room that it had made."""
    undone, _ = taken(program, [command, 'undo'])
    again, replies = taken(program, [command, 'undo', command])
    return replies == ['ok', 'ok', ['ok']] and again - undone <= RECORD


def copies_nothing(program):
    """Whether a new solid beside a lamina of 64 points is accepted though the twentieth allocation after the lamina is refused."""
    lamina = 'lamina 1 ' + ' '.join('%d %d 0' % point for point in POLYGON)
    alone, _ = taken(program, [lamina])
    replies, status, _ = program.run([lamina, 'mvfs 2 3 3 65 0 0 0', 'count 2'], alone + COPY)
    return replies[:2] == ['ok', 'ok'] and status == 0


def refusals(program, commands):
    """For each allocation of a script what is wrong where it is refused, or nothing; and of undos and redos behind the refusal."""
    whole = program.run(commands)
    runs = [program.run(commands, n) for n in range(1, program.allocations() + 1)]
    if whole[1] not in (0, 1) or whole[2] or not any('memory' in replies for replies, _, _ in runs):
        yield 'no allocation of a command was refused: %r' % (whole,)
    for n, done in enumerate(runs, 1):
        whys = [complaint(program, commands, n, whole, done)]
        if 'memory' in done[0]:
            whys.append(taken_back(program, commands, n, done[0]))
        yield from ('allocation %d: %s' % (n, why) if why else '' for why in whys)


def findings(program):
    """For each comparison what is wrong, or nothing."""
    for name, script in SCRIPTS.items():
        commands = script.split(';')
        for why in refusals(program, commands):
            yield '%s, %s' % (name, why) if why else ''
        for what, is_so in takes_none(program, commands):
            yield '' if is_so else '%s: more memory is asked for, or other replies are given, with %s after it' % (name, what)
    for command in MAKING:
        yield '' if keeps_room(program, command) else '%s: given again after its undo, it asks for more than %d allocations' % (command, RECORD)
    yield '' if copies_nothing(program) else 'a new solid beside a lamina of %d points asks for %d allocations or more' % (len(POLYGON), COPY)


def main():
    path = there(command_line(__doc__, program=GWB).program)
    needs('cc')
    with tempfile.TemporaryDirectory() as folder:
        return told(findings(Program(path, folder)))


if __name__ == '__main__':
    sys.exit(main())
