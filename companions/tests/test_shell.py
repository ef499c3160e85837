"""The prompt over gwb, through a terminal and through a pipe."""

import io
import os
import pty
import re
import signal
import select
import shutil
import subprocess
import sys
import tempfile
import time
import unittest
from contextlib import redirect_stdout
from pathlib import Path
from unittest import mock

from support import COMPANIONS, REPOSITORY, box, folder_of, listing, model_in, program, run

from gwb.programs.shell import Shell, choices, program_help
from gwb.protocol.command_rows import COMMAND_ROWS
from gwb.protocol.language import COMMANDS

BLOCK = model_in(listing(*box((0, 0, 0), (4, 4, 4))))
TIME = 120


class Terminal:
    """A shell at a terminal of its own, and what was written there."""

    def __init__(self, folder, *words):
        environment = {**os.environ, 'GWB': program(), 'TERM': 'dumb', 'INPUTRC': '/dev/null', 'HOME': folder, 'COLUMNS': '200'}
        environment.pop('GWB_HISTORY', None)
        self._process, self._screen = pty.fork()
        if self._process == 0:
            signal.signal(signal.SIGINT, signal.SIG_DFL)    # it may be ignored where the tests run in the background
            os.execve(sys.executable, [sys.executable, str(COMPANIONS / 'gwb-shell'), *words], environment)
        self._unread = ''

    def read(self, end='gwb> ', wait=TIME):
        """What is written up to and with these words."""
        until = time.monotonic() + wait
        while end not in self._unread:
            if not select.select([self._screen], [], [], max(0, until - time.monotonic()))[0]:
                raise AssertionError(f'{end!r} is awaited after {self._unread!r}')
            self._unread += os.read(self._screen, 4096).decode().replace('\r\n', '\n')
        before, _, self._unread = self._unread.partition(end)
        return before + end

    def type(self, keys):
        """Types keys."""
        os.write(self._screen, keys.encode())

    def answer(self, line):
        """What is written for a line, between it and the next prompt."""
        self.type(line + '\n')
        self.read('\n')
        return self.read().removesuffix('gwb> ')

    def interrupt(self):
        """Types Ctrl-C until there is a new prompt: Python misses one that comes just as it begins to wait for a key."""
        for _ in range(TIME):
            time.sleep(0.1)
            self.type('\x03')
            try:
                return self.read(wait=1)
            except AssertionError:
                pass
        raise AssertionError(f'Ctrl-C gave no prompt: {self._unread!r}')

    def end(self, keys):
        """Ends it by these keys; the status."""
        self.type(keys)
        try:
            while os.read(self._screen, 4096):
                pass
        except OSError:
            pass
        os.close(self._screen)
        return os.waitstatus_to_exitcode(os.waitpid(self._process, 0)[1])


class AtATerminal(unittest.TestCase):
    """What a reader sees and types."""

    def setUp(self):
        program()
        self.folder = str(folder_of(self))

    def test_replies_and_refusals(self):
        terminal = Terminal(self.folder)
        self.assertIn('help lists them', terminal.read())
        self.assertEqual(terminal.answer('block 1 0 0 0 4 4 4'), 'ok\n')
        self.assertEqual(terminal.answer('volume 1'), 'volume 384\n')
        self.assertEqual(terminal.answer('kvfs 2'), 'refused 2 2: NoSolid: there is no solid 2\n')
        self.assertEqual(terminal.answer('kef 17').splitlines()[1:], ['    # `17` is no half-edge: of edge 17 they are +17 and -17'])
        self.assertEqual(terminal.answer('hole 1').splitlines()[1:], ['    # gwb has no hole: it is a method of Python: bench.hole'])
        self.assertEqual(terminal.answer('# a comment'), '')
        self.assertEqual(terminal.answer(''), '')
        self.assertEqual(terminal.answer('list').count('\n'), 1 + 6 + 6 + 12 + 8)
        self.assertEqual(terminal.answer('undo all'), '1 undone\n')
        self.assertEqual(terminal.answer('list'), 'empty\n')
        self.assertEqual(terminal.answer('redo all'), '1 redone\n')
        self.assertEqual(terminal.answer('undo all x'), "fault 4: ExtraWord: a word is left over\n")
        self.assertIn('mev CORNER CORNER E V x y z', terminal.answer('help mev'))
        self.assertIn('refused: 5 NoEdge, 4 NoLoop', terminal.answer('help mev'))
        self.assertEqual(terminal.end('quit\n'), 0)

    def test_completion(self):
        terminal = Terminal(self.folder)
        terminal.read()
        self.assertEqual(terminal.answer('bl\t1 0 0 0 4 4 4'), 'ok\n')
        terminal.type('kev +1\t\t')
        self.assertEqual(terminal.read().split()[-5:], ['+1', '+10', '+11', '+12', 'gwb>'])
        self.assertEqual(terminal.answer('2'), 'ok\n')
        terminal.type('kev +1\t\t')
        self.assertEqual(terminal.read().split()[-4:], ['+1', '+10', '+11', 'gwb>'])
        self.assertEqual(terminal.end('\x15\x04'), 0)

    def test_a_free_number_for_what_is_new(self):
        terminal = Terminal(self.folder)
        terminal.read()
        terminal.answer('block 7 0 0 0 4 4 4')
        self.assertEqual(terminal.answer('mvfs \t\t\t\t0 0 0'), 'ok\n')
        self.assertIn('solid 8\n', terminal.answer('list'))
        self.assertEqual(terminal.end('quit\n'), 0)

    def test_the_history_of_a_session_before(self):
        first = Terminal(self.folder)
        first.read()
        first.answer('block 1 0 0 0 4 4 4')
        self.assertEqual(first.end('\x04'), 0)
        second = Terminal(self.folder)
        second.read()
        self.assertEqual(second.answer('\x10'), 'ok\n')
        self.assertEqual(second.answer('volume 1'), 'volume 384\n')
        self.assertEqual(second.end('quit\n'), 0)

    def test_a_line_is_given_up_by_control_c(self):
        terminal = Terminal(self.folder)
        terminal.read()
        terminal.answer('block 1 0 0 0 4 4 4')
        terminal.type('kvfs')
        terminal.read('kvfs')
        terminal.interrupt()
        self.assertEqual(terminal.answer('volume 1'), 'volume 384\n')
        self.assertEqual(terminal.end('quit\n'), 0)

    def test_a_script_first(self):
        script = Path(self.folder, 'part.gwb')
        script.write_text('block 1 0 0 0 4 4 4\nkvfs 1\nlist\n')
        terminal = Terminal(self.folder, str(script))
        self.assertIn(f'{script}:2: kvfs 1: refused 12 1: NotBare: ', terminal.read('1 complaint\n'))
        terminal.read()
        self.assertEqual(terminal.answer('volume 1'), 'volume 384\n')
        self.assertEqual(terminal.end('quit\n'), 0)


def given(data, *words):
    """What the shell, within this process, makes of bytes on standard input."""
    typed = io.TextIOWrapper(io.BytesIO(data), 'utf-8', newline='\n')
    with mock.patch.dict(os.environ, GWB=program()), mock.patch.object(sys, 'stdin', typed):
        return run('shell', *words)


def piped(data, gwb=None):
    """What the shell makes of bytes on standard input."""
    environment = {**os.environ, 'GWB': gwb or program()}
    return subprocess.run([COMPANIONS / 'gwb-shell'], input=data, capture_output=True, env=environment, timeout=TIME)


class ThroughAPipe(unittest.TestCase):
    """No prompt, and a status."""

    def test_what_is_written(self):
        done = piped(b'block 1 0 0 0 4 4 4\nvolume 1\nundo all\n')
        self.assertEqual((done.stdout, done.stderr, done.returncode), (b'ok\nvolume 384\n1 undone\n', b'', 0))

    def test_complaints(self):
        done = piped(b'\xff\x00\nundo\nquit\nlist\n')
        self.assertEqual(done.stdout.splitlines(), [b'fault 5: NotAscii: the line has a byte above 127',
                                                    b'refused 25 0: NothingToUndo: there is nothing to undo'])
        self.assertEqual((done.stderr, done.returncode), (b'', 1))

    def test_newlines_within_a_line(self):
        written = io.StringIO()
        shell = Shell(program())
        self.addCleanup(shell.close)
        with redirect_stdout(written):
            self.assertFalse(shell.onecmd('undo\nblock 1 0 0 0 1 1 1\n\nvolume 1'))
            self.assertTrue(shell.onecmd('redo all\nquit\nlist'))
        self.assertEqual(written.getvalue().splitlines()[1:], ['ok', 'volume 6', '0 redone'])

    def test_no_program(self):
        for gwb in ('/nowhere/gwb', '/etc/passwd'):
            done = piped(b'list\n', gwb)
            self.assertEqual((done.stdout, done.stderr.count(b'\n'), done.returncode), (b'', 1, 3))
            self.assertIn(b'gwb-shell: ', done.stderr)

    def test_a_library_is_no_program(self):
        """Where GWB names a library, which the session in Python takes, the shell takes the program that it finds."""
        done = piped(b'list\n', '/nowhere/libgwb.so')
        is_found = any((REPOSITORY / place).is_file() for place in ('crates/gwb/out/gwb', 'out/gwb-unproved')) or shutil.which('gwb')
        self.assertEqual((done.stdout, done.returncode), (b'empty\n', 0) if is_found else (b'', 3))

    def test_damaged_input(self):
        kinds = {
            'nothing': (b'', 0), 'blanks': (b' \t\r\n\n', 0), 'no newline at the end': (b'volume 1', 1),
            'lines of Windows': (b'list\r\n', 0), 'a byte order mark': (b'\xef\xbb\xbflist\n', 1),
            'two bytes a letter': ('list\n'.encode('utf-16'), 1), 'half a letter': (b'\xc3\n', 1),
            'zeros': (b'\0' * 99, 1), 'a long line': (b'#' * 65_537 + b'\n', 1), 'a long word': (b'volume ' + b'1' * 60_000 + b'\n', 1),
            'replies': (b'solid 1\nface 1 1 1\n', 1), 'a form feed': (b'list\f\n\flist\n', 1), 'all bytes': (bytes(range(256)), 1),
            'a lone carriage return': (b'list\rlist\n', 1)}
        self.assertEqual(len(kinds), 14)
        with tempfile.TemporaryDirectory() as folder:
            script = Path(folder, 'script')
            for kind, (data, status) in kinds.items():
                script.write_bytes(data)
                for outcome in (given(data), given(b'', str(script))):
                    self.assertEqual((outcome.err, outcome.status), ('', status), kind)
            outcome = given(b'', folder)
            self.assertEqual((outcome.out, outcome.err.count('\n'), outcome.status), ('', 1, 3))

    def test_a_program_that_ends(self):
        done = piped(b'undo\nundo\n', '/bin/true')
        self.assertEqual((done.stdout, done.stderr, done.returncode), (b'', b'gwb-shell: the program ended with status 0\n', 3))

    def test_words(self):
        self.assertEqual(run('shell', '--nothing').status, 2)
        with mock.patch.dict(os.environ, GWB=program()):
            outcome = run('shell', '/nowhere/part.gwb')
        self.assertEqual((outcome.status, outcome.err), (3, 'gwb-shell: /nowhere/part.gwb: No such file or directory\n'))


class Choices(unittest.TestCase):
    """What can stand at each place."""

    def test_the_help_has_every_command(self):
        self.assertEqual(sorted(program_help(program()).rows), sorted(COMMANDS))

    def test_every_place(self):
        rows = program_help(program()).rows
        halves = [f'{sign}{edge}' for edge in range(1, 13) for sign in '+-']
        solids, faces, loops = ['1'], list(map(str, range(1, 7))), list(map(str, range(1, 7)))
        wanted = {
            'mvfs': [['2'], ['7'], ['7'], ['9'], []], 'kvfs': [solids, []], 'mev': [halves, halves, ['13'], ['9'], []], 'kev': [halves, []],
            'mef': [halves, halves, ['13'], ['7'], ['7'], []], 'kef': [halves], 'kemr': [halves, ['7']], 'mekr': [halves, halves, ['13']],
            'kfmrh': [faces, faces, []], 'mfkrh': [loops, ['7']], 'ringmv': [loops, faces, ['in', 'out'], []], 'lamina': [['2'], []],
            'block': [['2'], []], 'sweep': [faces, []], 'glue': [faces, faces], 'split': [solids, [], [], [], [], ['2'], []],
            'plane': [faces], 'volume': [solids], 'count': [solids], 'undo': [[]], 'redo': [[]], 'list': [[]]}
        self.assertEqual(sorted(wanted), sorted(COMMANDS))
        for word, places in wanted.items():
            self.assertEqual([choices(rows[word], place, BLOCK) for place in range(1, len(places) + 1)], places, word)

    def test_lone_loops(self):
        lone = model_in('solid 1\nface 1 1 3\nloop 3 at 1\nvertex 1 0 0 0\n')
        self.assertEqual(choices(program_help(program()).rows['mev'], 2, lone), ['@3'])
        self.assertEqual(choices(program_help(program()).rows['kev'], 1, lone), [])


class Cures(unittest.TestCase):
    """What is said under a complaint, and of refusals."""

    def test_a_complaint_says_what_would_do(self):
        done = piped(b'block 1 0 0 0 7 5 3\nsplit 1 2 3 0 -11 2\nexplain\nglue 1 99\nexplain NotLattice 12 nothing\nhelp split\nexit\nlist\n')
        lines = done.stdout.decode().splitlines()
        self.assertEqual(lines[1], 'refused 37 1: NotLattice: the plane cuts edge 1 between whole coordinates')
        cures = lines[2:lines.index('split 1 2 3 0 -11 2: ' + lines[1])]
        self.assertIn('    split 1 2 3 0 -12 2', cures)
        again = lines.index('split 1 2 3 0 -11 2: ' + lines[1]) + 1
        self.assertEqual(lines[again:again + len(cures)], cures)
        self.assertIn('37 NotLattice: the plane cuts edge X between whole coordinates; a finer unit would do, or a plane near by', lines)
        self.assertTrue(any(line.startswith('12 NotBare: ') for line in lines))
        self.assertIn('nothing is no refusal; help lists commands', lines)
        self.assertTrue(any(line.startswith('refused: 2 NoSolid, 6 SolidTaken, 35 PlaneRange') for line in lines))
        self.assertEqual(lines[-1], 'example: split 1 1 0 0 -2 2')

    def test_nothing_to_explain(self):
        self.assertEqual(piped(b'explain\n').stdout, b'nothing was complained about\n')

    def test_no_word_that_it_has_is_denied(self):
        done = piped(b'help exit explain quit\n')
        self.assertNotIn(b'no command', done.stdout)

    def test_comments_of_any_letters(self):
        self.assertEqual(piped('# \u00e4\nundo\n'.encode()).stdout, b'refused 25 0: NothingToUndo: there is nothing to undo\n')

    def test_the_rows_are_those_of_the_page(self):
        page = (REPOSITORY / 'docs' / 'SCRIPT.md').read_text(encoding='utf-8').split('\n## Commands\n')[1].split('\n## ')[0]
        found = {}
        for section in re.split(r'\n####? ', page)[1:]:
            head, _, body = section.partition('\n')
            told = re.search(r'Refused:(.*?)(?:From (?:nothing|the)|```)', ' '.join(body.split()))
            numbers = tuple(dict.fromkeys(map(int, re.findall(r'\b(\d+) [A-Z][a-z][a-zA-Z]+', told[1])))) if told else ()
            lines = [line for block in re.findall(r'```gwb\n(.*?)```', body, re.S) for line in block.splitlines()]
            for name in dict.fromkeys(usage.split()[0] for usage in re.findall(r'`([^`]+)`', head)):
                found[name] = numbers, [re.split('  +', line)[0] for line in lines if line.split()[:1] == [name] and 'refused' not in line]
        self.assertEqual({name: row.refusals for name, row in COMMAND_ROWS.items()}, {name: numbers for name, (numbers, _) in found.items()})
        for name, row in COMMAND_ROWS.items():
            self.assertTrue(row.example in found[name][1] if row.example else not found[name][1])
