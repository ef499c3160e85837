"""A prompt over gwb: a history, completion of words and numbers, and refusals in words as they come."""

import argparse
import atexit
import cmd
import os
import re
import signal
import subprocess
import sys
from contextlib import contextmanager
from io import TextIOWrapper
from pathlib import Path
from typing import Callable, Dict, Iterator, List, NamedTuple, Optional, Sequence

from ..errors import ProgramMissing
from ..geometry.free_numbers import greatest_of, numbers_of
from ..geometry.model import Model
from ..protocol.advice import advice
from ..protocol.command_rows import COMMAND_ROWS
from ..meanings import NUMBERS
from ..protocol.language import COMMANDS, condition_text, first_word, is_answered, is_comment
from ..protocol.listing import model_of
from ..refusals import NAMES
from ..protocol.replies import Reply
from .command_line import FOUND, OK, add_version, read_bytes, run
from .explain import Answered, complaints, meaning
from .pipe import Pipe, find_program

PROGRAM = 'gwb-shell'
PROMPT = 'gwb> '
_HISTORY_LINES = 1000
_REPEATED = {'undo': 'undone', 'redo': 'redone'}
# The kind of thing that a letter of a command names, and the letters that name new things.
_KIND = {'S': 'solid', 'T': 'solid', 'F': 'face', 'L': 'loop', 'E': 'edge', 'V': 'vertex'}
_NEW = {'mvfs': 'SFLV', 'mev': 'EV', 'mef': 'EFL', 'kemr': 'L', 'mekr': 'E', 'mfkrh': 'F', 'lamina': 'S', 'block': 'S', 'split': 'T'}


class Usage(NamedTuple):
    """A row of the program's help: a command with the words that it takes, and what it does."""

    words: List[str]
    text: str

    def __str__(self) -> str:
        return f'{" ".join(self.words):<34}{self.text}'.rstrip()


_OWN = [
    Usage(['undo', 'all'], 'back to the empty workbench'),
    Usage(['redo', 'all'], 'forth, all that was undone'),
    Usage(['help', 'COMMAND'], 'what a command takes, and what it does; refusals and an example'),
    Usage(['explain'], 'what the last complaint means, and what would do'),
    Usage(['explain', 'REFUSAL'], 'what a refusal means, by its name or number'),
    Usage(['quit'], 'the end; so are exit and Ctrl-D'),
    Usage(['exit'], 'the end, as quit'),
]


class Help(NamedTuple):
    """What the program says of its commands: the rows by first word, and the line that says what HALF and CORNER are."""

    rows: Dict[str, Usage]
    corners: str


def read_help(text: str) -> Help:
    """The commands of what `gwb --help` prints. A row may have several commands, with commas between them."""
    table = text.split('\nCommands', 1)[-1].split('\nReplies', 1)[0]
    rows: Dict[str, Usage] = {}
    for words, told in re.findall(r'^  (\S.*?) {2,}(\S.*)$', table, re.MULTILINE):
        several = words.split(', ')
        for usage, what in zip(several, told.split(', ') if len(several) > 1 else [told]):
            rows[first_word(usage.encode())] = Usage(usage.split(), what)
    return Help(rows, next(iter(re.findall(r'^HALF is .*$', table, re.MULTILINE)), ''))


def program_help(program: str) -> Help:
    """The help of the program."""
    try:
        shown = subprocess.run([program, '--help'], stdout=subprocess.PIPE, stderr=subprocess.DEVNULL, stdin=subprocess.DEVNULL)
    except OSError as error:
        raise ProgramMissing(f'{error.filename}: {error.strerror}') from None
    return read_help(shown.stdout.decode('utf-8', 'replace'))


def choices(usage: Usage, place: int, model: Model) -> List[str]:
    """What can stand at a place of a command: numbers in use, half-edges, corners; for a new thing one number that is free."""
    word = usage.words[place] if place < len(usage.words) else ''
    if word == 'in|out':
        return word.split('|')
    if word in ('HALF', 'CORNER'):
        halves = [f'{sign}{edge}' for edge in model.edges for sign in '+-']
        return halves + ([f'@{loop}' for loop, row in model.loops.items() if row.is_lone] if word == 'CORNER' else [])
    kind = _KIND.get(word[:1])
    if kind is None:
        return []
    if word in _NEW.get(usage.words[0], ''):
        return [str(greatest_of(model)[kind] + 1)]
    return list(map(str, numbers_of(model)[kind]))


@contextmanager
def _uninterrupted() -> Iterator[None]:
    """Ctrl-C waits until a reply is there. What is started meanwhile never gets it."""
    before = signal.pthread_sigmask(signal.SIG_BLOCK, {signal.SIGINT})
    try:
        yield
    finally:
        signal.pthread_sigmask(signal.SIG_SETMASK, before)


class Shell(cmd.Cmd):
    """Lines go to the program as they are, and replies come back; a few words are the shell's own."""

    prompt = PROMPT

    def __init__(self, program: str) -> None:
        super().__init__()
        self.complained = 0
        self._help = program_help(program)
        self._held: Optional[Model] = None
        self._complaint: List[str] = []
        with _uninterrupted():
            self._pipe = Pipe(program)

    def close(self) -> None:
        """Ends the program."""
        self._pipe.close()

    def ask(self, line: str) -> Reply:
        """The reply to a line that gwb answers; complaints are counted."""
        reply = self._exchange(line)
        self.complained += reply.is_complaint
        return reply

    def _exchange(self, line: str) -> Reply:
        with _uninterrupted():
            reply = self._pipe.ask(line)
        if reply.word == 'ok':
            self._held = None
        return reply

    def run_file(self, path: str) -> None:
        """Runs a script, and says what was complained about."""
        lines = enumerate(read_bytes(path).split(b'\n'), 1)
        asked = (Answered(number, line, self.ask(_text(line))) for number, line in lines if is_answered(line) and not is_comment(line))
        for told in complaints(path.encode('utf-8', 'backslashreplace').decode('utf-8'), asked):
            print(told)

    def talk(self) -> None:
        """Answers lines until the end of input, or `quit`. Ctrl-C gives up the line that is being typed."""
        while True:
            try:
                self.cmdloop()
                return
            except KeyboardInterrupt:
                print()

    def onecmd(self, line: str) -> bool:
        """Answers what was typed, whose newlines part lines; whether it was the last."""
        if line == 'EOF' and self.prompt:
            print()
        return line == 'EOF' or any(map(self._answer, line.split('\n')))

    def _answer(self, line: str) -> bool:
        words = line.split()
        if words in (['quit'], ['exit']):
            return True
        if words[:1] == ['help']:
            print('\n'.join(self.help_lines(words[1:])))
        elif words[:1] == ['explain']:
            print('\n'.join(self.explained(words[1:])))
        elif words[1:] == ['all'] and words[0] in _REPEATED:
            print(self._repeat(words[0]), _REPEATED[words[0]])
        elif is_answered(data := line.encode('utf-8', 'surrogateescape')) and not is_comment(data):
            self._show(line, self.ask(line))
        return False

    def _repeat(self, word: str) -> int:
        """Undoes or redoes all; how many commands that were. The refusal at the end is no complaint."""
        return sum(1 for _ in iter(lambda: self._exchange(word).word == 'ok', False))

    def _show(self, line: str, reply: Reply) -> None:
        """Prints a reply; of a complaint its meaning too, and what would do, which the model says that is held."""
        if not reply.is_complaint:
            print('\n'.join(reply.lines))
            return
        told = f'{reply.lines[0]}: {meaning(first_word(line.encode("utf-8", "surrogateescape")), reply)}'
        cures = advice(line, reply, self._model)
        self._complaint = [f'{line.strip()}: {told}', *(f'    {cure}' for cure in cures)]
        print('\n'.join([told, *(f'    {cure}' for cure in cures)]))

    def explained(self, names: Sequence[str]) -> List[str]:
        """What the last complaint means, or the refusals with these names or numbers."""
        if not names:
            return self._complaint or ['nothing was complained about']
        numbers = {name: int(name) if name.isdecimal() else NUMBERS.get(name, 0) for name in names}
        return [f'{number} {NAMES[number]}: {condition_text(number)}' if number in NAMES else f'{name} is no refusal; help lists commands'
                for name, number in numbers.items()]

    def help_lines(self, names: Sequence[str]) -> Iterator[str]:
        """What is said of the commands with these names, or of all."""
        known = [*self._help.rows.values(), *_OWN]
        told = [usage for usage in known if not names or usage.words[0] in names]
        yield from map(str, told)
        yield from (f'{name} is no command; help lists them' for name in names if all(name != usage.words[0] for usage in known))
        if any(word in ('HALF', 'CORNER') for usage in told for word in usage.words):
            yield self._help.corners
        for name in dict.fromkeys(name for name in names if name in COMMAND_ROWS):
            refusals, example = COMMAND_ROWS[name]
            yield from [f'refused: {", ".join(f"{number} {NAMES[number]}" for number in refusals)}'] if refusals else []
            yield from [f'example: {example}'] if example else []

    def completenames(self, text: str, *_: object) -> List[str]:
        """The commands that begin so."""
        return _matching(text, [*COMMANDS, 'help', 'explain', 'quit', 'exit'])

    def completedefault(self, text: str, line: str, begin: int, end: int) -> List[str]:  # type: ignore[override]
        """The words that begin so, and can stand at this place of the command."""
        word, *given = line[:begin].split()
        if word in ('undo', 'redo'):
            return _matching(text, [] if given else ['all'])
        if word not in self._help.rows:
            return []
        return _matching(text, choices(self._help.rows[word], 1 + len(given), self._model()))

    def complete_help(self, text: str, *_: object) -> List[str]:  # type: ignore[override]
        """The commands that begin so."""
        return self.completenames(text)

    def _model(self) -> Model:
        """The model held, which is listed anew where something has changed."""
        if self._held is None:
            self._held = model_of(self._exchange('list'))
        return self._held


def _matching(text: str, words: Sequence[str]) -> List[str]:
    """The words that begin so; a blank follows where there is only one."""
    found = [word for word in words if word.startswith(text)]
    return [f'{found[0]} '] if len(found) == 1 else found


def _text(line: bytes) -> str:
    return line.decode('utf-8', 'surrogateescape')


def _keep_history(path: Path) -> None:
    """Lets lines of former sessions be called back, and keeps those of this one, where Python has readline and the file allows it."""
    try:
        import readline
    except ImportError:
        return
    readline.set_completer_delims(' \t')
    readline.set_history_length(_HISTORY_LINES)
    try:
        if path.exists():
            readline.read_history_file(path)
        atexit.register(_write_history, readline.write_history_file, path)
    except OSError as error:
        _warn_of_history(path, error)


def _write_history(write: Callable[[Path], None], path: Path) -> None:
    try:
        write(path)
    except OSError as error:
        _warn_of_history(path, error)


def _warn_of_history(path: Path, error: OSError) -> None:
    print(f'{PROGRAM}: warning: {path}: the history is not kept: {error.strerror}', file=sys.stderr)


def _talk_at_terminal(shell: Shell) -> None:
    _keep_history(Path(os.environ.get('GWB_HISTORY') or Path.home() / '.gwb_history'))
    print('Commands of gwb; help lists them, Tab completes, quit ends.')
    shell.talk()


def _parser() -> argparse.ArgumentParser:
    parser = argparse.ArgumentParser(
        prog=PROGRAM, description='A prompt over gwb: a history, completion of words and of numbers in use, refusals in words.',
        epilog='The environment variable GWB may name the program, and GWB_HISTORY the file of the history (~/.gwb_history). '
               'Status 0: ended by quit or the end of input; 1: input is no terminal, and something was complained about; '
               '2: the command line is refused; 3: the program could not be started or has ended, or reading or writing failed.')
    parser.add_argument('script', nargs='?', metavar='SCRIPT', help='a script that is run first')
    add_version(parser)
    return parser


def work(words: Optional[Sequence[str]]) -> int:
    """Runs a script, where one is given, and then what is typed."""
    options = _parser().parse_args(words)
    program = find_program()
    if program.endswith('.so'):
        raise ProgramMissing(f'{program} is a library, and the program is needed')
    if isinstance(sys.stdin, TextIOWrapper):
        sys.stdin.reconfigure(errors='surrogateescape')
    shell = Shell(program)
    try:
        if options.script is not None:
            shell.run_file(options.script)
        if sys.stdin.isatty():
            _talk_at_terminal(shell)
            return OK
        shell.prompt = ''
        shell.cmdloop()
        return FOUND if shell.complained else OK
    finally:
        shell.close()


def main(words: Optional[Sequence[str]] = None) -> int:
    """The program: its status."""
    return run(PROGRAM, work, words)
