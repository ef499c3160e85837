"""gwb from Python: a workbench whose commands are methods.

    >>> from gwb import Workbench
    >>> with Workbench() as bench:
    ...     block = bench.block((0, 0, 0), (4, 4, 4))
    ...     top = bench.sweep(block.top, (0, 0, 2))
    ...     bench.volume(block.solid)
    Fraction(96, 1)

Numbers of new things may be given, by name, as the script language does; where one isn't, the workbench takes a free one.
Methods are in parts over what they share (bench.py): commands (commands.py), what is held (selection.py), features (feature_methods.py), solids as things
(solids.py), labels and files (exporting.py), and the session itself, scripts and drawings here.
"""

from fractions import Fraction
from pathlib import Path
from sys import maxsize
from typing import TYPE_CHECKING, ContextManager, Iterator, List, NoReturn, Optional, Tuple

from ..errors import CompanionError, Complaint, InDraft
from ..formats.appearance import appearances_in, comments
from ..geometry.model import Model
from ..protocol.language import COMMANDS, first_answered, first_word, is_answered, is_comment
from ..protocol.listing import read_model
from ..protocol.replies import Reply, is_listed
from ..protocol.word_advice import IN_PYTHON
from ..scripts.marks import Mark, mark_in, mark_line
from ..scripts.unit_comments import unit_in, unit_line, unit_lines
from . import arguments
from .commands import Commands
from .exporting import Exporting
from .feature_methods import FeatureMethods
from .kernel import Kernel
from .lengths import DEFAULT_STEP
from .library import find_path
from .notes import Given, Note
from .results import Numbers
from .selection import Reading
from .solids import SolidMethods
from .steps import Block

# What is said of names that went.
_GONE = {'unit': 'lengths are millimetres now, and step says how fine they are',
         'six_volume': "volume(solid) is exact, and ask('volume 1') says six times it in steps"}


class Workbench(SolidMethods, FeatureMethods, Commands, Reading, Exporting):
    """A running gwb. Each command is a method; one that isn't accepted raises Refused, Faulted or MemoryRefused.

    In the examples of methods `bench` holds the block that `block = bench.block((0, 0, 0), (40, 20, 10))` made, and `folder` is an empty folder."""

    def __init__(self, library: Optional[arguments.Path] = None, *, step: arguments.Length = DEFAULT_STEP, unit: None = None) -> None:
        """Opens a session of the library at the path, or the one that the environment variable GWB, the package or the system has.

        Methods take and give millimetres, and all points are multiples of `step`: thousandths, or another number above zero, such as '1/60'. Scripts, replies
        to `ask`, listings and arrays count steps.
        """
        arguments.gone('unit', unit, _GONE['unit'])
        size = arguments.factor('step', step, wanted='a length')
        self._kernel = Kernel(find_path() if library is None else arguments.path('library', library), size)

    def __reduce__(self) -> NoReturn:
        raise TypeError('a workbench holds a running session, so it is neither copied nor pickled: save() writes its script')

    if not TYPE_CHECKING:
        def __getattr__(self, name: str) -> NoReturn:
            """Names that went, and names of other programs, say what is there instead."""
            if name in IN_PYTHON:
                raise AttributeError(f'a workbench has no {name}: {IN_PYTHON[name]}')
            raise AttributeError(f'{name}: {_GONE[name]}' if name in _GONE else f'a workbench has no {name}')

    def __enter__(self) -> 'Workbench':
        return self

    def __exit__(self, *_: object) -> None:
        self.close()

    def close(self) -> int:
        """Ends the session; 0.

        >>> bench.close()
        0
        >>> bench.solids()
        Traceback (most recent call last):
        gwb.errors.Ended: the session is closed
        """
        self._kernel.close()
        return 0

    def ask(self, line: str) -> Reply:
        """The reply to one line of the script language, whatever it is, in which coordinates are steps of the lattice. What it makes, undoes or redoes is
        taken account of; of a draft all is undone or redone.

        >>> bench.ask('volume 1').lines
        ('volume 48000000000000',)
        """
        return self._kernel.ask(arguments.text('line', line))

    def draft(self, name: str = '') -> ContextManager[None]:
        """The calls given in it are one command. By an exception it is abandoned: all is as before, what can be redone included. Within another
        draft they are part of that, and an exception takes these alone back. A saved script and the steps of its page call it by the name, or else by
        its methods.

        What is read in it is its model. It takes all but `undo` and `redo`, which raise InDraft. Calls of other threads wait for its end.

        >>> with bench.draft('lid'):
        ...     _ = bench.move(block, (0, 0, 5))
        ...     _ = bench.block((50, 0, 0), (1, 1, 1))
        >>> bench.undo()
        >>> bench.solids().one().points[0]
        (0, 0, 0)
        """
        return Block(self._kernel, False, arguments.text('name', name))

    def group(self, name: str = '') -> ContextManager[None]:
        """The calls given in it are one step to undo, in a draft part of it. By an exception all of them are taken back, what could be redone
        before included. The name is as that of a draft.

        It takes all but `undo` and `redo`, which raise InGroup; groups and drafts may stand in it. Calls of other threads wait for its end.

        >>> with bench.group():
        ...     _ = bench.move(block, (0, 0, 5))
        ...     _ = bench.block((50, 0, 0), (1, 1, 1))
        >>> bench.undo()
        >>> bench.solids().one().points[0]
        (0, 0, 0)
        """
        return Block(self._kernel, True, arguments.text('name', name))

    def listing(self) -> Model:
        """The model held, its points in steps of the lattice.

        >>> bench.listing().vertices[7]
        (40000, 20000, 10000)
        """
        return self._kernel.listing()

    def half_edges(self, loop: arguments.LoopNumber) -> Numbers:
        """The half-edges of a loop, from the least on: none of a lone loop, or of one that is not there.

        >>> bench.half_edges(bench.face(block.top).outer)
        (7, 9, 11, 12)
        """
        number = self._number('loop', loop)
        found = self._kernel.lines.loop(number)
        return found.halves if found else ()

    def __repr__(self) -> str:
        held = self._kernel.notes.at
        return f'<Workbench, {held} command{"" if held == 1 else "s"} held>'

    def script(self) -> str:
        """The script of what is held: the accepted commands, a line each; undone ones are left out. Its coordinates are steps, and a comment says the step in
        millimetres, where it isn't 1, and where it changes.

        >>> print(bench.script(), end='')
        # unit 1/1000
        block 1 0 0 0 40000 20000 10000
        """
        kernel = self._kernel
        units = {note.unit for note in (*kernel.notes.all[:kernel.notes.at + 1], kernel.notes.now)}
        if len(units) == 1:
            return ''.join([*(f'{line}\n' for line in unit_lines(units.pop())), *kernel.commands(maxsize)])
        return ''.join(f'{line}\n' for line in _lines(kernel))

    def save(self, path: arguments.Path) -> None:
        """Writes the script to a file. Comments in it say which commands are one step to undo and which calls gave them, how fine lengths are, and the
        labels, so that `load` knows them again. Raises ValueError for an ending of what `export` writes.

        >>> bench.save(folder / 'part.gwb')
        >>> (folder / 'part.gwb').read_text().splitlines()
        ['# unit 1/1000', 'block 1 0 0 0 40000 20000 10000']
        """
        from ..formats.forms import EXPORTED, by_ending
        file = Path(arguments.path('path', path))
        if by_ending(file.suffix) in EXPORTED:
            raise ValueError(f'{file.name}: save() writes a script, and export() a file with the ending {file.suffix}')
        lines = [*_saved_lines(self._kernel), *comments(self._kernel.labels())]
        file.write_text(''.join(f'{line}\n' for line in lines), encoding='ascii')

    @classmethod
    def load(cls, path: arguments.Path, library: Optional[arguments.Path] = None, *, step: arguments.Length = 1) -> 'Workbench':
        """A workbench that holds what the file says: a script, each of whose lines has to be accepted, or a listing. The steps to undo of a script that
        `save` wrote are those that were saved; of another script each command is one. How fine lengths are the script says, as `# unit 1/1000`; where it
        doesn't, a coordinate is `step` millimetres.

        A line that isn't accepted raises Refused, Faulted or MemoryRefused, with the file and the line; a file of a form that `import_file` reads
        ValueError.

        >>> bench.save(folder / 'part.gwb')
        >>> Workbench.load(folder / 'part.gwb').volume(1)
        Fraction(8000, 1)
        """
        file = Path(arguments.path('path', path))
        data = file.read_bytes()
        script = _script_in(file, data)
        bench = cls(library, step=step)
        try:
            bench._take(file, enumerate(script.split(b'\n'), 1))
            bench._kernel.notes.begin_with(appearances_in(data.decode('utf-8', 'replace').splitlines()))
        except BaseException:
            bench.close()
            raise
        return bench

    def _take(self, file: Path, lines: Iterator[Tuple[int, bytes]], within: Optional[Mark] = None, most: int = maxsize) -> int:
        """Gives the lines of a script, up to so many commands, which are a step or a draft where `within` says so: how many were given. A complaint
        is raised, which names the file and the line."""
        given = 0
        for number, line in lines:
            mark, unit = mark_in(line), unit_in(line)
            if unit is not None:
                self._kernel.notes.now.unit = unit
            elif mark and (not within or within.is_step and not mark.is_step):
                notes, outer = self._kernel.notes, self._kernel.notes.called
                with Block(self._kernel, mark.is_step):
                    notes.called = [*map(Given, mark.names)] if mark.commands == 1 else mark.names
                    given += self._take(file, lines, mark, min(mark.commands, most - given))
                notes.called = outer
            elif is_answered(line) and not is_comment(line):
                text = line.decode('utf-8', 'surrogateescape')
                try:
                    self._kernel.do_line(text)
                except (Complaint, InDraft) as error:
                    error.args = (f'{file}, line {number}: {error.args[0]}',)
                    raise
                given += 1
            if given == most:
                break
        return given

    def show(self) -> Path:
        """Writes the page to a file of its own and opens it in the browser, where there is one: the file's path.

        >>> bench.show().suffix
        '.html'
        """
        from tempfile import NamedTemporaryFile
        from webbrowser import open as open_in_browser
        with NamedTemporaryFile('w', prefix='gwb-', suffix='.html', encoding='utf-8', delete=False) as file:
            file.write(self.page())
        path = Path(file.name)
        open_in_browser(path.as_uri())
        return path

    def _repr_html_(self) -> str:
        """A notebook shows the page, in a frame of its own."""
        from html import escape
        return f'<iframe srcdoc="{escape(self.page())}" width="100%" height="480"></iframe>'

    def _repr_svg_(self) -> Optional[str]:
        """A notebook draws the model."""
        return self.listing()._repr_svg_()


def _saved_lines(kernel: Kernel) -> Iterator[str]:
    """The lines of what is held, the steps of a draft too. Before those that are one step, or one draft, stands a mark, as before one to which the caller
    gave a name; and the unit where it changes."""
    commands, notes, unit = _commands(kernel), kernel.notes.all[:kernel.notes.at + 1], Fraction(1)
    starts = [place for place, note in enumerate(notes) if place > 0 and (place == 1 or note.begins)]
    steps = {first: commands[first:last] for first, last in zip(starts, [*starts[1:], len(notes)])}
    names: List[str] = []
    for place, (lines, note) in enumerate(zip(commands, [*notes, kernel.notes.now])):
        if place in steps:
            names = _called(notes[place:place + len(steps[place])]) if len(steps[place]) > 1 else []
        if len(steps.get(place, [])) > 1:
            yield mark_line(Mark(True, sum(map(len, steps[place])), names))
        if place < len(notes) and (len(lines) > 1 or lines and note.calls != names and any(isinstance(name, Given) for name in note.calls)):
            yield mark_line(Mark(False, len(lines), _called([note])))
        yield from lines
        if note.unit != unit:
            yield unit_line(note.unit)
        unit = note.unit


def _called(notes: List[Note]) -> List[str]:
    """What a mark says of the calls that gave these commands."""
    return list(dict.fromkeys(name for note in notes for name in note.calls))


def _require_no_form(file: Path, data: bytes) -> None:
    """Raises ValueError where the file is of a form that is read, and no script."""
    from ..formats.forms import FORMS, by_beginning
    form = by_beginning(data, file.name)
    if form:
        raise ValueError(f'{file}: this is a file of {FORMS[form].title}, which import_file() and gwb-import read')


def _commands(kernel: Kernel) -> List[List[str]]:
    """The lines of each command that is held, after those of none."""
    return [[], *(text.splitlines() for text in kernel.commands())]


def _lines(kernel: Kernel) -> Iterator[str]:
    """The lines of what is held, with the unit where it changes."""
    unit = Fraction(1)
    for lines, note in zip(_commands(kernel), [*kernel.notes.all[:kernel.notes.at + 1], kernel.notes.now]):
        yield from lines
        if note.unit != unit:
            yield unit_line(note.unit)
        unit = note.unit


def _script_in(file: Path, data: bytes) -> bytes:
    """The script that the bytes of a file are, or that makes the listing in them."""
    first = first_answered(data)
    if not is_listed(first.decode('ascii', 'replace').strip()):
        if first_word(first) not in COMMANDS:
            _require_no_form(file, data)
        return data
    try:
        from ..scripts.inversion import script_of
        return '\n'.join(script_of(read_model(data))).encode()
    except CompanionError as error:
        error.args = (f'{file}: {error}',)
        raise
