#!/usr/bin/env python3
"""Runs the scripts that README.md and the pages in docs show, and compares the replies and pictures beside them.

    tests/documents.py [--draw] [PROGRAM]        PROGRAM is crates/gwb/out/gwb where none is given

A script is a fenced block marked `gwb`: each line is a command and, after two spaces or more, its reply, whose further lines stand
below it, indented. A block begins with nothing; with the model of the block after a paragraph that begins 'The *wire*', where its own
paragraph ends 'From the wire:' or 'In the wire:'; with what the block before it left, where the paragraph ends 'And then:'.
An image after a block shows the model that the block leaves: all of it, with its numbers in NAME.names.svg, solid 2 alone in
NAME.solid-2.svg or NAME.solid-2.names.svg; a flat model from above with its half-edges in NAME.half-edges.svg, with what lies about +5 in
NAME.around-5.svg, and before and after the block's last command in NAME.change.svg. --draw draws all of them anew. A line elsewhere that
begins with a command is refused.
"""
import re
import subprocess
import sys
from pathlib import Path
from typing import Dict, Iterator, List, NamedTuple, Set, Tuple

from counts import GWB, TOP, command_line, there, told
from half_edges import half_edges_svg

sys.path.insert(0, str(TOP / 'companions'))

from gwb.drawing.svg import svg_text
from gwb.errors import CompanionError
from gwb.geometry.model import Model
from gwb.protocol.language import COMMANDS
from gwb.protocol.listing import model_of
from gwb.protocol.replies import Reply, split_replies

PICTURES = TOP / 'docs' / 'pictures'
STAND = (2, -3, 2)
STRAY = re.compile(rf' {{4,}}(?:{"|".join(COMMANDS)})(?: [-+@]?\d|$)')


class Step(NamedTuple):
    """A command of a page, with the lines of its reply."""

    command: str
    reply: Tuple[str, ...]


class Block(NamedTuple):
    """A script of a page: where it stands, what is run before it, its own commands."""

    place: str
    before: List[Step]
    steps: List[Step]


class Picture(NamedTuple):
    """An image of a page, and the script that leaves what it shows."""

    place: str
    path: Path
    steps: List[Step]


class Page:
    """The scripts and pictures of a page; `wrong` has the lines that can't be read."""

    def __init__(self, path: Path) -> None:
        self.blocks: List[Block] = []
        self.pictures: List[Picture] = []
        self.wrong: List[str] = []
        self._path = path
        self._models: Dict[str, List[Step]] = {}
        self._left: List[Step] = []
        self._paragraph: List[str] = []
        lines = enumerate(path.read_text().splitlines(), 1)
        for number, line in lines:
            if line == '```gwb':
                self._script(number, list(_until_fence(lines)))
            else:
                self._line(number, line)

    def _line(self, number: int, line: str) -> None:
        image = re.match(r'(?:!\[.*\]\(|<img src=")(.*pictures/.*\.svg)[")]', line)
        if image:
            self.pictures.append(Picture(self._place(number), (self._path.parent / image.group(1)).resolve(), self._left))
        if STRAY.match(line):
            self.wrong.append(f'{self._place(number)}: a command outside of the blocks that are run')
        if line and self._paragraph[-1:] == ['']:
            self._paragraph = []
        self._paragraph.append(line)

    def _script(self, number: int, lines: List[str]) -> None:
        lead = ' '.join(self._paragraph).strip()
        before = self._before(number, lead)
        steps = list(_steps(lines))
        self.blocks.append(Block(self._place(number), before, steps))
        self._left = before + steps
        named = re.match(r'The \*(\w+)\*', lead)
        if named:
            self._models[named.group(1)] = self._left

    def _before(self, number: int, lead: str) -> List[Step]:
        if lead.endswith('And then:'):
            return self._left
        model = re.search(r'(?:From|In) the (\w+):$', lead)
        if model and model.group(1) not in self._models:
            self.wrong.append(f'{self._place(number)}: no block before it makes the {model.group(1)}')
        return self._models.get(model.group(1), []) if model else []

    def _place(self, number: int) -> str:
        return f'{self._path.relative_to(TOP)}:{number}'


def _until_fence(lines: Iterator[Tuple[int, str]]) -> Iterator[str]:
    for _, line in lines:
        if line.startswith('```'):
            return
        yield line


def _steps(lines: List[str]) -> Iterator[Step]:
    """The commands of a block; comments and blank lines are left out."""
    found: List[Tuple[str, List[str]]] = []
    for line in lines:
        if line.startswith(' ') and found:
            found[-1][1].append(line.strip())
        elif line and not line.startswith('#'):
            command, _, reply = re.match(r'(.*?)(\s{2,}|$)(.*)', line).groups()
            found.append((command, [reply]))
    for command, reply in found:
        yield Step(command, tuple(reply))


def replies(program: Path, steps: List[Step]) -> List[Reply]:
    """What the program answers to the commands."""
    script = ''.join(f'{step.command}\n' for step in steps)
    done = subprocess.run([program], input=script.encode(), capture_output=True, timeout=60)
    return split_replies(done.stdout)


def complaint(program: Path, block: Block) -> str:
    """What is wrong with a block, or nothing."""
    steps = block.before + block.steps
    found = replies(program, steps)
    if len(found) != len(steps):
        return f'{len(steps)} commands have {len(found)} replies'
    for step, reply in zip(steps, found):
        if step.reply != reply.lines:
            return f'{step.command!r} is answered {reply.lines}, not {step.reply}'
    return ''


def model_after(program: Path, steps: List[Step]) -> Model:
    """The model that the commands leave."""
    return model_of(replies(program, steps + [Step('list', ())])[-1])


def drawn(program: Path, picture: Picture) -> str:
    """The picture as it is to be."""
    model = model_after(program, picture.steps)
    marks = picture.path.name.split('.')[1:-1]
    if 'change' in marks:
        return half_edges_svg([model_after(program, picture.steps[:-1]), model])
    for mark in marks:
        if mark.startswith('around-'):
            return half_edges_svg([model], int(mark[len('around-'):]))
        if mark == 'half-edges':
            return half_edges_svg([model])
        if mark.startswith('solid-'):
            model = model.only(int(mark[len('solid-'):]))
    return svg_text(model, STAND, names='names' in marks)


def pages() -> List[Page]:
    """All pages that show scripts."""
    return [Page(path) for path in [TOP / 'README.md', *sorted((TOP / 'docs').glob('*.md'))]]


def draw(program: Path) -> None:
    """Draws all pictures anew."""
    PICTURES.mkdir(exist_ok=True)
    for page in pages():
        for picture in page.pictures:
            picture.path.write_text(drawn(program, picture))


def screenshots() -> Set[Path]:
    """The screenshots that pages show, which nothing here draws."""
    texts = [TOP / 'README.md', TOP / 'companions' / 'README.md', *(TOP / 'docs').glob('*.md')]
    return {(path.parent / name).resolve() for path in texts for name in re.findall(r'[\w./]*pictures/[\w.]+\.png', path.read_text())}


def findings(program: Path) -> Iterator[str]:
    """One text for each block and picture: what is wrong with it, or nothing; and one for what stands where it doesn't belong."""
    shown = set()
    for page in pages():
        yield from page.wrong
        for block in page.blocks:
            why = complaint(program, block)
            yield f'{block.place}: {why}' if why else ''
        for picture in page.pictures:
            shown.add(picture.path)
            same = picture.path.exists() and picture.path.read_text() == drawn(program, picture)
            yield '' if same else f'{picture.place}: the picture is not the one that --draw draws'
    for path in sorted(screenshots()):
        shown.add(path)
        yield '' if path.exists() else f'{path}: a page shows it, and it is not there'
    for path in sorted(set(PICTURES.glob('*')) - shown):
        yield f'{path.relative_to(TOP)}: no page shows it'


def main() -> int:
    given = command_line(__doc__, '--draw', program=GWB)
    program = there(given.program)
    if given.draw:
        draw(program)
    try:
        found = list(findings(program))
    except (CompanionError, OSError, subprocess.TimeoutExpired) as error:
        found = [str(error)]
    return told(found)


if __name__ == '__main__':
    sys.exit(main())
