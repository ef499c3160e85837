#!/usr/bin/env python3
"""Runs the parts that docs/TUTORIAL.md and docs/PYTHON.md build, and compares what stands beside each step.

    tests/tutorial.py [--write] [LIBRARY]        LIBRARY is bindings/out/libgwb.so where none is given

A page's blocks in Python are run in order; one that begins with `from gwb import` begins a new part. What a block prints stands in comments behind
its `print`. A block marked `text` behind it has the commands that it sent, and an image behind it shows the model that it left. --write writes the
commands and the images anew. README.md shows examples/bracket.py, with a picture of what it leaves. The last line counts what was compared.
"""
import io
import os
import re
import sys
import tempfile
from contextlib import contextmanager, redirect_stdout
from pathlib import Path
from typing import Any, Dict, Iterator, List, NamedTuple, Optional, Tuple

from counts import TOP, command_line, there, told

sys.path.insert(0, str(TOP / 'companions'))

from gwb.drawing.svg import svg_text
from gwb.protocol.listing import model_of
from gwb.protocol.replies import split_replies

PAGES = (TOP / 'docs' / 'TUTORIAL.md', TOP / 'docs' / 'PYTHON.md')
PICTURES = TOP / 'docs' / 'tutorial'
README, EXAMPLE = TOP / 'README.md', TOP / 'examples' / 'bracket.py'
LIBRARY = TOP / 'bindings' / 'out' / 'libgwb.so'
STAND = (2, -3, 2)
_PIECE = re.compile(r'^```(python|text)\n(.*?)^```$|!\[[^]]*\]\(tutorial/([\w.]+)\)', re.MULTILINE | re.DOTALL)
_PRINTED = re.compile(r'print\(.*\)\s+# (.*)')


@contextmanager
def within(folder: str) -> Iterator[None]:
    """Works in a folder, and then where it was before."""
    before = os.getcwd()
    os.chdir(folder)
    try:
        yield
    finally:
        os.chdir(before)


class Piece(NamedTuple):
    """A block or an image of the page: its kind, `python`, `text` or `image`; its text or the image's name; and where its text stands."""

    kind: str
    text: str
    span: Tuple[int, int]


def pieces(page: str) -> List[Piece]:
    """The blocks and images in their order."""
    return [Piece(found[1] or 'image', found[3] or found[2], found.span(2 if found[1] else 3)) for found in _PIECE.finditer(page)]


class Part:
    """A part as it is built: the names of its program, and the script that its bench had before the last block."""

    def __init__(self) -> None:
        self._names: Dict[str, Any] = {}
        self._before = ''

    def run(self, code: str) -> str:
        """Runs a block, and says what is wrong with what it prints, or nothing."""
        self._before = self._script()
        printed = io.StringIO()
        with redirect_stdout(printed):
            exec(compile(code, 'a page', 'exec'), self._names)
        wanted = _PRINTED.findall(code)
        found = printed.getvalue().splitlines()
        return '' if found == wanted else f'{code.splitlines()[0]!r} ..: printed {found}, not {wanted}'

    def sent(self) -> str:
        """The commands that the last block sent."""
        script = self._script()
        return script[len(self._before):] if script.startswith(self._before) else script

    def picture(self) -> str:
        """The model that is held, drawn."""
        (reply,) = split_replies(''.join(f'{line}\n' for line in self._names['bench'].ask('list').lines).encode())
        return svg_text(model_of(reply), STAND)

    def close(self) -> None:
        """Ends the part's session."""
        if 'bench' in self._names:
            self._names['bench'].close()

    def _script(self) -> str:
        bench = self._names.get('bench')
        return bench.script() if bench else ''


def compared(page: str) -> Iterator[Tuple[Piece, str, str]]:
    """Each piece of the page with what is wrong with it, or nothing, and with the text that is to stand there or in the image's file."""
    part: Optional[Part] = None
    for piece in pieces(page):
        if piece.kind == 'python' and piece.text.startswith('from gwb import'):
            if part:
                part.close()
            part = Part()
        assert part
        if piece.kind == 'python':
            yield piece, part.run(piece.text), piece.text
        elif piece.kind == 'text':
            sent = part.sent()
            yield piece, '' if sent == piece.text else f'not what was sent: {piece.text.splitlines()[:1]}', sent
        else:
            drawn, path = part.picture(), PICTURES / piece.text
            yield piece, '' if path.is_file() and path.read_text() == drawn else f'{piece.text} is not the picture that is drawn', drawn
    if part:
        part.close()


def example() -> Iterator[str]:
    """What is wrong with the part that README.md shows, or nothing: with its text, with what it prints, and with its picture."""
    page, code, part = README.read_text(), EXAMPLE.read_text(), Part()
    yield '' if f'```python\n{code}```' in page else f'{README.name} does not show {EXAMPLE.name}'
    yield part.run(code)
    shown = re.search(r'<img src="docs/tutorial/([\w.]+)"', page)
    yield '' if shown and (PICTURES / shown[1]).read_text() == part.picture() else f'{README.name} shows another part than {EXAMPLE.name} makes'
    part.close()


def written(page: str, found: List[Tuple[Piece, str, str]]) -> str:
    """The page with the commands as they are to be; the images are written."""
    PICTURES.mkdir(exist_ok=True)
    for piece, _, text in reversed(found):
        if piece.kind == 'image':
            (PICTURES / piece.text).write_text(text)
        else:
            page = page[:piece.span[0]] + text + page[piece.span[1]:]
    return page


def spare(found: List[Tuple[Piece, str, str]]) -> Iterator[str]:
    """The files beside the pages' images that none of them shows."""
    shown = {piece.text for piece, _, _ in found if piece.kind == 'image'}
    yield from (f'docs/tutorial/{path.name}: no page shows it' for path in sorted(PICTURES.glob('*')) if path.name not in shown)


def main() -> int:
    given = command_line(__doc__, '--write', library=LIBRARY)
    os.environ['GWB'] = str(there(given.library, 'library'))
    for page in PAGES if given.write else ():
        page.write_text(written(page.read_text(), tried(page)))
    found = [piece for page in PAGES for piece in tried(page)]
    with tempfile.TemporaryDirectory() as folder, within(folder):
        first = list(example())
    return told([*first, *(why for _, why, _ in found), *spare(found)])


def tried(page: Path) -> List[Tuple[Piece, str, str]]:
    """All pieces of a page, compared, in a folder where exported files may stand."""
    with tempfile.TemporaryDirectory() as folder, within(folder):
        return list(compared(page.read_text()))


if __name__ == '__main__':
    sys.exit(main())
