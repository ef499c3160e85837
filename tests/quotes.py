#!/usr/bin/env python3
"""Compares what docs/PROOFS.md and docs/KERNEL.md quote with the sources that it stands in.

    tests/quotes.py [--write]        --write puts what the sources say into the pages

A quotation is a block whose fence says where it is from, as ```rust low_euler/src/applying.rt apply``` (a function's head with its whole
contract, each `requires` too; by `apply.ready` that clause of what it ensures alone) or ```antt euler_laws/specs/Laws.antt InversesUndo``` (the clauses of
definitions, without their types, and whole records and data types) or ```lemma lattice/proofs/Crossings.antt opposite_turned``` (with its type); more names
follow, and more files with names of theirs. ```edit lattice/must-fail/EDIT.edit``` is a whole file. A block of `text` quotes nothing, and one of `diff` is tried
by tests/worked_change.py; another with no such words is counted as wrong. A line that is too long for a page is broken there. The last line counts the quotations.
"""
import re
import sys
from pathlib import Path
from typing import Iterator, List, Tuple

from counts import TOP, command_line, told

PAGES = (TOP / 'docs' / 'PROOFS.md', TOP / 'docs' / 'KERNEL.md')
# No line of a page is longer.
WIDTH = 160
# Where a longer one is broken at the earliest.
INDENT = 20
BLOCK = re.compile(r'^```([^\n]*)\n(.*?)^```$', re.MULTILINE | re.DOTALL)


class Missing(Exception):
    """A quotation of what isn't there."""


def head_of(lines: List[str], name: str) -> List[str]:
    """The head of the Rust function of this name, and its contract, from the margin on; of `FUNCTION.CLAUSE` that clause alone."""
    function, _, clause = name.partition('.')
    for at, line in enumerate(lines):
        if re.match(rf'\s*(pub )?(extern "C" )?fn {function}\b', line):
            margin = line[:len(line) - len(line.lstrip())]
            ends = next(to for to in range(at, len(lines)) if lines[to] in (margin + '{', margin + '{}'))
            head = [text[len(margin):] for text in lines[at:ends]]
            found = [text.strip() for text in head if text.startswith(f'    ensures {clause} {{')] if clause else head
            if found:
                return found
    raise Missing(f'no function {name}')


def clauses_of(lines: List[str], name: str) -> List[str]:
    """The clauses of the definition of this name."""
    found: List[str] = []
    goes_on = False
    for line in (line for line in lines if not line.startswith('--')):
        goes_on = line.startswith((f'{name} ', f'pub record {name} ', f'pub data {name} ')) or (goes_on and line.startswith(' '))
        if goes_on:
            found.append(line)
    if not found:
        raise Missing(f'no definition {name}')
    return found


def lemma_of(lines: List[str], name: str) -> List[str]:
    """The type and the proof of the lemma of this name."""
    return [line.removeprefix('pub ') for line in lines if line.startswith(f'pub {name} : ')] + clauses_of(lines, name)


def lines_of(path: Path) -> List[str]:
    """The lines of a source."""
    if not path.is_file():
        raise Missing(f'no file {path.relative_to(TOP)}')
    return path.read_text().splitlines()


def depth_at(line: str, at: int) -> int:
    """In how many brackets this place of a line stands."""
    return line.count('(', 0, at) - line.count(')', 0, at)


def broken(line: str) -> List[str]:
    """A line of code in lines of the page: broken in as few brackets as may be, before a sign, of which an equation's comes last, or else at a blank; in a text
    behind a newline's."""
    if len(line) <= WIDTH:
        return [line]
    indent = line[:-len(line.lstrip())] + '    ' * (line.lstrip()[0] not in '→×⊎≡')
    blanks = [at for at in range(INDENT, WIDTH) if line[at] == ' ' and line.count('"', 0, at) % 2 == 0]
    if blanks:
        at = min(blanks, key=lambda at: (depth_at(line, at), line[at + 1] not in '→×⊎', line[at + 1] != '≡', -at))
        return [line[:at], *broken(indent + line[at + 1:])]
    at = line.rindex('\\n', INDENT, WIDTH - 1)
    return [line[:at + 2] + '\\', *broken(indent + line[at + 2:])]


def quoted(words: List[str]) -> str:
    """What the sources say of the names."""
    kind, *places = words
    if kind == 'edit':
        return ''.join(line + '\n' for line in lines_of(TOP / 'crates' / places[0]))
    take = {'rust': head_of, 'antt': clauses_of, 'lemma': lemma_of}[kind]
    lines: List[str] = []
    found: List[str] = []
    for word in places:
        if '/' in word:
            lines = lines_of(TOP / 'crates' / word)
        else:
            found += take(lines, word)
    return ''.join(part + '\n' for text in found for part in broken(text))


def quotations(page: str) -> Iterator[Tuple[str, str, str]]:
    """Of each block its fence's words, its text, and what is to stand there."""
    for match in BLOCK.finditer(page):
        words, text = match.groups()
        if words in ('text', 'diff'):
            continue
        if len(words.split()) < (2 if words.startswith('edit ') else 3) or words.split()[0] not in ('rust', 'antt', 'lemma', 'edit'):
            raise Missing(f'a block that begins {text.splitlines()[0]!r} does not say where it is from')
        yield words, text, quoted(words.split())


def wrong(page: Path, write: bool) -> Iterator[str]:
    """Of each quotation of a page what is wrong with it, or nothing; they are copied anew first where that is asked for."""
    text = page.read_text()
    try:
        found = list(quotations(text))
    except Missing as error:
        yield f'{page.name}: {error}'
        return
    if write:
        for words, old, wanted in found:
            text = text.replace(f'```{words}\n{old}```', f'```{words}\n{wanted}```')
        page.write_text(text)
        found = list(quotations(text))
    yield from ('' if old == wanted else f'{page.name}: {words}: the source says something else' for words, old, wanted in found)


def main() -> int:
    given = command_line(__doc__, '--write')
    return told(it for page in PAGES for it in wrong(page, given.write))


if __name__ == '__main__':
    sys.exit(main())
