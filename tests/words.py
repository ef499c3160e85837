#!/usr/bin/env python3
"""Counts the words of the pages, and looks whether what they count and name is so.

    tests/words.py

The README has 1,000 words at most, and all pages together, without their blocks of code, fenced or indented, 37,800: README.md and each page in docs,
bench, bindings, companions and tests, but not CHANGELOG.md, which grows with each release, nor docs/STATEMENTS.md, which is made from the sources. A word
is what stands between blanks. The cell of a table has fewer than 200 characters. Each link leads to a file that is there, and to a heading of it; the
must-fail edits, and those that turn no code, are as many as docs/WRONG_BODIES.md says, and those that pages name are there; the crates of docs/DESIGN.md
are those of crates.txt. The last line counts.
"""
import re
import sys
from pathlib import Path
from typing import Iterator, List, Set

from counts import TOP, command_line

README_WORDS = 1_000
ALL_WORDS = 37_800
CELL = 200
_LINK = re.compile(r'\]\(([^)\s]+)\)')
_EDIT = re.compile(r'`([a-z_]+/[a-z_0-9]+)`')
_CODE = re.compile(r'^```.*?^```$|(?<=\n\n)(?: {4}[^\n]*\n|\n(?= {4}))+', re.MULTILINE | re.DOTALL)


def pages() -> List[Path]:
    """The pages whose words are counted."""
    return [TOP / 'README.md', *(path for path in sorted(TOP.glob('*/*.md')) if path != TOP / 'docs' / 'STATEMENTS.md')]


def name_of(path: Path) -> str:
    """A file as the complaints name it."""
    return str(path.relative_to(TOP))


def words(text: str) -> int:
    """How many words a text has."""
    return len(text.split())


def too_many(name: str, found: int, most: int) -> str:
    """What is wrong with so many words, or nothing."""
    return f'{name}: {found:,} words, and not {most:,} at most' if found > most else ''


def prose(path: Path) -> str:
    """A page without its blocks of code, be they fenced or indented."""
    return _CODE.sub('', path.read_text())


def long_cells(path: Path) -> str:
    """What is wrong with the cells of a page's tables, or nothing."""
    rows = [line for line in prose(path).splitlines() if line.startswith('|')]
    cells = [cell.strip() for row in rows for cell in row.strip('|').split(' | ')]
    long = [cell for cell in cells if len(cell) >= CELL]
    return f'{name_of(path)}: {len(long)} cells of {CELL} characters and more, the first {long[0][:60]!r}' if long else ''


def anchors(path: Path) -> Set[str]:
    """The headings of a page as links name them."""
    headings = re.findall(r'^#+ (.*)$', prose(path), re.MULTILINE)
    return {re.sub(r'[^\w\- ]', '', heading.lower()).strip().replace(' ', '-') for heading in headings}


def leads_on(path: Path, link: str) -> bool:
    """Whether a link of a page leads to a file, and to a heading of it where it names one."""
    file, _, heading = link.partition('#')
    target = (path.parent / file).resolve() if file else path
    return target.exists() and (not heading or heading in anchors(target))


def broken_links(path: Path) -> str:
    """What is wrong with the links of a page, or nothing."""
    links = [link for link in _LINK.findall(path.read_text()) if '://' not in link]
    broken = [link for link in links if not leads_on(path, link)]
    return f'{name_of(path)}: nothing at {", ".join(broken)}' if broken else ''


def edits() -> Set[str]:
    """The must-fail edits, as pages name them."""
    return {f'{path.parent.parent.name}/{path.stem}' for path in TOP.glob('crates/*/must-fail/*.edit')}


def missing_edits(path: Path) -> str:
    """What is wrong with the edits that a page names, or nothing."""
    crates = {edit.partition('/')[0] for edit in edits()}
    named = [edit for edit in _EDIT.findall(path.read_text()) if edit.partition('/')[0] in crates]
    missing = sorted({edit for edit in named if edit not in edits() and not (TOP / 'crates' / edit).exists()})
    return f'{name_of(path)}: no edit {", ".join(missing)}' if missing else ''


def codeless_edits() -> Set[str]:
    """The must-fail edits that turn no code, but a statement alone."""
    return {edit for edit in edits() if 'file: src/' not in (TOP / 'crates' / edit.replace('/', '/must-fail/')).with_suffix('.edit').read_text()}


def counted_edits() -> Iterator[str]:
    """What is wrong with how many edits docs/WRONG_BODIES.md says there are, and how many of them turn no code: one text for each, or nothing."""
    page = TOP / 'docs' / 'WRONG_BODIES.md'
    for said, there in (r'There are (\d+)\.', edits()), (r'Of them (\d+) turn a statement alone', codeless_edits()):
        number = re.search(said, page.read_text())
        right = number and int(number.group(1)) == len(there)
        yield '' if right else f'{name_of(page)}: there are {len(there)} edits where it says {said!r}'


def drawn_crates() -> str:
    """What is wrong with the crates in the map of docs/DESIGN.md, or nothing."""
    wanted = set(re.findall(r'^([a-z]\w*)(?: staticlib)?:', (TOP / 'crates.txt').read_text(), re.MULTILINE))
    drawn = set(re.findall(r'^ │ {3}([a-z_]+) {2,}', (TOP / 'docs' / 'DESIGN.md').read_text(), re.MULTILINE))
    return f'docs/DESIGN.md: its map and crates.txt differ in {", ".join(sorted(wanted ^ drawn))}' if wanted ^ drawn else ''


def findings() -> Iterator[str]:
    """For each comparison what is wrong, or nothing."""
    yield too_many('README.md', words((TOP / 'README.md').read_text()), README_WORDS)
    yield too_many('all pages', sum(words(prose(path)) for path in pages()), ALL_WORDS)
    for path in pages():
        yield from (long_cells(path), broken_links(path), missing_edits(path))
    yield from counted_edits()
    yield drawn_crates()


def main() -> int:
    command_line(__doc__)
    found = list(findings())
    wrong = [why for why in found if why]
    print(*wrong, f'{len(found)} compared, {len(wrong)} wrong', sep='\n')
    return 1 if wrong else 0


if __name__ == '__main__':
    sys.exit(main())
