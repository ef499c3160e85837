#!/usr/bin/env python3
"""Makes the manual pages and the completions of shells, for `make install`: gwb.1 of VERSION, the help text of gwb (crates/command_line/src/words.rt) and
docs/SCRIPT.md; those of the companions, and the completions of bash, fish and zsh, of the tables of which `--help` is made. So they are stored nowhere.

    .ci/manual_pages.py MAN BASH FISH ZSH       the folders into which they go
"""
import argparse
import re
import textwrap
from pathlib import Path
from typing import Dict, Iterator, List, Sequence

import companion_pages
from companion_pages import Word
from crates import TOP

DATE = '2026-11-28'
# The sections of the page, by the headings of docs/SCRIPT.md that they are made from.
SECTIONS = {'Words': 'WORDS', 'Commands': 'COMMANDS', 'Fresh numbers': 'FRESH NUMBERS', 'Replies': 'REPLIES', 'Faults': 'FAULTS',
            'Refusals': 'REFUSALS', 'Limits': 'LIMITS', 'Statuses': 'EXIT STATUS'}
_MARKED = re.compile(r'`([^`]+)`|\*(\w[^*]*)\*|\[([^]]+)\]\([^)]*\)')


def plain(text: str) -> str:
    """Text as roff takes it."""
    for sign, escape in (('\\', '\\e'), ('~', '\\(ti'), ('^', '\\(ha'), ('-', '\\-')):
        text = text.replace(sign, escape)
    return text


def inline(text: str) -> str:
    """Text with code in bold and what is stressed in italics; a link is its words."""
    pieces: List[str] = []
    end = 0
    for found in _MARKED.finditer(text):
        code, stressed, link = found.groups()
        marked = f'\\fB{plain(code)}\\fR' if code else f'\\fI{plain(stressed)}\\fR' if stressed else plain(link)
        pieces += [plain(text[end:found.start()]), marked]
        end = found.end()
    return ''.join(pieces) + plain(text[end:])


def filled(text: str) -> str:
    """Text in lines of which none is a request."""
    lines = textwrap.wrap(' '.join(text.split()), 78, break_long_words=False, break_on_hyphens=False)
    return '\n'.join('\\&' + line if line.startswith(('.', "'")) else line for line in lines)


def table(rows: List[str]) -> Iterator[str]:
    """The rows of a table: the first cell stands before the others, each of which is named but the first of them."""
    heads, _, *cells = [[cell.strip() for cell in row.strip('|').split(' | ')] for row in rows]
    for first, *others in cells:
        told = [inline(others[0]), *(f'{inline(head)}: {inline(cell)}' for head, cell in zip(heads[2:], others[1:]) if cell)]
        yield from ('.TP', inline(first), filled('. '.join(told)))


def paragraphs(section: str) -> Iterator[str]:
    """The paragraphs, lists, tables, headings and scripts of a section in roff, without its pictures and what leads to them."""
    parts = re.split(r'\n{2,}', section.strip())
    for part, after in zip(parts, [*parts[1:], '']):
        if part.startswith('|'):
            yield from table(part.split('\n'))
        elif part.startswith('###'):
            yield f'.SS {inline(part.lstrip("# "))}'
        elif part.startswith('- '):
            for item in re.split(r'^- ', part, flags=re.MULTILINE)[1:]:
                yield from ('.IP \\(bu 2', filled(inline(item)))
        elif part.startswith('```'):
            yield from ('.PP', '.EX', *map(plain, part.split('\n')[1:-1]), '.EE')
        elif not part.startswith('![') and not (after.startswith('![') and part.endswith(':')):
            yield from ('.PP', filled(inline(part)))


def sections() -> Dict[str, str]:
    """The text of each section of docs/SCRIPT.md by its heading."""
    _, *parts = re.split(r'^## ', (TOP / 'docs' / 'SCRIPT.md').read_text(), flags=re.MULTILINE)
    return dict(part.split('\n', 1) for part in parts)


def options() -> List[Word]:
    """The words that gwb takes, of which the help text says what they do."""
    stop, file = re.findall(r'\.help\("(.*)"\)', (TOP / 'crates' / 'command_line' / 'src' / 'words.rt').read_text())
    return [Word(('--stop',), '', stop), Word((), 'FILE', file), Word(('-h', '--help'), '', 'Print a summary of this page'),
            Word(('-V', '--version'), '', 'Print the version')]


def manual() -> str:
    """The manual page."""
    source = (TOP / 'crates' / 'command_line' / 'src' / 'words.rt').read_text()
    about = re.search(r'ABOUT: &str =\s*"The Geometric WorkBench: (.*)";', source).group(1)
    example = re.search(r'^Example:\n +(.*)";$', source, re.MULTILINE).group(1).replace('\\\\', '\\')
    found = sections()
    lines = [f'.TH GWB 1 "{DATE}" "gwb {(TOP / "VERSION").read_text().strip()}" "User Commands"',
             '.\\" Made by make install from the help text and docs/SCRIPT.md.',
             '.SH NAME', 'gwb \\- the Geometric WorkBench, a modeller of solids',
             '.SH SYNOPSIS', '.B gwb', '[\\fB\\-\\-stop\\fR] [\\fIFILE\\fR]',
             '.SH DESCRIPTION', filled(f'\\fBgwb\\fR {inline(about)}.'), *description(),
             '.SH OPTIONS', *(line for word in options() for line in ('.TP', inline(f'`{", ".join(word.names) or word.takes}`'), filled(f'{inline(word.told)}.')))]
    for heading, name in SECTIONS.items():
        lines += [f'.SH {name}', *paragraphs(found[heading])]
    beside = ', '.join(f'\\fB{plain(name)}\\fR' for name in companions())
    lines += ['.SH EXAMPLES', 'A wire of one edge is made and listed:', '.PP', '.EX', plain(example), '.EE', '.SH FILES', '.TP', '.I share/doc/gwb', 'below the folder that has bin/gwb: the pages that are named here, and examples.', '.SH SEE ALSO',
              filled(f'The companions, which read what gwb writes, and say with \\fB\\-\\-help\\fR what they do: {beside}.')]
    return tidy(lines)


def description() -> Iterator[str]:
    """How lines are read: the paragraphs above the first section of docs/SCRIPT.md, but that of how the program is called."""
    lead = (TOP / 'docs' / 'SCRIPT.md').read_text().split('\n## ')[0].split('\n', 1)[1]
    kept = [part for part in lead.split('\n\n') if part.strip().startswith(('A script is', 'Words are'))]
    return paragraphs('\n\n'.join(kept))


def companions() -> List[str]:
    """The names of the companions."""
    return sorted(path.name for path in (TOP / 'companions').glob('gwb-*'))


def tidy(lines: List[str]) -> str:
    """The lines as a file; a heading needs no paragraph after it."""
    kept = [text for before, text in zip(['', *lines], lines) if not (text == '.PP' and before.startswith(('.SH', '.SS')))]
    return '\n'.join(text.rstrip() for text in kept) + '\n'


def made(man: Path, bash: Path, fish: Path, zsh: Path) -> Dict[Path, str]:
    """The files that are made in these folders, and what is in them."""
    pages = {man / 'gwb.1': manual()}
    for name in companions():
        head = f'.TH {plain(name.upper())} 1 "{DATE}" "gwb {(TOP / "VERSION").read_text().strip()}" "User Commands"'
        pages[man / f'{name}.1'] = companion_pages.manual(companion_pages.companion(name), head, plain, filled)
    return {**pages, **dict(zip((bash / 'gwb', fish / 'gwb.fish', zsh / '_gwb'), companion_pages.completions(options())))}


def write(folders: Sequence[Path]) -> None:
    """Writes them."""
    for path, text in made(*folders).items():
        path.parent.mkdir(parents=True, exist_ok=True)
        path.write_text(text, encoding='utf-8')
        path.chmod(0o644)


def main() -> None:
    """Writes them where the command line says."""
    parser = argparse.ArgumentParser(description=__doc__, formatter_class=argparse.RawDescriptionHelpFormatter, allow_abbrev=False)
    for name in ('man', 'bash', 'fish', 'zsh'):
        parser.add_argument(name, metavar=name.upper(), type=Path)
    write(list(vars(parser.parse_args()).values()))


if __name__ == '__main__':
    main()
