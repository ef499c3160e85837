#!/usr/bin/env python3
"""Each sentence of MODEL, PROOFS, the README, bindings/README.md and gwb.h has its theorem or its test, or is listed as one that has none.

    tests/sentences.py [--write] [--index]

A theorem is a definition of crates/*/specs or a public function of crates/*/src, by its contract. A sentence has those that it names between backticks,
but calls of C (gwb_..); the last one before a quotation also those that are quoted. It has besides those of its paragraph (an item of a list, a table) in
tests/sentences.txt, where each paragraph stands in which a sentence has none of its own, and any other that needs more than it names. There a line has
how many sentences the paragraph has, its theorems and, behind `<`, its first words; in the place of theorems stands `explains` where the kernel is claimed
nothing of that isn't said elsewhere, and `tested`, or the name of a file of tests/, where a claim is tested and not proved. In gwb.h a comment is a
paragraph, known by the call or type below it, and what stands beside the members of a type belongs to it. So a sentence that is added or taken away
shows. --write lists the paragraphs anew, new ones with `?`, which is wrong as long as it stands there; --index prints each sentence with the files and
lines of its theorems. The last line counts the paragraphs.
"""
import re
import sys
from dataclasses import dataclass
from pathlib import Path
from typing import Dict, Iterator, List, Tuple

from counts import TOP, command_line, told

HEADER = 'bindings/include/gwb.h'
PAGES = ('docs/MODEL.md', 'docs/PROOFS.md', 'README.md', 'bindings/README.md', HEADER)
LISTED = TOP / 'tests' / 'sentences.txt'
NO_THEOREM = ('explains', 'tested')
# A paragraph is known by so many of its first words.
KNOWN_BY = 6
_DEFINED = re.compile(r'^(?: *(?:abbrev|unfoldable) pub |pub (?:record |data )?)([^\s:(){}]+) ')
_FUNCTION = re.compile(r'^ *pub (?:extern "C" )?fn (\w+)')
_METHODS = re.compile(r'^impl(?:<.*?>)? (?:\w+(?:<.*?>)? for )?(\w+)')
_NAMED = re.compile(r'`([A-Za-z]\w*(?:(?:::|\.)\w+)*)`')
_BEGINS_SENTENCE = re.compile(r'(?<=[.:?])\s+(?=[A-Z`*(\[“"@]|- [A-Z])')
_COMMENT = re.compile(r'^( *)[^\n]*?(/\*\*?<?) (.*?)\*/', re.MULTILINE | re.DOTALL)
_DECLARED = re.compile(r'^(?:#define (GWB_(?!NOEXCEPT|NODISCARD)\w+)|typedef (?:struct |bool \(\*)(gwb\w*)|enum (gwb_\w+) \{|\w[^\n/]*?\b(gwb_\w+)\()', re.MULTILINE)
Places = Dict[str, List[str]]


@dataclass
class Paragraph:
    """A paragraph, an item or a table, with the names that the quotation below it quotes; or a comment, with the name of what is declared below it."""

    page: str
    text: str
    quoted: Tuple[str, ...] = ()
    below: str = ''

    @property
    def key(self) -> str:
        """Its first words, without signs of the page; of a comment the name of what stands below it."""
        if self.below:
            return f'gwb.h: {self.below}'
        return f'{self.page.removeprefix("docs/")[:-3]}: ' + ' '.join(re.sub(r'[*|`]|^(?:- |\d+\. )', ' ', self.text).split()[:KNOWN_BY])

    @property
    def sentences(self) -> List[str]:
        """Its sentences, of a table the rows."""
        return self.text.split('\n') if self.text.startswith('|') else _BEGINS_SENTENCE.split(re.sub(r'^\d+\. ', '', self.text))


def defined(path: Path) -> Iterator[Tuple[str, int]]:
    """The definitions of a file of specs/ and the public functions of one of src/, each with its line."""
    of = ''
    for at, line in enumerate(path.read_text().split('\n'), 1):
        methods = _METHODS.match(line)
        if methods or line == '}':
            of = methods.group(1) + '::' if methods else ''
        found = (_DEFINED if path.suffix == '.antt' else _FUNCTION).match(line)
        if found:
            yield found.group(1), at
            if of:
                yield of + found.group(1), at


def places() -> Places:
    """Where each name is defined. With its crate before it, as in `shapes/split_model`, it is that crate's: its function, where it has one."""
    found: Places = {}
    functions: Places = {}
    for part, ending in (('specs', 'antt'), ('src', 'rt')):
        for path in sorted((TOP / 'crates').glob(f'*/{part}/**/*.{ending}')):
            crate = path.relative_to(TOP / 'crates').parts[0]
            for name, line in defined(path):
                place = f'{path.relative_to(TOP)}:{line}'
                found.setdefault(name, []).append(place)
                (functions if part == 'src' else found).setdefault(f'{crate}/{name}', []).append(place)
    return {**found, **functions}


def paragraphs(page: str) -> List[Paragraph]:
    """The paragraphs of a page: headings, drawings and what is quoted are none."""
    found: List[Paragraph] = []
    is_open = is_quoted = False
    for line in (TOP / page).read_text().split('\n'):
        if line.startswith('```'):
            is_open, is_quoted = False, not is_quoted
            if is_quoted and found:
                found[-1].quoted += tuple(word for word in line.split()[1:] if '/' not in word)
        elif is_quoted or not line.strip() or line.startswith(('#', '    ', '<', '![')) or re.match(r'\|[-|]+$', line):
            is_open = is_open and line.startswith('|')
        elif is_open and not re.match(r'- |\d+\. ', line):
            found[-1].text += ('\n' if line.startswith('|') else ' ') + line.strip()
        else:
            found.append(Paragraph(page, line.strip()))
            is_open = True
    return found


def comments(header: str) -> List[Paragraph]:
    """The comments of a header. One that is indented, or stands beside a member, belongs to the type above it."""
    text = (TOP / header).read_text()
    found: List[Paragraph] = []
    for comment in _COMMENT.finditer(text):
        indent, begin, said = comment.groups()
        words = ' '.join(re.sub(r'^ *\* ?', '', line).strip() for line in said.split('\n')).strip()
        if words.startswith(('@cond', '@endcond')):
            continue
        declared = _DECLARED.search(text, comment.end())
        below = next(name for name in declared.groups() if name) if declared else ''
        if found and (indent or begin.endswith('<') or below == found[-1].below):
            found[-1].text += f'\n{words}'
        else:
            found.append(Paragraph(header, words, (), below))
    return found


def said_in(page: str) -> List[Paragraph]:
    """What a page says: its paragraphs, or its comments."""
    return comments(page) if page == HEADER else paragraphs(page)


def named(sentence: str, known: Places) -> List[str]:
    """The theorems that a sentence names: names of more than one word, as `MarksLeadBack`, `Session::undo`, `make_all`, that aren't calls of C."""
    words = (word.replace('.', '::') for word in _NAMED.findall(sentence))
    return [word for word in words if word in known and re.search(r'_|::|[a-z][A-Z]|^[A-Z][a-z]+$', word) and not word.startswith('gwb_')]


def own(paragraph: Paragraph, known: Places) -> List[List[str]]:
    """Of each sentence the theorems that it has of its own."""
    found = [named(sentence, known) for sentence in paragraph.sentences]
    found[-1] += [name for name in paragraph.quoted if name in known]
    return found


def listed() -> Dict[str, Tuple[int, List[str]]]:
    """What tests/sentences.txt says: of each paragraph, by its first words, how many sentences it has, and the theorems."""
    rows: Dict[str, Tuple[int, List[str]]] = {}
    for line in LISTED.read_text().splitlines() if LISTED.exists() else []:
        names, _, key = line.partition(' < ')
        count, *theorems = names.split()
        rows[key] = int(count), theorems
    return rows


def needed(known: Places) -> Dict[str, Paragraph]:
    """The paragraphs of which some sentence has no theorem of its own, and those that are listed all the same."""
    found: Dict[str, Paragraph] = {}
    rows = listed()
    for paragraph in (it for page in PAGES for it in said_in(page)):
        if paragraph.key in rows or not all(own(paragraph, known)):
            assert paragraph.key not in found, f'two paragraphs begin {paragraph.key!r}'
            found[paragraph.key] = paragraph
    return found


def is_test(name: str) -> bool:
    """Whether a file of tests/ has this name."""
    return '.' in name and (TOP / 'tests' / name).is_file()


def findings(wanted: Dict[str, Paragraph], known: Places) -> Iterator[str]:
    """Of each paragraph what is wrong, or nothing."""
    rows = listed()
    for key, paragraph in wanted.items():
        count, theorems = rows.pop(key, (0, []))
        unknown = [name for name in theorems if len(known.get(name, [])) != 1 and name not in NO_THEOREM and not is_test(name)]
        if count != len(paragraph.sentences):
            yield f'{key} ..: {len(paragraph.sentences)} sentences, of which {LISTED.name} has {count}: what is their theorem?'
        elif not theorems or unknown:
            yield f'{key} ..: not one theorem is called {" ".join(unknown) or "so"}'
        else:
            yield ''
    yield from (f'{key} ..: no paragraph that needs it begins so' for key in rows)


def write(wanted: Dict[str, Paragraph]) -> None:
    """Lists the paragraphs anew, with the theorems that were listed."""
    rows = listed()
    lines = (f'{len(it.sentences)} {" ".join(rows.get(key, (0, ["?"]))[1])} < {key}\n' for key, it in wanted.items())
    LISTED.write_text(''.join(lines))


def index(known: Places) -> Iterator[str]:
    """Each sentence with its theorems and their places."""
    rows = listed()
    for paragraph in (it for page in PAGES for it in said_in(page)):
        for sentence, names in zip(paragraph.sentences, own(paragraph, known)):
            yield f'{paragraph.page}: {sentence}'
            for name in dict.fromkeys([*names, *rows.get(paragraph.key, (0, [] if names else ['?']))[1]]):
                yield f'    {name} {" ".join(known.get(name, []))}'


def main() -> int:
    given = command_line(__doc__, '--write', '--index')
    known = places()
    wanted = needed(known)
    if given.write:
        write(wanted)
    if given.index:
        print(*index(known), sep='\n')
    return told(findings(wanted, known))


if __name__ == '__main__':
    sys.exit(main())
