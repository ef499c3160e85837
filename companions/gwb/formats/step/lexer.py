"""The entities of a STEP file (ISO 10303-21): split into statements in one pass, and parsed where they are asked for."""

import re
from array import array
from bisect import bisect_left
from typing import Any, Dict, Iterator, List, NamedTuple, Sequence

from ..parts import NotAMesh

_MARK = re.compile(r"[;']|/\*")
# A statement without comments, as most are.
_PLAIN = re.compile(r"\s*#([0-9]{1,15})\s*=\s*(\w*)[^;'/]*(?:'[^']*'[^;'/]*)*;")
_HEAD = re.compile(r'\s*#([0-9]{1,15})\s*=\s*(\w*)')
_TOKEN = re.compile(r"'(?:[^']|'')*'|[(),]|[^\s(),']+")
_REFERENCE = re.compile(r'#[0-9]{1,15}')
_COMMENT = re.compile(r"('[^']*')|/\*.*?\*/", re.S)
MOST_ENTITIES = 2_000_000
_HEADER = 100_000


class Entity(NamedTuple):
    """An entity: what it is, and its values: words, references such as `#12`, strings in quotes, and lists of these.

    A complex one, of several kinds, has the kinds as its values' names: kind '' and the dictionary `parts`.
    """

    kind: str
    items: List[Any]
    parts: Dict[str, List[Any]]

    def of(self, kind: str) -> List[Any]:
        """The values of the entity as one of this kind. Raises KeyError where it is none."""
        return self.items if self.kind == kind else self.parts[kind]

    def is_a(self, kind: str) -> bool:
        """Whether it is of this kind, or of several of which this is one."""
        return self.kind == kind or kind in self.parts


class StepFile:
    """A file's entities by their references. Raises NotAMesh where the text is no whole file, or has more than 2,000,000 entities."""

    def __init__(self, text: str) -> None:
        if 'END-ISO-10303-21' not in text:
            raise NotAMesh('this is no STEP file, or it is cut short: END-ISO-10303-21 is missing')
        if text.count(';') > MOST_ENTITIES:
            raise NotAMesh(f'the STEP file has more than {MOST_ENTITIES:,} entities')
        self._text = text
        self.header = text[:_HEADER].partition('DATA;')[0]
        self._table = _Table()
        for statement in _statements(text):
            self._table.put(statement)
        self._table.sort()

    def kind(self, reference: str) -> str:
        """The kind of an entity, '' of a complex one. Raises NotAMesh where it isn't there."""
        return self._table.kind(self._row(reference))

    def kinds(self) -> List[str]:
        """All kinds of plain entities in the file."""
        return [kind for kind in self._table.names if kind]

    def _row(self, reference: str) -> int:
        row = self._table.row(int(reference[1:])) if _REFERENCE.fullmatch(reference) else -1
        if row < 0:
            raise NotAMesh(f'the STEP file has no {reference[:20]}, which it names')
        return row

    def _values(self, row: int) -> str:
        """The text of an entity behind its equals sign, without comments."""
        text = self._text[self._table.starts[row]:self._table.ends[row]]
        if '/*' in text:
            text = _COMMENT.sub(lambda found: found[1] or ' ', text)
        return text.partition('=')[2]

    def at(self, reference: str) -> Entity:
        """The entity of a reference. Raises NotAMesh where it isn't there or its brackets don't match."""
        row = self._row(reference)
        kind, items = self._table.kind(row), _items(self._values(row), reference)
        if kind:
            return Entity(kind, items[1], {})
        return Entity('', [], dict(zip(items[0][::2], items[0][1::2])))

    def of_kinds(self, *kinds: str) -> Iterator[str]:
        """The references of all plain entities of these kinds, by their numbers."""
        return (f'#{self._table.numbers[row]}' for row in self._table.rows_of(kinds))

    def complex_with(self, kind: str) -> Iterator[str]:
        """The references of all complex entities one of whose kinds this is."""
        held = ((f'#{self._table.numbers[row]}', self._values(row)) for row in self._table.rows_of(['']))
        return (reference for reference, text in held if kind in text and self.at(reference).is_a(kind))

    def named_by(self, reference: str) -> List[str]:
        """All references in the values of an entity."""
        return _REFERENCE.findall(self._values(self._row(reference)))


class _Statement(NamedTuple):
    """An entity's number and kind, and where it stands in the text."""

    number: int
    kind: str
    start: int
    end: int


class _Table:
    """Where entities stand in the text, by their numbers: rows of numbers, so that many take little memory."""

    def __init__(self) -> None:
        self.numbers, self.starts, self.ends, self._kinds = array('q'), array('q'), array('q'), array('q')
        self.names: List[str] = []
        self._places: Dict[str, int] = {}

    def put(self, statement: _Statement) -> None:
        """One more entity."""
        if statement.kind not in self._places:
            self._places[statement.kind] = len(self.names)
            self.names.append(statement.kind)
        self.numbers.append(statement.number)
        self.starts.append(statement.start)
        self.ends.append(statement.end)
        self._kinds.append(self._places[statement.kind])

    def sort(self) -> None:
        """Brings the rows in the order of the numbers. Raises NotAMesh where two entities have one number."""
        order = sorted(range(len(self.numbers)), key=self.numbers.__getitem__)
        for name in ('numbers', 'starts', 'ends', '_kinds'):
            held = getattr(self, name)
            setattr(self, name, array('q', (held[row] for row in order)))
        twice = next((one for one, other in zip(self.numbers, self.numbers[1:]) if one == other), None)
        if twice is not None:
            raise NotAMesh(f'the STEP file has two #{twice}')

    def row(self, number: int) -> int:
        """The row of a number, -1 where there is none."""
        place = bisect_left(self.numbers, number)
        return place if place < len(self.numbers) and self.numbers[place] == number else -1

    def kind(self, row: int) -> str:
        """The kind of the entity in a row."""
        return self.names[self._kinds[row]]

    def rows_of(self, kinds: Sequence[str]) -> Iterator[int]:
        """The rows of all entities of these kinds, rising."""
        wanted = {self._places[kind] for kind in kinds if kind in self._places}
        return (row for row, kind in enumerate(self._kinds) if kind in wanted)


def _statements(text: str) -> Iterator[_Statement]:
    """The entities of a text. A semicolon in a string or a comment ends none."""
    place, length = 0, len(text)
    while place < length:
        plain = _PLAIN.match(text, place)
        end = plain.end() if plain else _end(text, place)
        head = plain or _HEAD.match(text, place)
        if head:
            yield _Statement(int(head[1]), head[2].upper(), place, end - 1)
        place = end


def _end(text: str, place: int) -> int:
    """Where the statement that begins here ends, behind its semicolon. Raises NotAMesh at a string or a comment that has no end."""
    while True:
        found = _MARK.search(text, place)
        if not found:
            return len(text)
        mark, place = found[0], found.end()
        if mark == ';':
            return place
        closing = "'" if mark == "'" else '*/'
        place = text.find(closing, place) + len(closing)
        if place < len(closing):
            raise NotAMesh(f'the STEP file has {"a string" if closing != "*/" else "a comment"} that does not end')


def _items(text: str, reference: str) -> List[Any]:
    """The words of a text, those in brackets as lists in lists. Raises NotAMesh where brackets don't match."""
    stack: List[List[Any]] = [[]]
    for token in _TOKEN.findall(text):
        if token == '(':
            stack.append([])
        elif token == ')' and len(stack) > 1:
            done = stack.pop()
            stack[-1].append(done)
        elif token != ',':
            stack[-1].append(token)
    if len(stack) != 1 or not stack[0] or not isinstance(stack[0][-1], list):
        raise NotAMesh(f'the brackets of {reference} in the STEP file do not match')
    return stack[0]


def text_of(word: Any) -> str:
    r"""The text of a string in quotes, '' of anything else. Codes such as `\X2\00FC\X0\` are read, others left as they are."""
    if not isinstance(word, str) or not word.startswith("'"):
        return ''
    text = word[1:-1].replace("''", "'")
    text = re.sub(r'\\X2\\((?:[0-9A-F]{4})*)\\X0\\', lambda code: bytes.fromhex(code[1]).decode('utf-16-be', 'replace'), text)
    text = re.sub(r'\\X\\([0-9A-F]{2})', lambda code: chr(int(code[1], 16)), text)
    return text.replace('\\\\', '\\').strip()


def quoted(text: str) -> str:
    r"""The text as a string in quotes, other letters than those of ASCII as `\X2\00FC\X0\`."""
    plain = ''.join(letter if ' ' <= letter <= '~' else _coded(letter) for letter in text.replace('\\', '\\\\').replace("'", "''"))
    return f"'{plain}'"


def _coded(letter: str) -> str:
    data = letter.encode('utf-16-be', 'replace')
    return ' ' if letter < ' ' else f'\\X2\\{data.hex().upper()}\\X0\\'
