"""Files of text, line by line, without a copy of the whole."""

import io
from typing import Iterator, List, NamedTuple, Tuple

from .parts import NotAMesh

_LONGEST, _MOST = 10_000_000, 6_000_000
_MOST_TEXT = 100_000_000
_MARKS_OF_UTF_16 = (b'\xff\xfe', b'\xfe\xff')
READ_AS_LATIN_1 = 'its text is not in UTF-8 and was read as Latin-1: letters of names may be others'


class Text(NamedTuple):
    """The bytes of a text in UTF-8, and what is to be said of how it was read."""

    data: bytes
    notes: Tuple[str, ...]


def as_utf_8(data: bytes) -> Text:
    """The text in UTF-8; one that isn't is read as Latin-1, in which every byte is a letter. Raises NotAMesh where it is in UTF-16."""
    if data.startswith(_MARKS_OF_UTF_16):
        raise NotAMesh('it is text in UTF-16, which is not read: only UTF-8 and Latin-1 are')
    if data.isascii():
        return Text(data, ())
    try:
        data.decode('utf-8')
    except UnicodeDecodeError:
        return Text(data.decode('latin-1').encode('utf-8'), (READ_AS_LATIN_1,))
    return Text(data, ())


def text_lines(data: bytes) -> Iterator[str]:
    """The lines of a text in UTF-8. Raises NotAMesh at a zero byte, which no text has."""
    lines = io.TextIOWrapper(io.BytesIO(data), encoding='utf-8-sig')
    for number, line in enumerate(iter(lambda: lines.readline(_LONGEST), '')):
        if len(line) == _LONGEST or number == _MOST:
            raise NotAMesh(f'it has more than {_MOST:,} lines, or one of {_LONGEST:,} bytes or more')
        if '\0' in line:
            raise NotAMesh(f'line {number + 1} has bytes that are no text')
        yield line


def words_of_lines(data: bytes) -> Iterator[List[str]]:
    """The words of each line that has some; `#` begins a comment."""
    return (words for words in (line.partition('#')[0].split() for line in text_lines(data)) if words)


def whole_text(data: bytes) -> str:
    """The whole text in UTF-8. Raises NotAMesh where it has more than 100,000,000 bytes."""
    if len(data) > _MOST_TEXT:
        raise NotAMesh(f'it has more than {_MOST_TEXT:,} bytes')
    return data.decode('utf-8-sig')


def numbered_words(data: bytes) -> Iterator[Tuple[int, List[str]]]:
    """The words of each line that has some, with the line's number; `#` begins a comment."""
    lines = ((number, line.partition('#')[0].split()) for number, line in enumerate(text_lines(data), 1))
    return ((number, words) for number, words in lines if words)
