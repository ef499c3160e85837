"""Reads XML element by element, so that a large file takes little memory. Entities and document types are refused."""

from typing import IO, Callable, Dict, List, Optional
from xml.parsers import expat

from .parts import NotAMesh

Attributes = Dict[str, str]
_PIECE = 1 << 16
_MOST_PIECES, _DEEPEST, _LONGEST = 64, 100, 4_000_000


class XmlReader:
    """Calls what is wanted at the beginning and the end of elements, by their names without namespaces."""

    def __init__(self, begin: Callable[[str, Attributes], None], end: Optional[Callable[[str, str], None]], most: int) -> None:
        """`end` is given the text of an element without others. Files of more than `most` bytes are refused."""
        self._begin, self._end, self._most = begin, end, most
        self._text: List[str] = []
        self._depth, self._since = 0, 0
        self._parser = expat.ParserCreate(namespace_separator=' ')
        self._parser.buffer_text = True
        self._parser.StartElementHandler = self._start_element
        self._parser.EndElementHandler = self._end_element
        self._parser.CharacterDataHandler = self._take_text
        self._parser.StartDoctypeDeclHandler = self._refuse_doctype

    def read(self, file: IO[bytes]) -> None:
        """Reads a file to its end. Raises NotAMesh where it is no XML, or too long."""
        left = self._most
        try:
            for piece in iter(lambda: file.read(_PIECE), b''):
                left -= len(piece)
                self._since += len(piece)
                if left < 0 or self._since > _LONGEST:
                    raise NotAMesh(f'it has more than {self._most if left < 0 else _LONGEST:,} bytes' + (' in one tag' if left >= 0 else ''))
                self._parser.Parse(piece, False)
            self._parser.Parse(b'', True)
        except expat.ExpatError as error:
            raise NotAMesh(f'it is no XML: {expat.errors.messages[error.code]} in line {error.lineno}') from None

    def _start_element(self, name: str, attributes: Attributes) -> None:
        self._text, self._since = [], 0
        self._depth += 1
        if self._depth > _DEEPEST:
            raise NotAMesh(f'its elements are nested more than {_DEEPEST} deep')
        self._begin(name.rpartition(' ')[2], attributes)

    def _end_element(self, name: str) -> None:
        self._depth -= 1
        self._since = 0
        if self._end is not None:
            self._end(name.rpartition(' ')[2], ''.join(self._text))
            self._text = []

    def _take_text(self, text: str) -> None:
        self._since = 0
        if len(self._text) < _MOST_PIECES and not text.isspace():
            self._text.append(text)

    @staticmethod
    def _refuse_doctype(*_: object) -> None:
        raise NotAMesh('it has a document type, which is not read')
