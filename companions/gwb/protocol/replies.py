"""Cuts what gwb writes into replies, and refuses what gwb can't have written."""

import re
from typing import Dict, Iterable, Iterator, List, NamedTuple, Optional, Tuple

from ..errors import NotReplies
from .language import COMMANDS

_COMPLAINTS = ('refused', 'fault', 'memory')
_BLOCK = 65_536
_NUMBER, _WHOLE = r'(?:0|[1-9][0-9]{0,9})', r'(?:0|-?[1-9][0-9]{0,39})'
_ONE_LINE = re.compile(
    rf'ok|empty|memory|refused {_NUMBER} {_NUMBER}|fault [1-6]|volume {_WHOLE}'
    rf'|plane {_WHOLE} {_WHOLE} {_WHOLE} {_WHOLE} (?:flat|bent)'
    rf'|count {_NUMBER} {_NUMBER} {_NUMBER} {_NUMBER} {_WHOLE}')
_BEHIND_SOLIDS = (
    rf'face {_NUMBER} {_NUMBER}(?: {_NUMBER})+|loop {_NUMBER}(?: at {_NUMBER}|(?: [+-]{_NUMBER})+)'
    rf'|edge {_NUMBER} {_NUMBER} {_NUMBER}|vertex {_NUMBER} {_WHOLE} {_WHOLE} {_WHOLE}')
_LISTED, _GOES_ON = re.compile(rf'solid {_NUMBER}|{_BEHIND_SOLIDS}'), re.compile(rf'(?:(?:{_BEHIND_SOLIDS})\n)+')


class Reply(NamedTuple):
    """One reply: a single line, or the lines of a listing."""

    lines: Tuple[str, ...]

    @property
    def word(self) -> str:
        """The first word: `ok`, `refused`, .., and `solid` or `empty` for a listing."""
        return self.lines[0].split(' ', 1)[0]

    @property
    def is_listing(self) -> bool:
        """Whether it answers `list`."""
        return self.word in ('solid', 'empty')

    @property
    def is_complaint(self) -> bool:
        """Whether it is `refused`, `fault` or `memory`."""
        return self.word in _COMPLAINTS

    @property
    def numbers(self) -> List[int]:
        """The whole numbers of a reply of one line."""
        return [int(word) for word in self.lines[0].split(' ')[1:] if word not in ('flat', 'bent')]


ACCEPTED = Reply(('ok',))


def is_listed(line: str) -> bool:
    """Whether the line is one of a listing that isn't empty."""
    return _LISTED.fullmatch(line) is not None


def split_replies(data: bytes) -> List[Reply]:
    """The replies that the bytes hold, in order. A line may end as on Windows, by a carriage return and a newline."""
    return group_lines(lines_of(_blocks(_text(data))))


def lines_of(pieces: Iterable[str]) -> Iterator[str]:
    """The lines of pieces, each of which is one or more."""
    return (line for piece in pieces for line in piece.split('\n'))


def group_lines(lines: Iterable[str]) -> List[Reply]:
    """The replies in lines without their newlines; those of one line that are equal are one."""
    replies: List[Reply] = []
    known: Dict[str, Reply] = {}
    cutting = _Cutting()
    for line in lines:
        begins, was_listing = cutting.take(line)
        if was_listing:
            replies.append(Reply(tuple(cutting.ended)))
        if begins and not cutting.listing:
            replies.append(known.setdefault(line, Reply((line,))))
    return replies + ([Reply(tuple(cutting.listing))] if cutting.listing else [])


class LastListing(NamedTuple):
    """The lines of a listing, in pieces, and how many commands changed the model after it."""

    pieces: List[str]
    later: int


def last_listing(data: bytes) -> Optional[LastListing]:
    """The last listing among the replies that the bytes hold, or None. No other reply is kept, so many of them take little memory and time."""
    search = _Search()
    for block in _blocks(_text(data)):
        search.take(block)
    return search.found()


class _Search:
    """Looks for the last listing, block by block."""

    def __init__(self) -> None:
        self._cutting = _Cutting()
        self._last: List[str] = []
        self._later = 0

    def take(self, block: str) -> None:
        """A block of lines."""
        if self._cutting.listing and _GOES_ON.fullmatch(block + '\n'):
            self._cutting.go_on(block)
            return
        lines = block.split('\n')
        if _are_plain(lines):
            self._last = self._cutting.listing or self._last
            self._cutting.pass_over(len(lines))
            self._later += lines.count('ok')
            return
        for line in lines:
            begins, was_listing = self._cutting.take(line)
            if was_listing:
                self._last = self._cutting.ended
            if begins and line == 'empty':
                self._last = [line]
            if begins and (line == 'empty' or self._cutting.listing):
                self._later = 0
            self._later += line == 'ok'

    def found(self) -> Optional[LastListing]:
        """The last listing of all blocks, None where there is none."""
        last = self._cutting.listing or self._last
        return LastListing(last, self._later) if last else None


def _are_plain(lines: List[str]) -> bool:
    """Whether all lines are replies of one line, and none is a listing."""
    different = set(lines)
    return 'empty' not in different and all(map(_ONE_LINE.fullmatch, different))


def _text(data: bytes) -> str:
    """The bytes as text, whose lines end with newlines alone."""
    try:
        text = data.decode('ascii')
    except UnicodeDecodeError as error:
        raise NotReplies(f'byte {error.start + 1} is above 127: these are no replies of gwb') from None
    if text and not text.endswith('\n'):
        raise NotReplies('the last line has no newline: the replies are cut short')
    return text.replace('\r\n', '\n')


def _blocks(text: str) -> Iterator[str]:
    """The lines, in blocks of about so many letters, without the newline at the end of each."""
    start = 0
    while start < len(text):
        end = text.index('\n', min(start + _BLOCK, len(text) - 1)) + 1
        yield text[start:end - 1]
        start = end


class _Cutting:
    """Lines that are cut into replies as they come."""

    def __init__(self) -> None:
        self._number = 0
        # The listing to which the last line belongs, or none, each piece a line or more; and the listing before, once another reply begins.
        self.listing: List[str] = []
        self.ended: List[str] = []

    def take(self, line: str) -> Tuple[bool, bool]:
        """Whether a reply begins with the line, and whether a listing ends before it."""
        self._number += 1
        is_solid = line.startswith('solid')
        if is_listed(line):
            begins = is_solid and not (self.listing and self.listing[-1].startswith('solid'))
            if not is_solid and not self.listing:
                raise NotReplies(f'line {self._number} is of a listing, but none begins there: {shortened(line)}')
            return begins, self._goes_on(begins, [line])
        if _ONE_LINE.fullmatch(line):
            return True, self._goes_on(True, [])
        raise NotReplies(f'line {self._number} is no reply of gwb: {shortened(line)}{_hint(line)}')

    def _goes_on(self, begins: bool, lines: List[str]) -> bool:
        """Goes on with lines of a listing, of a new one where a reply begins; whether one ended."""
        if not begins:
            self.listing += lines
            return False
        self.ended, self.listing = self.listing, lines
        return bool(self.ended)

    def go_on(self, block: str) -> None:
        """Goes on with a block of lines of the listing to which the last line belongs."""
        self._number += block.count('\n') + 1
        self.listing.append(block)

    def pass_over(self, count: int) -> None:
        """Leaves out so many lines, each of them a reply, and none a listing."""
        self._number += count
        self.listing = []


def _hint(line: str) -> str:
    """What to do where the line is one of a script."""
    words = line.split()
    if words and (words[0] in COMMANDS or words[0].startswith('#')):
        return ' (it looks like a line of a script; give what gwb replies to the script)'
    return ''


def only_reply(lines: List[str]) -> Reply:
    """The one reply that the lines are."""
    replies = group_lines(lines)
    if len(replies) != 1:
        raise NotReplies(f'not one reply: {lines}')
    return replies[0]


def shortened(line: str, limit: int = 60) -> str:
    """The line, or its beginning where it is long."""
    return line if len(line) <= limit else line[:limit - 2] + '..'
