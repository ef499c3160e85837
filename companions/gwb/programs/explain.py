"""Joins a script and its replies: each complaint with its line, its command and its meaning in words."""

import argparse
from functools import lru_cache
from typing import Iterable, Iterator, List, NamedTuple, Optional, Sequence

from ..errors import CompanionError, NotAListing, NotReplies
from ..geometry.model import Model
from ..protocol.advice import advice
from ..meanings import refusal
from ..protocol.language import fault, first_word, is_answered
from ..protocol.listing import model_of
from ..protocol.replies import Reply, shortened, split_replies
from .command_line import FOUND, OK, add_version, read_bytes, run
from .inside_out import warn_of_inside_out

PROGRAM = 'gwb-explain'
_WIDTH = 48


class Answered(NamedTuple):
    """A line of a script with its reply; None where it has none."""

    number: int
    line: bytes
    reply: Optional[Reply]

    @property
    def text(self) -> str:
        """The line as text of one byte a character."""
        return self.line.decode('ascii', 'backslashreplace').strip()


def join(script: bytes, replies: Sequence[Reply]) -> List[Answered]:
    """The lines of the script, each with its reply. After a last complaint lines may be unanswered, as with --stop."""
    left = iter(replies)
    joined = []
    for number, line in enumerate(_lines(script), 1):
        reply = next(left, None) if is_answered(line) else None
        if is_answered(line) and reply is None and not (replies and replies[-1].is_complaint):
            raise NotReplies(f'line {number} of the script has no reply: the replies are cut short, or of another script')
        if reply is not None:
            _require_fit(number, line, reply)
        joined.append(Answered(number, line, reply))
    if next(left, None) is not None:
        raise NotReplies('there are more replies than commands: they are of another script')
    return joined


def _lines(script: bytes) -> List[bytes]:
    lines = script.split(b'\n')
    return lines if lines[-1] else lines[:-1]


def _require_fit(number: int, line: bytes, reply: Reply) -> None:
    """Refuses a reply that the command can't have."""
    word = first_word(line)
    wanted = {'list': 'listing', 'plane': 'plane', 'volume': 'volume', 'count': 'count'}.get(word, 'ok')
    given = 'listing' if reply.is_listing else reply.word
    if not reply.is_complaint and given != wanted:
        raise NotReplies(f'line {number} of the script is `{shortened(word)}`, and its reply `{shortened(reply.lines[0])}`: '
                         'the replies are of another script')


def meaning(word: str, reply: Reply) -> str:
    """The name and the words of a complaint about a command with this first word."""
    if reply.word == 'refused':
        number, value = reply.numbers
        return str(refusal(number, value, word))
    if reply.word == 'fault':
        return str(fault(reply.numbers[0], word))
    return 'memory was refused; the same command may be given again'


def complaints(name: str, joined: Iterable[Answered]) -> Iterator[str]:
    """A line for each complaint, those that say what would do, indented, and one with the number of complaints."""
    count, lines = 0, list(joined)
    undone = next(_undone(lines), None)
    for answered, listing in zip(lines, _listings_at(lines)):
        reply = answered.reply
        if reply is not None and reply.is_complaint:
            count += 1
            yield (f'{name}:{answered.number}: {shortened(answered.text)}: {reply.lines[0]}: '
                   + meaning(first_word(answered.line), reply))
            yield from (f'    {line}' for line in _advice(answered, listing))
            if answered is undone:
                yield '    # the `undo` that follows takes back the last command that was accepted: a refused one has changed nothing'
    yield f'{count} complaint' + ('' if count == 1 else 's')


def _undone(joined: Sequence[Answered]) -> Iterator[Answered]:
    """The lines that were refused and are followed by an accepted undo."""
    replied = [answered for answered in joined if answered.reply is not None]
    for answered, after in zip(replied, replied[1:]):
        if answered.reply and answered.reply.is_complaint and first_word(after.line) == 'undo' and after.reply and after.reply.word == 'ok':
            yield answered


def _listings_at(joined: Sequence[Answered]) -> List[Optional[Reply]]:
    """For each line a listing of the model as it stood there; None where the replies have none."""
    before, after = list(_carried(joined)), list(_carried(joined[::-1]))[::-1]
    return [earlier or later for earlier, later in zip(before, after)]


def _carried(joined: Iterable[Answered]) -> Iterator[Optional[Reply]]:
    """For each line the listing that came last, where no command was accepted since."""
    listing: Optional[Reply] = None
    for answered in joined:
        reply = answered.reply
        if reply is not None and (reply.is_listing or reply.word == 'ok'):
            listing = reply if reply.is_listing else None
        yield listing


def _advice(answered: Answered, listing: Optional[Reply]) -> List[str]:
    """What would do in the place of a line that wasn't accepted, as lines of a script; nothing where that isn't known."""
    if answered.reply is None:
        return []
    try:
        return advice(answered.text, answered.reply, lambda: None if listing is None else _model(listing))
    except NotReplies as error:
        raise NotReplies(f'line {answered.number} of the script: {error}') from None


@lru_cache(maxsize=1)
def _model(listing: Reply) -> Model:
    """The model of a listing. Raises NotReplies where it is none."""
    try:
        return model_of(listing)
    except NotAListing as error:
        raise NotReplies(f'a listing is no model: {error}') from None


def annotated(joined: Sequence[Answered]) -> Iterator[str]:
    """The script with each reply beside its line, a listing below one another."""
    width = max((len(answered.text) for answered in joined
                 if answered.reply is not None and len(answered.text) <= _WIDTH), default=0)
    for answered, listing in zip(joined, _listings_at(joined)):
        beside = _beside(answered, listing)
        for place, reply in enumerate(beside or ['']):
            text = answered.text if place == 0 else ''
            yield f'{text:<{width}}   {reply}'.rstrip()


def _beside(answered: Answered, listing: Optional[Reply]) -> List[str]:
    reply = answered.reply
    if reply is None:
        return []
    if reply.is_complaint:
        return [f'{reply.lines[0]}: {meaning(first_word(answered.line), reply)}', *_advice(answered, listing)]
    return list(reply.lines)


def _warn_of_inside_out(joined: Sequence[Answered]) -> None:
    """Names the solids that are inside out in the last listing, where there is one."""
    listing = next((answered.reply for answered in reversed(joined) if answered.reply is not None and answered.reply.is_listing), None)
    if listing is not None:
        warn_of_inside_out(PROGRAM, _model(listing))


def _parser() -> argparse.ArgumentParser:
    parser = argparse.ArgumentParser(
        prog=PROGRAM, description='Says in words what gwb complained about: gwb part.gwb | gwb-explain part.gwb',
        epilog='Status 0: no complaint; 1: some; 2: the command line is refused; '
               '3: the replies are refused, or reading or writing failed.')
    parser.add_argument('script', metavar='SCRIPT', help='the script')
    parser.add_argument('replies', nargs='?', metavar='REPLIES', help='what gwb replied to it (default: standard input)')
    parser.add_argument('--annotate', action='store_true', help='print the script with each reply beside its line')
    add_version(parser)
    return parser


def work(words: Optional[Sequence[str]]) -> int:
    """Reads a script and its replies and explains them."""
    options = _parser().parse_args(words)
    if options.script == '-' and options.replies in (None, '-'):
        raise CompanionError("the script and the replies can't both come from standard input")
    joined = join(read_bytes(options.script), split_replies(read_bytes(options.replies)))
    name = options.script.encode('utf-8', 'backslashreplace').decode('utf-8')
    _warn_of_inside_out(joined)
    for line in annotated(joined) if options.annotate else complaints(name, joined):
        print(line)
    return FOUND if any(answered.reply is not None and answered.reply.is_complaint for answered in joined) else OK


def main(words: Optional[Sequence[str]] = None) -> int:
    """The program: its status."""
    return run(PROGRAM, work, words)
