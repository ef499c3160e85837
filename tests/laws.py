#!/usr/bin/env python3
"""Tries the laws over bytes, crates/script_laws/specs/Laws.antt, on the stored scripts: behind each of their lines.

    tests/laws.py [PROGRAM]        PROGRAM is crates/gwb/out/gwb where none is given

They are proved of all scripts; this shows that they say of the program what they are meant to. Each law is tried where its premises hold: behind
each line of tests/scripts and examples, with what comes there in the script, and then undos, redos and questions. The last line counts.
"""
import os
import re
import subprocess
import sys
from collections import Counter
from concurrent.futures import ThreadPoolExecutor
from functools import lru_cache
from math import prod
from pathlib import Path
from typing import Dict, Iterator, List, NamedTuple, Optional, Tuple

from counts import GWB, TOP, command_line, there, told

LAWS = TOP / 'crates' / 'script_laws' / 'specs' / 'Laws.antt'
OK, UNDO, REDO, LIST = b'ok\n', b'undo\n', b'redo\n', b'list\n'
TAIL = LIST + 3 * UNDO + LIST + 2 * REDO + LIST + b'mvfs 999 999 999 999 7 7 7\n' + REDO + UNDO + LIST
PROBES = b''.join(b'%s %d\n' % (word, n) for word in (b'count', b'volume', b'plane') for n in range(1, 9))
PROBES += b'mvfs 999 999 999 999 7 7 7\nmev +1 +1 999 998 7 7 8\nkef +1\nkev -2\nkemr +1 997\nsplit 1 0 0 1 -1 998\nkvfs 1\nsweep 1 0 0 2\n' + LIST


class Program:
    """The program, asked for the answers to whole scripts."""

    def __init__(self, path: Path) -> None:
        self._path = path
        self.answers = lru_cache(maxsize=None)(self._answers)

    def _answers(self, script: bytes) -> bytes:
        """What a script is answered; where the program ends otherwise than by its replies, a text that is no reply."""
        done = subprocess.run([self._path], input=script, stdout=subprocess.PIPE, stderr=subprocess.PIPE, check=False, timeout=20)
        if done.returncode not in (0, 1) or done.stderr:
            return b'status %d: %r\n' % (done.returncode, done.stderr)
        return done.stdout

    def adds(self, script: bytes, more: bytes) -> Optional[bytes]:
        """What `more` is answered behind a script; None where the answers to the script don't stay."""
        front, whole = self.answers(script), self.answers(script + more)
        return whole[len(front):] if whole.startswith(front) else None

    def same_behind(self, one: bytes, other: bytes, more: bytes) -> bool:
        """Whether what comes is answered alike behind both scripts."""
        reply = self.adds(one, more)
        return reply is not None and reply == self.adds(other, more)


class Place(NamedTuple):
    """A line of a script: what stands before it, the line, and what comes."""

    name: str
    front: bytes
    line: bytes
    rest: bytes

    @property
    def script(self) -> bytes:
        """The script up to here."""
        return self.front + self.line


def is_word(word: bytes, line: bytes) -> bool:
    """Whether a line is this word alone."""
    return line.split() == word.split()


def lacking(word: bytes, text: bytes) -> bytes:
    """The lines that aren't this word alone."""
    return b''.join(line for line in text.splitlines(keepends=True) if not is_word(word, line))


def places() -> Iterator[Place]:
    """Each line of the stored scripts, which has its newline."""
    for folder in ('tests/scripts', 'examples'):
        for path in sorted((TOP / folder).glob('*.gwb')):
            lines = [line + b'\n' for line in path.read_bytes().rstrip(b'\n').split(b'\n')]
            for at, line in enumerate(lines):
                yield Place(f'{path.relative_to(TOP)}:{at + 1}', b''.join(lines[:at]), line, b''.join(lines[at + 1:]))


def answers_stay(program: Program, at: Place) -> Optional[bool]:
    """What was answered stays, whatever comes."""
    return program.adds(at.front, at.line + at.rest) is not None and program.adds(at.script, at.rest + TAIL) is not None


def others_can_be_left_out(program: Program, at: Place) -> Optional[bool]:
    """A line that isn't answered `ok` can be left out."""
    if program.adds(at.front, at.line) == OK:
        return None
    return program.same_behind(at.script, at.front, at.rest + TAIL)


def undone_lines_can_be_left_out(program: Program, at: Place) -> Optional[bool]:
    """A line that is answered `ok` and isn't `undo`, and `undo` behind it, can be left out where no `redo` comes."""
    if program.adds(at.front, at.line) != OK or is_word(UNDO, at.line):
        return None
    return program.adds(at.front, at.line + UNDO) == 2 * OK and program.same_behind(at.script + UNDO, at.front, lacking(REDO, at.rest + TAIL))


def undo_and_redo_can_be_left_out(program: Program, at: Place) -> Optional[bool]:
    """Where `undo` is answered `ok`, `undo` and `redo` can be left out."""
    if program.adds(at.script, UNDO) != OK:
        return None
    return program.adds(at.script, UNDO + REDO) == 2 * OK and program.same_behind(at.script + UNDO + REDO, at.script, at.rest + TAIL)


def is_taken_back(program: Program, script: bytes, count: int) -> bool:
    """Whether so many undos lead back to the start, where a script is answered as if nothing stood before it."""
    oks, anew = count * OK, lacking(REDO, script + TAIL)
    return (program.adds(script, count * UNDO + LIST) == oks + b'empty\n' and program.adds(script, count * UNDO) == oks
            and program.same_behind(script + count * UNDO, b'', anew))


def undos_lead_back(program: Program, at: Place) -> Optional[bool]:
    """As many undos as there are replies `ok` lead back to the start, where none of them is an undo's or a redo's."""
    if lacking(UNDO, lacking(REDO, at.script)) != at.script:
        return None
    return is_taken_back(program, at.script, program.answers(at.script).splitlines(keepends=True).count(OK))


def some_undos_lead_back(program: Program, at: Place) -> Optional[bool]:
    """And whatever the script was, some number of undos does: of whole scripts with undos or redos."""
    if at.rest or lacking(UNDO, lacking(REDO, at.script)) == at.script:
        return None
    return any(is_taken_back(program, at.script, count) for count in range(at.script.count(b'\n') + 1))


def blocks_measure(program: Program, at: Place) -> Optional[bool]:
    """Behind a block its volume is answered: six times the product of its sizes."""
    if program.adds(at.front, at.line) != OK or not at.line.startswith(b'block '):
        return None
    _, solid, _, _, _, *sizes = at.line.split()
    return volume(program, at.script, solid) == 6 * prod(map(int, sizes))


def volume(program: Program, script: bytes, solid: bytes) -> Optional[int]:
    """The volume that is answered of a solid behind a script."""
    found = re.match(rb'volume (-?\d+)$', program.adds(script, b'volume %s\n' % solid) or b'')
    return int(found.group(1)) if found else None


def parts_share_volumes(program: Program, at: Place) -> Optional[bool]:
    """Behind a split the volumes of both parts sum to the one before."""
    if program.adds(at.front, at.line) != OK or not at.line.startswith(b'split '):
        return None
    _, solid, *_, other = at.line.split()
    before, *parts = (volume(program, *asked) for asked in ((at.front, solid), (at.script, solid), (at.script, other)))
    return None not in (before, *parts) and before == sum(filter(None, parts))


def volumes(program: Program, script: bytes) -> Dict[int, Optional[int]]:
    """The volumes that are answered of the first solids behind a script."""
    return {solid: volume(program, script, b'%d' % solid) for solid in range(1, 9)}


def sweeps_measure(program: Program, at: Place) -> Optional[bool]:
    """Behind a sweep the volume of one solid has grown by what the plane of the face tells; the others are answered as before."""
    if program.adds(at.front, at.line) != OK or not at.line.startswith(b'sweep '):
        return None
    _, face, *vector = at.line.split()
    plane = (program.adds(at.front, b'plane %s\n' % face) or b'').split()
    grown = 3 * sum(int(a) * int(d) for a, d in zip(plane[1:4], vector))
    before, after = volumes(program, at.front), volumes(program, at.script)
    moved = [solid for solid in before if before[solid] != after[solid]]
    return all((before[solid] or 0) + grown == after[solid] for solid in moved) and len(moved) == (1 if grown else 0)


def glues_measure(program: Program, at: Place) -> Optional[bool]:
    """Behind a glue one solid has the volumes of two, and the other is gone."""
    if program.adds(at.front, at.line) != OK or not at.line.startswith(b'glue '):
        return None
    before, after = volumes(program, at.front), volumes(program, at.script)
    gone = [solid for solid in before if before[solid] is not None and after[solid] is None]
    joined = [solid for solid in before if solid not in gone and before[solid] != after[solid]]
    lost = sum(before[solid] or 0 for solid in gone)
    return len(gone) == 1 and (not lost or [(before[solid] or 0) + lost for solid in joined] == [after[solid] for solid in joined[:1]])


AT_EACH_LINE = (answers_stay, others_can_be_left_out, undone_lines_can_be_left_out, undo_and_redo_can_be_left_out, undos_lead_back,
                some_undos_lead_back, blocks_measure, parts_share_volumes, sweeps_measure, glues_measure)


def at_a_line(program: Program, at: Place) -> List[Tuple[str, str]]:
    """For each law that can be tried there its name, and what is wrong, or nothing."""
    tried = ((law, law(program, at)) for law in AT_EACH_LINE)
    return [(law.__name__, '' if holds else f'{at.name}: not so: {law.__doc__}') for law, holds in tried if holds is not None]


def equal_listings_go_on_alike(program: Program, every: List[Place]) -> Iterator[Tuple[str, str]]:
    """For each line behind which the listing is that behind a line before it: the law's name, and what is wrong, or nothing."""
    first: Dict[bytes, Place] = {}
    for at in every:
        one = first.setdefault(program.adds(at.script, LIST) or b'', at)
        if one is not at:
            is_so = program.same_behind(one.script, at.script, PROBES)
            why = '' if is_so else f'{at.name}: not so: behind equal listings, here and at {one.name}, what comes is answered alike'
            yield equal_listings_go_on_alike.__name__, why


def example(program: Program) -> str:
    """What is wrong with the example that the prover computes, or nothing."""
    found = re.search(r'^AnsweredSo = answers \(codes "(.*?)"\) ≡ codes "(.*?)"$', LAWS.read_text(), re.MULTILINE)
    script, wanted = (text.replace('\\n', '\n').encode() for text in found.groups()) if found else (b'', b'no example')
    return '' if program.answers(script) == wanted else f'{LAWS.relative_to(TOP)}: AnsweredSo: answered {program.answers(script)!r}'


def at_all_lines(program: Program) -> Iterator[Tuple[str, str]]:
    """For each comparison the law's name, and what is wrong, or nothing."""
    every = list(places())
    with ThreadPoolExecutor(os.cpu_count()) as pool:
        for found in pool.map(lambda at: at_a_line(program, at), every):
            yield from found
        # (these are asked for again below, one by one)
        list(pool.map(lambda at: (program.adds(at.script, LIST), program.adds(at.script, PROBES)), every))
    yield from equal_listings_go_on_alike(program, every)


def findings(program: Program) -> Iterator[str]:
    """For each comparison what is wrong, or nothing; and whether each law was tried at all. Prints how often."""
    tried = Counter({law.__name__: 0 for law in (*AT_EACH_LINE, equal_listings_go_on_alike)})
    for name, why in at_all_lines(program):
        tried[name] += 1
        yield why
    for name, times in tried.items():
        print(f'{name}: {times} times')
        yield '' if times else f'{name} was not tried'
    yield example(program)


def main() -> int:
    program = Program(there(command_line(__doc__, program=GWB).program))
    try:
        found = list(findings(program))
    except subprocess.TimeoutExpired as error:
        found = [str(error)]
    return told(found)


if __name__ == '__main__':
    sys.exit(main())
