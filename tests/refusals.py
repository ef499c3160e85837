#!/usr/bin/env python3
"""All that is said of refusals is that of bindings/refusals.table, and the names of conditions are the kernel's: `Why::code` in
crates/euler_operators/src/lib.rt, whose numbers are proved.

    tests/refusals.py [--write]

Compares with the table what is made of it (companions/gwb/refusals.py, bindings/include/gwb_names.h,
bindings/features/cut_advice.hpp, bindings/rust/src/refusal.rs and the tables of docs/REFUSALS.md), which --write makes anew first, and the names that stand elsewhere: in the kernel, in the help text of gwb, in the table of
docs/SCRIPT.md, and the last condition in gwb.hpp. No other file of code says by hand what the table says. The last line counts.
"""
import ast
import re
import sys
from pathlib import Path
from typing import Any, Callable, Dict, Iterator, List, Mapping, NamedTuple, Set, Tuple

from counts import TOP, command_line, told

Names = Dict[int, str]
MADE = 'Made by tests/refusals.py --write of bindings/refusals.table; edit nothing here.'
TABLE = 'bindings/refusals.table'
PAGE = 'docs/REFUSALS.md'
# What calls are named in the table of features, where it isn't the same.
_CALLS = {'halve': 'cut', 'around': 'pattern_around', 'chamfers': 'chamfer_edges'}
# Files of code in which no text of the table stands by hand.
CODE = ('bindings/*.[ch]', 'bindings/features/*pp', 'bindings/include/*', 'bindings/rust/**/src/*.rs', 'companions/gwb/**/*.py', 'companions/gwb/**/*.js',
        'crates/*/src/**/*.rt')


class Block(NamedTuple):
    """What is said of a condition, a fault, a misfit, a cause or an error of Python: texts by their keys."""

    kind: str
    number: int
    name: str
    said: Dict[str, str]

    @property
    def text(self) -> str:
        """What it says wherever nothing else is said."""
        return self.said['text']

    @property
    def advice(self) -> Dict[str, str]:
        """What would do in Python, by the call that is refused, or for `any`."""
        return {call: text for key, text in self.said.items() if key.startswith('python of ') for call in key.split(' ')[2:]}

    @property
    def row(self) -> str:
        """Its row in the page."""
        name, *told = self.name if self.kind == 'misfit' else f'{self.number} {self.name}', self.said['happened'], self.said.get('try', '')
        return ' | '.join([f'| {name}', *told]).rstrip(' ') + ' |'


class Table:
    """The blocks of the table, by their kinds."""

    def __init__(self, text: str) -> None:
        blocks = [block for block in text.split('\n\n') if not block.startswith('#')]
        found = [self._block(*block.strip('\n').split('\n')) for block in blocks]
        self.kinds = [[block for block in found if block.kind == kind] for kind in ('condition', 'fault', 'misfit', 'cause', 'cut', 'error')]
        self.conditions, self.faults, self.misfits, self.causes, self.cuts, self.errors = self.kinds

    @property
    def is_whole(self) -> bool:
        """Whether the numbers of each kind have no gaps, and each cause is of a misfit."""
        misfits = {block.name for block in self.misfits}
        return all([block.number for block in of] == list(range(1, len(of) + 1)) != [] for of in self.kinds) and all(
            block.said['of'] in misfits for block in self.causes)

    @staticmethod
    def _block(head: str, *lines: str) -> Block:
        kind, number, name = head.split(' ')
        return Block(kind, int(number), name, {key: said for key, said in (line.split(': ', 1) for line in lines)})


def text_of(file: str) -> str:
    """The text of a file, or nothing where it isn't there."""
    path = TOP / file
    return path.read_text() if path.exists() else ''


def names_of(blocks: List[Block]) -> Names:
    """Their names by their numbers."""
    return {block.number: block.name for block in blocks}


def kernel_names() -> Names:
    """The kernel's names by their numbers."""
    found = re.findall(r'Why::(\w+) => (\d+),', text_of('crates/euler_operators/src/lib.rt'))
    return {int(number): name for name, number in found}


def snake(name: str) -> str:
    """NumberRange is number_range."""
    return re.sub(r'(?<=[a-z])(?=[A-Z])', '_', name).lower()


def capitals(name: str) -> str:
    """A name as C writes constants: NumberRange is NUMBER_RANGE."""
    return snake(name).upper()


# ---- what is made

def python_text(table: Table) -> str:
    """companions/gwb/refusals.py."""
    def rows(pairs: Mapping[Any, object]) -> str:
        return ''.join(f'    {key!r}: {value!r},\n' for key, value in pairs.items())

    otherwise = {(key[len('text of '):], block.name): text for block in [*table.conditions, *table.faults] for key, text in block.said.items()
                 if key.startswith('text of ')}
    parts: Tuple[Tuple[str, str, Mapping[Any, object]], ...] = (
             ('NAMES: Dict[int, str]', 'The conditions of commands.', names_of(table.conditions)),
             ('TEXTS: Dict[int, str]', 'What they say, in which X stands for the value.', {block.number: block.text for block in table.conditions}),
             ('OTHERWISE: Dict[Tuple[str, str], str]', "Where a command, a feature or the value '0' says it otherwise.", otherwise),
             ('REMEDIES: Dict[int, str]', 'What would do, as far as that can be said without the model.',
              {block.number: block.said['shell'] for block in table.conditions if 'shell' in block.said}),
             ('FAULTS: Dict[int, Tuple[str, str]]', 'The names and texts of faults.', {block.number: (block.name, block.text) for block in table.faults}),
             ('MISFITS: Dict[str, str]', "Why features aren't possible.",
              {block.name: block.said.get('text of python', block.text) for block in table.misfits}),
             ('CAUSES: Dict[int, Tuple[str, str]]', 'The names and texts of their causes, in which Y stands for the number of what was met.',
              {block.number: (block.name, block.said.get('text of python', block.text)) for block in table.causes}),
             ('ADVICE: Dict[Tuple[str, str], str]', 'What would do in the place of a feature, by its call, or any, and the cause.',
              {(call, block.name): text for block in table.causes for call, text in block.advice.items()}),
             ('OF_CUTS: Dict[str, str]', "What is said of a cut whose points aren't whole.", {block.name: block.text for block in table.cuts}))
    made = ''.join(f'\n# {what}\n{name} = {{\n{rows(pairs)}}}\n' for name, what, pairs in parts)
    return f'"""What is said of refusals. {MADE}"""\n\nfrom typing import Dict, Tuple\n{made}'


def c_function(name: str, what: str, cases: Dict[str, str]) -> str:
    """A function in C that has a text for each number."""
    rows = ''.join(f'    case {case}: return "{text}";\n' for case, text in cases.items())
    return f"""
/** {what} */
static inline const char *{name}(uint32_t number)
{{
    switch (number) {{
{rows}    default: return "";
    }}
}}
"""


def c_enum(blocks: List[Block], prefix: str) -> str:
    """The members of an enumeration in C."""
    said = ('; '.join([block.text, *([block.said['c']] if 'c' in block.said else [])]) for block in blocks)
    return ',\n'.join(f'    /** {text} */\n    {prefix}{capitals(block.name)} = {block.number}' for text, block in zip(said, blocks))


def c_text(table: Table) -> str:
    """bindings/include/gwb_names.h."""
    why = {f'GWB_WHY_{capitals(block.name)}': block for block in table.conditions}
    misfits = {f'GWB_MISFIT_{capitals(block.name)}': block for block in table.misfits}
    causes = {f'GWB_CAUSE_{capitals(block.name)}': block for block in table.causes}
    functions = ''.join((
        c_function('gwb_why_name', 'The name of the condition with a number, or "" where there is none.', {case: block.name for case, block in why.items()}),
        c_function('gwb_why_text', 'What it says, in which X stands for the value that goes with it.', {case: block.text for case, block in why.items()}),
        c_function('gwb_misfit_text', 'What the misfit with a number says, alike.', {case: block.text for case, block in misfits.items()}),
        c_function('gwb_cause_name', 'The name of the cause with a number, or "" where there is none.', {case: block.name for case, block in causes.items()}),
        c_function('gwb_cause_text', 'What it says, in which Y stands for the number of what was met.', {case: block.text for case, block in causes.items()})))
    in_cpp = ',\n'.join(f'    {snake(block.name)} = {case} /**< {block.text} */' for case, block in misfits.items())
    cases = ''.join(f'    case Misfit::{snake(block.name)}: return "{block.name}";\n' for block in table.misfits)
    return f"""/* The names of refusals. {MADE} */
#ifndef GWB_NAMES_H
#define GWB_NAMES_H
#include <stdint.h>

/** The number of a refusal: the first condition that is false. X is the value that goes with it. Some commands give it a meaning of their
 * own (docs/SCRIPT.md). */
enum gwb_why {{
{c_enum(table.conditions, 'GWB_WHY_')}
}};

/** Why a feature isn't possible, where it is no condition of a command. X is the value that goes with it. */
enum gwb_misfit {{
{c_enum(table.misfits, 'GWB_MISFIT_')}
}};

/** Which cause of a misfit it is. Y is the number of what was met (gwb_hit). */
enum gwb_cause {{
{c_enum(table.causes, 'GWB_CAUSE_')}
}};
{functions}
#ifdef __cplusplus
namespace gwb_session {{

/// Why a feature isn't possible, where it is no condition of a command. X is the value that goes with it.
enum class Misfit : uint32_t {{
{in_cpp}
}};

/// The name of what isn't possible, as Python's session has it.
[[nodiscard]] constexpr const char *misfit_name(Misfit misfit)
{{
    switch (misfit) {{
{cases}    }}
    return "";
}}

}} // namespace gwb_session
#endif

#endif
"""


def advice_text(table: Table) -> str:
    """bindings/features/cut_advice.hpp."""
    texts = ''.join(f'constexpr const char *{snake(block.name)} = "{block.text}";\n' for block in table.cuts)
    return f"""/// @file cut_advice.hpp What is said of a cut whose points aren't whole. {MADE}
#pragma once

namespace gwb_session::cutting::advice {{

{texts}
}} // namespace gwb_session::cutting::advice
"""


def rust_text(table: Table) -> str:
    """bindings/rust/src/refusal.rs."""
    conditions, misfits, causes = (''.join(f'    {block.name} = {block.number}: "{block.text}",\n' for block in of)
                                   for of in (table.conditions, table.misfits, table.causes))
    return f"""//! The names of refusals. {MADE}
use crate::named::named;

named! {{
/// Which condition of a command is false. In the texts X is the value that goes with it; some commands give it a meaning of their own.
Refusal {{
{conditions}}}
}}

named! {{
/// Why a feature isn't possible, where it is no condition of a command. X is the value that goes with it.
Misfit {{
{misfits}}}
}}

named! {{
/// Which cause of a misfit it is. X is the value that goes with the misfit, and Y the number of what was met.
Cause {{
{causes}}}
}}
"""


def page_text(table: Table) -> str:
    """docs/REFUSALS.md, with the rows of its tables, and the list at its end."""
    parts = re.split(r'(^\|---\|---\|---\|\n)(?:\|.*\n)*', text_of(PAGE), flags=re.MULTILINE)
    for place, blocks in enumerate((table.conditions, table.faults, table.misfits)):
        parts[2 * place + 1] += ''.join(f'{block.row}\n' for block in blocks)
    errors = ''.join(f'- `{block.name}`: {block.said["happened"]}. Try {block.said["try"]}.\n' for block in table.errors)
    return re.sub(r'(?:^- `\w+`: .*\n)*\Z', lambda _: errors, ''.join(parts), count=1, flags=re.MULTILINE)


MAKERS: Dict[str, Callable[[Table], str]] = {
    'companions/gwb/refusals.py': python_text,
    'bindings/include/gwb_names.h': c_text,
    'bindings/features/cut_advice.hpp': advice_text,
    'bindings/rust/src/refusal.rs': rust_text,
    PAGE: page_text,
}


# ---- names that stand elsewhere

def help_names(title: str) -> Names:
    """The names in a table of the help text."""
    table = re.search(rf'^{title}:\n(.*?)\n\n', text_of('crates/command_line/src/words.rt'), re.MULTILINE | re.DOTALL)
    return {int(number): name for number, name in sorted(re.findall(r'(\d+) ([A-Z]\w+)', table.group(1) if table else ''), key=_first)}


def _first(pair: Tuple[str, str]) -> int:
    return int(pair[0])


def script_names() -> Names:
    """The names in the table of docs/SCRIPT.md: one number and one name a row, or several of each."""
    found: Names = {}
    for numbers, names in re.findall(r'^\| ([0-9, ]+) \| ([A-Z][A-Za-z, ]+) \|', text_of('docs/SCRIPT.md'), re.MULTILINE):
        found.update(zip(map(int, numbers.split(',')), names.split(', ')))
    return found


def header_names() -> List[str]:
    """The conditions that gwb.hpp names in code: the last one, up to which it has an exception for each."""
    return re.findall(r'<GWB_WHY_(\w+)>\(\)', text_of('bindings/include/gwb.hpp'))


def error_names() -> Set[str]:
    """The errors that gwb has for Python, but those of the other tables, which have a name for each of theirs, and those that stand for several."""
    sys.path.insert(0, str(TOP / 'companions'))
    import gwb
    found = {name for name in gwb.__all__ if not name.startswith('_') and isinstance(getattr(gwb, name), type) and issubclass(getattr(gwb, name), Exception)}
    return found - {'CompanionError', 'Complaint', 'Refused', 'Faulted', 'Impossible'}


# ---- advice

def refused_features() -> Set[Tuple[str, str, str]]:
    """The call, the misfit and the cause of each row of the table of features that is refused. A call with a vector in place of a depth is the same one."""
    found = (re.match(r'(?:[:!] )?(\w+) .* = ([A-Z]\w+)(?: \d+ ([A-Z]\w+))?', row) for row in text_of('tests/library_features.table').splitlines())
    return {(_CALLS.get(row[1], row[1].replace('_along', '')), row[2], row[3] or '') for row in found if row}


def advised_again(table: Table) -> Iterator[str]:
    """Where advice, in Python, in C or in the page, names the call that is refused, and where a call gets none of a cause that has some for others."""
    blocks = {block.name: block for block in [*table.misfits, *table.causes]}
    for call, misfit, cause in sorted(refused_features()):
        block = blocks.get(cause, Block('', 0, '', {}))
        text = block.advice.get(call, block.advice.get('any', ''))
        named = (rf'\b{call}\(', text), (rf'\bgwb_{call}\b', block.said.get('c', '')), (f'`{call}`', blocks[misfit].said['try'] if misfit in blocks else '')
        yield from (f'{call} is refused {misfit} {cause}, and advised: {said}' for pattern, said in named if re.search(pattern, said))
        if block.advice and not text:
            yield f'{call} is refused {misfit} {cause}, of which the advice is for other calls'


def commanded_again(table: Table) -> Iterator[str]:
    """Where what is said to who was refused a command is that command."""
    sys.path.insert(0, str(TOP / 'companions'))
    from gwb.protocol.command_rows import COMMAND_ROWS
    for block in table.conditions:
        said = ' '.join(block.said.get(key, '') for key in ('try', 'shell'))
        yield from (f'{command} is refused {block.name}, and advised: {said}' for command, row in COMMAND_ROWS.items()
                    if block.number in row.refusals and f'`{command}`' in said)


# ---- texts that are written by hand

def told_by(path: Path) -> str:
    """The texts of a file of code, a line each, in which {} stands for what is put into one. Comments and docstrings aren't told."""
    text = path.read_text()
    if path.suffix != '.py':
        return re.sub(r'"\s*\n\s*"', '', re.sub(r'^\s*(?://|/?\*).*', '', text, flags=re.MULTILINE))
    nodes = list(ast.walk(ast.parse(text)))
    comments = {id(node.value) for node in nodes if isinstance(node, ast.Expr)}
    return '\n'.join(_told(node) for node in nodes if isinstance(node, (ast.Constant, ast.JoinedStr)) and id(node) not in comments)


def _told(node: ast.expr) -> str:
    """The text of an expression, of whose parts only the constant ones are known."""
    if isinstance(node, ast.JoinedStr):
        return ''.join(map(_told, node.values))
    return str(node.value) if isinstance(node, ast.Constant) else '{}'


def written_again(table: Table) -> Iterator[str]:
    """The texts of the table, advice too, that a file of code says by hand besides, with any number or expression in the place of X or Y."""
    made = {TOP / file for file in MAKERS}
    told = {path: told_by(path) for where in CODE for path in sorted(TOP.glob(where)) if path not in made}
    texts = {text for of in table.kinds for block in of for key, text in block.said.items() if key not in ('of', 'happened', 'try')}
    for text in sorted(texts):
        pattern = re.compile(r'(?:[\d,]+|\{[^{}]*\}|[XY])'.join(map(re.escape, re.split(r'\[[XY]\]|\b[XY]\b', text))))
        yield from (f'{path.relative_to(TOP)} says by hand what {TABLE} says: {text}' for path, said in told.items() if pattern.search(said))


def findings(table: Table) -> Iterator[str]:
    """For each place what is wrong with it, or nothing."""
    names, faults = names_of(table.conditions), names_of(table.faults)
    yield '' if table.is_whole else f'{TABLE}: the numbers have gaps, or a cause is of no misfit'
    joined = [f'{block.kind} {block.number}' for of in table.kinds for block in of for key, said in block.said.items()
              if ' or ' in said and key not in ('happened', 'try', 'shell')]
    yield f'{TABLE}: texts join causes by `or`: {", ".join(joined)}' if joined else ''
    yield '' if kernel_names() == names else f'{TABLE}: the conditions of crates/euler_operators are others'
    yield '; '.join(written_again(table))
    yield '; '.join([*advised_again(table), *commanded_again(table)])
    for file, make in MAKERS.items():
        yield '' if text_of(file) == make(table) else f'{file} is not the one that --write makes'
    yield '' if help_names('Refusals') == names else 'crates/command_line/src/words.rt: the help text has other names'
    yield '' if help_names('Faults') == faults else 'crates/command_line/src/words.rt: the help text has other faults'
    yield '' if script_names() == names else 'docs/SCRIPT.md: the table of refusals has other names'
    yield '' if error_names() == {block.name for block in table.errors} else f'{TABLE}: the errors that gwb has for Python are others'
    yield '' if header_names() == [capitals(table.conditions[-1].name)] else 'bindings/include/gwb.hpp: its last condition is another'


def main() -> int:
    given = command_line(__doc__, '--write')
    table = Table(text_of(TABLE))
    if given.write:
        for file, make in MAKERS.items():
            if text_of(file) != make(table):    # (what is made of a file that is the same isn't made anew)
                (TOP / file).write_text(make(table))
    return told(findings(table))


if __name__ == '__main__':
    sys.exit(main())
