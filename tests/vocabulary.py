#!/usr/bin/env python3
"""Compares what the tables in bindings/README.md say of features, their names and arguments in order, with the declarations in C, C++, Rust and Python, and
the names of what isn't possible, and of what comes back, in these languages with each other.

    tests/vocabulary.py

What a language does otherwise by its conventions stands in that page too, and here. The last line counts.
"""
import ast
import re
import sys
from typing import Dict, Iterator, List, Mapping, Sequence, Tuple

from counts import TOP, command_line, told

Arguments = Tuple[str, ...]
Calls = Dict[str, Arguments]

C_HEADER = 'bindings/include/gwb_features.h'
CPP_HEADERS = ('bindings/include/gwb_made.hpp', 'bindings/include/gwb_features.hpp')
RUST_FILES = tuple(f'bindings/rust/src/{name}.rs' for name in ('features', 'selection', 'off_lattice'))
PYTHON_CLASSES = 'companions/gwb/session'

# A list in C is followed by its length, whose name this is; the sides of a drill are so many, as `sides` are those that it makes.
C_LENGTHS = {'n', 'room', 'faces'}
# Features that take a vector in place of a length: in Python by an argument.
BY_VECTORS = ('pocket', 'boss', 'drill', 'notch', 'pad', 'slot', 'groove', 'shoulder')
C_NAMES = {('drill', 'n'): 'sides', ('drill_along', 'n'): 'sides'}
CPP_CALLS = {'unite': 'union'}
# Python's names, where they are others, and then the arguments too; what it takes by name besides; and arguments that it has otherwise.
PYTHON_CALLS = {'kill_solid': ('delete',), 'move_solid': ('move', 'turn', 'mirror'), 'copy_solid': ('copy',), 'split_solid': ('split',),
                'find_faces': ('faces',), 'find_edges': ('edges',), 'find_crossings': ('crossings',), **{f'{name}_along': (name,) for name in BY_VECTORS}}
PYTHON_BESIDES = {'solid', 'top', 'above', 'keep', 'scale', 'refine', 'diameter', 'circle', 'within', 'times', 'to'}
PYTHON_ARGUMENTS: Dict[Tuple[str, str], Arguments] = {
    ('pattern_around', 'degrees'): ('quarters',), ('polyhedron', 'faces'): ('corners', 'sizes'),
    **{(name, 'along'): () for name in BY_VECTORS}}
# The solid that is made, which Python chooses, and how many planes are sought, which it doesn't ask.
PYTHON_LEFT_OUT = {('profile', 'solid'), ('polyhedron', 'solid'), ('cut', 'above'), ('off_lattice', 'most')}
# What comes back as the same structure in C++, Rust and Python, and a word of Rust.
STRUCTURES = ('Profile', 'Ring', 'Pocket', 'Hole', 'Notch')
RUST_FIELDS = {'of_loop': 'loop'}
# What Python tells besides.
PYTHON_FIELDS_BESIDES = {'reach'}


def text_of(*files: str) -> str:
    """The text of files, one after another."""
    return ''.join((TOP / file).read_text(encoding='utf-8') for file in files)


def parts_of(listed: str) -> List[str]:
    """The parts between the commas of a list; those in brackets of its own aren't parted."""
    parts, depth = [''], 0
    for letter in listed:
        depth += (letter in '([{<') - (letter in ')]}>')
        if letter == ',' and depth == 0:
            parts.append('')
        else:
            parts[-1] += letter
    return [part.strip() for part in parts if part.strip()]


def in_brackets(text: str, begin: int) -> str:
    """What stands in round brackets that open before this place."""
    depth, end = 1, begin
    while depth:
        depth += (text[end] == '(') - (text[end] == ')')
        end += 1
    return text[begin:end - 1]


def table() -> Calls:
    """The calls of the tables of the page; `groove(..)` has the arguments of the one before it."""
    tables = text_of('bindings/README.md').partition('\n## Features\n')[2].partition('\nThe arguments:\n')[0]
    calls: Calls = {}
    last: Arguments = ()
    for row in re.findall(r'^\| (`.*?) \|', tables, re.MULTILINE):
        for name, arguments in re.findall(r'`(\w+)\(([^)]*)\)`', row):
            last = last if arguments == '..' else tuple(parts_of(arguments))
            calls[name] = last
    return calls


def c_calls() -> Calls:
    """The features of the header in C: what each is given, without the lengths of lists and what it writes."""
    calls: Calls = {}
    for name, listed in re.findall(r'^enum gwb_kind gwb_(\w+)\(([^;]*)\);', text_of(C_HEADER), re.MULTILINE):
        arguments = []
        for part in parts_of(listed)[1:]:
            kind, argument = re.fullmatch(r'(.*?)(\w+)', part, re.DOTALL).groups()  # type: ignore[union-attr]
            is_written = kind.endswith('*') and not kind.startswith('const ')
            if not is_written and not (kind == 'size_t ' and argument in C_LENGTHS):
                arguments.append(C_NAMES.get((name, argument), argument))
        calls[name] = tuple(arguments)
    return calls


def cpp_calls() -> Calls:
    """Those in C++: of calls of one name the one with the most arguments."""
    text = text_of(*CPP_HEADERS)
    calls: Calls = {}
    for found in re.finditer(r'> (\w+)\((?:const )?Commands<Policy> &bench,? ?', text):
        begin = text.index('(', found.start()) + 1
        parts = parts_of(re.sub(r'\s+', ' ', in_brackets(text, begin)))[1:]
        arguments = tuple(re.sub(r' = .*', '', part).split()[-1].lstrip('&*') for part in parts)
        name = CPP_CALLS.get(found.group(1), found.group(1))
        is_of_caller = not {'command', 'reader'} & set(arguments)
        if is_of_caller and len(arguments) >= len(calls.get(name, ())):
            calls[name] = arguments
    return calls


def rust_calls() -> Calls:
    """Those in Rust, where a plane is four numbers: methods, and rows of `features!`."""
    text = text_of(*RUST_FILES)
    calls: Calls = {}
    for found in re.finditer(r'^    (?:pub fn )?(\w+)\((?=this\b|\s*&(?:mut )?self)', text, re.MULTILINE):
        parts = parts_of(re.sub(r'\s+', ' ', in_brackets(text, found.end())))[1:]
        calls[found.group(1)] = tuple('plane' if part.startswith('[') else part.split(':')[0] for part in parts)
    return calls


def python_calls() -> Calls:
    """All methods of the session in Python, with what they take by place and by name."""
    calls: Calls = {}
    for path in sorted((TOP / PYTHON_CLASSES).glob('*.py')):
        for node in ast.walk(ast.parse(path.read_text(encoding='utf-8'))):
            for method in node.body if isinstance(node, ast.ClassDef) else ():
                if isinstance(method, ast.FunctionDef) and not method.name.startswith('_'):
                    arguments = [argument.arg for argument in (*method.args.args[1:], *method.args.kwonlyargs)]
                    calls.setdefault(f'{node.name}.{method.name}', tuple(arguments))  # type: ignore[attr-defined]
    return calls


def python_complaint(name: str, wanted: Arguments, methods: Calls) -> str:
    """What is wrong with a feature in Python, or nothing."""
    for called in PYTHON_CALLS.get(name, (name,)):
        found = [arguments for method, arguments in methods.items() if method.partition('.')[2] == called and method.partition('.')[0] != 'Workbench']
        if not found:
            return f'Python: there is no {called}'
        if name not in PYTHON_CALLS and not any(python_arguments(name, arguments) == python_wanted(name, wanted) for arguments in found):
            return f'Python: {called}{found[0]}, not {wanted}'
    return ''


def python_arguments(name: str, arguments: Arguments) -> Arguments:
    """The arguments by the names in the table, without those that Python takes besides, wherever it takes them."""
    named = [other for argument in arguments for other in PYTHON_ARGUMENTS.get((name, argument), (argument,))]
    return tuple(argument for place, argument in enumerate(named) if place == 0 or argument not in PYTHON_BESIDES)


def python_wanted(name: str, wanted: Arguments) -> Arguments:
    """Those of the table that Python has."""
    return tuple(argument for argument in wanted if (name, argument) not in PYTHON_LEFT_OUT)


def cpp_fields(name: str) -> Arguments:
    """The members of a structure in C++."""
    body = re.search(rf'^struct {name} \{{\n(.*?)^\}};', text_of(*CPP_HEADERS), re.MULTILINE | re.DOTALL)
    members = re.findall(r'^    [\w:<>]+ ([\w, ]+);', body.group(1) if body else '', re.MULTILINE)
    return tuple(field for listed in members for field in listed.split(', '))


def rust_fields(name: str) -> Arguments:
    """Those of one in Rust, by its row of `values!`."""
    row = re.search(rf'^    {name} \[\w*\] \{{ (.*) \}}$', text_of(*RUST_FILES), re.MULTILINE)
    return tuple(RUST_FIELDS.get(field, field) for field in re.findall(r'(\w+): ', row.group(1) if row else ''))


def python_fields(name: str) -> Arguments:
    """Those of one in Python."""
    body = re.search(rf'^class {name}\(NamedTuple\):\n(.*?)(?=^\S|\Z)', text_of(f'{PYTHON_CLASSES}/results.py'), re.MULTILINE | re.DOTALL)
    found = re.findall(r'^    (\w+):', body.group(1) if body else '', re.MULTILINE)
    return tuple(name for name in found if name not in PYTHON_FIELDS_BESIDES)


def findings() -> Iterator[str]:
    """For each comparison what is wrong, or nothing."""
    wanted, methods = table(), python_calls()
    for language, calls in (('C', c_calls()), ('C++', cpp_calls()), ('Rust', rust_calls())):
        for name, arguments in wanted.items():
            found = calls.pop(name, None)
            yield '' if found == arguments else f'{language}: {name}{found}, not {arguments}'
        yield '' if language == 'Rust' or not calls else f'{language}: the tables of bindings/README.md lack {sorted(calls)}'
    for name, arguments in wanted.items():
        yield python_complaint(name, arguments, methods)
    for name in STRUCTURES:
        yield from alike(name, {'C++': cpp_fields(name), 'Rust': rust_fields(name), 'Python': python_fields(name)})


def alike(what: str, lists: Mapping[str, Sequence[str]]) -> Iterator[str]:
    """Whether all lists are as the first."""
    first, *others = lists
    for other in others:
        yield '' if lists[other] == lists[first] and lists[first] else f'{what}: {list(lists[other])} in {other}, and {list(lists[first])} in {first}'


def main() -> int:
    command_line(__doc__)
    return told(findings())


if __name__ == '__main__':
    sys.exit(main())
