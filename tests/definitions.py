"""Reads the definitions in crates/*/specs, and finds what each of them leads to."""
import re
from dataclasses import dataclass, field
from functools import lru_cache
from pathlib import Path
from typing import Dict, FrozenSet, Iterator, List, Optional, Tuple, Union

from counts import TOP

CRATES = TOP / 'crates'
_USE = re.compile(r'^(?:unfoldable )?(pub )?use (\S+?)(?:\.\{(.*)\})?(?: as (\S+))?$')
_SIGNATURE = re.compile(r'^(?:(?:pub|abbrev|unfoldable) )*([^\s:(){}]+) : ')
_TYPE = re.compile(r'^(?:pub )?(record|data) (\S+)')
_BINDER = re.compile(r'[({]([^(){}:]*?) : ')
_BOUND = re.compile(r'λ ([^.λ]*?)\.(?:\s|$)|\blet (\S+) [:=]|\| ([^|↦]*?) ↦')
_TOKEN = re.compile(r'[^\s(){}\[\],;]+')
_OTHERS = ('use ', 'pub use ', 'unfoldable pub use ', 'pub mod ', 'infix')
_MODIFIERS = re.compile(r'^( *)(?:(?:pub|abbrev|unfoldable) )+')


@dataclass(frozen=True)
class Definition:
    """A definition: where it stands, the comment above it, and its lines. `block` is the head of the block of parameters that it stands in."""

    module: str
    name: str
    is_record: bool
    comment: Tuple[str, ...]
    lines: Tuple[str, ...]
    block: str = ''
    constructors: FrozenSet[str] = frozenset()


@dataclass(frozen=True)
class RustType:
    """A type of the code, which definitions name."""

    crate: str
    name: str


@dataclass(frozen=True)
class Outside:
    """A word that no crate of the project defines."""

    module: str
    name: str


Thing = Union[Definition, RustType, Outside]


@dataclass
class Module:
    """The definitions of a file by their names, and what its names stand for: (module, name) of items, and modules by their short names."""

    name: str
    definitions: Dict[str, Definition] = field(default_factory=dict)
    items: Dict[str, Tuple[str, str]] = field(default_factory=dict)
    modules: Dict[str, str] = field(default_factory=dict)

    def take_import(self, line: str) -> bool:
        """Takes a line that imports names; False where it is another."""
        found = _USE.match(line)
        if not found:
            return False
        _, base, items, short = found.groups()
        if items is None:
            self.modules[short or base.rsplit('.', 1)[-1]] = base
        for item in (items or '').split(','):
            name, _, other = item.strip().partition(' as ')
            if name:
                self.items[plain(other or name)] = base, name
        return True

    def add(self, definition: Definition) -> None:
        """Adds a definition, and the names of its constructors."""
        for name in (definition.name, *definition.constructors):
            self.definitions[plain(name)] = definition


def file_of(name: str) -> Path:
    """The file of a module, as Rattle.lattice.specs.Point."""
    _, *parts = name.split('.')
    return CRATES.joinpath(*parts).with_suffix('.antt')


def plain(name: str) -> str:
    """A name as it stands between its arguments."""
    return name[1:-1] if len(name) > 2 and name[0] == name[-1] == '◌' else name


def _stripped(line: str) -> str:
    """A line without the words that tell the prover how to treat it."""
    return _MODIFIERS.sub(r'\1', line)


def _constructors(lines: List[str]) -> FrozenSet[str]:
    """The names of the constructors of a type."""
    heads = (line.split(' : ')[0] for line in lines[1:] if ' : ' in line and not line.strip().startswith('--'))
    return frozenset(name for head in heads for name in head.split())


def _definition(module: str, block: str, comment: List[str], lines: List[str]) -> Definition:
    """The definition that has these lines, of which the first is its head."""
    typed = _TYPE.match(lines[0])
    found = typed or _SIGNATURE.match(lines[0])
    assert found
    name = found.group(found.lastindex or 1)
    is_record = bool(typed) and found.group(1) == 'record'
    constructors = _constructors(lines) if typed and not is_record else frozenset()
    return Definition(module, name, is_record, tuple(comment), tuple(map(_stripped, lines)), block, constructors)


def _paragraphs(text: str) -> Iterator[Tuple[str, List[str]]]:
    """The definitions, imports and comments of a file as lists of lines without the indentation of the block that they stand in, whose head is
    told with them."""
    block, lines = '', []  # type: str, List[str]
    for line in text.splitlines():
        if line.startswith('module '):
            yield block, lines
            block, lines = line, []
            continue
        inner = line[2:] if block and line.startswith('  ') else line
        if line and inner is line and block:
            yield block, lines
            block, lines = '', []
        starts = not inner or inner.startswith(_OTHERS) or _SIGNATURE.match(inner) or _TYPE.match(inner)
        if starts and lines and not lines[-1].startswith('--'):
            yield block, lines
            lines = []
        if inner:
            lines.append(inner)
    yield block, lines


@lru_cache(maxsize=None)
def module(name: str) -> Optional[Module]:
    """The file of definitions that has this name, as Rattle.lattice.specs.Point; None where no crate of the project has it."""
    path = file_of(name)
    if not path.is_file():
        return None
    found = Module(name)
    for block, lines in _paragraphs(path.read_text()):
        comment = [line for line in lines if line.startswith('--')]
        rest = lines[len(comment):]
        if rest and not found.take_import(rest[0]) and (_SIGNATURE.match(rest[0]) or _TYPE.match(rest[0])):
            found.add(_definition(name, block, comment, rest))
    return found


def _module_below(name: str) -> Optional[Module]:
    """The module of this name, which may be one that a file above it passes on."""
    found = module(name)
    *front, last = name.split('.')
    if found or len(front) < 3:
        return found
    for passing in ('.'.join([*front, 'Lib']), '.'.join(front)):
        above = module(passing)
        if above and last in above.modules and above.modules[last] != name:
            return _module_below(above.modules[last])
    above = _module_below('.'.join(front))
    return _module_below(f'{above.modules[last]}') if above and above.modules.get(last, name) != name else None


def resolve(base: str, name: str) -> Thing:
    """What a name of a module stands for."""
    parts = base.split('.')
    if 'declared' in parts:
        kinds = [part for part in parts[parts.index('declared') + 1:] if part != 'TheVariants']
        return RustType(parts[1], kinds[-1] if kinds else name)
    found = _module_below(base)
    if found is None:
        return Outside(base, name)
    if plain(name) in found.definitions:
        return found.definitions[plain(name)]
    if plain(name) in found.items:
        return resolve(*found.items[plain(name)])
    return Outside(base, name)


def named(scope: Module, token: str) -> Optional[Thing]:
    """What a word of a definition in this scope stands for; None where that is a variable or a field."""
    if token in scope.definitions:
        return scope.definitions[token]
    if token in scope.items:
        return resolve(*scope.items[token])
    first, _, rest = token.partition('.')
    if rest and first in scope.modules:
        return resolve(scope.modules[first], rest.split('.')[0])
    return None if not rest or first not in scope.items else named(scope, first)


def _words(text: str) -> List[str]:
    """The words of a text."""
    return [plain(token.strip('.')) for token in _TOKEN.findall(text)]


def _is_constructor(scope: Module, token: str) -> bool:
    """Whether a word of a pattern is no variable."""
    found = named(scope, token)
    return isinstance(found, RustType) or (isinstance(found, Definition) and token.split('.')[-1] in found.constructors) or \
        (isinstance(found, Outside) and not token[0].islower())


def _variables(scope: Module, chunk: str, name: str) -> FrozenSet[str]:
    """The variables of a signature or of a clause."""
    bound = [word for found in _BINDER.finditer(chunk) for word in found.group(1).split()]
    for found in _BOUND.finditer(chunk):
        bound += _words(' '.join(filter(None, found.groups())))
    if not (_SIGNATURE.match(chunk) or _TYPE.match(chunk)):
        bound += _words(re.split(r'\s=\s', chunk)[0])
    return frozenset(word for word in bound if not _is_constructor(scope, word)) - {name}


def _chunks(definition: Definition) -> Iterator[str]:
    """The signature and each clause of a definition; a type's are one."""
    text = [line.partition(' -- ')[0] for line in definition.lines if not line.strip().startswith('--')]
    if definition.is_record or definition.constructors:
        yield '\n'.join(text)
        return
    chunk: List[str] = []
    for line in text:
        if chunk and not line.startswith(' '):
            yield '\n'.join(chunk)
            chunk = []
        chunk.append(line)
    yield '\n'.join(chunk)


def uses(definition: Definition) -> List[Thing]:
    """What the words of a definition stand for, in their order, each once."""
    scope = module(definition.module)
    assert scope
    fields = {line.split(' : ')[0].strip() for line in definition.lines[1:]} if definition.is_record else set()
    found: List[Thing] = []
    for chunk in _chunks(definition):
        variables = _variables(scope, chunk, definition.name) | fields
        things = (named(scope, word) for word in _words(chunk) if word not in variables and word.split('.')[0] not in variables)
        found += [thing for thing in things if thing is not None and thing != definition]
    return list(dict.fromkeys(found))
