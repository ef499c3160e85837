"""The manual pages of the companions, and the completions of bash, fish and zsh for them and for gwb, from the tables from which `--help` is made."""
import argparse
import re
import sys
from importlib import import_module
from typing import Callable, Iterator, List, NamedTuple, Tuple
from unittest import mock

from crates import TOP

sys.path.insert(0, str(TOP / 'companions'))
MODULES = {'gwb-import': 'importing'}
FILES = ('FILE', 'SCRIPT', 'REPLIES')
MADE = 'Made by make install from the tables of --help.'
BASH = '''# {made}
_gwb()
{{
    local words= values=
    case ${{1##*/}} in
{words}
    esac
    case "${{1##*/}} $3" in
{values}
    esac
    if [[ -n $values ]]; then
        COMPREPLY=($(compgen -W "$values" -- "$2"))
    elif [[ $2 == -* ]]; then
        COMPREPLY=($(compgen -W "$words" -- "$2"))
    else
        COMPREPLY=($(compgen -f -- "$2"))
    fi
}}
complete -o filenames -F _gwb {names}
'''
ZSH = '''#compdef {names}
# {made}
case $service in
{words}
esac
'''


class Word(NamedTuple):
    """An option, or a file that is given: its names, what stands behind it, what it does, and the values among which one is chosen."""

    names: Tuple[str, ...]
    takes: str
    told: str
    values: Tuple[str, ...] = ()


class Program(NamedTuple):
    """A program: its name, what it does, how it ends, and its words."""

    name: str
    told: str
    ends: str
    words: List[Word]


class Taken(BaseException):
    """A parser is about to be used."""


def parser_of(name: str) -> argparse.ArgumentParser:
    """The parser of a companion, as it is when its words are read."""
    module = import_module(f'gwb.programs.{MODULES.get(name, name[4:])}')
    found: List[argparse.ArgumentParser] = []

    def parse(self: argparse.ArgumentParser, *_: object, **__: object) -> None:
        found.append(self)
        raise Taken
    with mock.patch.object(argparse.ArgumentParser, 'parse_args', parse):
        try:
            module.main([])
        except Taken:
            pass
    return found[0]


def companion(name: str) -> Program:
    """A companion."""
    parser = parser_of(name)
    formatter = parser._get_formatter()
    words = [Word(tuple(action.option_strings), '' if action.nargs == 0 else formatter._format_args(action, (action.metavar or action.dest).upper()
                                                                                                  if isinstance(action.metavar, (str, type(None))) else ''),
                  formatter._expand_help(action), tuple(map(str, action.choices or ()))) for action in parser._actions]
    return Program(name, parser.description or '', parser.epilog or '', words)


def programs(gwb: List[Word]) -> List[Program]:
    """The program gwb, whose words are given, and the companions."""
    names = sorted(path.name for path in (TOP / 'companions').glob('gwb-*'))
    return [Program('gwb', '', '', gwb), *map(companion, names)]


def manual(program: Program, head: str, inline: Callable[[str], str], filled: Callable[[str], str]) -> str:
    """The manual page of a companion, with what roff takes made by these two."""
    first, _, rest = program.told.partition('. ')
    files = ' '.join(f'[{inline(word.takes.strip("[]"))}]' for word in program.words if not word.names)
    lines = [head, f'.\\" {MADE}', '.SH NAME', f'{inline(program.name)} \\- {inline(first[0].lower() + first[1:].rstrip("."))}',
             '.SH SYNOPSIS', f'.B {inline(program.name)}', f'[\\fIOPTION\\fR]... {files}', '.SH DESCRIPTION', filled(inline(program.told)), '.SH OPTIONS']
    for word in program.words:
        name = ', '.join(f'\\fB{inline(each)}\\fR' for each in word.names)
        lines += ['.TP', f'{name} {inline(word.takes)}'.strip(), filled(inline(f'{word.told[0].upper()}{word.told[1:]}.'))]
    lines += ['.SH EXIT STATUS', filled(inline(program.ends)), '.SH SEE ALSO', filled('\\fBgwb\\fR(1); share/doc/gwb/companions/README.md')]
    return '\n'.join(lines) + '\n'


def bash(found: List[Program]) -> str:
    """The completion of bash."""
    words = [f"    {program.name}) words='{' '.join(name for word in program.words for name in word.names)}' ;;" for program in found]
    values = [f"    '{program.name} {name}') values='{' '.join(word.values)}' ;;"
              for program in found for word in program.words if word.values for name in word.names]
    return BASH.format(made=MADE, words='\n'.join(words), values='\n'.join(values), names=' '.join(program.name for program in found))


def zsh(found: List[Program]) -> str:
    """The completion of zsh."""
    return ZSH.format(made=MADE, names=' '.join(program.name for program in found), words='\n'.join(
        f'{program.name})\n    _arguments -S \\\n' + ' \\\n'.join(f"        {line}" for line in zsh_words(program)) + '\n    ;;' for program in found))


def zsh_words(program: Program) -> Iterator[str]:
    """The words of a program as zsh's _arguments takes them."""
    for word in program.words:
        told = re.sub(r"([][:\\])", r'\\\1', word.told).replace("'", "'\\''")
        takes = [f':{each}:{"_files" if each in FILES else " "}' for each in re.findall(r'\w+', word.takes)]
        takes = [f':value:({" ".join(word.values)})'] if word.values else takes
        if word.names:
            yield from (f"'{name}[{told}]{''.join(takes)}'" for name in word.names)
    yield "'*:file:_files'"


def fish(found: List[Program]) -> str:
    """The completion of fish."""
    lines = [f'# {MADE}']
    for program in found:
        for word in program.words:
            names = ' '.join(f'-l {name[2:]}' if name.startswith('--') else f'-s {name[1:]}' for name in word.names)
            told = word.told.replace('\\', '\\\\').replace("'", "\\'")
            takes = f" -x -a '{' '.join(word.values)}'" if word.values else ' -r' if word.takes and not word.takes.startswith('[') else ''
            lines += [f"complete -c {program.name} {names}{takes} -d '{told}'"] if names else []
    return '\n'.join(lines) + '\n'


def completions(gwb: List[Word]) -> Tuple[str, str, str]:
    """The completions of bash, fish and zsh."""
    found = programs(gwb)
    return bash(found), fish(found), zsh(found)
