#!/usr/bin/env python3
"""Compiles and runs the programs of bindings/README.md in C, C++ and Rust: the blocks that begin with a file's name in a comment.

    tests/library_readme.py LIBRARY         LIBRARY is a libgwb.a

Those in Rust are left out where beside the library there is no libgwb.rlib, which `make rust` leaves there where rustc is. Each has to compile
without a warning, to end with status 0, and to print what the page says. The last line counts.
"""
import os
import re
import subprocess
import sys
import tempfile
from pathlib import Path
from typing import Dict, List

from counts import TOP, command_line, there

# What the page says that programs print.
PRINTS = {'part.c': r'(face \d has the loop \d\n){6}its volume is 64\nNotBare 1\n', 'plate.c': r"the pocket's floor is face 7\nOutlineOutside 1\n",
          'plate.cpp': r'(1|7|11|12) looks up\n' * 4 + r'(# edge .* is cut at .*\n)+# times 2 .*\nsplit .*\n# parallel, .*\nsplit .*\n(# tilted, .*\nsplit .*\n)+'}
INCLUDE = f'-I{TOP / "bindings" / "include"}'
WARNINGS = ['-Wall', '-Wextra', '-Werror', INCLUDE]


def programs(page: str) -> Dict[str, str]:
    """The programs of a page by their names."""
    blocks = re.findall(r'^```\w+\n(.*?)^```$', page, re.MULTILINE | re.DOTALL)
    named = [(re.match(r'(?:/\*|//) ([\w/]+\.(?:c|cpp|rs))\b.*\n', block), block) for block in blocks]
    return {Path(name.group(1)).name: block for name, block in named if name}


def compiler(source: Path, library: Path) -> List[str]:
    """The command that compiles a program of this name into `program`, as far as to the program's name."""
    if source.suffix == '.rs':
        return ['rustc', '--edition', '2021', '-Dwarnings', f'-Ldependency={library.parent}', '--extern', f'gwb={library.parent / "libgwb.rlib"}', str(source)]
    if source.suffix == '.c':
        return [os.environ.get('CC', 'cc'), '-std=c11', *WARNINGS, str(source), str(library)]
    return [os.environ.get('CXX', 'c++'), '-std=c++17', *WARNINGS, str(source), str(library)]


def complaint(folder: Path, name: str, text: str, library: Path) -> str:
    """What is wrong with a program, or nothing."""
    source, program = folder / name, folder / 'program'
    source.write_text(text)
    for command in ([*compiler(source, library), '-o', str(program)], [str(program)]):
        done = subprocess.run(command, capture_output=True, text=True, timeout=300)
        if done.returncode != 0:
            return f'{name}: {command[0]} ends with status {done.returncode}: {done.stderr[:1000]}'
    return '' if re.fullmatch(PRINTS.get(name, '(.*\n)*'), done.stdout) else f'{name} prints {done.stdout!r}'


def main() -> int:
    library = there(command_line(__doc__, library=str).library, 'library')
    found = programs((TOP / 'bindings' / 'README.md').read_text())
    if not (library.parent / 'libgwb.rlib').exists():
        found = {name: text for name, text in found.items() if not name.endswith('.rs')}
    with tempfile.TemporaryDirectory() as folder:
        wrong = [why for name, text in found.items() for why in [complaint(Path(folder), name, text, library)] if why]
    wrong += [] if len(found) >= 6 else [f'only {sorted(found)} are found']
    print(*wrong, f'{len(found)} compared, {len(wrong)} wrong', sep='\n')
    return 1 if wrong else 0


if __name__ == '__main__':
    sys.exit(main())
