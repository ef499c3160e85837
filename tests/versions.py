#!/usr/bin/env python3
"""Compares the version in VERSION, at the top, with each place that says it, and the logic that docs/PROOFS.md names with that of the kit
on this machine, where there is one. The last line says how many are as it is.

    tests/versions.py
"""
import re
import shutil
import subprocess
import sys
from typing import Iterator, NamedTuple

from counts import TOP, closing, command_line, told, without


class Place(NamedTuple):
    """A file, the pattern whose group is the version in it, and what it has to be."""

    file: str
    pattern: str
    wanted: str
    needed: bool = True


def places(version: str) -> Iterator[Place]:
    """Where the version stands; what isn't needed is compared where it is there."""
    major, minor, patch = map(int, version.split('.'))
    number = major * 10_000 + minor * 100 + patch
    yield Place('crates/command_line/src/words.rt', r'\.version\("(.*)"\)', version)
    yield Place('companions/gwb/version.py', r"^VERSION = '(.*)'$", version)
    yield Place('companions/pyproject.toml', r'^version = \{ attr = "(.*)" \}$', 'gwb.version.VERSION')
    yield Place('bindings/gwb.pc.in', r'^Version: (.*)$', version)
    yield Place('bindings/rust/Cargo.toml', r'^version = "(.*)"$', version)
    yield Place('bindings/rust/sys/Cargo.toml', r'^version = "(.*)"$', version)
    yield Place('bindings/rust/sys/src/lib.rs', r'^pub const VERSION: u32 = (.*);$', f'{number:_}')
    yield Place('CHANGELOG.md', r'^## ([^(\n]*)$', version)  # a release that isn't out yet says so in parentheses
    yield Place('bindings/include/gwb.h', r'^#define GWB_VERSION (\d+)$', str(number), needed=False)


def complaint(place: Place) -> str:
    """What is wrong at a place, or nothing. The first match in a file counts."""
    found = re.search(place.pattern, (TOP / place.file).read_text(), re.MULTILINE)
    if found is None:
        return f'{place.file}: no version in it' if place.needed else ''
    return '' if found.group(1) == place.wanted else f'{place.file}: {found.group(1)}, not {place.wanted}'


def logic_complaint() -> str:
    """What is wrong with the logic that docs/PROOFS.md names, or nothing. That the kit is none of those that the README names is told, and isn't wrong: the
    proofs rest on the logic."""
    said = subprocess.run(['rt', 'version'], stdout=subprocess.PIPE, check=False, text=True).stdout
    kit = re.match(r'(\S+) logic (\w+)', said)
    if kit is None:
        return f'rt version: {said!r} names no logic'
    if not re.search(rf'`{kit.group(1)}\b', (TOP / 'README.md').read_text()):
        print(f'README.md: this kit, {kit.group(1)}, is none that it names')
    return complaint(Place('docs/PROOFS.md', r'`rattle-kit-\w+ logic (\w+)`', kit.group(2)))


def main() -> int:
    command_line(__doc__)
    version = (TOP / 'VERSION').read_text().strip()
    if not re.fullmatch(r'\d+\.\d+\.\d+', version):
        print(f'VERSION: {version!r} is no version', closing(0, 1), sep='\n')
        return 1
    found = [complaint(place) for place in places(version)]
    if shutil.which('rt') is None:
        return told(found, [without('rt', 'the logic that docs/PROOFS.md names')])
    return told([*found, logic_complaint()])


if __name__ == '__main__':
    sys.exit(main())
