#!/usr/bin/env python3
"""Packs what is built, as `make dist` does, and tries each package where nothing else is: with an empty environment and an empty home, without the kit on
the path, and, where `unshare` may, without a network.

    tests/dist.py [PROGRAM [ARCHIVE [OUT]]]     OUT is the folder in which the library is built, or is to be

Without words it takes what `make try` has built. The last line counts.
"""
import re
import shutil
import subprocess
import sys
import tempfile
from pathlib import Path
from typing import Iterator, List, Sequence

from counts import TOP, command_line, needs, there, told, without

EXAMPLE = TOP / 'examples' / 'block_with_hole.gwb'
REPLIES = EXAMPLE.with_suffix('.expected').read_bytes()
VERSION = (TOP / 'VERSION').read_text().strip()
# The part that README begins with, and what it prints.
PART = re.search(r'```python\n(.*?)```', (TOP / 'README.md').read_text(), re.S).group(1)
VOLUME = re.search(r'print\(float\(bench\.volume\(\w+\)\)\) *# (\S+)', PART).group(1)
ASKED = "import gwb; print(gwb.__proved__, gwb.__version__, __import__('importlib.metadata').metadata.version('gwb'))"
DPKG = '--force-not-root --force-depends --force-script-chrootless --log=/dev/null'.split()
PROGRAM = '''#include <gwb.h>
int main(void)
{
    gwb g = {0};
    return !gwb_open(&g) || gwb_block(&g, 1, 0, 0, 0, 4, 4, 4) != GWB_OK;
}
'''
CMAKE = '''cmake_minimum_required(VERSION 3.10)
project(try C)
find_package(gwb REQUIRED)
add_executable(try try.c)
target_link_libraries(try gwb::gwb)
'''


class Trial:
    """Where packages are tried, and what is wrong with how their commands end."""

    def __init__(self, folder: Path, is_proved: bool) -> None:
        self.folder, self.is_proved = folder, is_proved
        self.home = folder / 'home'
        self.home.mkdir()
        self.apart = ['unshare', '-rn'] if subprocess.run(['unshare', '-rn', 'true'], capture_output=True, check=False).returncode == 0 else []

    @property
    def version(self) -> str:
        """The version of what is packed."""
        return VERSION + ('' if self.is_proved else '+unproved')

    def run(self, *words: object, **more: object) -> 'subprocess.CompletedProcess[bytes]':
        """Runs a command with nothing in its environment but these names, in the home."""
        environment = ['env', '-i', f'HOME={self.home}', 'PATH=/usr/bin:/bin:/usr/sbin:/sbin', *(f'{name}={value}' for name, value in more.items())]
        return subprocess.run([*self.apart, *environment, *map(str, words)], cwd=self.home, capture_output=True, timeout=600, check=False)

    def complaint(self, said: bytes, *words: object, status: int = 0, **more: object) -> str:
        """What is wrong with how a command ended, or nothing; `said` has to be among what it wrote."""
        done = self.run(*words, **more)
        if done.returncode == status and said in done.stdout + done.stderr:
            return ''
        return f'{" ".join(map(str, words))}: status {done.returncode}, {said!r} wanted: {(done.stdout + done.stderr)[-600:].decode(errors="replace")}'

    def programs(self, folder: Path) -> Iterator[str]:
        """The program and the companions in a folder, each with its manual page and its completion."""
        yield self.complaint(REPLIES, folder / 'gwb', EXAMPLE)
        share = folder.parent / 'share'
        for name in sorted(path.name for path in (TOP / 'companions').glob('gwb-*')):
            yield self.complaint(f'{name} {VERSION}'.encode(), folder / name, '--version')
            beside = [share / 'bash-completion' / 'completions' / name, share / 'fish' / 'vendor_completions.d' / f'{name}.fish']
            is_so = len(list((share / 'man' / 'man1').glob(f'{name}.1*'))) == 1 and all(path.is_file() for path in beside)
            yield '' if is_so else f'{name}: it has no manual page, or no completion'
        yield self.complaint(b'</html>', folder / 'gwb-view', EXAMPLE)

    def python(self, place: Path) -> Iterator[str]:
        """The README's part over the package that lies in a folder, and its page."""
        yield self.complaint(f'{VOLUME}\n'.encode(), '/usr/bin/python3', '-B', '-c', PART, PYTHONPATH=place)
        page = self.home / 'bracket.html'
        yield '' if page.exists() and b'</html>' in page.read_bytes() else 'README.md: its part made no page'
        page.unlink(missing_ok=True)


def wheel(at: Trial, path: Path) -> Iterator[str]:
    """The wheel, as pip installs it."""
    place = at.folder / 'installed'
    install = ['/usr/bin/python3', '-m', 'pip', 'install', '-q', '--no-index', '--no-cache-dir', '--target', place, path]
    yield '' if path.name.startswith(f'gwb-{at.version}-') else f'the wheel is called {path.name}'
    yield at.complaint(b'', *install)
    yield from at.python(place)
    yield at.complaint(f'{at.is_proved} {at.version} {at.version}'.encode(), '/usr/bin/python3', '-B', '-c', ASKED, PYTHONPATH=place)
    yield at.complaint(f'gwb-view {VERSION}'.encode(), place / 'bin' / 'gwb-view', '--version', PYTHONPATH=place)


def sources(at: Trial, path: Path) -> Iterator[str]:
    """The sources: companions run, and what needs a kit says so."""
    yield at.complaint(b'', 'tar', '-xzf', path)
    top = at.home / f'gwb-{VERSION}'
    yield at.complaint(b'</html>', top / 'companions' / 'gwb-view', top / 'examples' / 'block_with_hole.expected')
    yield at.complaint(b'README.md', 'make', '-s', '-C', top, 'try', status=2)
    yield at.complaint(b'make try', 'make', '-s', '-C', top, 'install', f'PREFIX={at.home}/.local', status=2)


def binaries(at: Trial, path: Path) -> Iterator[str]:
    """The tarball: its programs run where it lies, and a program in C finds the library by pkg-config and by CMake."""
    yield at.complaint(b'', 'tar', '-xzf', path)
    root = at.home / path.name[:-len('.tar.gz')]
    yield from at.programs(root / 'bin')
    yield from at.python(root / 'lib' / 'python3' / 'dist-packages')
    (at.home / 'try.c').write_text(PROGRAM)
    (at.home / 'CMakeLists.txt').write_text(CMAKE)
    if all(map(shutil.which, ('cc', 'pkg-config'))):
        for package, more in (('gwb', f'-Wl,-rpath,{root}/lib'), ('gwb-static', '')):
            flags = at.run('pkg-config', '--cflags', '--libs', package, PKG_CONFIG_PATH=root / 'lib' / 'pkgconfig').stdout.decode().split()
            yield at.complaint(b'', 'cc', 'try.c', '-o', package, *flags, *more.split()) or at.complaint(b'', at.home / package)
    if shutil.which('cmake'):
        yield at.complaint(b'', 'cmake', '-S', '.', '-B', 'build', f'-DCMAKE_PREFIX_PATH={root}') or at.complaint(b'', 'cmake', '--build', 'build')
        yield at.complaint(b'', at.home / 'build' / 'try')


def debian(at: Trial, path: Path) -> Iterator[str]:
    """The package: it is installed below a folder, runs, and is taken away; nothing is left, not even what Python compiled."""
    root = at.folder / 'debian'
    (root / 'var' / 'lib' / 'dpkg' / 'updates').mkdir(parents=True)
    for name in ('status', 'available'):
        (root / 'var' / 'lib' / 'dpkg' / name).touch()
    yield at.complaint(b'', 'dpkg', f'--root={root}', *DPKG, '-i', path)
    yield from at.programs(root / 'usr' / 'bin')
    yield from at.python(root / 'usr' / 'lib' / 'python3' / 'dist-packages')
    shared = root / 'usr' / 'share'
    yield '' if b'No licence comes with gwb' in (shared / 'doc' / 'gwb' / 'copyright').read_bytes() else 'the file copyright says otherwise'
    yield at.complaint(f'Version: {at.version}\n'.encode(), 'dpkg-deb', '-I', path)
    yield at.complaint(b'', '/usr/bin/python3', '-c', 'import gwb', PYTHONPATH=root / 'usr' / 'lib' / 'python3' / 'dist-packages')
    yield '' if list(shared.rglob('__pycache__')) else 'Python compiled nothing, so that nothing shows what is left of it'
    yield at.complaint(b'', 'dpkg', f'--root={root}', *DPKG, '-P', 'gwb')
    left = [str(found.relative_to(root)) for found in root.rglob('*') if found.relative_to(root).parts[0] != 'var']
    yield '' if not left else f'left by the package: {left[:5]}'
    if shutil.which('lintian'):
        done = subprocess.run(['lintian', '--fail-on', 'error', '--display-level', 'error', path], capture_output=True, text=True, check=False)
        yield '' if done.returncode == 0 else f'lintian: {done.stdout.strip()[-800:]}'


# What makes each package, by the end of its name, and the tools without which it isn't tried.
TRIALS = {'.whl': (wheel, ['/usr/bin/pip3']), f'gwb-{VERSION}.tar.gz': (sources, ['tar', 'make']),
          '-linux-x86_64.tar.gz': (binaries, ['tar']), '.deb': (debian, ['dpkg'])}


def findings(words: Sequence[Path], is_proved: bool, lines: List[str]) -> Iterator[str]:
    """For each try what is wrong, or nothing; what is left out goes into the lines."""
    with tempfile.TemporaryDirectory() as name:
        at = Trial(Path(name), is_proved)
        if not at.apart:
            lines.append(without('unshare that may', 'that no package asks the network'))
        made = subprocess.run(['make', '-s', 'dist', *words, f'INTO={at.folder}/dist'], cwd=TOP, capture_output=True, text=True, check=False)
        yield '' if made.returncode == 0 else f'make dist: status {made.returncode}: {made.stderr[-800:]}'
        lines.extend(f'skipped: {line}' for line in made.stdout.splitlines() if line.startswith('left out: '))
        paths = [Path(line.split(': ')[0]) for line in made.stdout.splitlines() if line.startswith('/')]
        for path in paths:
            (trial, tools), = (row for end, row in TRIALS.items() if path.name.endswith(end))
            missing = [tool for tool in tools if shutil.which(tool) is None]
            lines.extend(without(tool, path.name) for tool in missing)
            if not missing:
                yield from trial(at, path)
    lines.extend(without(tool, what) for tool, what in (('lintian', "what Debian's checker says"), ('cmake', 'CMake')) if shutil.which(tool) is None)


def main() -> int:
    given = command_line(__doc__, program=TOP / 'out' / 'gwb-unproved', archive=TOP / 'out' / 'libgwb_c-unproved.a', out='')
    program, archive = there(given.program), there(given.archive, 'archive')
    needs('make', 'cc', 'c++', 'strip', 'env', '/usr/bin/python3')
    words = [f'PROGRAM={program}', f'ARCHIVE={archive}', *([f'OUT={Path(given.out).resolve()}'] if given.out else [])]
    lines: List[str] = []
    found = list(findings(words, 'unproved' not in program.name + archive.name, lines))
    return told(found, lines)


if __name__ == '__main__':
    sys.exit(main())
