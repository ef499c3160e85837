#!/usr/bin/env python3
"""Installs the program, the man page, the companions, the pages and the library in a folder of its own, runs them there, and takes them away again:
by make, and the package of Python by pip, without a network.

    tests/install.py [PROGRAM [ARCHIVE]]        PROGRAM is crates/gwb/out/gwb where none is given

Without an ARCHIVE no library is installed, which has to be asked for. Afterwards no file may be left in the folder. The last line counts.
"""
import os
import re
import shutil
import subprocess
import sys
import tempfile
from pathlib import Path
from typing import Iterator, List, Optional, Sequence

from counts import GWB, TOP, command_line, needs, there, told, without

EXAMPLE = TOP / 'examples' / 'block_with_hole.gwb'
COMPANIONS = sorted(path.name for path in (TOP / 'companions').glob('gwb-*'))
VERSION = (TOP / 'VERSION').read_text().strip()
SONAME = 'libgwb.so.' + VERSION.split('.')[0]
LIBRARY = ['include/gwb.h', 'include/gwb.hpp', 'include/gwb_history.hpp', 'include/gwb_features.h', 'include/gwb_made.hpp', 'include/gwb_features.hpp',
           'include/gwb_triangles.hpp', 'include/gwb_export.hpp', 'include/gwb_lengths.hpp', 'include/gwb_cgal.hpp', 'include/gwb_names.h', 'lib/libgwb.a',
           'lib/libgwb_c.a', 'lib/libgwb.so', f'lib/{SONAME}', f'lib/libgwb.so.{VERSION}', 'lib/pkgconfig/gwb.pc', 'lib/pkgconfig/gwb-static.pc',
           'lib/cmake/gwb/gwb-config.cmake', 'lib/cmake/gwb/gwb-config-version.cmake', 'share/gwb/heap.c', 'share/gwb/heap.h']
# What pages link to in the sources alone.
SOURCES = ('bench', 'bindings/heap.c', 'companions/tests', 'crates', 'tests')
PROGRAM = '''#include <gwb.h>
#include <gwb_names.h>
int main(void)
{
    gwb g = {0};
    if (gwb_version() != GWB_VERSION || !gwb_open(&g) || gwb_block(&g, 1, 0, 0, 0, 4, 4, 4) != GWB_OK)
        return 1;
    gwb_close(&g);
    return 0;
}
'''
PYTHON = '''
import gwb
from gwb.session.library import find_path
with gwb.Workbench() as bench:
    print(bench.volume(bench.block((0, 0, 0), (4, 4, 4))), gwb.__proved__, gwb.__version__, find_path())
'''
# Of the package alone: its version, as pip has it, and whether it has a library.
ALONE = '''
from importlib.metadata import version
from pathlib import Path
import gwb
print(version('gwb'), (Path(gwb.__file__).parent / '_lib').exists())
'''
PIP = 'install --no-index --no-build-isolation --no-deps --no-cache-dir --disable-pip-version-check -q'.split()
CMAKE = '''cmake_minimum_required(VERSION 3.10)
project(try C CXX)
find_package(gwb {version} REQUIRED)
set(CMAKE_CXX_STANDARD 14)
add_executable(shared try.c)
target_link_libraries(shared gwb::gwb)
add_executable(static try.cpp)
target_link_libraries(static gwb::static)
'''


class Installation:
    """What `make install` leaves below a folder, where DESTDIR stands before PREFIX."""

    def __init__(self, folder: Path, program: Path, archive: Optional[Path]) -> None:
        self.stage, self.prefix = folder / 'stage', folder / 'prefix'
        self.program, self.archive = program, archive
        self.out = folder / 'out'
        self._environment = {name: value for name, value in os.environ.items() if name not in ('GWB', 'PYTHONPATH', 'MAKEFLAGS', 'VIRTUAL_ENV')}
        # (where Python looks for what a user installs for oneself)
        self._environment.update(HOME=str(folder), PYTHONUSERBASE=str(self.prefix))
        self._environment['PKG_CONFIG_PATH'] = str(self.prefix / 'lib' / 'pkgconfig')
        self._environment['PATH'] = f'{self.prefix / "bin"}:{os.environ["PATH"]}'

    @property
    def is_proved(self) -> bool:
        """Whether the archive is one that was proved: what wasn't is named so."""
        return self.archive is not None and 'unproved' not in self.archive.name

    def make(self, goal: str, stage: Path = Path(), program: Optional[Path] = None,
             libdir: Optional[Path] = None, without_library: bool = True) -> subprocess.CompletedProcess:
        """Runs make for a goal. Where no archive was given it names one that isn't there, and asks for what goes without the library."""
        archive = self.archive or self.out / 'no_archive'
        words = [f'PREFIX={self.prefix}', f'PROGRAM={program or self.program}', f'ARCHIVE={archive}', f'OUT={self.out}']
        words += [f'DESTDIR={stage}'] if stage != Path() else []
        words += ['GWB_WITHOUT_LIBRARY=1'] if without_library and self.archive is None else []
        words += [f'LIBDIR={libdir}'] if libdir else []
        return self.run(['make', '-s', '-C', str(TOP), goal, *words])

    def run(self, words: Sequence[object], data: bytes = b'') -> subprocess.CompletedProcess:
        """Runs a command with the installed ones before others on the path; the status is 127 where it isn't there, as a shell has it."""
        all_words = list(map(str, words))
        try:
            return subprocess.run(all_words, input=data, capture_output=True, timeout=600, env=self._environment, cwd=self.prefix.parent)
        except FileNotFoundError as error:
            return subprocess.CompletedProcess(all_words, 127, b'', str(error).encode())

    def command(self, name: str) -> Path:
        """Where a command is installed."""
        return self.prefix / 'bin' / name


def files(folder: Path) -> List[str]:
    """The files and links below a folder."""
    return sorted(str(path.relative_to(folder)) for path in folder.rglob('*') if path.is_symlink() or not path.is_dir())


def complaint(done: subprocess.CompletedProcess, told: bytes = b'', status: int = 0) -> str:
    """What is wrong with how a command ended, or nothing; `told` has to be among what it wrote."""
    written = done.stdout + done.stderr
    if done.returncode == status and told in written:
        return ''
    return f'{" ".join(done.args)}: status {done.returncode}, {told!r} wanted: {written.decode("utf-8", "replace")[-600:]}'


def installed(at: Installation) -> Iterator[str]:
    """The files, and what the programs do."""
    library = f'the library {at.archive} ({"proved" if at.is_proved else "unproved"})' if at.archive else 'no library'
    yield complaint(at.make('install'), library.encode())
    here = files(at.prefix)
    wanted = ['bin/gwb', 'share/man/man1/gwb.1', 'share/doc/gwb/examples/bracket.py', *(f'bin/{name}' for name in COMPANIONS),
              *(f'share/man/man1/{name}.1' for name in COMPANIONS), *(f'share/bash-completion/completions/{name}' for name in ['gwb', *COMPANIONS]),
              *(f'share/fish/vendor_completions.d/{name}.fish' for name in ['gwb', *COMPANIONS]), 'share/zsh/site-functions/_gwb',
              *(LIBRARY if at.archive else [])]
    yield '' if set(wanted) <= set(here) else f'not installed: {sorted(set(wanted) - set(here))}'
    yield '' if not [name for name in here if '__pycache__' in name or 'Cargo' in name] else 'what Python compiled is installed, or a crate'
    ran = at.run([at.command('gwb'), EXAMPLE])
    yield complaint(ran) or ('' if ran.stdout == EXAMPLE.with_suffix('.expected').read_bytes() else 'the installed gwb replies otherwise')
    for name in COMPANIONS:
        yield complaint(at.run([at.command(name), '--version']), f'{name} {VERSION}'.encode())
    listed = ran.stdout if b'vertex' in ran.stdout else at.run([at.command('gwb')], EXAMPLE.read_bytes() + b'list\n').stdout
    yield complaint(at.run(['env', 'PATH=/usr/bin:/bin', at.command('gwb-shell')], b'block 1 0 0 0 1 2 3\nvolume 1\n'), b'volume 36')
    for name, told in (('gwb-svg', b'</svg>'), ('gwb-mesh', b'OFF'), ('gwb-view', b'</html>'), ('gwb-check', b'no findings')):
        yield complaint(at.run([at.command(name)], listed), told)


def pages(at: Installation) -> Iterator[str]:
    """The pages are those of the sources, and their links lead to installed pages, pictures and examples, unless they lead into the sources."""
    folder = at.prefix / 'share' / 'doc' / 'gwb'
    found = sorted(str(path.relative_to(folder)) for path in folder.rglob('*.md'))
    wanted = ['CHANGELOG.md', 'README.md', 'bindings/README.md', 'companions/README.md', 'examples/gallery/README.md', *(f'docs/{path.name}' for path in (TOP / 'docs').glob('*.md'))]
    yield '' if found == sorted(wanted) else f'installed are the pages {found}, not {sorted(wanted)}'
    for page in found:
        text = (folder / page).read_text()
        links = [os.path.normpath(Path(page).parent / link) for link in re.findall(r'(?:\]\(|src=")([^)#"\s]+)', text) if '://' not in link]
        broken = [link for link in links if not (folder / link).exists() and not f'{link}/'.startswith(tuple(f'{source}/' for source in SOURCES))]
        same = text == (TOP / page).read_text()
        yield '' if same and not broken else f'{page}: {"" if same else "is another than in the sources; "}nothing at {broken}'


def packages(at: Installation) -> Iterator[str]:
    """A program in C that is compiled and linked as pkg-config says, with the shared library and with the static one."""
    for package in ('gwb', 'gwb-static'):
        flags = at.run(['pkg-config', '--cflags', '--libs', package]).stdout.decode().split()
        yield complaint(at.run(['cc', 'try.c', '-o', package, *flags]))
        yield complaint(at.run(['env', f'LD_LIBRARY_PATH={at.prefix}/lib', at.prefix.parent / package]))
        needed = at.run(['objdump', '-p', package]).stdout.decode()
        yield '' if (SONAME in needed) == (package == 'gwb') else f'{package} needs {needed}'


def cmake(at: Installation) -> Iterator[str]:
    """Programs in C and C++ that CMake builds with the package that it finds, which asks for C++17; of another first number it finds none."""
    build = ['cmake', '-S', '.', '-B', 'build', f'-DCMAKE_PREFIX_PATH={at.prefix}']
    source = at.prefix.parent / 'CMakeLists.txt'
    source.write_text(CMAKE.replace('{version}', VERSION))
    yield complaint(at.run(build)) or complaint(at.run(['cmake', '--build', 'build']))
    for name in ('shared', 'static'):
        yield complaint(at.run([at.prefix.parent / 'build' / name]))
    source.write_text(CMAKE.replace('{version}', '99.0'))
    yield complaint(at.run(['cmake', '-S', '.', '-B', 'other', f'-DCMAKE_PREFIX_PATH={at.prefix}']), b'99.0', status=1)


# What finds the installed library, and how that is tried.
PACKAGES = {'pkg-config': packages, 'cmake': cmake}


def library(at: Installation) -> Iterator[str]:
    """Programs over what is installed: by the compiler's words alone, by pkg-config, by CMake, with a heap of their own, and in Python."""
    (at.prefix.parent / 'try.c').write_text(PROGRAM)
    (at.prefix.parent / 'try.cpp').write_text('#include <gwb.hpp>\nint main() { gwb_session::Workbench bench; return bench.depth() != 0; }\n')
    words = f'-I{at.prefix}/include -L{at.prefix}/lib -Wl,-rpath,{at.prefix}/lib'.split()
    kernel = ['heap.o', f'{at.prefix}/lib/libgwb_c.a']
    yield complaint(at.run(['cc', 'try.c', '-o', 'plain', *words, '-lgwb'])) or complaint(at.run([at.prefix.parent / 'plain']))
    yield complaint(at.run(['cc', f'-I{at.prefix}/include', '-c', at.prefix / 'share' / 'gwb' / 'heap.c', '-o', 'heap.o']))
    yield complaint(at.run(['cc', 'try.c', '-o', 'own_heap', *words, *kernel])) or complaint(at.run([at.prefix.parent / 'own_heap']))
    yield complaint(at.run(['python3', '-B', '-c', PYTHON]), says(at, at.prefix / 'lib' / SONAME))
    for tool, tries in PACKAGES.items():
        if shutil.which(tool):
            yield from tries(at)
    package = at.prefix / 'lib' / 'pkgconfig' / 'gwb.pc'
    text = package.read_text() if package.exists() else ''
    yield '' if f'prefix={at.prefix}\n' in text and f'Version: {VERSION}\n' in text else f'gwb.pc says {text!r}'


def taken_away(at: Installation) -> Iterator[str]:
    """Nothing is left, also where the files stand in a stage, and links in it lead to files in it."""
    yield complaint(at.make('uninstall'))
    yield '' if not files(at.prefix) else f'left: {files(at.prefix)}'
    yield '' if not (at.prefix / 'share' / 'gwb').exists() else 'the folder share/gwb is left'
    yield complaint(at.make('install', at.stage))
    broken = [name for name in files(at.stage) if not (at.stage / name).exists()]
    yield '' if not broken and files(at.stage) and not files(at.prefix) else f'broken links in the stage: {broken}'
    yield complaint(at.make('uninstall', at.stage))
    yield '' if not files(at.stage) else f'left in the stage: {files(at.stage)}'


def elsewhere(at: Installation) -> Iterator[str]:
    """The library in another folder than lib, where pkg-config finds it, and CMake its headers."""
    folder = at.prefix / 'lib' / 'elsewhere'
    yield complaint(at.make('install', libdir=folder))
    yield '' if (folder / 'libgwb.a').exists() and not (at.prefix / 'lib' / 'libgwb.a').exists() else f'not in {folder}'
    text = (folder / 'pkgconfig' / 'gwb.pc').read_text()
    yield '' if f'libdir={folder}\n' in text else f'gwb.pc says {text!r}'
    text = (folder / 'cmake' / 'gwb' / 'gwb-config.cmake').read_text()
    yield '' if '/../../../../include" ABSOLUTE' in text else f'gwb-config.cmake says {text!r}'
    yield complaint(at.make('uninstall', libdir=folder))
    yield '' if not files(at.prefix) else f'left: {files(at.prefix)}'


def says(at: Installation, library: Path) -> bytes:
    """What the program in Python prints over the library."""
    return f'64 {at.is_proved} {VERSION}{"" if at.is_proved else "+unproved"} {library}\n'.encode()


def by_pip(at: Installation) -> Iterator[str]:
    """The package that pip builds of what is built, from a copy of the sources: without a library, and with one, also where it leads to the sources."""
    tree = at.prefix.parent / 'tree'
    shutil.copytree(TOP / 'companions', tree / 'companions', ignore=shutil.ignore_patterns('__pycache__', 'tests'))
    python = at.prefix.parent / 'environment' / 'bin' / 'python'
    yield complaint(at.run(['python3', '-m', 'venv', '--without-pip', '--system-site-packages', python.parent.parent]))
    install = [python, '-m', 'pip', *PIP]
    yield complaint(at.run([*install, tree / 'companions']), b'make try', status=1)
    yield complaint(at.run(['env', 'GWB_WITHOUT_LIBRARY=1', *install, tree / 'companions']))
    yield complaint(at.run([python, '-c', ALONE]), f'{VERSION} False\n'.encode())
    if at.archive is not None:
        built = tree / ('bindings/out' if at.is_proved else 'out/unproved') / 'libgwb.so'
        built.parent.mkdir(parents=True)
        shutil.copy(at.out / 'libgwb.so', built)
        for words, place in (([], python.parent.parent / 'lib'), (['-e'], built)):
            yield complaint(at.run([*install, '--force-reinstall', *words, tree / 'companions']))
            yield complaint(at.run([python, '-B', '-c', PYTHON]), says(at, place)[:-1])
            yield complaint(at.run([python, '-B', '-c', ALONE]), b'' if at.is_proved else b'+unproved')
    yield complaint(at.run([python.parent / 'gwb-view', '--version']), f'gwb-view {VERSION}'.encode())
    yield complaint(at.run([python, '-m', 'pip', 'uninstall', '-q', '-y', 'gwb']))
    left = [name for name in files(python.parent.parent) if 'gwb' in name and '__pycache__' not in name]
    yield '' if not left else f'pip left {left}'


def not_built(at: Installation) -> Iterator[str]:
    """What isn't built is said, with what to run, and nothing is installed."""
    yield complaint(at.make('install', program=at.prefix / 'no_program'), b'make try', status=2)
    if at.archive is None:
        yield complaint(at.make('install', without_library=False), b'make try', status=2)
    yield '' if not files(at.prefix) else f'installed though something is not built: {files(at.prefix)}'


def findings(program: Path, archive: Optional[Path]) -> Iterator[str]:
    """For each try what is wrong, or nothing."""
    with tempfile.TemporaryDirectory() as folder:
        at = Installation(Path(folder), program, archive)
        yield from not_built(at)
        yield from installed(at)
        yield from pages(at)
        if archive is not None:
            yield from library(at)
        if has_pip():
            yield from by_pip(at)
        yield from taken_away(at)
        if archive is not None:
            yield from elsewhere(at)


def has_pip() -> bool:
    """Whether Python has what pip needs to build a package without a network."""
    found = 'import sys; from importlib.util import find_spec; sys.exit(not all(map(find_spec, sys.argv[1:])))'
    return subprocess.run(['python3', '-c', found, 'pip', 'setuptools', 'venv', 'wheel'], check=False).returncode == 0


def main() -> int:
    given = command_line(__doc__, program=GWB, archive=None)
    program = there(given.program)
    archive = there(given.archive, 'archive') if given.archive else None
    needs('make', *(['cc', 'objdump'] if archive else []))
    skipped = [without(tool, 'what finds the installed library') for tool in PACKAGES if archive and shutil.which(tool) is None]
    skipped += [] if has_pip() else [without('pip, setuptools, venv or wheel for python3', 'the package that pip builds')]
    return told(findings(program, archive), skipped)


if __name__ == '__main__':
    sys.exit(main())
