"""What .ci/archive and .ci/check know of the crates: crates.txt, where libraries lie, and what `rattle` is told of a crate."""
import os
import subprocess
from dataclasses import dataclass
from functools import lru_cache
from pathlib import Path
from typing import Dict, List, Tuple

TOP = Path(__file__).resolve().parent.parent


@dataclass(frozen=True)
class Crate:
    """A line of crates.txt: the crate, whether it is a static library, and the libraries that it names."""

    name: str
    is_static: bool
    libraries: Tuple[str, ...]

    @property
    def folder(self) -> Path:
        """Where its sources lie."""
        return TOP / 'crates' / self.name

    @property
    def rlib(self) -> Path:
        """Its library, as `rt ci` and other commands leave it."""
        return self.folder / 'out' / 'rlib' / f'{self.name}.rlib'

    @property
    def is_built(self) -> bool:
        """Whether its library is there."""
        return (self.rlib / 'format').is_file()

    @property
    def root(self) -> str:
        """The file that its sources begin with."""
        return 'src/main.rt' if (self.folder / 'src' / 'main.rt').is_file() else 'src/lib.rt'


@lru_cache(maxsize=None)
def crates() -> Dict[str, Crate]:
    """All crates by their names."""
    lines = (line.partition('#')[0] for line in (TOP / 'crates.txt').read_text().splitlines())
    named = (line.partition(':') for line in lines if line.strip())
    rows = ((head.split(), libraries.split()) for head, _, libraries in named)
    return {head[0]: Crate(head[0], 'staticlib' in head[1:], tuple(libraries)) for head, libraries in rows}


def below(crate: Crate) -> List[Crate]:
    """The repository's crates below this one, each once, after those below it."""
    found: Dict[str, Crate] = {}
    for library in crate.libraries:
        if library in crates():
            found.update((it.name, it) for it in [*below(crates()[library]), crates()[library]] if it.name not in found)
    return list(found.values())


@lru_cache(maxsize=None)
def kit() -> Path:
    """The folder of the toolchain."""
    doc = subprocess.run(['rt', 'doc'], stdout=subprocess.PIPE, check=True, text=True).stdout
    return Path(doc.strip()).parent


def jobs() -> int:
    """How many jobs a command gets where nothing else is said."""
    return min(os.cpu_count() or 1, 4)


def words(verb: str, crate: Crate) -> List[str]:
    """The words of `rattle check` or `rattle build` on a crate, over the libraries that lie there. They are given in its folder."""
    said = [str(kit() / 'bin' / 'rattle'), verb, '--crate-name', crate.name, crate.root]
    for library in ['std', *crate.libraries]:
        found = crates()[library].rlib if library in crates() else kit() / 'rlibs' / f'{library}.rlib'
        said += ['--extern', f'{library}={found}']
    for folder in [kit() / 'rlibs', *(it.rlib.parent for it in below(crate))]:
        said += ['-L', f'dependency={folder}']
    said += ['--antt-project', str(kit() / 'rattle' / 'logic' / 'antt-project.json'), '--logic-built', str(kit() / 'logic_built')]
    return [*said, '--links', f'{crate.name}=']


def rattle(verb: str, crate: Crate, more: List[str]) -> int:
    """Calls `rattle` on a crate. Gives its status."""
    (crate.folder / 'out').mkdir(exist_ok=True)
    return subprocess.run([*words(verb, crate), *more], cwd=crate.folder, stdin=subprocess.DEVNULL, check=False).returncode
