"""Builds the package `gwb` for pip by setuptools, in a copy of this folder, so that nothing is left in it. The library that is built in this repository
becomes part of the wheel, which is then one for this kind of machine: a proved one rather than an unproved one, which the version's local part names.
"""

import os
import shutil
from base64 import urlsafe_b64encode
from contextlib import contextmanager
from hashlib import sha256
from pathlib import Path
from sysconfig import get_platform
from tempfile import TemporaryDirectory
from typing import Any, Iterator, List, Optional
from zipfile import ZIP_DEFLATED, ZipFile

from setuptools import build_meta

_HERE = Path(__file__).resolve().parent
# Where `make` in the folder `bindings` leaves the library, and where `make try` does.
_BUILT = [_HERE.parent / 'bindings' / 'out' / 'libgwb.so', _HERE.parent / 'out' / 'unproved' / 'libgwb.so']
# The name by which a library says that its kernel is proved.
_PROVED = b'\0gwb_proved\0'

get_requires_for_build_sdist = build_meta.get_requires_for_build_sdist
get_requires_for_build_wheel = build_meta.get_requires_for_build_wheel
get_requires_for_build_editable = build_meta.get_requires_for_build_wheel


def build_wheel(wheel_directory: str, config_settings: Any = None, metadata_directory: Optional[str] = None) -> str:
    """Makes the wheel in the folder: its name. Ends the build where no library is there, and none is to be left out."""
    library = _library()
    target = os.path.abspath(wheel_directory)
    with _in_a_copy():
        if library:
            folder = Path('gwb') / '_lib'
            folder.mkdir()
            shutil.copy(library, folder / 'libgwb.so')
            Path('setup.cfg').write_text(_settings(library), encoding='utf-8')
        return str(build_meta.build_wheel(target, config_settings))


def build_editable(wheel_directory: str, config_settings: Any = None, metadata_directory: Optional[str] = None) -> str:
    """Makes a wheel that leads to this folder, and so to the library that is built: its name. Ends the build as build_wheel does."""
    with TemporaryDirectory() as folder:
        name = build_wheel(folder, config_settings)
        with ZipFile(Path(folder) / name) as whole, ZipFile(Path(wheel_directory) / name, 'w', ZIP_DEFLATED) as wheel:
            written = {path: whole.read(path) for path in whole.namelist() if not path.startswith('gwb/')}
            record = next(path for path in written if path.endswith('.dist-info/RECORD'))
            del written[record]
            written['gwb.pth'] = f'{_HERE}\n'.encode()
            for path, data in written.items():
                wheel.writestr(path, data)
            wheel.writestr(record, ''.join([*(_recorded(path, data) for path, data in written.items()), f'{record},,\n']))
        return name


def build_sdist(sdist_directory: str, config_settings: Any = None) -> str:
    """Makes the archive of the sources in the folder: its name."""
    target = os.path.abspath(sdist_directory)
    with _in_a_copy():
        return str(build_meta.build_sdist(target, config_settings))


def _library() -> Optional[Path]:
    """The library that the package takes along: proved, if such a one is built. None where GWB_WITHOUT_LIBRARY asks for the companions alone."""
    if os.environ.get('GWB_WITHOUT_LIBRARY'):
        print('the companions are installed without the library')
        return None
    built: List[Path] = sorted((path for path in _BUILT if path.is_file()), key=lambda path: not _is_proved(path))
    if not built:
        raise SystemExit('No libgwb.so is built, which sessions in Python need. `make try` at the top of the repository builds one, unproved. '
                         'GWB_WITHOUT_LIBRARY=1 installs the companions alone.')
    print(f'{built[0]} is installed with the package, {"proved" if _is_proved(built[0]) else "unproved"}')
    return built[0]


def _is_proved(library: Path) -> bool:
    """Whether the library says that its kernel is proved."""
    return _PROVED in library.read_bytes()


def _settings(library: Path) -> str:
    """What setuptools is told of a package with this library: for which machines it is, and that it is unproved."""
    platform = get_platform().replace('-', '_').replace('.', '_')
    return f'[bdist_wheel]\nplat_name = {platform}\n' + ('' if _is_proved(library) else '[egg_info]\ntag_build = +unproved\n')


def _recorded(path: str, data: bytes) -> str:
    """The line of a wheel's record for a file."""
    return f'{path},sha256={urlsafe_b64encode(sha256(data).digest()).rstrip(b"=").decode()},{len(data)}\n'


@contextmanager
def _in_a_copy() -> Iterator[None]:
    """The working folder is a copy of this one."""
    before = os.getcwd()
    with TemporaryDirectory() as folder:
        copy = shutil.copytree(_HERE, Path(folder) / _HERE.name, ignore=shutil.ignore_patterns('__pycache__', 'tests', 'build', '*.egg-info'))
        os.chdir(copy)
        try:
            yield
        finally:
            os.chdir(before)
