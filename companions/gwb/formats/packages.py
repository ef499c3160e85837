"""Files within zip packages, of which no more is unpacked than is wanted."""

import zipfile
from typing import IO

from .parts import NotAMesh

MOST_BYTES = 400_000_000
_ENCRYPTED = 1
_TAKEN = (zipfile.ZIP_STORED, zipfile.ZIP_DEFLATED)


def opened(package: zipfile.ZipFile, name: str, most: int = MOST_BYTES) -> IO[bytes]:
    """A file of a package. Raises NotAMesh where it says that it is longer, is encrypted, or is packed in a way that 3MF and AMF don't know."""
    info = package.getinfo(name)
    if info.file_size > most:
        raise NotAMesh(f'{name[:60]} in it has more than {most:,} bytes')
    if info.compress_type not in _TAKEN:
        raise NotAMesh(f'{name[:60]} in it is packed in a way that is not read')
    if info.flag_bits & _ENCRYPTED:
        raise NotAMesh(f'{name[:60]} in it is encrypted')
    return package.open(info)
