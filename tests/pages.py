#!/usr/bin/env python3
"""Tries the manual pages and the completions of shells that `make install` makes: something stands below each heading, mandoc has nothing to say of a page,
and each shell completes a word, where they are installed. The last line counts.

    tests/pages.py
"""
import re
import shutil
import subprocess
import sys
import tempfile
from pathlib import Path
from typing import Iterator

from counts import TOP, command_line, told, without

sys.path.insert(0, str(TOP / '.ci'))

from manual_pages import write  # noqa: E402

# How each shell is asked what it makes of `gwb-mesh --fo` and of `gwb-mesh --form g`; zsh only reads the file.
ASKED = {'bash': ('. bash/gwb; _gwb gwb-mesh --fo gwb-mesh; echo $COMPREPLY; _gwb gwb-mesh g --form; echo $COMPREPLY', '--form\nglb\n'),
         'fish': ("source fish/gwb.fish; complete -C 'gwb-mesh --fo' | cut -f 1; complete -C 'gwb-mesh --form g' | cut -f 1", '--form\nglb\n'),
         'zsh': ('zsh -n zsh/_gwb', '')}


def asked(shell: str, folder: Path) -> str:
    """What is wrong with the completion of a shell, or nothing."""
    words, wanted = ASKED[shell]
    done = subprocess.run([shell, '-c', words], cwd=folder, capture_output=True, text=True, check=False)
    return '' if (done.returncode, done.stdout) == (0, wanted) else f'{shell} completes {done.stdout!r}, not {wanted!r}: {done.stderr[-300:]}'


def findings(folder: Path) -> Iterator[str]:
    """For each comparison what is wrong, or nothing."""
    write([folder / name for name in ('man', 'bash', 'fish', 'zsh')])
    for path in sorted((folder / 'man').iterdir()):
        bare = re.findall(r'^\.S[SH] (.*)\n\.S[SH] ', path.read_text(), re.MULTILINE)
        yield f'{path.name}: nothing stands below {", ".join(bare)}' if bare else ''
        if shutil.which('mandoc'):
            done = subprocess.run(['mandoc', '-T', 'lint', '-W', 'warning', path], capture_output=True, text=True, check=False)
            yield '' if done.returncode == 0 else done.stdout.strip()
    yield from (asked(shell, folder) for shell in ASKED if shutil.which(shell))


def main() -> int:
    command_line(__doc__)
    tools = {'mandoc': 'the look of mandoc at the pages', **{shell: f'the completion of {shell}' for shell in ASKED}}
    with tempfile.TemporaryDirectory() as folder:
        return told(findings(Path(folder)), [without(tool, what) for tool, what in tools.items() if shutil.which(tool) is None])


if __name__ == '__main__':
    sys.exit(main())
