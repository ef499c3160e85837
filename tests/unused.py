#!/usr/bin/env python3
"""Tries .ci/unused on a small tree, in which of each kind something is used, something isn't, and something is kept.

    tests/unused.py

The last line counts.
"""
import shutil
import subprocess
import sys
import tempfile
from pathlib import Path
from typing import Iterator, List

from counts import TOP, command_line, told

FILES = {
    'crates.txt': 'low:\nhigh: low\n',
    'README.md': 'What a page names, as `shown`, is there to be called.\n',
    'crates/low/src/lib.rt': '''//! `idle` stands in a comment.
ghost use Rattle.low.specs.Sums.{total};
use crate::other::{idle, passed};

pub fn called(x: u32) -> u32
    ensures { total result }
{
    by_called(x).map(passed)
}

fn by_called(x: u32) -> u32 {
    x
}

pub fn idle() -> u32 {
    by_idle()
}

fn by_idle() -> u32 {
    7
}

pub fn law()
    ensures { total 1 }
{}

impl Debug for Row {
    fn fmt(&self) -> u32 {
        by_trait(&self)
    }
}
''',
    'crates/low/src/other.rt': '''pub fn passed(x: u32) -> u32 {
    x
}

fn by_trait(x: u32) -> u32 {
    x
}
''',
    'crates/low/src/tests.rt': '#[test]\nfn tries() {\n    idle();\n}\n',
    'crates/high/src/main.rt': 'fn main(rt: HostRuntime) {\n    let _ = low::called(1);\n}\n',
    'crates/low/specs/Sums.antt': '''use Rattle.std.specs.Prelude.{ℕ}

-- `idle_sum` stands in a comment
pub total : ℕ → Type 0
total n = part n ≡ n

part : ℕ → ℕ
part n = n

pub idle_sum : ℕ → ℕ
idle_sum n = idle_part n

pub idle_part : ℕ → ℕ
idle_part n = n
''',
    'crates/low/proofs/Lib.antt': 'pub mod Facts\npub use Rattle.low.proofs.Facts.{never_cited}\n',
    'crates/low/proofs/Facts.antt': '''use Rattle.low.specs.Sums.{total}

module _ (n : ℕ) where
  pub cited : total n
  cited = inner

  inner : total n
  inner = by_search

  pub never_cited : total n
  never_cited = inner

pub silent : total 2
silent = refl
''',
    'crates/low/proofs/Prelude.antt': 'pub use Rattle.low.proofs.Facts.{cited}\nunfoldable pub use Rattle.low.specs.Sums.{idle_sum, total}\n',
    'crates/low/proofs/called/Answers.antt': '''use Rattle.low.proofs.Prelude.{cited, total}
use Rattle.low.proofs.Facts.{silent}

returns-clause c = cited c.x
''',
    'companions/gwb/work.py': '''"""Work: `lost` stands in a text that is no name, as long texts are. So it isn't used by that, and is found."""


def run():
    return helper()


def helper():
    return 'later'


def later():
    return 1


def shown():
    return 2


def lost():
    return lost()


class Shell:
    def hook(self):
        return self.deep()

    def deep(self):
        return 3
''',
    'companions/gwb-run': '#!/usr/bin/env python3\nfrom gwb.work import run\nrun()\n',
    'bindings/include/gwb.h': 'int gwb_open(void);\n',
    'bindings/calls.c': 'int gwb_open(void)\n{\n    return beside();\n}\n\nint beside(void)\n{\n    return 1;\n}\n\nint astray(void)\n{\n    return 2;\n}\n',
    '.ci/unused.txt': 'python companions/gwb/work.py hook: another program calls it\n',
}
WANTED = ['function crates/low/src/lib.rt by_idle', 'function crates/low/src/lib.rt idle', 'statement Rattle.low.proofs.Facts never_cited',
          'statement Rattle.low.specs.Sums idle_part', 'statement Rattle.low.specs.Sums idle_sum', 'python companions/gwb/work.py lost',
          'passed Rattle.low.proofs.Prelude idle_sum', 'c bindings/calls.c astray']


def unused(folder: Path) -> 'subprocess.CompletedProcess[str]':
    """The ended run of .ci/unused in the tree."""
    return subprocess.run([str(folder / '.ci' / 'unused')], stdout=subprocess.PIPE, stderr=subprocess.STDOUT, text=True, check=False, timeout=60)


def findings(folder: Path) -> Iterator[str]:
    """For each comparison what is wrong, or nothing."""
    shutil.copytree(TOP / '.ci', folder / '.ci')
    for name, text in FILES.items():
        (folder / name).parent.mkdir(parents=True, exist_ok=True)
        (folder / name).write_text(text)
    done = unused(folder)
    named: List[str] = [line.partition(':')[0] for line in done.stdout.splitlines() if line.endswith(': nothing uses it')]
    for it in dict.fromkeys([*WANTED, *named]):
        yield '' if it in WANTED and it in named else f'{it}: it is ' + ('not named' if it in WANTED else 'named')
    yield '' if done.returncode == 1 and done.stdout.endswith(f' {len(WANTED)} wrong\n') else f'status {done.returncode}: {done.stdout[-300:]}'
    kept = folder / '.ci' / 'unused.txt'
    kept.write_text(''.join(f'{it}: kept\n' for it in [*WANTED, 'python companions/gwb/work.py hook']))
    done = unused(folder)
    yield '' if done.returncode == 0 else f'where all is kept: status {done.returncode}: {done.stdout[-300:]}'
    for line, why in (('python companions/gwb/work.py run: it is called', 'it is used, or gone'), ('c bindings/calls.c astray:', 'it has no reason')):
        kept.write_text(line + '\n')
        yield '' if why in unused(folder).stdout else f'{line!r} is not refused: {why}'


def main() -> int:
    command_line(__doc__)
    with tempfile.TemporaryDirectory() as folder:
        return told(findings(Path(folder)))


if __name__ == '__main__':
    sys.exit(main())
