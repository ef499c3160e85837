#!/usr/bin/env python3
"""Makes the site, as `make site` does, and looks whether each link of its pages leads to a file and to a place in it, and whether the page of names has
all names of the headers of C and C++, of the crate and of gwb.__all__.

    tests/site.py

What a tool is missing for is named and counted as skipped. The last line counts.
"""
import re
import subprocess
import sys
import tempfile
from functools import lru_cache
from html.parser import HTMLParser
from pathlib import Path
from typing import Dict, FrozenSet, Iterator, List, Set
from urllib.parse import unquote

from counts import TOP, command_line, told

sys.path.insert(0, str(TOP / 'companions'))
import gwb

INCLUDE, CRATE = TOP / 'bindings' / 'include', TOP / 'bindings' / 'rust' / 'src'


class Links(HTMLParser):
    """The links of a page, and the places in it to which links may lead."""

    def __init__(self, text: str) -> None:
        super().__init__()
        self.links: List[str] = []
        self.places: Set[str] = set()
        self.feed(text)

    def handle_starttag(self, tag: str, attrs: 'list[tuple[str, str | None]]') -> None:
        named = dict(attrs)
        self.places |= {value for value in (named.get('id'), named.get('name') if tag == 'a' else None) if value}
        self.links += [value for value in (named.get('href') if tag == 'a' else None, named.get('src')) if value]


@lru_cache(maxsize=None)
def places(path: Path) -> FrozenSet[str]:
    """The places of a page."""
    return frozenset(Links(path.read_text(errors='replace')).places) if path.suffix == '.html' else frozenset()


def dead(page: Path) -> List[str]:
    """The links of a page that lead nowhere, and those that lead out of the site."""
    found = []
    for link in Links(page.read_text()).links:
        file, _, place = link.partition('#')
        target = (page.parent / unquote(file)).resolve() if file else page
        is_there = '://' not in link and not file.startswith('/') and target.is_file() and (not place or unquote(place) in places(target))
        found += [] if is_there or link.startswith(('data:', 'https://squidfunk.github.io/')) or link in ('#', '.') else [link]
    return found


def names() -> Dict[str, Set[str]]:
    """The public names by language, as the sources have them."""
    # (what a header hides from its reference by @cond is called by the header alone)
    headers = [re.sub(r'@cond.*?@endcond', '', path.read_text(), flags=re.DOTALL) for path in INCLUDE.glob('*.h')]
    c = {name for text in headers for name in re.findall(r'^(?!#)\w[\w *]*\b(gwb_\w+)\(', text, re.MULTILINE)}
    cpp = {name for path in INCLUDE.glob('*.hpp') for name in re.findall(r'^(?:class|struct) (?:GWB_NODISCARD )?(\w+)(?= (?:final |: |\{)|$)', path.read_text(), re.MULTILINE)}
    crate = {name for path in CRATE.glob('*.rs') for name in re.findall(r'^(?:pub (?:struct|enum|trait|type)| *pub (?:const )?fn) (\w+)', path.read_text(), re.MULTILINE)}
    return {'C and C++': c | cpp, 'Rust': crate, 'Python': set(gwb.__all__)}


def findings(folder: Path, lines: List[str]) -> Iterator[str]:
    """For each page and each name what is wrong, or nothing; what is left out goes into the lines."""
    made = subprocess.run([TOP / '.ci' / 'site', '--into', folder], capture_output=True, text=True, check=False)
    yield '' if made.returncode == 0 else f'.ci/site: status {made.returncode}: {made.stderr[-600:]}'
    left = [line for line in made.stdout.splitlines() if line.startswith('left out: ')]
    lines.extend(f'skipped: {line}' for line in left)
    html = folder / 'html'
    for page in sorted(path for path in html.rglob('*.html') if 'reference' not in path.relative_to(html).parts):
        wrong = dead(page)
        yield f'{page.relative_to(html)}: nothing at {", ".join(wrong[:8])} ({len(wrong)})' if wrong else ''
    there = set(re.findall(r'^- \[(?:[\w:.<>, ]*(?:::|\.))?([\w~]+)', (folder / 'pages' / 'names.md').read_text(), re.MULTILINE))
    for language, wanted in names().items():
        if not any(f'the reference of {language}' in line for line in left):
            yield from (f'{language}: {name} is not on the page of names' if name not in there else '' for name in sorted(wanted))


def main() -> int:
    command_line(__doc__)
    lines: List[str] = []
    with tempfile.TemporaryDirectory() as folder:
        found = list(findings(Path(folder), lines))
    return told(found, lines)


if __name__ == '__main__':
    sys.exit(main())
