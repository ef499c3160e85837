"""What the tests share: the command line, the file that is tried, the tools that they need, and the last line, by which .ci/run counts them."""
import argparse
import shutil
import sys
from pathlib import Path
from typing import Iterable, Optional, Sequence, Union

TOP = Path(__file__).resolve().parent.parent
GWB = TOP / 'crates' / 'gwb' / 'out' / 'gwb'


def command_line(doc: Optional[str], *flags: str, **words: object) -> argparse.Namespace:
    """What the command line of a test says. Each word has a name, and the value that it has where it isn't given, or, where it has to be given, its
    type. With `--help` the test prints what it does, and ends; what it doesn't take is refused with status 2."""
    parser = argparse.ArgumentParser(description=doc, formatter_class=argparse.RawDescriptionHelpFormatter, allow_abbrev=False)
    for name, value in words.items():
        if isinstance(value, type):
            parser.add_argument(name, metavar=name.upper(), type=value)
        else:
            parser.add_argument(name, metavar=name.upper(), type=int if isinstance(value, int) else str, nargs='?', default=value)
    for flag in flags:
        parser.add_argument(flag, action='store_true')
    return parser.parse_args()


def closing(passed: int, failed: int, skipped: int = 0) -> str:
    """The last line."""
    return f'{passed} passed, {failed} failed' + (f', {skipped} skipped' if skipped else '')


def there(path: Union[str, Path], kind: str = 'program') -> Path:
    """The whole path of the file that is tried. The test ends where there is none: it says so in a line, and counts as failed."""
    found = Path(path).resolve()
    if not found.is_file():
        print(f'there is no {kind} {found}', closing(0, 1), sep='\n')
        sys.exit(1)
    return found


def without(tool: str, what: str) -> str:
    """How the output names what was skipped, since a tool isn't there."""
    return f'skipped: {what}: there is no {tool}'


def needs(*tools: str) -> None:
    """The test ends where one of these commands isn't there: it says so in a line, and counts as skipped."""
    for tool in tools:
        if shutil.which(tool) is None:
            print(without(tool, Path(sys.argv[0]).name), closing(0, 0, 1), sep='\n')
            sys.exit(0)


def told(found: Iterable[str], skipped: Sequence[str] = ()) -> int:
    """Prints what is wrong, what was skipped, and the last line. `found` has a text for each comparison: what is wrong, or nothing.
    Gives the status: 0 where nothing is wrong and something was compared or skipped."""
    all_found = list(found)
    wrong = [why for why in all_found if why]
    print(*wrong, *skipped, closing(len(all_found) - len(wrong), len(wrong), len(skipped)), sep='\n')
    return 1 if wrong or not (all_found or skipped) else 0
