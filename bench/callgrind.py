"""Counts instructions by valgrind's callgrind, whose counts hardly differ from run to run."""
import re
import shutil
import subprocess
import tempfile
from pathlib import Path

TRIGGER = re.compile(r'^desc: Trigger: (?:Client Request: )?(.*)$', re.MULTILINE)
TOTALS = re.compile(r'^totals: (\d+)', re.MULTILINE)


def is_there():
    return shutil.which('valgrind') is not None


def dump(text):
    """(why it was made, instructions since the one before) of a dump."""
    return TRIGGER.search(text)[1], int(TOTALS.search(text)[1])


def dumps(command, stdin=subprocess.DEVNULL):
    """The dumps of a run in their order: those that the program asks for, and one at its end."""
    with tempfile.TemporaryDirectory() as folder:
        out = Path(folder, 'dump')
        subprocess.run(['valgrind', '--tool=callgrind', '--callgrind-out-file=%s' % out, *command],
                       stdin=stdin, stdout=subprocess.DEVNULL, stderr=subprocess.DEVNULL, check=False)
        files = sorted(Path(folder).iterdir(), key=lambda file: int(file.suffix[1:] or 0))
        return [dump(file.read_text(errors='replace')) for file in files]
