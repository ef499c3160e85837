#!/usr/bin/env python3
"""Runs scripts on the built program and compares its replies, byte by byte, and its status.

    tests/scripts.py [PROGRAM]        PROGRAM is crates/gwb/out/gwb where none is given

The scripts are each NAME.gwb in tests/scripts and examples. NAME.expected has the replies, and NAME.stop.expected, where it stands,
those under --stop. The status is to be 1 where a reply begins with `refused`, `fault` or `memory`, and else 0.
"""
import re
import subprocess
import sys

from counts import GWB, TOP, command_line, there, told

FOLDERS = TOP / 'tests' / 'scripts', TOP / 'examples'


def runs():
    """The script, the flags and the file of replies of each run; also of replies that belong to no script."""
    for folder in FOLDERS:
        for script in sorted(folder.glob('*.gwb')):
            yield script, [], script.with_suffix('.expected')
        for replies in sorted(folder.glob('*.expected')):
            name = replies.name.removesuffix('.expected')
            if name.endswith('.stop'):
                yield folder / (name.removesuffix('.stop') + '.gwb'), ['--stop'], replies
            elif not (folder / (name + '.gwb')).exists():
                yield folder / (name + '.gwb'), [], replies


def first_difference(wrote, wanted):
    """The first line that differs, in words."""
    ours, theirs = wrote.split(b'\n'), wanted.split(b'\n')
    at = next((i for i, (a, b) in enumerate(zip(ours, theirs)) if a != b), min(len(ours), len(theirs)))
    shown = [repr(lines[at].decode(errors='replace')) if at < len(lines) else 'nothing' for lines in (ours, theirs)]
    return 'line %d is %s, not %s' % (at + 1, *shown)


def complaint(program, script, flags, replies):
    """What is wrong with a run, or None."""
    if not script.exists() or not replies.exists():
        return 'the script or its replies are missing'
    wanted = replies.read_bytes()
    try:
        done = subprocess.run([program, *flags, script], capture_output=True, timeout=60)
    except (OSError, subprocess.TimeoutExpired) as error:
        return str(error)
    if done.stdout != wanted:
        return first_difference(done.stdout, wanted)
    status = 1 if re.search(rb'^(refused|fault|memory)', wanted, re.MULTILINE) else 0
    if done.returncode != status or done.stderr:
        return 'status %d, not %d; standard error has %r' % (done.returncode, status, done.stderr.decode(errors='replace'))
    return None


def findings(program):
    """For each run what is wrong, or nothing."""
    for script, flags, replies in runs():
        why = complaint(program, script, flags, replies)
        yield '%s: %s' % (replies.relative_to(TOP), why) if why else ''


def main():
    return told(findings(there(command_line(__doc__, program=GWB).program)))


if __name__ == '__main__':
    sys.exit(main())
