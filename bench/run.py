#!/usr/bin/env python3
"""Runs the built program and the plain C program side by side on families of scripts, checks that they answer the same bytes and as the family says, and
tells the processor time of a line, the instructions of a line, the peak of memory, and the ratio of the times. Beside them runs the floor, which only reads
the words as numbers and answers each line `ok`.

    bench/run.py [--program PROGRAM] [--sizes 10000,100000,1000000] [--only FAMILY,FAMILY] [--seconds S] [--times N] [--markdown]

The programs run by turns. The time is the best of N runs (7; fewer of those that take long), user and system together, less the best time for the
lines that come before those measured (the start of the program, where there are none). The ratio is the median of those of runs next to each other, since
a machine may be slow for some runs. A run past S seconds (20) is given up, and so are larger scripts of its family.

Instructions are those of one run under callgrind, less those for the lines that come before. They are told where valgrind is there and the run takes
at most a twentieth of a second without it, since it takes some fifty times as long with it.
"""
import argparse
import collections
import contextlib
import filecmp
import math
import os
import statistics
import subprocess
import tempfile

import callgrind
import scripts

HERE = os.path.dirname(os.path.abspath(__file__))
ENOUGH = 2.0            # seconds of processor time after which a script isn't run again
COUNTED = 0.05          # seconds of processor time up to which a run's instructions are counted


# What a run costs, or a line of it; instructions are None where they aren't counted. The turns are the seconds of each run.
Cost = collections.namedtuple('Cost', 'seconds memory instructions turns')
NOTHING = Cost(0, 0, 0, ())


COMPLAINTS = (b'refused', b'fault', b'memory')


class TooSlow(Exception):
    pass


def complaints(answers):
    """How many of these answers say that a line wasn't carried out."""
    answers.seek(0)
    return sum(line.startswith(COMPLAINTS) for line in answers)


def run_once(program, script, out, limit):
    """Seconds of processor time and peak of memory in MiB."""
    script.seek(0)
    out.seek(0)
    out.truncate()
    done = subprocess.run([os.path.join(HERE, 'timed'), str(limit), program], stdin=script, stdout=out, stderr=subprocess.PIPE, check=True)
    status, microseconds, kibibytes = map(int, done.stderr.split())
    if status < 0:
        raise TooSlow
    if status > 1:
        raise SystemExit('%s ended with status %d' % (program, status))
    return microseconds / 1e6, kibibytes / 1024


def instructions(program, script):
    """Those of a run."""
    script.seek(0)
    return callgrind.dumps([program], stdin=script)[-1][1]


def of_a_line(whole, rest, lines):
    """The cost of a line, by what a run costs with these lines and without them; None where one took too long."""
    if whole is None or rest is None:
        return None
    counted = None not in (whole.instructions, rest.instructions)
    return Cost(max(whole.seconds - rest.seconds, 0) / lines, whole.memory, (whole.instructions - rest.instructions) / lines if counted else None,
                [seconds - rest.seconds for seconds in whole.turns])


def ratio_of(one, other):
    """The median of the ratios of two programs' runs next to each other; None where there is none."""
    ratios = [first / second for first, second in zip(one.turns, other.turns) if second > 0]
    return statistics.median(ratios) if ratios else None


class Bench:
    def __init__(self, programs, limit, times):
        self.programs = programs
        self.limit = limit
        self.times = times
        self.starts = [None] * len(programs)

    def best(self, text, refused=0):
        """The cost of each program; None for one that takes too long. They run by turns, and the answers of the first two are compared; so many of
        them are refusals."""
        with tempfile.TemporaryFile() as script, contextlib.ExitStack() as stack:
            script.write(text)
            script.flush()
            outs = [stack.enter_context(tempfile.NamedTemporaryFile()) for _ in self.programs]
            runs = self.by_turns(script, outs)
            self.compare(runs, outs, refused)
            return [self.cost(program, script, its) if its else None for program, its in zip(self.programs, runs)]

    def compare(self, runs, outs, refused):
        """Ends the bench where the answers aren't those that were to be measured."""
        if runs[0] and runs[1] and not filecmp.cmp(outs[0].name, outs[1].name, shallow=False):
            raise SystemExit('the answers differ')
        found = complaints(outs[0]) if runs[0] else refused
        if found != refused:
            raise SystemExit('%d lines are refused, and not %d as the family says' % (found, refused))

    def by_turns(self, script, outs):
        """The runs of each program, one after the other in turn; none of one that takes too long."""
        runs = [[] for _ in self.programs]
        going = set(range(len(self.programs)))
        while going:
            for i in sorted(going):
                try:
                    runs[i].append(run_once(self.programs[i], script, outs[i], self.limit))
                except TooSlow:
                    runs[i] = []
                    going.discard(i)
            going = {i for i in going if len(runs[i]) < self.times and sum(run[0] for run in runs[i]) <= ENOUGH}
        return runs

    def cost(self, program, script, runs):
        seconds, memory = min(run[0] for run in runs), max(run[1] for run in runs)
        is_counted = seconds <= COUNTED and callgrind.is_there()
        return Cost(seconds, memory, instructions(program, script) if is_counted else None, [run[0] for run in runs])

    def start(self):
        if None in self.starts:
            self.starts = self.best(b'')
        return self.starts

    def measure(self, family, size):
        """The cost of a line for each program, or None where it takes too long."""
        before = scripts.script(family.before(size)) if family.before else b''
        lines = scripts.script(family.lines(size))
        whole = self.best(before + lines, lines.count(b'\n') if family.is_refused else 0)
        rest = self.best(before) if before else self.start() if family.before else [NOTHING] * len(whole)
        return [of_a_line(w, r, lines.count(b'\n')) for w, r in zip(whole, rest)]


def time_text(seconds):
    for unit, scale in (('s', 1), ('ms', 1e-3), ('us', 1e-6)):
        if seconds >= 10 * scale:
            return '%.0f %s' % (seconds / scale, unit)
        if seconds >= scale:
            return '%.1f %s' % (seconds / scale, unit)
    return '%.0f ns' % (seconds / 1e-9)


def memory_text(mebibytes):
    return '%.1f' % mebibytes if mebibytes < 10 else '%.0f' % mebibytes


def instructions_text(count):
    return '' if count is None else '{:,.0f}'.format(count)


def table_row(name, size, got, limit):
    cells = [name, '{:,}'.format(size)]
    cells += [time_text(g.seconds) if g else 'over %d s in all' % limit for g in got]
    ratio = ratio_of(*got[:2]) if None not in got[:2] else None
    cells.append('%.2f' % ratio if ratio else '')
    cells += [instructions_text(g.instructions) if g else '' for g in got]
    cells += [memory_text(g.memory) if g else '' for g in got]
    return cells, ratio


HEAD = ['Family', 'Size', 'gwb, a line', 'C, a line', 'floor, a line', 'Ratio', 'gwb, instr.', 'C, instr.', 'floor, instr.', 'gwb, MiB', 'C, MiB', 'floor, MiB']
WIDTHS = [15, 10, 16, 16, 16, 7, 13, 13, 13, 9, 9, 9]


def show(cells, markdown):
    if markdown:
        print('| ' + ' | '.join(cells) + ' |', flush=True)
    else:
        print(' '.join(cell.ljust(width) for cell, width in zip(cells, WIDTHS)).rstrip(), flush=True)


def options():
    ap = argparse.ArgumentParser()
    ap.add_argument('--program', default=os.path.join(HERE, '..', 'crates', 'gwb', 'out', 'gwb'))
    ap.add_argument('--sizes', default='10000,100000,1000000')
    ap.add_argument('--only', help='names of families; all without it')
    ap.add_argument('--seconds', type=int, default=20)
    ap.add_argument('--times', type=int, default=7)
    ap.add_argument('--markdown', action='store_true')
    return ap.parse_args()


def measure_kind(bench, names, sizes, a):
    """A row for each family and size; the geometric mean of the ratios of each size at the end, except of families that may grow."""
    ratios = {size: [] for size in sizes}
    show(HEAD, a.markdown)
    if a.markdown:
        show(['---'] * len(HEAD), True)
    for name in names:
        family = scripts.FAMILIES[name]
        for size in sizes if family.before else [1]:
            if size > family.most:
                continue
            got = bench.measure(family, size)
            cells, ratio = table_row(name, size, got, a.seconds)
            show(cells, a.markdown)
            if ratio and not family.may_grow:
                ratios[size].append(ratio)
            if None in got:
                break
    for size, found in ratios.items():
        if found:
            mean = math.exp(sum(map(math.log, found)) / len(found))
            show(['(mean)', '{:,}'.format(size), '', '', '', '%.2f' % mean, *[''] * 6], a.markdown)
    print()


def main():
    a = options()
    if not os.path.isfile(a.program):
        raise SystemExit('bench/run.py: there is no program %s: (cd crates/gwb && rt run) < examples/wire.gwb proves and builds it; --program names another'
                         % os.path.normpath(a.program))
    subprocess.run(['make', '-s', '-C', HERE], check=True)
    if not callgrind.is_there():
        print('Instructions are left out: there is no valgrind.')
    bench = Bench((a.program, os.path.join(HERE, 'plain', 'plain'), os.path.join(HERE, 'floor')), a.seconds, a.times)
    names = a.only.split(',') if a.only else list(scripts.FAMILIES)
    sizes = [int(size) for size in a.sizes.split(',')]
    for may_grow in (False, True):
        chosen = [name for name in names if scripts.FAMILIES[name].may_grow == may_grow]
        if chosen:
            measure_kind(bench, chosen, sizes, a)


if __name__ == '__main__':
    main()
