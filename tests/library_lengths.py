#!/usr/bin/env python3
"""Lengths in C++ and in Rust, as the compilers take them: each literal of the table has its value in steps of 1/1000 mm, or doesn't compile and says why.

    tests/library_lengths.py

The compilers are what CXX and RUSTC name, or c++ and rustc; what is of one that isn't there is skipped. The last line counts.
"""
import os
import shutil
import subprocess
import sys
import tempfile
from pathlib import Path
from typing import Callable, Iterator, List, Tuple, Union

from counts import TOP, command_line, told, without

DIGITS, MULTIPLE = 'a length is written in at most 14 digits', 'a length is a multiple of 1/1000 mm'
# A number, its unit, and what comes of it: so many steps, or why it isn't taken.
TABLE: List[Tuple[str, str, Union[int, str]]] = [
    ('12.5', 'mm', 12_500), ('0', 'mm', 0), ('3', 'mm', 3_000), ('0.001', 'mm', 1), ('0.0010', 'mm', 1), ('2.', 'mm', 2_000), ('1000000', 'mm', 10 ** 9),
    ('-0.5', 'mm', -500), ('0.1', 'mm', 100), ('1_234.567', 'mm', 1_234_567), ('0.25', 'in', 6_350), ('1', 'in', 25_400), ('0.005', 'in', 127),
    ('0.0005', 'mm', MULTIPLE), ('12.0001', 'mm', MULTIPLE), ('0.0001', 'in', MULTIPLE), ('1e3', 'mm', DIGITS), ('0x10', 'mm', DIGITS),
    ('1234567890123456', 'mm', DIGITS), ('0.0000000000000001', 'mm', DIGITS)]


def in_cpp(number: str, unit: str) -> str:
    """The literal in C++."""
    return number.replace('_', "'") + f'_{unit}'


def in_rust(number: str, unit: str) -> str:
    """The macro in Rust."""
    return f'{ {"mm": "mm", "in": "inch"}[unit] }!({number})'


def cpp_program(value: str, steps: int) -> str:
    """A program in C++ that compiles where the value is so many steps."""
    return f'#include "gwb_lengths.hpp"\nusing namespace gwb_session::lengths;\nstatic_assert({value} == {steps}, "another value");\n'


def rust_program(value: str, steps: int) -> str:
    """One in Rust."""
    return f'#[macro_use]\n#[path = "{TOP}/bindings/rust/src/lengths.rs"]\npub mod lengths;\nconst _: () = assert!({value} == {steps}, "another value");\n'


def tries(words: List[str], ending: str, literal: Callable[[str, str], str], program: Callable[[str, int], str]) -> Iterator[str]:
    """For each row what is wrong, or nothing."""
    with tempfile.TemporaryDirectory() as folder:
        path = Path(folder) / f'lengths.{ending}'
        for number, unit, wanted in TABLE:
            value = literal(number, unit)
            path.write_text(program(value, wanted if isinstance(wanted, int) else 0))
            done = subprocess.run([*words, str(path)], cwd=folder, stdout=subprocess.DEVNULL, stderr=subprocess.PIPE, text=True)
            is_right = done.returncode == 0 if isinstance(wanted, int) else done.returncode != 0 and wanted in done.stderr
            yield '' if is_right else f'{value}: {wanted} was expected: {done.stderr[:400]}'


def main() -> int:
    command_line(__doc__)
    cpp = [os.environ.get('CXX') or 'c++', '-std=c++17', '-Wall', '-Wextra', '-Werror', '-fsyntax-only', f'-I{TOP / "bindings" / "include"}']
    rust = [os.environ.get('RUSTC') or 'rustc', '--edition', '2021', '--crate-type', 'lib', '--emit', 'metadata']
    found, skipped = [], []
    for words, ending, literal, program in ((cpp, 'cpp', in_cpp, cpp_program), (rust, 'rs', in_rust, rust_program)):
        if shutil.which(words[0]):
            found += tries(words, ending, literal, program)
        else:
            skipped.append(without(words[0], f'lengths in .{ending}'))
    return told(found, skipped)


if __name__ == '__main__':
    sys.exit(main())
