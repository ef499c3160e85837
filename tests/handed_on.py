#!/usr/bin/env python3
"""Compares gwb.h with the exports of the kernel, and tries that each call of it hands on to its export, and does nothing else.

    tests/handed_on.py

What the exports promise is proved; the calls of gwb.h are C: functions of the header, and those of bindings/calls.c. First each export's declaration
and each struct is compared with the crate's. Then calls.c is linked with a kernel of stubs, each of which notes its name, its arguments and the
heap in use, and answers what it is told to. Each call is given once for each answer and state of a handle: one export is called, that of its name,
with the same arguments in their order, in the session's heap; its answer comes back, and the handle and the heap of the thread are as they were. So
it is on a closed handle, or the answer is GWB_CLOSED. The last line counts the declarations, the structs and the calls.
"""
import re
import subprocess
import sys
import tempfile
from pathlib import Path
from typing import Dict, Iterator, List, NamedTuple, Optional, Set, Tuple

from counts import TOP, command_line, needs, told

BINDINGS = TOP / 'bindings'
CRATES = ('gwb_c', 'session_slots')
# Calls that hand on to no export of their own: they are of what lies beside the kernel, or put together of other calls.
BESIDE = {'gwb_succeeded', 'gwb_kind_text', 'gwb_is_open', 'gwb_use_heap', 'gwb_open_in', 'gwb_last_block', 'gwb_last_lamina', 'gwb_plus', 'gwb_minus',
          'gwb_lone', 'gwb_read_half_edges', 'gwb_read_vertices', 'gwb_read_triangles', 'gwb_face_triangles', 'gwb_load', 'gwb_lines', 'gwb_changes',
          'gwb_record', 'gwb_recorded', 'gwb_script', 'gwb_watch', 'gwb_watch_from', 'gwb_watch_to', 'gwb_compare', 'gwb_compare_from', 'gwb_compared',
          'gwb_compared_births', 'gwb_birth', 'gwb_became',
          'gwb_stop_by', 'gwb_greatest_number'}
# Exports that gwb.h doesn't show, since calls.c or features.cpp alone gives them. The library exports none of them.
HIDDEN = {'gwb_lack', 'gwb_lent_is_listing'}
# C's name of each struct, and the names by which C and the crate call the same argument or field where they differ.
STRUCTS = {'Refused': 'gwb_refusal', 'Counts': 'gwb_counts', 'Wide': 'gwb_wide', 'PlaneRow': 'gwb_plane', 'HalfEdgeRow': 'gwb_half_edge_row',
           'FaceRow': 'gwb_face_row', 'EdgeRow': 'gwb_edge_row', 'Place': 'gwb_point', 'Range': 'gwb_range'}
SAME = {('corner', 'from'), ('half_edge', 'from'), ('other', 'to'), ('loop', 'outer'), ('loop', 'l'), ('loop', 'of_loop'), ('half_edge', 'item'),
        ('n', 'last'), ('point', 'place'), ('six_volumes', 'volume'), ('g', 'gwb'), ('copy', 'gwb')}
# Exports that are handed the heap, and take no memory of it.
TAKE_NONE = {'gwb_commit', 'gwb_face_plane', 'gwb_volume', 'gwb_count'}
_FUNCTION = re.compile(r'^(?:GWB_NODISCARD )?(?:static inline )?((?:const |enum )?\w+ \*?)(gwb_\w+)\(([^)]*)\)(?:;|\s*\{)', re.MULTILINE)
NUMBERS = {'u32': 'uint32_t', 'i64': 'int64_t', 'u64': 'uint64_t', 'usize': 'size_t', 'bool': 'bool', '[u8]': 'char'}


class Argument(NamedTuple):
    """An argument or a field in C."""

    type: str
    name: str


class Function(NamedTuple):
    """A function in C: what it answers, and its arguments. An export may take memory."""

    result: str
    arguments: Tuple[Argument, ...]
    takes_memory: bool = False


def argument(text: str) -> Argument:
    """One of `uint32_t face`, `const char *line`."""
    found = re.fullmatch(r'(.*?)(\w+)', text.strip())
    assert found, text
    return Argument(found.group(1).strip(), found.group(2))


def header() -> Tuple[Dict[str, Function], Dict[str, List[Argument]]]:
    """The functions and the structs of gwb.h."""
    text = re.sub(r'/\*.*?\*/', '', (BINDINGS / 'include' / 'gwb.h').read_text(), flags=re.DOTALL)
    functions = {}
    for kind, name, arguments in _FUNCTION.findall(text):
        functions[name] = Function(kind.strip(), tuple(argument(it) for it in arguments.split(',') if it.strip() not in ('', 'void')))
    structs = {}
    for body, name in re.findall(r'^typedef struct \w+ \{([^}]*)\} (\w+);', text, re.MULTILINE):
        lines = [line.split() for line in body.split(';') if line.split()]
        structs[name] = [Argument(kind, field.strip(',')) for kind, *fields in lines for field in fields]
    return functions, structs


def in_c(name: str, kind: str) -> List[Argument]:
    """What stands in C for an argument or a field of the crate: a slice is a pointer and a length."""
    borrowed = re.fullmatch(r'&(mut )?(\[?)(\w+)\]?', kind)
    if kind == 'Global':
        return []
    if borrowed is None:
        return [Argument(NUMBERS.get(kind) or STRUCTS[kind], name)]
    is_mut, is_slice, of = borrowed.groups()
    pointed = 'gwb' if of in ('Gwb', 'GwbLent') else 'char' if of == 'u8' else NUMBERS.get(of) or STRUCTS[of]
    pointer = Argument(f'{"" if is_mut else "const "}{pointed} *', name)
    return [pointer, Argument('size_t', 'room' if is_mut else 'n')] if is_slice else [pointer]


def crate() -> Tuple[Dict[str, Function], Dict[str, List[Argument]]]:
    """The exports of the kernel and its structs, as C sees them."""
    text = '\n'.join(path.read_text() for name in CRATES for path in sorted((TOP / 'crates' / name / 'src').glob('*.rt')))
    exports = {}
    for name, arguments, result in re.findall(r'^pub extern "C" fn (\w+)\(([^)]*)\)(?: -> (\w+))?', text, re.MULTILINE):
        pairs = [it.strip().split(': ') for it in arguments.split(',') if it.strip()]
        takes_memory = ['alloc', 'Global'] in pairs and name not in TAKE_NONE
        exports[name] = Function(NUMBERS[result] if result else 'void', tuple(it for pair in pairs for it in in_c(pair[0], pair[1])), takes_memory)
    structs = {}
    for name, body in re.findall(r'^#\[repr\(C\)\]\n(?:#\[.*\]\n)*pub struct (\w+) \{([^}]*)\}', text, re.MULTILINE):
        if name in STRUCTS:
            structs[STRUCTS[name]] = [it for field, kind in re.findall(r'^    pub (\w+): (\w+),$', body, re.MULTILINE) for it in in_c(field, kind)]
    return exports, structs


def agree(c: Tuple[Argument, ...], of_crate: Tuple[Argument, ...]) -> bool:
    """Whether these are the same, in the same order."""
    return len(c) == len(of_crate) and all(a.type == b.type and (a.name == b.name or (a.name, b.name) in SAME) for a, b in zip(c, of_crate))


def declared_by_calls(name: str) -> Optional[Function]:
    """The declaration of an export in calls.c: under the kernel's name for it, or as a reader."""
    text = (BINDINGS / 'calls.c').read_text()
    found = re.search(rf'^(?:(enum \w+) kernel_{name}|CALL\({name.removeprefix("gwb_")}, (\w+), )\(([^)]*)\)', text, re.MULTILINE)
    return Function(found.group(1) or found.group(2), tuple(argument(it) for it in found.group(3).split(','))) if found else None


def declarations(functions: Dict[str, Function], exports: Dict[str, Function]) -> Iterator[str]:
    """Of each export what is wrong in its declaration, or nothing. One that is hidden is declared in calls.c, and neither shown nor exported."""
    local = (BINDINGS / 'gwb.map').read_text().partition('local:')[2]
    for name in HIDDEN:
        is_hidden = name in exports and name not in functions and re.search(rf'\b{name};', local)
        yield '' if is_hidden else f'{name}: it is to be an export of the crate that gwb.h doesn\'t show, and local in gwb.map'
    for name, export in exports.items():
        declared = declared_by_calls(name) if name in HIDDEN else functions.get(name)
        answers = {export.result, 'enum gwb_kind'} if export.result == 'uint32_t' else {export.result}
        is_so = declared is not None and declared.result in answers and agree(declared.arguments, export.arguments)
        yield '' if is_so else f'{name}: {"calls.c" if name in HIDDEN else "gwb.h"} declares {declared}, and the crate has {export}'


def layouts(structs: Dict[str, List[Argument]], of_crate: Dict[str, List[Argument]]) -> Iterator[str]:
    """Of each struct what is wrong, or nothing."""
    for name in STRUCTS.values():
        is_so = name in of_crate and agree(tuple(structs.get(name, ())), tuple(of_crate[name]))
        yield '' if is_so else f'{name}: gwb.h has {structs.get(name)}, and the crate {of_crate.get(name)}'


def export_of(name: str) -> str:
    """The export to which a reader hands on."""
    return 'gwb_lent_' + re.sub(r'^gwb_(read_)?', '', name)


def cast(it: Argument) -> str:
    """An argument as a number of 64 bits."""
    return f'(uint64_t)(uintptr_t){it.name}' if '*' in it.type else f'(uint64_t){it.name}'


def stub(name: str, export: Function, renamed: Set[str]) -> str:
    """An export that notes its call. It spoils the copy of the handle that a reader is given."""
    handle, *others = export.arguments
    does = [f'note("{name}", {handle.name});', *(f'given[{at}] = {cast(it)};' for at, it in enumerate(others))]
    if name == 'gwb_lent_mark':  # a record asks for it behind a call
        does[0] = f'if (calls == 0) {does[0]}'
    if name.startswith('gwb_lent_'):
        does.append(f'*{handle.name} = (gwb){{0}};')
    does += {'gwb_open': ['if (answer) *g = (gwb){true, &session, NULL};'], 'gwb_close': ['g->is_open = false; g->held = NULL;']}.get(name, [])
    if export.result != 'void':
        does.append(f'return ({export.result})answer;')
    arguments = ', '.join(f'{it.type} {it.name}' for it in export.arguments)
    return f'{export.result} {"kernel_" if name in renamed else ""}{name}({arguments}) {{ {" ".join(does)} }}\n'


def call_of(name: str, function: Function, export: str, takes_memory: bool) -> str:
    """A function that gives one call, with arguments of their own. What is told in `size_t` is told in more than 32 bits."""
    handle, *others = function.arguments
    values = [f'(void *)room_for[{at}]' if '*' in it.type else '2' if it.name in ('n', 'room') else str(at + 3) for at, it in enumerate(others)]
    noted = ', '.join(cast(Argument(it.type, value)) for it, value in zip(others, values)) or '0'
    flags = ', '.join(str(flag).lower() for flag in (handle.type.startswith('const'), takes_memory))
    return f"""
static void try_{name}(enum state state, uint64_t answers)
{{
    const struct wanted wanted = {{"{name}", "{export}", {flags}, {len(others)}, {{{noted}}}}};
    gwb it = handle(state, wanted.name), before = it;
    calls = 0;
    answer = {'answers << 40' if function.result == 'size_t' else 'answers'};
    tell(wanted.name, states[state], wrong(&wanted, &it, &before, (uint64_t){name}({', '.join(['&it', *values])})));
    gwb_close(&it);
}}
"""


def renamed_exports() -> Set[str]:
    """The exports before which a call of calls.c stands under their name, so that the kernel's are called kernel_gwb_*."""
    source = (BINDINGS / 'calls.c').read_text()
    by_macro = re.findall(r'^(?:CALL|CHANGE|COMMAND|STEP)\((\w+),', source, re.MULTILINE)
    return {*re.findall(r'\bkernel_(gwb_[a-z_]+)\(', source), *(f'gwb_{name}' for name in by_macro)}


def stubs(functions: Dict[str, Function], exports: Dict[str, Function], called: Dict[str, str]) -> str:
    """The text of stubs.h."""
    renamed = renamed_exports()
    shown = {**functions, **{name: declared for name in HIDDEN if (declared := declared_by_calls(name))}}
    kernel = (stub(name, shown[name], renamed) for name in exports if name in shown and name != 'gwb_version')
    tries = (call_of(name, functions[name], export, exports[export].takes_memory) for name, export in called.items())
    all_tries = ''.join(f'    try_{name}(state, answers);\n' for name in called)
    return ''.join([*kernel, *tries]) + f'\nstatic void try_all(enum state state, uint64_t answers)\n{{\n{all_tries}}}\n'


def complaints(text: str, folder: Path) -> List[str]:
    """What the stubs tell that is wrong."""
    (folder / 'stubs.h').write_text(text)
    program = str(folder / 'tried')
    sources = [TOP / 'tests' / 'handed_on.c', *(BINDINGS / name for name in ('calls.c', 'record.c', 'watch.c', 'asked.c', 'births.c', 'seeing.c', 'history.c', 'became.c', 'last.c', 'bulk.c', 'heap.c'))]
    build = ['cc', '-std=c11', '-O1', '-Werror=incompatible-pointer-types', '-DGWB_BLOCKS_ALONE', '-o', program,
             *(f'-I{at}' for at in (folder, BINDINGS, BINDINGS / 'include')), *map(str, sources)]
    for words in (build, [program]):
        done = subprocess.run(words, stdout=subprocess.PIPE, stderr=subprocess.STDOUT, text=True, timeout=120, check=False)
        if done.returncode != 0:
            return [f'{words[0]}: status {done.returncode}: {done.stdout[-2000:]}']
    return done.stdout.splitlines()


def tried(functions: Dict[str, Function], exports: Dict[str, Function], folder: Path) -> Iterator[str]:
    """Of each call what is wrong, or nothing."""
    others = BESIDE | HIDDEN | {'gwb_version', 'gwb_open', 'gwb_close'}
    calls = {name: name if name in exports else export_of(name) for name in functions if name not in others and not name.startswith('gwb_lent_')}
    stray = [f'{name}: there is no export {export}' for name, export in calls.items() if export not in exports]
    left = [f'no call hands on to {name}' for name in set(exports) - set(calls.values()) - others]
    called = {name: export for name, export in calls.items() if export in exports}
    told_of = [*stray, *left, *complaints(stubs(functions, exports, called), folder)]
    for name in (*called, 'gwb_open', 'gwb_close'):
        yield '\n'.join(line for line in told_of if line.startswith(f'{name}: '))
    yield '\n'.join(line for line in told_of if line.split(': ')[0] not in (*called, 'gwb_open', 'gwb_close'))


def main() -> int:
    command_line(__doc__)
    needs('cc')
    functions, structs = header()
    exports, of_crate = crate()
    with tempfile.TemporaryDirectory() as folder:
        return told([*declarations(functions, exports), *layouts(structs, of_crate), *tried(functions, exports, Path(folder))])


if __name__ == '__main__':
    sys.exit(main())
