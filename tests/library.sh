#!/bin/sh
# Tries the kernel as a library: builds the shared object and the examples in bindings/, compares what they print, looks for leaks, tries single
# calls, lets threads read at once and sessions have heaps of their own, loads listings, refuses each allocation in turn, looks for
# what sanitizers find, compares the answers to random lines with those to the same commands as typed calls, over a million of them, and the
# answers to 100,000 random lines with the program's. The last line counts.
#
#   tests/library.sh [ARCHIVE [PROGRAM]]
#
# ARCHIVE is crates/gwb_c/out/libgwb_c.a where none is given, and PROGRAM crates/gwb/out/gwb. What needs a tool that isn't there, or the program where
# none was given and none is built, is named as skipped, and counted.
. "$(dirname "$0")/../.ci/command_line.sh"
command_line 2 '' "$@"
cd "$(dirname "$0")/.." || exit 2
archive=$(realpath -m "${1:-crates/gwb_c/out/libgwb_c.a}")
program=$(realpath -m "${2:-crates/gwb/out/gwb}")
dir=$(mktemp -d)
trap 'rm -rf "$dir"' EXIT
passed=0
failed=0
skipped=0

# tried NAME COMMAND..: runs a command that has to succeed
tried() {
    name=$1
    shift
    "$@" > "$dir/log" 2>&1
    status=$?
    if [ "$status" = 0 ]; then
        passed=$((passed + 1))
    else
        failed=$((failed + 1))
        echo "$name: status $status"
        tail -n 12 "$dir/log" | cut -c 1-400
    fi
}

# has TOOL NAME..: whether a tool is there and runs; else each of what it was to try is skipped
has() {
    tool=$1
    shift
    "$tool" --version > /dev/null 2>&1 && return
    for name in "$@"; do
        echo "skipped: $name: there is no $tool that runs"
        skipped=$((skipped + 1))
    done
    false
}

# counted NAME COMMAND..: runs a command whose last line is 'N compared, M wrong' or 'N passed, M failed', where ', K skipped' may follow
counted() {
    name=$1
    shift
    "$@" > "$dir/log" 2>&1
    status=$?
    read -r well first bad second left _ <<END
$(tail -n 1 "$dir/log")
END
    case "$first ${second%,}" in
    'compared, wrong') well=$((well - bad)) ;;
    'passed, failed') ;;
    *) well=0 bad=1 left=0 ;;
    esac
    case $well$bad$left in
    *[!0-9]*) well=0 bad=1 left=0 ;;
    esac
    grep -e '^skipped: ' -e ' in whole millimetres: ' "$dir/log"
    [ "$status" = 0 ] || [ "$bad" != 0 ] || bad=1
    if [ "$bad" != 0 ]; then
        echo "$name: status $status"
        tail -n 12 "$dir/log" | cut -c 1-400
    fi
    echo "$name: $well passed, $bad failed"
    passed=$((passed + well))
    failed=$((failed + bad))
    skipped=$((skipped + ${left:-0}))
}

# prints NAME EXPECTED COMMAND..: runs a command that has to print what the file says
prints() {
    name=$1
    expected=$2
    shift 2
    "$@" > "$dir/out" 2> "$dir/err" && cmp "$expected" "$dir/out" >> "$dir/err" 2>&1 && [ ! -s "$dir/err" ]
    if [ $? = 0 ]; then
        passed=$((passed + 1))
    else
        failed=$((failed + 1))
        echo "$name:"
        diff "$expected" "$dir/out" | head -n 5
        head -n 5 "$dir/err"
    fi
}

if [ ! -f "$archive" ]; then
    echo "there is no archive $archive: (cd crates/gwb_c && rt lib) proves and builds it, make try an unproved one"
    echo '0 passed, 1 failed'
    exit 1
fi
if [ $# -gt 1 ] && [ ! -x "$program" ]; then
    echo "there is no program $program"
    echo '0 passed, 1 failed'
    exit 1
fi
for tool in cc "${CXX:-c++}" make python3; do
    has "$tool" 'the library, of which nothing was tried' || { echo "0 passed, 0 failed, $skipped skipped"; exit 0; }
done

make_here() {
    make -j "$(nproc)" -C bindings "ARCHIVE=$archive" "OUT=$dir/built" "$@"
}
began=$(date +%s)
tried 'the shared object and the examples in C and C++' make_here
echo "the shared object and two examples took $(($(date +%s) - began)) seconds"
prints 'the example in C' bindings/examples/block_c.expected "$dir/built/block_c"
prints 'the example in C++' bindings/examples/block_cpp.expected "$dir/built/block_cpp"
# is_alone OBJECT: whether a shared object has names of gwb_* alone for others, and needs the C library alone
is_alone() {
    nm -D --defined-only "$1" > "$dir/names" && objdump -p "$1" > "$dir/needs" || return
    grep -q ' gwb_open' "$dir/names" && ! grep -v ' gwb_' "$dir/names" && ! grep NEEDED "$dir/needs" | grep -Ev ' (libc|ld-linux[^ ]*)\.so'
}
tried 'the shared object has gwb_* alone, and needs the C library alone' is_alone "$dir/built/libgwb.so"
# The same with each block alone, so that valgrind sees each and each can be refused: all but heap.o is the same.
cp -pr "$dir/built" "$dir/alone"
rm -f "$dir/alone/heap.o" "$dir/alone/libgwb.a" "$dir/alone/block_c"
tried 'the library with each block alone' make -C bindings "ARCHIVE=$archive" "OUT=$dir/alone" 'CFLAGS=-O2 -DGWB_BLOCKS_ALONE' "$dir/alone/libgwb.a" \
    "$dir/alone/block_c"
# The same over another C file for the heap, where it has no features.
cp -pr "$dir/built" "$dir/own"
rm -f "$dir/own/heap.o" "$dir/own/libgwb.a" "$dir/own/block_c"
cp bindings/heap.c "$dir/own_heap.c"
tried 'the library over another heap' make -C bindings "ARCHIVE=$archive" "OUT=$dir/own" "HEAP=$dir/own_heap.c" "$dir/own/libgwb.a" "$dir/own/block_c"
prints 'the example in C over another heap' bindings/examples/block_c.expected "$dir/own/block_c"
# over_both SOURCE COMPILER..: builds a program of the tests over both, where every warning is an error
over_both() {
    source=$1
    shift
    "$@" -Wall -Wextra -Werror -Ibindings/include -c -o "$dir/${source%.*}.o" "tests/$source" &&
        "$@" -o "$dir/built/${source%.*}" "$dir/${source%.*}.o" "$dir/built/libgwb.a" &&
        "$@" -o "$dir/alone/${source%.*}" "$dir/${source%.*}.o" "$dir/alone/libgwb.a"
}
# built NAME SOURCE COMPILER..: the same, with a name for where it fails
built() {
    called=$1
    shift
    tried "$called" over_both "$@"
}
for standard in c++17 c++20; do
    built "the tests in C++ are built as $standard" library_cpp.cpp "${CXX:-c++}" "-std=$standard" -Wold-style-cast -Wshadow
    counted "the tests in C++ as $standard" "$dir/alone/library_cpp"
done
counted 'lengths when compiled' tests/library_lengths.py
built 'the tests without exceptions are built' library_results.cpp "${CXX:-c++}" -std=c++17 -fno-exceptions -Wold-style-cast -Wshadow
counted 'the tests without exceptions' "$dir/built/library_results"
built 'history is built' library_history.cpp "${CXX:-c++}" -std=c++17 -Wold-style-cast -Wshadow
counted 'history, and values that follow it' "$dir/built/library_history"
built 'features are built' library_features.cpp "${CXX:-c++}" -std=c++17 -Wold-style-cast -Wshadow
counted 'solids killed, copied and moved' "$dir/built/library_features"
built 'machining is built' library_machining.cpp "${CXX:-c++}" -std=c++17 -Wold-style-cast -Wshadow
counted 'features and cuts beside unit cubes' "$dir/built/library_machining"
built 'features on large faces are built' library_near.cpp "${CXX:-c++}" -std=c++17 -O1 -Wold-style-cast -Wshadow
counted 'features on large faces, beside small ones' "$dir/built/library_near"
built 'Booleans are built' library_booleans.cpp "${CXX:-c++}" -std=c++17 -O1 -Wold-style-cast -Wshadow
counted 'Booleans beside unit cubes, and each refusal' "$dir/built/library_booleans"
sed -n 's/^\([^:]*: [0-9]*\)$/  \1/p' "$dir/log"
built 'refused memory of features is built' library_features_refused.c "${CC:-cc}" -std=gnu11 -O2
counted 'each allocation of features refused' "$dir/alone/library_features_refused" 16
built 'files of other forms are built' library_export.cpp "${CXX:-c++}" -std=c++17 -Wold-style-cast -Wshadow
counted 'files of other forms' "$dir/built/library_export"
if echo '#include <CGAL/version.h>' | "${CXX:-c++}" -E -x c++ - > /dev/null 2>&1; then
    tried 'the graph of CGAL is built' "${CXX:-c++}" -std=c++17 -O1 -Wall -Wextra -Werror -Wold-style-cast -Wshadow -Ibindings/include \
        -o "$dir/built/library_cgal" tests/library_cgal.cpp "$dir/built/libgwb.a" -lgmp -lmpfr
    counted 'the graph of CGAL' "$dir/built/library_cgal"
    tried 'Booleans beside Nef polyhedra are built' "${CXX:-c++}" -std=c++17 -O1 -Wall -Wextra -Werror -Wold-style-cast -Wshadow -Ibindings/include \
        -o "$dir/built/library_booleans_nef" tests/library_booleans_nef.cpp "$dir/built/libgwb.a" -lgmp -lmpfr
    counted 'Booleans beside Nef polyhedra' "$dir/built/library_booleans_nef"
    grep ' operations, ' "$dir/log"
else
    for name in 'the graph of CGAL' 'Booleans beside Nef polyhedra'; do
        echo "skipped: $name: there is no CGAL"
        skipped=$((skipped + 1))
    done
fi
built 'one program in C is built' library_same_c.c "${CC:-cc}" -std=gnu11 -O2
built 'one program in C++ is built' library_same_cpp.cpp "${CXX:-c++}" -std=c++17 -Wold-style-cast -Wshadow
set -- "$dir/built/library_same_c" "$dir/built/library_same_cpp"
built 'the record is built' library_record.c "${CC:-cc}" -std=gnu11 -O2
counted 'the record of commands, given again' "$dir/built/library_record"
built 'the watch is built' library_watch.c "${CC:-cc}" -std=gnu11 -O2
counted 'sessions watched and not' "$dir/built/library_watch"
counted 'sessions watched and not, with each block alone' "$dir/alone/library_watch"
built 'births are built' library_births.cpp "${CXX:-c++}" -std=c++17 -O1 -Wold-style-cast -Wshadow
counted 'births beside whole copies' "$dir/built/library_births"
built 'what came of what by the last command is built' library_became.c "${CC:-cc}" -std=gnu11 -O2
counted 'what came of what by the last command' "$dir/built/library_became"
built 'outlines and sizes are built' library_outlines.c "${CC:-cc}" -std=gnu11 -O2
counted 'outlines and sizes of features' "$dir/built/library_outlines"
built 'threads are built' library_threads.c "${CC:-cc}" -std=gnu11 -O2 -pthread
counted 'threads that read at once' "$dir/built/library_threads"
built 'threads in C++ are built' library_sharing.cpp "${CXX:-c++}" -std=c++17 -pthread -Wold-style-cast -Wshadow
counted 'threads that walk at once' "$dir/built/library_sharing"
built 'heaps are built' library_heap.c "${CC:-cc}" -std=gnu11 -O2 -pthread
counted 'heaps of sessions' "$dir/built/library_heap"
counted 'heaps of sessions, each block alone' "$dir/alone/library_heap"
built 'pages are built' library_pages.c "${CC:-cc}" -std=gnu11 -O2 -pthread
counted 'small blocks from pages' "$dir/built/library_pages"
built 'loading is built' library_load.c "${CC:-cc}" -std=gnu11 -O2
counted 'models loaded of their listings' "$dir/built/library_load"
built 'triangles are built' library_triangles.c "${CC:-cc}" -std=gnu11 -O2
counted 'faces cut into triangles' "$dir/built/library_triangles"
prints 'the example in Python' bindings/examples/block_python.expected bindings/examples/block.py "$dir/built/libgwb.so"
if has rustc 'the crate and the example in Rust are built' 'the example in Rust' 'the tests in Rust, session' 'the tests in Rust, features' \
    'one program in Rust'; then
    tried 'the crate and the example in Rust are built' make_here rust
    prints 'the example in Rust' bindings/examples/block_rust.expected "$dir/built/block_rust"
    for name in session features; do
        tried "the tests in Rust, $name" "$dir/built/${name}_rust"
    done
    tried 'one program in Rust is built' rustc --edition 2021 -O -L "dependency=$dir/built" -o "$dir/built/library_same_rust" \
        tests/library_same_rust.rs --extern "gwb=$dir/built/libgwb.rlib"
    set -- "$@" "$dir/built/library_same_rust"
fi
counted 'the programs of the page' tests/library_readme.py "$dir/built/libgwb.a"
without_archive() {
    (cd bindings/rust && env "CARGO_TARGET_DIR=$dir/target" "GWB_LIB_DIR=$dir/none" cargo "$@" --offline)
}
if has cargo 'cargo check where there is no archive' 'cargo doc where there is no archive' 'the tests and the documentation in Rust by cargo'; then
    tried 'cargo check where there is no archive' without_archive check --all-targets
    tried 'cargo doc where there is no archive' without_archive doc --no-deps
    tried 'the tests and the documentation in Rust by cargo' env "CARGO_TARGET_DIR=$dir/target" "GWB_LIB_DIR=$dir/built" cargo test --offline \
        --manifest-path bindings/rust/Cargo.toml
fi
# (each is a program that was built above)
in_cpp='library_cpp library_results library_history library_features library_machining library_near library_booleans library_record library_watch library_births library_became library_outlines library_heap library_load library_triangles'
threads='library_threads library_sharing library_pages'
if has valgrind 'valgrind over the example in C' $in_cpp $threads 'one program of features'; then
    tried 'valgrind over the example in C' valgrind -q --error-exitcode=9 --leak-check=full --show-leak-kinds=all "$dir/alone/block_c"
    for name in $in_cpp; do
        tried "valgrind over $name" valgrind -q --error-exitcode=9 --leak-check=full --show-leak-kinds=all "$dir/alone/$name" 20
    done
    set -- "$@" "valgrind -q --error-exitcode=9 --leak-check=full --show-leak-kinds=all $dir/alone/library_same_c"
    for name in $threads; do
        tried "helgrind over $name" valgrind -q --tool=helgrind --error-exitcode=9 "$dir/built/$name" 100
    done
fi

# What is in C and C++ is built once more with sanitizers, over the archive as it is, whose requests for memory they see too. The compiler takes
# the most of it, so all are built side by side.
sanitizers='-g1 -O0 -fsanitize=address,undefined -fno-sanitize-recover=all -DGWB_BLOCKS_ALONE'
# sanitized PROGRAM COMPILER..: builds a program of the tests with them
sanitized() {
    source=$1
    shift
    "$@" $sanitizers -Ibindings/include -pthread -o "$dir/sanitized/${source%.*}" "tests/$source" "$dir/sanitized/libgwb.a" -lm \
        > "$dir/sanitized/${source%.*}.log" 2>&1 &
}
echo 'int main(void) { return 0; }' > "$dir/empty.c"
if "${CC:-cc}" $sanitizers -o "$dir/empty" "$dir/empty.c" 2> "$dir/err" && "$dir/empty"; then
    began=$(date +%s)
    tried 'the library is built with sanitizers' make -C bindings "ARCHIVE=$archive" "OUT=$dir/sanitized" "CFLAGS=$sanitizers" "CXXFLAGS=$sanitizers" "$dir/sanitized/libgwb.a"
    for name in library_same_c library_features_refused library_record library_watch library_became library_outlines library_heap library_load library_triangles library_threads library_pages library_worked; do
        sanitized "$name.c" "${CC:-cc}" -std=gnu11
    done
    for name in library_same_cpp library_cpp library_history library_features library_machining library_near library_booleans library_births library_sharing; do
        sanitized "$name.cpp" "${CXX:-c++}" -std=c++17
    done
    sanitized library_results.cpp "${CXX:-c++}" -std=c++17 -fno-exceptions
    wait
    for name in $in_cpp $threads library_worked library_features_refused; do
        cat "$dir/sanitized/$name.log"
        counted "$name with sanitizers" "$dir/sanitized/$name" "$([ "$name" = library_features_refused ] && echo 80 || echo 20)"
    done
    set -- "$@" "$dir/sanitized/library_same_c" "$dir/sanitized/library_same_cpp"
    echo "sanitizers took $(($(date +%s) - began)) seconds"
else
    echo 'skipped: sanitizers over the programs in C and C++: the compiler has none'
    skipped=$((skipped + 1))
fi

counted 'one program of features in all languages' python3 tests/library_same.py "$dir/built/libgwb.so" "$@"
built 'single calls are built' library_worked.c cc -O2 -std=gnu11
counted 'single calls' "$dir/built/library_worked"
if has valgrind 'valgrind over single calls'; then
    tried 'valgrind over single calls' valgrind -q --error-exitcode=9 --leak-check=full --show-leak-kinds=all "$dir/alone/library_worked"
fi

# typed LINES COMMAND..: gives so many random lines to the program that compares typed calls with lines
typed() {
    lines=$1
    shift
    tests/random_lines.py "$lines" 31 | "$@"
}
built 'typed calls beside lines are built' library_typed.c cc -O2 -std=gnu11
tried 'a million random commands as typed calls' typed 1400000 "$dir/built/library_typed"
if has valgrind 'valgrind over typed calls'; then
    tried 'valgrind over typed calls' typed 2000 valgrind -q --error-exitcode=9 --leak-check=full --show-leak-kinds=all \
        "$dir/alone/library_typed"
fi

tried 'models by readers' python3 tests/library_readers.py "$dir/built/libgwb.so"
tried 'the library over a heap that refuses' cc -O2 -shared -fPIC -Ibindings/include -o "$dir/built/counting.so" bindings/heap.c tests/counting_heap.c \
    -Wl,--whole-archive "$archive" -Wl,--no-whole-archive -Wl,--wrap=malloc,--wrap=realloc,--wrap=free
counted 'each allocation refused' python3 tests/library_refusals.py "$dir/built/counting.so"
if has "$program" '100,000 random lines'; then
    tried '100,000 random lines' python3 tests/library_lines.py "$dir/built/libgwb.so" "$program"
fi
counted 'the tutorial' python3 tests/tutorial.py "$dir/built/libgwb.so"
counted 'the gallery' python3 tests/gallery.py "$dir/built/libgwb.so"
counted 'the worked change of CONTRIBUTING' python3 tests/worked_change.py "$dir/built/libgwb.so"
counted "OpenSCAD's examples" python3 tests/openscad.py "$dir/built/libgwb.so"
counted 'the session in Python over the library' env "GWB=$dir/built/libgwb.so" python3 tests/library_companions.py
counted 'the session in thousandths of a millimetre' env "GWB=$dir/built/libgwb.so" GWB_TEST_STEP=1/1000 python3 tests/library_companions.py
echo "$passed passed, $failed failed, $skipped skipped"
[ "$failed" = 0 ]
