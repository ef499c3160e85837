#!/bin/sh
# Runs the built program on files, pipes and devices and with all kinds of command lines, and compares what it writes, the first line
# of its standard error and its status.
#
#   tests/program.sh [PROGRAM]        PROGRAM is crates/gwb/out/gwb where none is given
. "$(dirname "$0")/../.ci/command_line.sh"
command_line 1 '' "$@"
cd "$(dirname "$0")/.." || exit 2
program=$(realpath -m "${1:-crates/gwb/out/gwb}")
if [ ! -x "$program" ]; then
    printf 'there is no program %s\n0 passed, 1 failed\n' "$program"
    exit 1
fi
if [ "$(echo list | timeout 60 "$program" 2> /dev/null)" != empty ]; then
    printf '%s does not answer a list of nothing as gwb does\n0 passed, 1 failed\n' "$program"
    exit 1
fi
dir=$(mktemp -d)
trap 'rm -rf "$dir"' EXIT
count=0
wrong=0

# same NAME WANTED GOT
same() {
    count=$((count + 1))
    if [ "$2" != "$3" ]; then
        wrong=$((wrong + 1))
        echo "$1: '$3', not '$2'"
    fi
}

# gwb WORDS..: runs the program
gwb() {
    timeout 60 "$program" "$@" > "$dir/out" 2> "$dir/err"
    echo $? > "$dir/status"
}

# ended NAME STATUS [TEXT]: compares the last run's status and the text on standard error
ended() {
    same "$1" "$2 $3" "$(cat "$dir/status") $(head -n 1 "$dir/err")"
}

# told NAME FILE: compares what the last run wrote
told() {
    cmp -s "$2" "$dir/out"
    same "$1: as $2" 0 $?
}

# wrote NAME REPLIES: the same, for replies in which \n ends a line
wrote() {
    printf '%b' "$2" > "$dir/wanted"
    told "$1" "$dir/wanted"
}

# A script in a file, on standard input, from a pipe, and in a file whose name is that of a flag.
gwb examples/wire.gwb < /dev/null; ended 'a file' 0; told 'a file' examples/wire.expected
same 'standard input, beside a file' rest "$(echo rest | { gwb examples/wire.gwb; cat; })"
gwb < examples/wire.gwb; ended 'standard input' 0; told 'standard input' examples/wire.expected
cat examples/wire.gwb | gwb; ended 'a pipe' 0; told 'a pipe' examples/wire.expected
cp examples/wire.gwb "$dir/--stop"
(cd "$dir" && gwb -- --stop) < /dev/null; ended 'after --' 0; told 'after --' examples/wire.expected

# The flag, on either side of the file.
stops='refused 2 1\n'
printf 'kvfs 1\nlist\n' > "$dir/in"
gwb < "$dir/in"; ended 'no flag' 1; wrote 'no flag' "${stops}empty\n"
gwb --stop < "$dir/in"; ended 'the flag' 1; wrote 'the flag' "$stops"
gwb --stop "$dir/in"; ended 'the flag before the file' 1; wrote 'the flag before the file' "$stops"
gwb "$dir/in" --stop; ended 'the flag after the file' 1; wrote 'the flag after the file' "$stops"

# Scripts that can't be opened or read.
gwb "$dir/missing"; ended missing 3 'gwb: cannot open the script'; wrote missing ''
gwb ''; ended 'no name' 3 'gwb: cannot open the script'
gwb /; ended 'a folder' 3 'gwb: read fault'; wrote 'a folder' ''
gwb < /; ended 'input that fails' 3 'gwb: read fault'

# Command lines that are refused, judged before the script is opened; help and version.
gwb a b; ended 'two files' 2 "error: unexpected argument 'b' found"; wrote 'two files' ''
gwb --stop "$dir/in" b; ended 'a second file after the flag' 2 "error: unexpected argument 'b' found"; wrote 'a second file' ''
gwb --stopp; ended 'no such flag' 2 "error: unexpected argument '--stopp' found"
gwb --stop --stop; ended 'the flag twice' 2 "error: the argument '--stop' cannot be used multiple times"
gwb "$(printf '\377')"; ended 'no UTF-8' 2 'error: invalid UTF-8 was detected in one or more arguments'
gwb --help; ended help 0; same 'usage in help' 1 "$(grep -c 'Usage: gwb \[--stop\] \[FILE\]' "$dir/out")"
gwb --version; ended version 0

# Output that fails.
skipped=0
if [ -c /dev/full ]; then
    for words in '' --help; do
        timeout 60 "$program" $words < examples/wire.gwb > /dev/full 2> "$dir/err"; echo $? > "$dir/status"
        ended "a full device $words" 3 'gwb: write fault'
    done
else
    skipped=2
    echo 'skipped: a full device, twice: there is no /dev/full'
fi
yes mvfs | head -n 100000 | { timeout 60 "$program" 2> "$dir/err"; echo $? > "$dir/status"; } | head -n 1 > /dev/null
ended 'a pipe that is closed' 3 'gwb: write fault'

# The longest line, in bytes, and one more; the longest script, as one line and as lines alone; and longer ones.
printf 'list%65532s\n' '' | gwb; ended 'the longest line' 0; wrote 'the longest line' 'empty\n'
printf 'list%65533s\nlist\n' '' | gwb; ended 'a longer line' 1; wrote 'a longer line' 'fault 6\nempty\n'
printf '%65537s\n' '' | tr ' ' a | gwb; ended 'a longer word' 1; wrote 'a longer word' 'fault 6\n'
head -c 67108864 /dev/zero | tr '\0' '#' | gwb; ended 'the longest script' 1; wrote 'the longest script' 'fault 6\n'
yes '' | head -c 67108864 | gwb; ended 'the most lines' 0; wrote 'the most lines' ''
head -c 67108865 /dev/zero | tr '\0' '#' | gwb; ended 'a longer script' 3 'gwb: script too long'; wrote 'a longer script' ''
yes '' | gwb; ended 'newlines for ever' 3 'gwb: script too long'; wrote 'newlines for ever' ''
tr '\0' a < /dev/zero | gwb; ended 'a line for ever' 3 'gwb: script too long'; wrote 'a line for ever' ''

# A script cut after each byte: the replies begin with those to its whole lines, and its last line is answered as if a newline ended it.
printf 'block 1 0 0 0 4 4 4\ncount 1\nvolume 1\nplane 1\nplane 3\nlist\nundo\nlist\n' > "$dir/in"
: > "$dir/whole"
for n in $(seq 0 "$(wc -c < "$dir/in")"); do
    head -c "$n" "$dir/in" > "$dir/cut"
    { cat "$dir/cut"; echo; } | gwb; mv "$dir/out" "$dir/ended"; status=$(cat "$dir/status")
    gwb < "$dir/cut"; ended "cut after $n bytes" "$status"; told "cut after $n bytes" "$dir/ended"
    head -c "$(wc -c < "$dir/whole")" "$dir/out" | cmp -s - "$dir/whole"; same "whole lines of $n bytes" 0 $?
    [ -n "$(tail -c 1 "$dir/cut")" ] || cp "$dir/out" "$dir/whole"
done

# Ten thousand commands, all of them undone and redone.
{
    printf 'mvfs 1 1 1 1 0 0 0\nmev @1 @1 1 2 1 0 0\n'
    awk 'BEGIN { for (e = 2; e < 10000; e++) print "mev -" e - 1, "-" e - 1, e, e + 1, e, 0, 0 }'
} > "$dir/line"
{ cat "$dir/line"; echo list; } | gwb
tail -n +10001 "$dir/out" > "$dir/listing"
{ yes ok | head -n 20000; printf 'refused 25 0\nempty\n'; yes ok | head -n 10000; echo refused 26 0; cat "$dir/listing"; echo count 10000 9999 1 0 2; } \
    > "$dir/wanted"
{ cat "$dir/line"; yes undo | head -n 10001; echo list; yes redo | head -n 10001; echo list; echo count 1; } | gwb
ended 'ten thousand commands' 1; told 'ten thousand commands' "$dir/wanted"

# A person at a terminal sees each reply before the next command is typed.
mkfifo "$dir/to" "$dir/from"
timeout 60 "$program" < "$dir/to" > "$dir/from" 2> "$dir/err" &
exec 3> "$dir/to" 4< "$dir/from"
echo list >&3
read -r reply <&4
same 'a reply before the end' empty "$reply"
exec 3>&- 4<&-
wait $!; echo $? > "$dir/status"
ended 'a conversation' 0

# With `--stop` the program ends at the first complaint, though more may come.
timeout 60 "$program" --stop < "$dir/to" > "$dir/out" 2> "$dir/err" &
exec 3> "$dir/to"
echo kvfs 1 >&3
wait $!; echo $? > "$dir/status"
exec 3>&-
ended 'an end before the input ends' 1; wrote 'an end before the input ends' "$stops"

echo "$((count - wrong)) passed, $wrong failed, $skipped skipped"
[ "$wrong" = 0 ]
