#!/bin/sh
# Runs the built program on small jobs: what it writes to standard output and to standard error, and the status that it ends with.
# usage, at the top of the repository, where the program is built: sh tests/streams.sh
program=$PWD/crates/mekluon/out/mekluon
if [ ! -x "$program" ]; then
    echo "streams: no program at crates/mekluon/out/mekluon"
    exit 1
fi
scratch=$(mktemp -d) || exit 1
trap 'rm -rf "$scratch"' EXIT
failed=0
summary="summary: loads 0 ticks 0 steps 0 refusals 0 longest tick 0 of 0\n"

# job, standard output, standard error, status; the first three as printf takes them
try() {
    printf "$1" > "$scratch/job"
    printf "$2" > "$scratch/out-wanted"
    printf "$3" > "$scratch/err-wanted"
    timeout 20 "$program" < "$scratch/job" > "$scratch/out" 2> "$scratch/err"
    status=$?
    if [ "$status" != "$4" ] || ! cmp -s "$scratch/out" "$scratch/out-wanted" || ! cmp -s "$scratch/err" "$scratch/err-wanted"; then
        echo "streams: the job '$1' ended with status $status and wrote:"
        cat "$scratch/out" "$scratch/err"
        failed=1
    fi
}

try "" "" "" 0
try "# a note\n\n" "" "" 0
try "summary\n" "$summary" "" 0
try "arithmetic tracing\nevaluate 0 9 4100 5\n" "evaluate: 5 00000001\n" "" 0
try "evaluate 0 9 42\nsummary" "evaluate: refused 6 place 0\nsummary: loads 0 ticks 0 steps 0 refusals 1 longest tick 0 of 0\n" "" 0
try "summary\nsummary now\nsummary\n" "$summary" "line 2: a word too many\n" 1
try "evaluate 0 1 410\n" "" "line 1: word 4 is not pairs of hexadecimal digits\n" 1
try "summary\n\377\nsummary\n" "$summary" "line 2: stream did not contain valid UTF-8\n" 1
exit "$failed"
