#!/bin/sh
# Refuses each allocation of some runs on threads in turn, and then each thread.
#
# usage: checks/refused_run.sh PROGRAM
#
# A run whose N-th allocation is refused may end
# - with a report in which no channel stands open: each tail and the bytes of each channel begin those that `plain` reports,
#   and a drained channel is as `plain` has it.
# - with nothing on standard output, and `out of memory` and status 4; or `run refused: 2 Spawn`, where it was the memory of a
#   thread; or, where the command line was being read, the usage line and status 2.
# A run whose N-th thread can't be started says so with status 4, and has joined the others. Anything else fails, as does a run
# of more than a minute. Which allocation is the N-th is not the same in each run, since threads make them.
set -eu
program=$1
here=$(cd "$(dirname "$0")" && pwd)
work=$(mktemp -d)
trap 'rm -rf "$work"' EXIT

cc -shared -fPIC -O2 -o "$work/refuse.so" "$here/refuse_growth.c" -ldl

# Runs the session with allocation $1 or thread $2 refused.
run() {
    status=0
    timeout 60 env REFUSE_ALLOCATION="$1" REFUSE_THREAD="$2" LD_PRELOAD="$work/refuse.so" "$program" run --queue ring \
        <"$session" >"$work/out" 2>"$work/err" 3>"$work/count" || status=$?
}

# Says what went wrong, and ends.
fail() {
    echo "refused run: $name: $1"
    exit 1
}

for name in quit handover_drained totals_across_groups group_placing length_across_groups; do
    session=$here/../examples/$name/session.json
    "$program" plain <"$session" >"$work/plain" || fail "plain failed"
    run 0 0
    count=$(cat "$work/count")
    cmp -s "$work/out" "$work/plain" || fail "the run with all its memory has another report"

    memory=0
    usage=0
    whole=0
    part=0
    number=1
    while [ "$number" -le "$count" ]; do
        run "$number" 0
        case "$status $(cat "$work/err")" in
            '4 out of memory' | '4 run refused: 2 Spawn') memory=$((memory + 1)); [ ! -s "$work/out" ] ;;
            '2 usage: '*) usage=$((usage + 1)); [ ! -s "$work/out" ] ;;
            '0 ' | '1 ')
                if cmp -s "$work/out" "$work/plain"; then whole=$((whole + 1)); else part=$((part + 1)); fi
                awk -v status="$status" -v is_run=1 -f "$here/begins_plain.awk" "$work/plain" "$work/out"
                ;;
            *) false ;;
        esac || fail "allocation $number of $count ended with status $status"
        number=$((number + 1))
    done
    [ "$((memory + part))" -gt "$usage" ] || fail "too few runs wanted memory"

    # Each thread in turn, until none is refused.
    thread=1
    while run 0 "$thread" && false || [ "$status" -ne 0 ]; do
        [ "$status $(cat "$work/err")" = '4 run refused: 2 Spawn' ] || fail "thread $thread ended with status $status"
        [ ! -s "$work/out" ] || fail "a report though thread $thread was not there"
        thread=$((thread + 1))
    done
    [ "$thread" -gt 1 ] || fail "no thread was refused"
    echo "refused run: $name: $count allocations, $memory answered so, $usage as no command line, $part ended in another report, $whole did without; $((thread - 1)) threads"
done
