#!/bin/sh
# Refuses each allocation of some replays in turn: replays that drain, that cut and make frames, that hand over, that send
# flags, whose transports fail, and that are aborted.
#
# usage: checks/refused_growth.sh PROGRAM
#
# A run whose N-th allocation is refused may end
# - with a report. Nothing rested on that allocation; or it ended a handler, a tail, a head or a lane, and the replay went on.
#   Each tail and the bytes of each channel begin those that `plain` reports, and a drained channel is as `plain` has it.
# - with nothing on standard output, and `out of memory` and status 4; or, where the command line was being read, the usage
#   line and status 2.
# Anything else fails.
set -eu
program=$1
here=$(cd "$(dirname "$0")" && pwd)
work=$(mktemp -d)
trap 'rm -rf "$work"' EXIT

cc -shared -fPIC -O2 -o "$work/refuse.so" "$here/refuse_growth.c" -ldl

# Runs the replay of an example with allocation $1 refused.
replay() {
    status=0
    REFUSE_ALLOCATION=$1 LD_PRELOAD=$work/refuse.so "$program" replay --moves "$(cat "$example/moves")" \
        <"$example/session.json" >"$work/out" 2>"$work/err" 3>"$work/count" || status=$?
}

# Whether what a run printed with this status is a report that begins that of `plain`.
begins_plain() {
    awk -v status="$status" -f "$here/begins_plain.awk" "$work/plain" "$work/out"
}

# Says what went wrong, and ends.
fail() {
    echo "refused growth: ${example#"$here"/../examples/}: $1"
    exit 1
}

cut_short=0
for example in ping echo_and_faults quit watermarks handover_drained transport_fault abort/after_the_write fault_before_abort \
    fault_handed_over one_channel_fails length_frames length_across_groups; do
    example=$here/../examples/$example
    "$program" plain <"$example/session.json" >"$work/plain" || fail "plain failed"
    replay 0
    count=$(cat "$work/count")
    cmp -s "$work/out" "$example/report" || fail "the run with all its memory has another report"

    memory=0
    usage=0
    whole=0
    part=0
    number=1
    while [ "$number" -le "$count" ]; do
        replay "$number"
        case "$status $(cat "$work/err")" in
            '4 out of memory') memory=$((memory + 1)); [ ! -s "$work/out" ] ;;
            '2 usage: '*) usage=$((usage + 1)); [ ! -s "$work/out" ] ;;
            '0 ' | '1 ')
                if cmp -s "$work/out" "$example/report"; then whole=$((whole + 1)); else part=$((part + 1)); fi
                begins_plain
                ;;
            *) false ;;
        esac || fail "allocation $number of $count ended with status $status"
        number=$((number + 1))
    done
    # Most allocations are not those of the command line.
    [ "$((memory + part))" -gt "$usage" ] || fail "too few runs wanted memory"
    cut_short=$((cut_short + part))
    echo "refused growth: ${example#"$here"/../examples/}: $count allocations, $memory answered out of memory, $usage as no command line, $part ended in another report, $whole did without"
done
[ "$cut_short" -gt 0 ] || { echo "refused growth: no refused allocation was told by a report"; exit 1; }
