#!/bin/sh
# Holds pl_trace against pl_tool on each example: the fault of a check is that of a replay, a schedule that is made comes
# under a replay to what it says of each channel, and a trace of the example's own moves ends with the statuses of its report.
#
# usage: checks/traces.sh PL_TRACE PL_TOOL
set -u
trace=$1
tool=$2
examples=$(cd "$(dirname "$0")/../examples" && pwd)
work=$(mktemp -d) || exit 2
trap 'rm -rf "$work"' EXIT
different=0

for session in "$examples"/*/session.json "$examples"/*/*/session.json; do
    example=$(dirname "$session")
    differs=
    "$tool" plain <"$session" >"$work/plain" 2>"$work/refused"
    wanted=$?
    "$trace" check <"$session" >"$work/checked" 2>"$work/faults"
    [ $? -eq "$wanted" ] || differs="$differs check_status"
    if [ "$wanted" -ne 0 ]; then
        grep -v '^warning: \|^at ' "$work/faults" | cmp -s - "$work/refused" || differs="$differs fault"
        grep -q '1 NotJson' "$work/refused" || grep -q '^at ' "$work/faults" || differs="$differs place"
    else
        for order in --fair '--seed 1' '--seed 2'; do
            # shellcheck disable=SC2086
            "$trace" schedule $order <"$session" >"$work/moves" 2>"$work/said"
            made=$?
            "$tool" replay --moves "$(cat "$work/moves")" <"$session" >"$work/report" 2>/dev/null
            [ $? -eq "$made" ] || differs="$differs schedule_status"
            grep '^channel ' "$work/report" >"$work/stands"
            grep '^channel ' "$work/said" | cmp -s - "$work/stands" || differs="$differs schedule"
            [ "$made" -ne 0 ] || cmp -s "$work/plain" "$work/report" || differs="$differs drained"
        done
        moves=
        [ ! -f "$example/moves" ] || moves=$(cat "$example/moves")
        "$tool" replay --moves "$moves" <"$session" >"$work/report" 2>"$work/error"
        replayed=$?
        "$trace" moves --moves "$moves" <"$session" >"$work/trace" 2>"$work/error"
        [ $? -eq "$replayed" ] || differs="$differs trace_status"
        grep '^channel ' "$work/report" >"$work/stands"
        sed -n '/^end, /,$p' "$work/trace" | sed -n 's/^  channel /channel /p' | cmp -s - "$work/stands" || differs="$differs trace"
        "$trace" picture --moves "$moves" <"$session" >"$work/picture.svg" 2>"$work/error"
        [ $? -eq "$replayed" ] || differs="$differs picture_status"
    fi
    if [ -z "$differs" ]; then
        echo "same       ${example#"$examples"/}"
    else
        echo "different  ${example#"$examples"/}:$differs"
        different=1
    fi
done
exit "$different"
