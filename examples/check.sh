#!/bin/sh
# Runs a program on each example and compares what it prints, and its status, with what the example says. Where that
# says that every channel is drained, `plain` has to print the same.
# usage: examples/check.sh PROGRAM
set -u

if [ $# -ne 1 ]; then
    echo "usage: examples/check.sh PROGRAM" >&2
    exit 2
fi
program=$1
examples=$(dirname "$0")
printed=$(mktemp -d) || exit 2
trap 'rm -rf "$printed"' EXIT

# A file that an example does not have stands for no bytes.
same() {
    if [ -f "$1" ]; then
        cmp -s "$1" "$2"
    else
        cmp -s /dev/null "$2"
    fi
}

different=0
for session in "$examples"/*/session.json "$examples"/*/*/session.json; do
    example=$(dirname "$session")
    if [ -f "$example/moves" ]; then
        set -- replay --moves "$(cat "$example/moves")"
    else
        set -- replay
    fi
    "$program" "$@" <"$session" >"$printed/report" 2>"$printed/error"
    status=$?
    wanted=0
    if [ -f "$example/status" ]; then
        wanted=$(cat "$example/status")
    fi

    differs=
    if [ "$wanted" -eq 0 ]; then
        "$program" plain <"$session" >"$printed/plain" 2>"$printed/plain_error" || differs="$differs plain_status"
        same "$example/report" "$printed/plain" || differs="$differs plain_report"
        same /dev/null "$printed/plain_error" || differs="$differs plain_error"
    fi
    same "$example/report" "$printed/report" || differs="$differs report"
    same "$example/error" "$printed/error" || differs="$differs error"
    [ "$status" -eq "$wanted" ] || differs="$differs status"
    if [ -z "$differs" ]; then
        echo "same       ${example#"$examples"/}"
    else
        echo "different  ${example#"$examples"/}:$differs"
        different=$((different + 1))
    fi
done

[ "$different" -eq 0 ]
