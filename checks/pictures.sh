#!/bin/sh
# Compares the pictures of docs/ with what pl_trace writes of these examples; with --write, writes them.
#
# usage: checks/pictures.sh PL_TRACE [--write]
set -u
trace=$1
top=$(cd "$(dirname "$0")/.." && pwd)
drawn=$(mktemp) || exit 2
trap 'rm -f "$drawn"' EXIT
different=0

for example in handover_drained fault_handed_over; do
    folder=$top/examples/$example
    picture=$top/docs/$example.svg
    "$trace" picture --moves "$(cat "$folder/moves")" <"$folder/session.json" >"$drawn"
    if [ "${2:-}" = --write ]; then
        cp "$drawn" "$picture"
    elif ! cmp -s "$drawn" "$picture"; then
        echo "docs/$example.svg is not what pl_trace writes"
        different=1
    fi
done
exit "$different"
