#!/bin/sh
# Builds the yardstick, and compares what it prints with what the examples and the limits ask of the program itself.
#
# usage: bench/yardstick/check.sh [PROGRAM]     with a built program it compares the two as well, on the sessions of
# bench/run.py and of bench/yardstick/measure
set -eu
here=$(cd "$(dirname "$0")" && pwd)
work=$(mktemp -d)
trap 'rm -rf "$work"' EXIT
rustc --edition 2021 -O -o "$work/replay" "$here/replay.rs"
"$here/../../examples/check.sh" "$work/replay"
"$here/../../checks/limits.sh" "$work/replay"
[ $# -eq 0 ] || "$here/measure" --rounds 0 "$1"
