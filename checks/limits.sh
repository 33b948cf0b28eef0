#!/bin/sh
# Runs a program on inputs up to and beyond its limits, and on an input and an output that fail.
#
# usage: checks/limits.sh PROGRAM
#
# The statuses and lines are those of docs/FORMATS.md, "Program". Nothing else may be printed.
set -eu
program=$1
here=$(cd "$(dirname "$0")" && pwd)
ping=$here/../examples/ping
work=$(mktemp -d)
trap 'rm -rf "$work"' EXIT
different=0

# Compares what a run left in $work with status $2 and the line $3 on standard error; $1 is what was run.
compare() {
    printf '%s' "${3:+$3
}" >"$work/wanted"
    if [ "$status" = "$2" ] && cmp -s "$work/wanted" "$work/error" && [ ! -s "$work/report" ]; then
        echo "same       $1"
    else
        echo "different  $1: status $status, $(cat "$work/error")"
        different=1
    fi
}

# Says what the session on standard input is answered: its name, the status and the line.
answers() {
    status=0
    "$program" replay >"$work/report" 2>"$work/error" || status=$?
    compare "$@"
}

# Says what a list of moves is answered.
moves() {
    status=0
    "$program" replay --moves "$2" <"$ping/session.json" >"$work/report" 2>"$work/error" || status=$?
    compare "$1" 2 "$3"
}

# Prints $1 times the byte $2.
bytes() {
    head -c "$1" /dev/zero | tr '\0' "$2"
}

bytes 33554432 ' ' | answers "as long as a session may be" 3 "session refused: 1 NotJson"
bytes 33554433 ' ' | answers "one byte longer" 3 "session refused: 5 Limit"
bytes 40000000 '\377' | answers "longer, and no UTF-8" 3 "session refused: 5 Limit"
printf '\377\376' | answers "no UTF-8" 3 "session refused: 1 NotJson"
{ bytes 127 '['; bytes 127 ']'; } | answers "127 deep" 3 "session refused: 4 Kind"
{ bytes 200 '['; bytes 200 ']'; } | answers "200 deep" 3 "session refused: 1 NotJson"
bytes 10000000 '[' | answers "ten million deep" 3 "session refused: 1 NotJson"
answers "an input that fails" 3 "input refused" <"$work"

# Prints a session of version 2 with one chunk of $1 digits: a length field that skips all that follows.
frame='{"version":2,"capacity":4,"loops":1,"channels":[{"handlers":[
{"op":"last","name":"length","kind":"length","width":4,"max":8192},
{"op":"last","name":"decode","kind":"decode"},
{"op":"last","name":"prepend","kind":"prepend","width":4},
{"op":"last","name":"encode","kind":"encode"},
{"op":"last","name":"service","kind":"service"}],
"bursts":[["'
digits() {
    printf '%s' "$frame"
    bytes "$1" f
    printf '"]]}]}'
}
most=$((33554432 - ${#frame} - 6))

status=0
digits 2097152 | "$program" plain >"$work/report" 2>"$work/error" || status=$?
printf 'channel 0 drained\ntail 3\nActive\nCaught TooLong\nReadComplete\nbytes 16 %s\nwrites 1\n0 Success\n' \
    0000000c2d45525220746f6f6c6f6e67 >"$work/plain"
cmp -s "$work/plain" "$work/report" && : >"$work/report"
compare "1,048,576 bytes as hex" 0 ""
digits 2097153 | answers "half a byte more" 3 "session refused: 4 Kind"
digits 2097154 | answers "1,048,577 bytes as hex" 3 "session refused: 5 Limit"
digits $((most / 2 * 2)) | answers "as much hex as a session has room for" 3 "session refused: 5 Limit"
digits $((most - 1 + most % 2)) | answers "the same, of an odd length" 3 "session refused: 4 Kind"
digits $((most + 1)) | answers "more hex than that" 3 "session refused: 5 Limit"

moves "1,000,001 moves" "R0x1000000 O0" "moves refused: 2 Limit"
moves "a million and one in one word" "R0x1000001" "moves refused: 1 Form"
moves "a number of forty digits" "R0000000000000000000000000000000000000000" "moves refused: 1 Form"
moves "a channel that is not there" "R1" "replay refused: 1 NoSuch"

status=0
"$program" replay --moves "R0x999999 O0" <"$ping/session.json" >"$work/report" 2>"$work/error" || status=$?
cmp -s "$ping/report" "$work/report" && : >"$work/report"
compare "1,000,000 moves" 0 ""

status=0
: >"$work/report"
"$program" replay <"$ping/session.json" >/dev/full 2>"$work/error" || status=$?
compare "an output that fails" 4 "output refused"

for words in "" "replay --moves" "replay --moves R0 O0" "replay ping" "run" "plain ping" "plain --moves R0" "plain plain" \
    "play" "--help"; do
    status=0
    # Each word by itself.
    # shellcheck disable=SC2086
    "$program" $words <"$ping/session.json" >"$work/report" 2>"$work/error" || status=$?
    compare "the words: $words" 2 "usage: pl_tool replay [--moves MOVES] | run --queue waiting|ring | plain"
done

exit "$different"
