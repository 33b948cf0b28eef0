#!/bin/sh
# Runs each example on threads, over both queues, and compares its report with that of `plain`, or with what it has to be.
#
# usage: [MINUTES=M] checks/runs.sh PROGRAM [TIMES [EXAMPLE..]]     each is run once, or TIMES times; all, or only these
#
# An example that is named has to be there, and has to be a session: else nothing was run for it, and the script fails.
#
# Where nothing fails the report is that of `plain`, and the status 0. Where a transport was told to fail or a channel is to be
# aborted, a run on one loop has one report, that of the example, or its `run_report`. On several executors each tail and the
# bytes of each channel begin those of `plain`, and a channel has failed exactly where it has in the report of the example.
# One session more is made here. A burst of it has more lines than may wait at an executor, so that the reads of the other
# loop wait, and have to be woken.
#
# Each run has a minute, and all of them together have M of them, 30 where none are given. With waiting queues executors may
# wait for each other in a circle, so these have room for all there is.
set -eu
program=$1
times=${2:-1}
last=$(($(date +%s) + 60 * ${MINUTES:-30}))
here=$(cd "$(dirname "$0")" && pwd)
examples=$here/../examples
if [ $# -gt 2 ]; then
    shift 2
    wanted=" $* "
else
    wanted=
fi
work=$(mktemp -d)
trap 'rm -rf "$work"' EXIT

# Prints $2 so many times.
times_of() {
    yes "$2" | head -n "$1" | tr -d '\n'
}

# A channel on one loop with one burst of 40,000 lines, and one on another with 4,000 bursts of one line.
mkdir "$work/congested"
handlers='{"op":"last","name":"lines","kind":"lines","max":64},{"op":"last","name":"decode","kind":"decode","group":"a"},
{"op":"last","name":"lineend","kind":"lineend"},{"op":"last","name":"encode","kind":"encode"},{"op":"last","name":"service","kind":"service"}'
cat >"$work/congested/session.json" <<END
{"version":1,"capacity":64,"loops":2,"groups":[{"name":"a","size":1}],"channels":[
{"handlers":[$handlers],"bursts":[["$(times_of 40000 'A\n')"]]},
{"handlers":[$handlers],"bursts":[["PING\n"]$(times_of 3999 ',["PING\n"]')]}]}
END

fail() {
    echo "runs: ${example#"$examples"/}, $queue: $1"
    exit 1
}

# Runs the session, and compares what it printed.
run_once() {
    [ "$(date +%s)" -le "$last" ] || fail "not all ran within ${MINUTES:-30} minutes"
    status=0
    timeout 60 "$program" run --queue "$queue" <"$work/session" >"$work/out" 2>"$work/err" || status=$?
    [ ! -s "$work/err" ] || fail "$(cat "$work/err")"
    if ! grep -qE '"(fail_at|abort_after)":[0-9]' "$session"; then
        [ "$status" -eq 0 ] || fail "status $status"
        cmp -s "$work/plain" "$work/out" || fail "another report than that of plain"
    elif grep -q '"loops":1,' "$session" && ! grep -q '"groups"' "$session"; then
        report=$example/report
        [ ! -f "$example/run_report" ] || report=$example/run_report
        [ "$status" -eq "$(cat "$example/status" 2>/dev/null || echo 0)" ] || fail "status $status"
        cmp -s "$report" "$work/out" || fail "another report than its one loop has"
    else
        fails=$(awk '$1 == "channel" && $3 == "failed" { printf "%s ", $2 }' "$example/report")
        [ -n "$fails" ] || fail "no channel fails in its report"
        awk -v status="$status" -v is_run=1 -v fails=" $fails" -f "$here/begins_plain.awk" "$work/plain" "$work/out" || fail "the report"
    fi
}

case $times in
    '' | *[!0-9]*) echo "runs: $times is no number of times"; exit 1 ;;
esac
for name in $wanted; do
    [ -f "$examples/$name/session.json" ] || { echo "runs: no example $name"; exit 1; }
done

ran=0
for session in "$examples"/*/session.json "$examples"/*/*/session.json "$work/congested/session.json"; do
    example=$(dirname "$session")
    case ${wanted:-" ${example#"$examples"/} "} in
        *" ${example#"$examples"/} "*) ;;
        *) continue ;;
    esac
    # A session that has to be refused is not run.
    if [ -z "$wanted" ] && [ "$(cat "$example/status" 2>/dev/null)" = 3 ]; then continue; fi
    "$program" plain <"$session" >"$work/plain" 2>/dev/null ||
        { echo "runs: plain has no report of ${example#"$examples"/}"; exit 1; }
    for queue in waiting ring; do
        case $queue in
            waiting) sed 's/"capacity":[0-9]*/"capacity":65536/' "$session" >"$work/session" ;;
            ring) cp "$session" "$work/session" ;;
        esac
        number=0
        while [ "$number" -lt "$times" ]; do
            run_once
            number=$((number + 1))
        done
        ran=$((ran + times))
    done
done
[ "$ran" -gt 0 ] || { echo "runs: no example ran"; exit 1; }
echo "runs: $ran as plain, or a beginning of it"
