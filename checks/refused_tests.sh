#!/bin/sh
# Refuses each allocation of the tests that allow for it, in turn.
#
# usage: checks/refused_tests.sh CRATES     the folder of the crates, in whose out/ `rt ci` leaves the programs of tests
#
# With its N-th allocation refused a test has to pass: a call has answered that, or what it gave is what such a call leaves. Or
# it had no memory for what it begins with, says `error: AllocError`, and nothing was shown; but one refused allocation at
# least has to leave it something to show.
set -eu
crates=$1
here=$(cd "$(dirname "$0")" && pwd)
work=$(mktemp -d)
trap 'rm -rf "$work"' EXIT

cc -shared -fPIC -O2 -o "$work/refuse.so" "$here/refuse_growth.c" -ldl

fail() {
    echo "refused tests: $crate $test: $1"
    exit 1
}

# Runs the test with allocation $1 refused, or with none of them, and counts them.
run() {
    : >"$work/count"
    status=0
    REFUSE_ALLOCATION=$1 LD_PRELOAD=$work/refuse.so "$crates/$crate/out/${crate}_tests" "$test" >"$work/out" 2>&1 3>"$work/count" ||
        status=$?
    count=$(cat "$work/count")
    [ "${count:-0}" -ge "$1" ] || fail "it made no allocation $1 that could be refused"
}

while read -r crate test; do
    run 0
    [ "$status" -eq 0 ] || fail "it failed with all its memory"
    most=${count:-0}
    [ "$most" -ge 1 ] || fail "no allocation was counted"
    passed=0
    number=1
    while [ "$number" -le "$most" ]; do
        run "$number"
        if [ "$status" -eq 0 ]; then
            passed=$((passed + 1))
        else
            grep -q 'error: AllocError' "$work/out" || fail "it failed with allocation $number refused"
        fi
        number=$((number + 1))
    done
    [ "$passed" -ge 1 ] || fail "no refused allocation left it anything to show"
    echo "refused tests: $crate $test: $most allocations, $passed of them shown"
done <<'TESTS'
pl_queue_tests tests::left_tests::refused_memory_ring
pl_queue_tests tests::left_tests::refused_memory_waiting
pl_nodes_tests tests::context_tests::item_without_memory_gives_way
pl_nodes_tests tests::context_tests::backlog_without_memory_gives_tokens_back
pl_nodes_tests tests::context_tests::event_without_memory_fails_its_taker
pl_nodes_tests tests::failure_tests::write_without_memory
pl_part_tests share_tests::share_without_memory
pl_live_tests tests::memory_tests::refused_growth_while_fed
pl_checks tests::every_allocation_refused::ping
pl_checks tests::every_allocation_refused::echo_and_faults
pl_checks tests::every_allocation_refused::quit
pl_checks tests::every_allocation_refused::length_frames
pl_checks tests::every_allocation_refused::watermarks
pl_checks tests::every_allocation_refused::handover_drained
TESTS
