#!/bin/sh
# Runs sessions that cross threads, those of 64 channels, and all that fail, a thousand times each over both queues, and
# compares each report. Then it runs the test in which four threads of 64 lanes each send through a post, a thousand times
# too. It takes long, and is not part of the gate.
#
# usage: [MINUTES=M] checks/stress.sh PROGRAM [TIMES]     within M minutes, 120 where none are given
#
# PROGRAM is crates/pl_main/out/pl_main, which `rt run` leaves there. The test is in crates/pl_post_tests/out, where `rt test`
# leaves the program of the crate's tests. `rt ci` leaves both.
set -eu
here=$(cd "$(dirname "$0")" && pwd)
times=${2:-1000}
last=$(($(date +%s) + 60 * ${MINUTES:-120}))
tests=$here/../crates/pl_post_tests/out/pl_post_tests_tests
test=tests::post_tests::four_senders_of_64_lanes
"$tests" --list | grep -q "^$test: " || { echo "stress: $tests has no test $test"; exit 1; }
MINUTES=${MINUTES:-120} "$here/runs.sh" "$1" "$times" totals_across_groups every_handler_elsewhere length_across_groups \
    sixty_four sixty_four/across_groups sixty_four/some_fail \
    transport_fault fault_handed_over one_channel_fails fault_before_abort abort abort/after_the_write \
    fault_at_each_call/call_1 fault_at_each_call/call_2 fault_at_each_call/call_3 fault_at_each_call/call_4 \
    fault_at_each_call/call_5 abort_at_each_burst/after_0 abort_at_each_burst/after_1 abort_at_each_burst/after_2

out=$(mktemp)
trap 'rm -f "$out"' EXIT
passed=0
while [ "$passed" -lt "$times" ]; do
    [ "$(date +%s)" -le "$last" ] || { echo "stress: $test passed $passed times within ${MINUTES:-120} minutes"; exit 1; }
    timeout 60 "$tests" "$test" >"$out" 2>&1 || { cat "$out"; echo "stress: $test failed after $passed times"; exit 1; }
    passed=$((passed + 1))
done
echo "stress: $test passed $passed times"
