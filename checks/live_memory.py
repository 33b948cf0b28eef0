#!/usr/bin/env python3
"""Looks at the memory of live channels through which much goes.

usage: checks/live_memory.py CRATES     the folder of the crates, in whose out/ `rt ci` leaves the programs of tests

Each test takes all that its channel hands out, and feeds it a mebibyte or two at once. At its peak it holds at most MOST bytes,
far fewer than went through. The status is 1 where one holds more, or fails.
"""
import os
import subprocess
import sys

MOST = 32 << 20
TESTS = {"a_billion_bytes": 1_000_000_000, "an_answer_always_waits": 200_000_000}


def peak(program, test):
    """The most bytes that a test held; None where it fails."""
    running = subprocess.Popen([program, f"tests::billion_tests::{test}"], stdout=subprocess.DEVNULL)
    _, status, used = os.wait4(running.pid, 0)
    running.returncode = status
    return used.ru_maxrss << 10 if status == 0 else None


def main():
    if len(sys.argv) != 2:
        sys.exit(__doc__)
    program = os.path.join(sys.argv[1], "pl_live_tests/out/pl_live_tests_tests")
    missed = False
    for test, through in TESTS.items():
        held = peak(program, test)
        if held is None:
            sys.exit(f"live memory: {test} fails")
        print(f"live memory: {test}: at most {held / 2**20:.1f} MiB, of {through:,} bytes that went through")
        missed |= held > MOST
    sys.exit(f"live memory: more than {MOST >> 20} MiB" if missed else 0)


main()
