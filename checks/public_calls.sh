#!/usr/bin/env bash
# The public calls of each library, with the conditions that a caller has to meet and with what they refuse: what
# docs/PUBLIC_CALLS.md has. With --check, says whether that document has them.
set -euo pipefail
cd "$(dirname "$0")/.."

# The sources of a crate, its lib.rt first.
sources() {
  echo "crates/$1/src/lib.rt"
  find "crates/$1/src" -name '*.rt' ! -path "crates/$1/src/lib.rt" | LC_ALL=C sort
}

list() {
  cat <<'HEAD'
# Public calls

Every call that code outside its crate can make, from the lowest library up. What holds of all of them is told in
[PROMISES.md](PROMISES.md#total-calls): none does anything undefined, and each returns but those that may wait.
`checks/public_calls.sh` writes this page from the sources.

A condition is a `requires` of the call's contract: here is its name, or the whole of it where it has none. Whoever
makes the call proves it, or is not built. A call refuses with the error of its `Result`, or with `None`, an `add` with
`Some`; or an enum says what it did. What each of these may be is [at the end](#refusals-and-outcomes), but for std's
`AllocError` and `AllocFailed`, which say that memory was refused. Calls without a condition that refuse nothing stand
below the table of their crate. The calls of a trait stand there once, for all types that have it; those of std's traits
have no condition. A function whose name ends in `_law` does nothing: what it is for is its contract.
HEAD
  sed -n 's/^\(pl_[a-z_]*\).*:.*/\1/p' crates.txt | while read -r crate; do
    case $crate in
      # Tests, measures, the program and an example: nothing is built on them.
      *_tests | *_bench | pl_checks | pl_main | pl_trace_main | pl_example_handlers) ;;
      *) sources "$crate" ;;
    esac
  done | xargs awk -f checks/public_calls.awk
}

case "${1:-}" in
  --check) list | diff docs/PUBLIC_CALLS.md - > /dev/null || { echo 'docs/PUBLIC_CALLS.md is not what checks/public_calls.sh writes'; exit 1; } ;;
  *) list > docs/PUBLIC_CALLS.md ;;
esac
