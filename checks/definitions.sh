#!/usr/bin/env bash
# The words of the libraries' public contracts, each with the first sentence of its comment in specs: what
# docs/DEFINITIONS.md has. With --check, says whether that document has them.
set -euo pipefail
cd "$(dirname "$0")/.."

libraries() {
  sed -n 's/^\(pl_[a-z_]*\).*:.*/\1/p' crates.txt | while read -r crate; do
    case $crate in
      # Tests, measures, the program and an example: nothing is built on them.
      *_tests | *_bench | pl_checks | pl_main | pl_trace | pl_trace_main | pl_example_handlers) ;;
      *) echo "$crate" ;;
    esac
  done
}

# The sources of all libraries, each lib.rt first, and then their specs.
files() {
  libraries | while read -r crate; do
    echo "crates/$crate/src/lib.rt"
    find "crates/$crate/src" -name '*.rt' ! -path "crates/$crate/src/lib.rt" | LC_ALL=C sort
  done
  libraries | while read -r crate; do
    find "crates/$crate/specs" -maxdepth 1 -name '*.antt' | LC_ALL=C sort
  done
}

list() {
  cat <<'HEAD'
# Definitions

The words in which the public contracts of the libraries are written. A word is here where a source of a library imports
it from `specs/` by a `ghost use`, and it stands there in a clause of what other crates can name: of a call in
[PUBLIC_CALLS](PUBLIC_CALLS.md), or of a trait, a type or a type's `Model`. Words of `specs/declared`, which are made from
the types themselves, are left out.

Each stands under its crate and its module, with the first sentence of the comment at its definition. In brackets are the
class of Netty 4.1's API documentation from which it comes, FORMATS where [that page](FORMATS.md) tells it in full, and its
law, a public function whose contract is about it. [DECISIONS](DECISIONS.md#where-netty-differs) tells where Netty differs.
`checks/definitions.sh` writes this page.
HEAD
  files | xargs awk -f checks/definitions.awk | fold -s -w 118 | sed -e 's/ *$//' -e '/^[^-#[]/s/^/  /'
}

case "${1:-}" in
  --check) list | diff docs/DEFINITIONS.md - > /dev/null || { echo 'docs/DEFINITIONS.md is not what checks/definitions.sh writes'; exit 1; } ;;
  *) list > docs/DEFINITIONS.md ;;
esac
