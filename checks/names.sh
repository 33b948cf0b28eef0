#!/usr/bin/env bash
# A name of the contracts has one home: says which names two modules of the libraries' specs define, but for those below, and
# which of these have one home again. And docs/ARCHITECTURE.md names each library, and each module of these; what it names is
# a file.
set -euo pipefail
cd "$(dirname "$0")/.."

# The names that have two homes, each with why.
shared() {
  cat <<'LIST'
IsSeat        each word shared between threads has seats, a rule and what sits there, as its own module tells
Rule          as IsSeat
Sits          as IsSeat
Looked        a look changes nothing, whichever word it is at
ReadSeatView  a reader's seat of a mark, and of what is settled
new_reader    the same, as it is made
SameNode      a context and a tail stay where they are
counted       what a context took is counted as what a tail took is
kind_taken    as counted
taken_of      as counted; and of all channels together
sends_by      each mailbox has its own senders
takes_by      each mailbox has its own taker
LIST
}

libraries() {
  grep -v '^#' crates.txt | sed -n 's/^\([a-z_]*\).*/\1/p' | grep -Ev '(_tests|_bench)$|^pl_(checks|main|trace_main|example_handlers)$'
}

# Names, and the modules that define each.
homes() {
  libraries |
    while read -r crate; do
      [ -d "crates/$crate/specs" ] || continue
      grep -rEo "^ *(abbrev pub|pub record|pub data) [A-Za-z_][A-Za-z0-9_']*" "crates/$crate/specs" |
        sed -E 's|^crates/||; s|/specs/| |; s|\.antt: *(abbrev pub\|pub record\|pub data) | |' | awk '{ print $3, $1 "/" $2 }'
    done | sort -u
}

found=$(homes | awk '{ if ($1 == word) list = list ", " $2; else { if (more) print word ": " list; word = $1; list = $2; more = 0; next } more = 1 }
  END { if (more) print word ": " list }')
status=0
while IFS= read -r line; do
  [ -n "$line" ] || continue
  shared | grep -q "^${line%%:*} " || { echo "names: two homes for $line"; status=1; }
done <<<"$found"
while read -r word _; do
  grep -q "^$word:" <<<"$found" || { echo "names: $word has one home now, and is in the list"; status=1; }
done < <(shared)

# The modules of each library, as docs/ARCHITECTURE.md has them: the crate, and one of its modules.
told=$(awk '/^## Where each part is/ { here = 1 } /^## Glossary/ { here = 0 } !here { next }
    /^- / { crate = match($0, /^- \[pl_[a-z_]+\]/) ? substr($0, 4, RLENGTH - 4) : "" }
    /^$/ { crate = "" }
    crate { line = $0; while (match(line, /`[a-z_]+`/)) { name = substr(line, RSTART + 1, RLENGTH - 2); line = substr(line, RSTART + RLENGTH)
      if (name !~ /^pl_/) print crate, name } }' docs/ARCHITECTURE.md | sort -u)

while read -r crate module; do
  find "crates/$crate/src" -name "$module.rt" | grep -q . ||
    { echo "names: docs/ARCHITECTURE.md names the module $module of $crate, which is no file"; status=1; }
done <<<"$told"
for crate in $({ libraries; cut -d ' ' -f 1 <<<"$told"; } | sort -u); do
  grep -q "^$crate " <<<"$told" || { echo "names: docs/ARCHITECTURE.md does not name the library $crate"; status=1; continue; }
  # But for laws, limits, the steps of a word and tests.
  for file in crates/"$crate"/src/*.rt; do
    module=$(basename "$file" .rt)
    grep -Eq '^(lib|tests|limits)$|(^|_)laws?$|_steps$' <<<"$module" || grep -qx "$crate $module" <<<"$told" ||
      { echo "names: docs/ARCHITECTURE.md does not name the module $module of $crate"; status=1; }
  done
done
exit $status
