#!/usr/bin/env bash
# The wrong bodies that the prover has to refuse, by crate and by the file that each one changes: what
# docs/WRONG_BODIES.md has. With --check, says whether that document has them.
set -euo pipefail
cd "$(dirname "$0")/.."

list() {
  cat <<'HEAD'
# Wrong bodies

Each name is a wrong body: an edit `crates/CRATE/must-fail/NAME.edit` of the file in front of it. The gate makes each of
them in turn and fails unless the prover refuses it. An edit of a file in `specs/` changes a definition, for a law whose
function has no body to get wrong. `checks/wrong_bodies.sh` writes this list.
HEAD
  for folder in crates/*/must-fail; do
    [ -d "$folder" ] || continue
    printf '\n## %s\n\n' "$(basename "$(dirname "$folder")")"
    for edit in "$folder"/*.edit; do
      file=$(sed -n 's/^file: *//p;T;q' "$edit")
      printf '%s %s\n' "$file" "$(basename "$edit" .edit)"
    done | LC_ALL=C sort | awk '
      { if ($1 != file) { if (file != "") print line; file = $1; line = "- `" $1 "`: " $2 } else line = line ", " $2 }
      END { if (file != "") print line }' | fold -s -w 118 | sed -e 's/ *$//' -e '/^- /!s/^/  /'
  done
}

case "${1:-}" in
  --check) list | diff docs/WRONG_BODIES.md - > /dev/null || { echo 'docs/WRONG_BODIES.md is not what checks/wrong_bodies.sh writes'; exit 1; } ;;
  *) list > docs/WRONG_BODIES.md ;;
esac
