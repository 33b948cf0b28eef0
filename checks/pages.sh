#!/usr/bin/env bash
# The pages are at most 45,000 words together; and README tells how many wrong bodies and tests there are.
set -euo pipefail
cd "$(dirname "$0")/.."

status=0
words=$(find . -name '*.md' -not -path '*/out/*' -not -path './.*' -exec cat {} + | wc -w)
[ "$words" -le 45000 ] || { echo "pages: $words words, 45,000 at most"; status=1; }
told() { grep -qz "$1[[:space:]]$2" README.md || { echo "pages: README does not tell of $1 $2"; status=1; }; }
told "$(find crates -path '*/must-fail/*.edit' | wc -l)" 'wrong'
told "$(grep -rhF '#[test]' crates/*/src --include='*.rt' | wc -l)" 'tests'
for kit in $(grep -v '^#' crates.txt | sed 's/^[^:]*://' | tr ' ' '\n' | grep -v '^pl_' | sort -u); do
  grep -q "\`$kit\`" README.md || { echo "pages: README does not say that $kit is trusted"; status=1; }
done
exit $status
