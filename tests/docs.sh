#!/usr/bin/env bash
# Every file that README.md and docs/ name in backquotes exists.
set -euo pipefail
cd "$(dirname "$0")/.."
wrong=0
for page in README.md docs/*.md examples/README.md; do
  [ -e "$page" ] || continue
  for path in $(grep -oE '`(crates|docs|examples|tests|tools|include)/[A-Za-z0-9_./-]+`' "$page" | tr -d '`' | sort -u); do
    if [ ! -e "$path" ]; then
      echo "docs: $page names $path, which does not exist" >&2
      wrong=1
    fi
  done
done
[ "$wrong" = 0 ] && echo "docs: ok"
exit "$wrong"
