#!/usr/bin/env bash
# The tree keeps its layout: every crate is listed and has its must-fail edits, each of which can be made, every example has lines of 51 bytes.
set -euo pipefail
cd "$(dirname "$0")/.."
wrong=0
complain() { echo "layout: $*" >&2; wrong=1; }

for folder in crates/*/; do
  name=$(basename "$folder")
  grep -qE "^$name( staticlib)?:" crates.txt || complain "crate $name is not in crates.txt"
  if [ -f "$folder/src/lib.rt" ] && ! ls "$folder"/must-fail/*.edit >/dev/null 2>&1; then
    complain "library crate $name has no must-fail edit"
  fi
done

for edit in crates/*/must-fail/*.edit; do
  [ -e "$edit" ] || continue
  [ "$(sed -n 's/^\(file\|old\|new\): .*/\1/p' "$edit" | tr '\n' ' ')" = "file old new " ] || complain "$edit has not the lines file, old, new"
  old=$(sed -n 's/^old: //p' "$edit")
  file=$(dirname "$edit")/../$(sed -n 's/^file: //p' "$edit")
  text=$(cat "$file" 2>/dev/null || true)
  rest=${text#*"$old"}
  [ "$rest" != "$text" ] && [ "${rest#*"$old"}" = "$rest" ] || complain "the old text of $edit does not stand once"
done

for listing in examples/*.lst; do
  [ -e "$listing" ] || continue
  size=$(wc -c < "$listing")
  [ $((size % 51)) = 0 ] && [ "$size" -gt 0 ] || complain "$listing has not lines of 51 bytes"
done

[ "$wrong" = 0 ] && echo "layout: ok"
exit "$wrong"
