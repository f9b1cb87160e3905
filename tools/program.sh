#!/usr/bin/env bash
# Puts a program into target/bin, proved and built anew where its sources changed.
#   tools/program.sh NAME [WORD..]    the words are those of a call that ends with status 0
set -euo pipefail
cd "$(dirname "$0")/.."
name=$1
shift
log=$(mktemp)
trap 'rm -f "$log"' EXIT
# rt run leaves the program in the crate's out/, and ends with the program's own status
if ! (cd "crates/$name" && rt run -- "$@") < /dev/null > "$log" 2>&1; then
  tail -n 20 "$log" >&2
  echo "tools/program.sh: $name was not built" >&2
  exit 1
fi
mkdir -p target/bin
cp "crates/$name/out/$name" target/bin/
