#!/usr/bin/env bash
# Misuses that are no Rattle: each edit of tests/misuses, made to the host in tests/misuses/host.txt, must be refused with the very error that it names.
# The two edits of tests/misuses/judge try the judge itself: one that compiles, and one that is refused for another reason.
set -euo pipefail
cd "$(dirname "$0")/.."
# The host is a crate of its own, in a copy of the crates that it stands on.
crates="rules levels leakage columns lines listing reach clearance run"
copy=$(mktemp -d)
trap 'rm -rf "$copy"' EXIT
for crate in $crates; do
  mkdir -p "$copy/crates/$crate"
  cp -r "crates/$crate/src" "crates/$crate/specs" "crates/$crate/proofs" "$copy/crates/$crate/"
  grep "^$crate:" crates.txt >> "$copy/crates.txt"
done
echo "host: $crates" >> "$copy/crates.txt"
mkdir -p "$copy/crates/host/src"

# field EDIT NAME: the text of a line of an edit
field() { sed -n "s/^$2: //p" "$1"; }

# judge EDIT: prints what came of it: refused, accepted, or what else was wrong
judge() {
  local old new text rest first
  old=$(field "$1" old) new=$(field "$1" new)
  text=$(< tests/misuses/host.txt)
  rest=${text#*"$old"}
  [ "$rest" != "$text" ] && [ "${rest#*"$old"}" = "$rest" ] || { echo "the old text does not stand once"; return; }
  printf '%s\n' "${text/"$old"/"$new"}" > "$copy/crates/host/src/lib.rt"
  if (cd "$copy/crates/host" && rt check) > "$copy/log" 2>&1; then echo accepted; return; fi
  first=$(grep -m 1 'error' "$copy/log" || true)
  case $first in *"$(field "$1" error)"*) echo refused ;; *) echo "another error: $first" ;; esac
}

wrong=0
count=0
for edit in tests/misuses/*.edit; do
  said=$(judge "$edit")
  count=$((count + 1))
  [ "$said" = refused ] || { echo "misuses: $edit: $said" >&2; wrong=1; }
done
said=$(judge tests/misuses/judge/accepted.edit)
[ "$said" = accepted ] || { echo "misuses: an edit that compiles: $said" >&2; wrong=1; }
said=$(judge tests/misuses/judge/another_error.edit)
case $said in "another error: "*) ;; *) echo "misuses: an edit with another error: $said" >&2; wrong=1 ;; esac
[ "$wrong" = 0 ] && echo "misuses: ok, $count refused"
exit "$wrong"
