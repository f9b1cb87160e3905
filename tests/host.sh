#!/usr/bin/env bash
# Builds the C host of verdict and runs it on the examples and on damaged listings, under valgrind where it is to be had.
set -euo pipefail
cd "$(dirname "$0")/.."
for tool in make cc; do
  if ! command -v "$tool" > /dev/null; then
    echo "tests/host.sh: skipped, there is no $tool on this machine"
    exit 0
  fi
done
make -s host > /dev/null
host=target/host/host
guard=()
if command -v valgrind > /dev/null; then guard=(valgrind -q --error-exitcode=9); fi

compare() { # LEVELS FILE SLIP
  got=$("${guard[@]}" "$host" "$1" "$2")
  if [ "$got" != "$3" ]; then
    echo "tests/host.sh: $1 $2 gave '$got' and not '$3'" >&2
    exit 1
  fi
}
compare 100 examples/lookup.lst 'LEAK              0          3          0          0'
compare 000 examples/lookup.lst 'CLEAR             0          0          0          0'
compare 10 examples/lookup.lst 'REFUSED          10          0          0          0'
compare 1x0 examples/lookup.lst 'REFUSED          17          1          0          0'
compare '' examples/empty.lst 'CLEAR             0          0          0          0'
compare 0 examples/refused/9-too-deep.lst 'REFUSED           9         17          1          0'
"$host" --damage examples/lookup.lst
"${guard[@]}" "$host" --damage examples/lookup.lst > /dev/null
echo "tests/host.sh: ok"
