#!/usr/bin/env bash
# Runs the program bench on the examples and on bad inputs, and compares what it writes, and its status, with tests/bench/expected/.
#   tests/bench.sh            compare; fails on any difference
#   tests/bench.sh --accept   write the expected files anew
# The program is $BENCH, or target/bin/bench, which is then built of the sources as they stand.
set -euo pipefail
cd "$(dirname "$0")/.."
repo=$PWD
accept=no
if [ "${1:-}" = --accept ]; then accept=yes; fi
bench=${BENCH:-$repo/target/bin/bench}
if [ -z "${BENCH:-}" ]; then bash tools/program.sh bench help; fi
expected=$repo/tests/bench/expected
work=$(mktemp -d)
trap 'rm -rf "$work"' EXIT
cp -r "$repo/examples" "$work/examples"
cd "$work"
cases=0
failed=0

# check NAME WORD..: runs bench with the words, standard input from the file `input`, and compares
check() {
  local name=$1 status=0
  shift
  cases=$((cases + 1))
  "$bench" "$@" < "${input:-/dev/null}" > out 2> err || status=$?
  { cat out; echo "--- standard error"; cat err; echo "--- status $status"; } > got
  if [ "$accept" = yes ]; then
    cp got "$expected/$name.txt"
  elif ! cmp -s got "$expected/$name.txt"; then
    failed=$((failed + 1))
    echo "tests/bench.sh: $name differs"
    diff "$expected/$name.txt" got | head -20 || true
  fi
}

# line NUMBER LETTER OPERAND..: a line of 51 bytes
line() {
  printf '%4s %s' "$1" "$2"
  shift 2
  local place
  for place in 1 2 3 4; do
    printf '%11s' "${1:-}"
    if [ $# -gt 0 ]; then shift; fi
  done
  printf '\n'
}

# bad NAME: shows what stands on standard input, under that name
bad() {
  cat > "$1.lst"
  check "$1" show "$1.lst"
}

# the examples
if [ "$accept" = yes ]; then rm -f "$expected"/*.txt; fi
for listing in examples/*.lst; do check "example-$(basename "$listing" .lst)" show "$listing"; done
for listing in examples/refused/*.lst; do check "refused-$(basename "$listing" .lst)" show "$listing"; done
input=examples/loop.lst check standard-input show -
input=examples/refused/4-too-many-scalars.lst check standard-input-refused show -

# whole lines
bad empty-file < /dev/null
bad one-byte-short < <(head -c 203 examples/lookup.lst)
bad one-byte-more < <(cat examples/lookup.lst; printf '\n')
bad carriage-returns-added < <(sed 's/$/\r/' examples/lookup.lst)

# columns
bad zeros < <(head -c 10200 /dev/zero)
bad letter-unknown < <(line 0 H 1 0 1; line 0 X 0 7)
bad letter-small < <(line 0 H 1 0 1; line 0 k 0 7)
bad letter-without-blank < <(line 0 H 1 0 1; line 0 K 0 7 | sed 's/ K/-K/')
bad number-with-leading-zeros < <(line 0 H 1 0 1; line 0000 K 0 7)
bad operand-with-leading-zero < <(line 0 H 1 0 1; line 0 K 00 7)
bad tab < <(line 0 H 1 0 1; line 0 K 0 7 | sed 's/          7/ \t        7/')
bad tab-before-field < <(line 0 H 1 0 1; line 0 K 0 7 | sed 's/          0/\t         0/')
bad largest-value < <(line 0 H 1 0 1; line 0 K 0 4294967295)
bad value-too-large < <(line 0 H 1 0 1; line 0 K 0 4294967296)
bad eleven-digits < <(line 0 H 1 0 1; line 0 K 0 10000000000)
bad number-not-at-the-right < <(line 0 H 1 0 1; line 0 K 0 '7 ')
bad minus < <(line 0 H 1 0 1; line 0 K 0 -7)
bad operand-missing < <(line 0 H 1 0 1; line 0 K 0 '')
bad operand-too-many < <(line 0 H 1 0 1; line 0 K 0 7 0)
bad fourth-operand-too-many < <(line 0 H 1 0 1; line 0 K 0 7 '' 0)
bad newline-missing < <(line 0 H 1 0 1; line 0 K 0 7 | tr '\n' ' ')
bad carriage-return-in-column-50 < <({ line 0 H 1 0 1; line 0 K 0 7; } | sed 's/ $/\r/')
bad bytes-unseen < <(line 0 H 1 0 1; line 0 K 0 7 | LC_ALL=C sed 's/          7/ \\\x00\x1b\x7f\x80\xff   7/')

# places
bad header-missing < <(line 0 K 0 7)
bad header-numbered-one < <(line 1 H 0 0 0)
bad array-after-node < <(line 0 H 1 1 1; line 0 K 0 7; line 0 A 0 4)
bad array-not-counted < <(line 0 H 1 0 1; line 0 A 0 4)
bad number-twice < <(line 0 H 1 0 2; line 0 K 0 7; line 0 K 0 8)

# counts
bad scalars-24 < <(line 0 H 24 0 0)
bad counts-too-large < <(line 0 H 25 9 129)
bad arrays-9 < <(line 0 H 24 9 129)
bad nodes-129 < <(line 0 H 24 8 129)
bad lines-too-few < <(line 0 H 1 0 2; line 0 K 0 7)
bad lines-too-many < <(line 0 H 1 0 0; line 0 K 0 7)

# arrays
bad arrays-fill-the-cells < <(line 0 H 0 2 0; line 0 A 0 256; line 1 A 256 256)
bad arrays-overlap < <(line 0 H 0 2 0; line 0 A 0 4; line 1 A 3 4)
bad array-past-the-end < <(line 0 H 0 1 0; line 0 A 510 4)
bad array-start-too-large < <(line 0 H 0 1 0; line 0 A 512 1)
bad array-of-no-cells < <(line 0 H 0 1 0; line 0 A 0 0)
bad array-too-long < <(line 0 H 0 1 0; line 0 A 0 257)

# names
bad no-scalar-1 < <(line 0 H 1 1 1; line 0 A 0 4; line 0 K 1 7)
bad no-array-1 < <(line 0 H 1 1 1; line 0 A 0 4; line 0 W 1 0 0)
bad no-array-2 < <(line 0 H 1 1 1; line 0 A 0 4; line 0 R 0 1 0)
bad no-operator < <(line 0 H 1 1 1; line 0 A 0 4; line 0 O 0 12 0 0)
bad no-scalar-3 < <(line 0 H 1 1 1; line 0 A 0 4; line 0 W 0 0 1)
bad no-scalar-4 < <(line 0 H 1 1 1; line 0 A 0 4; line 0 Q 0 0 0 1)

# blocks
bad else-alone < <(line 0 H 1 0 1; line 0 E 1)
bad end-if-alone < <(line 0 H 1 0 1; line 0 F 0)
bad end-while-alone < <(line 0 H 1 0 1; line 0 J 0)
bad end-if-names-its-else < <(line 0 H 1 0 3; line 0 I 0 1; line 1 E 2; line 2 F 1)
bad end-while-names-a-statement < <(line 0 H 1 0 3; line 0 L 0 2; line 1 K 0 7; line 2 J 1)
bad if-named-another-else < <(line 0 H 1 0 3; line 0 I 0 2; line 1 E 2; line 2 F 0)
bad else-named-another-end < <(line 0 H 1 0 3; line 0 I 0 1; line 1 E 1; line 2 F 0)
bad end-while-in-an-if < <(line 0 H 1 0 2; line 0 I 0 1; line 1 J 0)
bad block-left-open < <(line 0 H 1 1 2; line 0 A 0 4; line 0 L 0 1; line 1 K 0 7)

# nest DEPTH: that many whiles, one in the other
nest() {
  local depth=$1 node
  line 0 H 1 0 $((2 * depth))
  for ((node = 0; node < depth; node++)); do line $node L 0 $((2 * depth - 1 - node)); done
  for ((node = depth; node < 2 * depth; node++)); do line $node J $((2 * depth - 1 - node)); done
}
bad depth-16 < <(nest 16)
bad depth-17 < <(nest 17)

# large inputs
bad bytes-65536 < <(head -c 65536 /dev/zero | tr '\0' 'x')
bad bytes-65537 < <(head -c 65537 /dev/zero | tr '\0' 'x')
input=/dev/zero check endless-input show -

# clear NAME FILE TABLE WORD..: clears the file with the table of levels, under that name
clear() {
  local name=$1 file=$2 table=$3
  shift 3
  check "clear-$name" clear "$file" --levels "$table" "$@"
}

# cleared or not: two levels, and what each model hears
clear lookup examples/lookup.lst 100
clear lookup-pc examples/lookup.lst 100 --model pc
clear lookup-line16 examples/lookup.lst 100 --model line16
clear lookup-tv-pc examples/lookup.lst 100 --model tv+pc
clear lookup-public examples/lookup.lst 000
clear lookup-secret-listener examples/lookup.lst 100 --listener 1
clear lookup-baseline-named examples/lookup.lst 100 --order two --listener 0 --model baseline
clear repaired examples/lookup-repaired.lst 100001
clear repaired-tv examples/lookup-repaired.lst 100001 --model tv+baseline
clear secret-loop examples/secret-loop.lst 01
clear secret-loop-pc examples/secret-loop.lst 01 --model pc
clear secret-loop-first examples/secret-loop.lst 11
clear secret-loop-public examples/secret-loop.lst 00
clear loop examples/loop.lst 11111
clear loop-line8 examples/loop.lst 11111 --model line8
clear nested examples/nested.lst 0010
clear nested-result examples/nested.lst 0001
clear division examples/division.lst 100
clear division-tv examples/division.lst 100 --model tv+baseline
clear division-tv-right examples/division.lst 010 --model tv+pc
clear operators examples/operators.lst 010000
clear operators-array-level examples/operators.lst 010000 --model pc
clear operators-array-secret examples/operators.lst 010001 --model pc
clear operators-line8 examples/operators.lst 010001 --model line8
clear empty examples/empty.lst ''
input=examples/lookup.lst clear standard-input - 100

# a way of several steps: array 0 into scalar 1, round the loop through scalars 2 and 3, and into the condition
{ line 0 H 4 1 7; line 0 A 0 32; line 0 R 1 0 0; line 1 L 3 6; line 2 M 3 2; line 3 K 0 5; line 4 M 2 1; line 5 W 0 0 1; line 6 J 1; } > way.lst
clear way way.lst 00001
clear way-cleared way.lst 00000
# arrays in one line of 16 cells, and in two lines of 8
{ line 0 H 1 2 2; line 0 A 0 8; line 1 A 12 8; line 0 R 0 0 0; line 1 R 0 1 0; } > lines.lst
clear lines-16 lines.lst 100 --model line16
clear lines-8 lines.lst 100 --model line8
# a value that may not be stored: bound 1, operand 3
{ line 0 H 2 1 1; line 0 A 4 4; line 0 W 0 0 1; } > store.lst
clear store store.lst 010 --model pc
clear store-secret-array store.lst 011 --model pc
clear store-index store.lst 100 --model pc

# sets of owners
clear owners examples/lookup.lst 9,1,1 --order owners --listener 1
clear owners-may-know examples/lookup.lst 9,1,1 --order owners --listener 9
clear owners-nobody examples/lookup.lst 0,65535,0 --order owners
clear owners-all examples/lookup.lst 65535,0,0 --order owners --listener 32767
clear owners-store store.lst 0,4,2 --order owners --listener 65535

# tables of another length, and listings that are refused
clear table-short examples/lookup.lst 10
clear table-long examples/lookup.lst 1000
clear table-none examples/lookup.lst ''
clear table-owners-short examples/lookup.lst 9,1 --order owners
clear refused examples/refused/7-no-such-scalar.lst 1

# calls of clear
check clear-no-file clear
check clear-no-file-but-levels clear --levels 100
check clear-no-levels clear examples/lookup.lst
check clear-no-value clear examples/lookup.lst --levels
check clear-options-first clear --model pc --levels 100 examples/lookup.lst
check clear-second-file clear examples/lookup.lst --levels 100 examples/loop.lst
check clear-no-such-file clear nowhere.lst --levels 100
clear option-unknown examples/lookup.lst 100 --mode pc
clear option-twice examples/lookup.lst 100 --levels 100
clear model-unknown examples/lookup.lst 100 --model line32
clear model-layered-twice examples/lookup.lst 100 --model tv+tv+pc
clear order-unknown examples/lookup.lst 100 --order three
clear digit-bad examples/lookup.lst 120
clear digit-comma examples/lookup.lst 1,0,0
clear code-bad examples/lookup.lst 9,x,1 --order owners
clear code-too-large examples/lookup.lst 65536,1,1 --order owners
clear code-missing examples/lookup.lst 9,,1 --order owners
clear code-at-end-missing examples/lookup.lst 9,1, --order owners
clear code-signed examples/lookup.lst +9,1,1 --order owners
clear listener-bad examples/lookup.lst 100 --listener 2
clear listener-two examples/lookup.lst 100 --listener 01
clear listener-none examples/lookup.lst 100 --listener ''
clear listener-owners-two examples/lookup.lst 9,1,1 --order owners --listener 1,1

# calls
check help help
check help-long --help
check help-short -h
check no-command
check word-after-help help show
check unknown-command shew examples/lookup.lst
check no-file show
check extra-word show examples/lookup.lst examples/loop.lst
check no-such-file show nowhere.lst
check word-not-text show $'\xff.lst'
check directory show examples

if [ "$accept" = no ]; then
  have=$(ls "$expected" | wc -l)
  if [ "$have" != "$cases" ]; then
    echo "tests/bench.sh: $have expected files for $cases cases"
    failed=$((failed + 1))
  fi
fi
echo "tests/bench.sh: $cases cases, $failed failed"
[ "$failed" = 0 ]
