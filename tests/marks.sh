#!/usr/bin/env bash
# Runs the program marks on good and bad inputs and compares the slip.
# The program is $MARKS, or target/bin/marks, which is then built of the sources as they stand.
set -euo pipefail
cd "$(dirname "$0")/.."
marks=${MARKS:-target/bin/marks}
if [ -z "${MARKS:-}" ]; then bash tools/program.sh marks; fi
cases=0
slip() { # EXPECTED, input on standard input
  cases=$((cases + 1))
  got=$("$marks")
  if [ "$got" != "$1" ]; then
    echo "tests/marks.sh: got '$got' and not '$1'" >&2
    exit 1
  fi
}
slip 'LEAK              0          3          0          0' < <(cat crates/marks/stdin)
slip 'CLEAR             0          0          0          0' < <({ echo 000; cat examples/lookup.lst; })
slip 'REFUSED          10          0          0          0' < <({ echo 100; cat examples/lookup-repaired.lst; })
slip 'CLEAR             0          0          0          0' < <({ echo 100000; cat examples/lookup-repaired.lst; })
slip 'REFUSED           1          0          0          0' < <(printf '')
slip 'REFUSED           1          0          0          0' < <(printf '100')
slip 'REFUSED          17          2          0          0' < <(printf '10a')
slip 'REFUSED           1          0          0          0' < <(printf '100\n')
# the first 65536 bytes alone are taken: 4 of digits and newline, then 1284 whole lines and 48 bytes
slip 'REFUSED           1       1284          0          0' < <({ printf '100\n'; head -c 70000 /dev/zero; })
slip 'LEAK              0          3          0          0' < <({ printf '100\n'; cat examples/lookup.lst; })
echo "tests/marks.sh: $cases inputs, 0 failed" 
