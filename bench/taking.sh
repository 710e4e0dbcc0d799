#!/bin/bash
# Measures how much longer a box takes for a timestamp at 65,000 entries of its journal than at 100, in one run: the mean of twenty
# timestamps each. A new root comes after each 13,100, with another key for timestamps. Build the program first: rt run in crates/taking_bench.
# It fails where the difference is more than 2 ms.
set -eu
here=$(cd "$(dirname "$0")/.." && pwd)
program=$here/crates/taking_bench/out/taking_bench
[ -x "$program" ] || { echo "no $program: run rt run in crates/taking_bench" >&2; exit 2; }

"$program" 65000 | awk '
    / timestamps: / { count[NR] = $1; took[NR] = $3; before = $8 }
    END {
        if (NR != 2) { print "the program did not measure"; exit 1 }
        more = (took[2] - took[1]) / 1e6
        printf "a timestamp takes %.3f ms at %d entries, %.3f ms at %d: %.3f ms more; taking all took %.0f s\n", took[1] / 1e6, count[1], took[2] / 1e6, count[2], more, before / 1e3
        if (more > 2) { print "that is more than 2 ms"; exit 1 }
    }'
