#!/bin/bash
# Measures how long the largest list takes to read, 256 files and 32 branches, beside the SHA-256 of the same bytes, in one run: the best
# of five times of each. Paths and keys differ only at their ends, so that each is compared to its end. Build the program first:
# rt run in crates/paper_bench. It fails where a reading is refused, or takes a millisecond or more.
set -eu
here=$(cd "$(dirname "$0")/.." && pwd)
program=$here/crates/paper_bench/out/paper_bench
[ -x "$program" ] || { echo "no $program: run rt run in crates/paper_bench" >&2; exit 2; }

paper=$(mktemp /tmp/paper.XXXXXX)
trap 'rm -f "$paper"' EXIT
python3 - "$paper" <<'PY'
import struct, sys
key = lambda n: bytes(31) + bytes([n])
steps = lambda path: bytes([len(path)]) + b''.join(struct.pack('>H', s) for s in path)
files = b''.join(steps((1, 2, 3, 4, 5, 6, 7, n)) + struct.pack('>Q', 9) + key(7) for n in range(256))
keys = bytes([16, 16]) + b''.join(key(n) for n in range(16))
branches = b''.join(struct.pack('>H', n) + keys + steps((n,) * 8) + b'\x01' for n in range(32))
open(sys.argv[1], 'wb').write(b'\x04' + struct.pack('>HIIH', 0, 2, 50, 256) + files + b'\x20' + branches)
PY
for _ in 1 2 3 4 5; do "$program" < "$paper"; done | awk '
    / bytes, / { size = $1; if ($5 != 2000) { print "a reading was refused: " $0; bad = 1 } }
    /^reading/ { if (!r || $2 < r) r = $2; if (!d || $5 < d) d = $5 }
    END {
        printf "%d bytes: reading %.1f us, %.0f MB/s; SHA-256 %.1f us, %.0f MB/s; SHA-256 takes %.0f times as long\n", size, r / 1e3, size * 1e3 / r, d / 1e3, size * 1e3 / d, d / r
        if (!r || r >= 1e6) { print "a reading takes a millisecond or more"; bad = 1 }
        exit bad
    }'
