#!/bin/bash
# Compares the throughput of sha256_bench with coreutils' sha256sum and with openssl, on one file of 100 MB, in one run: five rounds, each
# program once a round, and the best of its five times. Build the program first: rt run in crates/sha256_bench.
#
# openssl runs twice: without the processor's SHA instructions, where it still uses vector instructions, and with plain integer code. A
# sha256sum that is linked with libcrypto is run with plain integer code too.
set -eu
here=$(cd "$(dirname "$0")/.." && pwd)
program=$here/crates/sha256_bench/out/sha256_bench
[ -x "$program" ] || { echo "no $program: run rt run in crates/sha256_bench" >&2; exit 2; }

folder=$(mktemp -d /tmp/sha256-bench.XXXXXX)
trap 'rm -rf "$folder"' EXIT
file=$folder/data
head -c 100000000 /dev/urandom > "$file"

no_sha=:~0x20000000
plain=0:0
sum_mask=
if ldd "$(command -v sha256sum)" | grep -q libcrypto; then
    sum_mask=$plain
fi

names=("sha256_bench" "sha256sum" "openssl, no SHA instructions" "openssl, plain integer code")
run() {
    case $1 in
        0) "$program" < "$file" ;;
        1) OPENSSL_ia32cap=$sum_mask sha256sum < "$file" | cut -d ' ' -f 1 ;;
        2) OPENSSL_ia32cap=$no_sha openssl dgst -sha256 -r < "$file" | cut -d ' ' -f 1 ;;
        3) OPENSSL_ia32cap=$plain openssl dgst -sha256 -r < "$file" | cut -d ' ' -f 1 ;;
    esac
}

best=(0 0 0 0)
digest=$(run 0)
for _ in 1 2 3 4 5; do
    for i in 0 1 2 3; do
        start=$(date +%s%N)
        answer=$(run $i)
        took=$(($(date +%s%N) - start))
        [ "$answer" = "$digest" ] || { echo "${names[$i]}: another digest, $answer" >&2; exit 1; }
        if [ "${best[$i]}" = 0 ] || [ "$took" -lt "${best[$i]}" ]; then
            best[$i]=$took
        fi
    done
done

for i in 0 1 2 3; do
    awk -v name="${names[$i]}" -v own="${best[0]}" -v took="${best[$i]}" \
        'BEGIN { printf "%-30s %6.1f ms %6.1f MB/s   sha256_bench is at %.2f of it\n", name, took / 1e6, 1e11 / took, took / own }'
done
