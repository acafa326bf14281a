#!/usr/bin/env bash
# Times the library and what one would write without it in turn, and prints the least time of each kind of call, in
# nanoseconds, and the ratio of the two: ./compare.sh [TURNS]. A set of 1,000,000 texts gets one turn.
set -euo pipefail
cd "$(dirname "$0")"
turns=${1:-5}
built=$(mktemp -d)
trap 'rm -r "$built"' EXIT

rt run -- counts all 1000 12 4 > "$built/counts"
rustc -O -o "$built/plain" plain/main.rs

# The arguments are a subject, a number of texts or of rounds, the bits of the number of buckets, and a number of threads.
compare() {
    for ((turn = 0; turn < turns; turn++)); do
        out/interning_speed times "$@" | sed 's/^/ours|/'
        "$built/plain" "$@" | sed 's/^/plain|/'
    done | awk -F'[|]|: ' -v what="$*" '
        / ns$/ {
            nanos = $3 + 0
            if (!($2 in known)) { known[$2] = 1; names[kinds++] = $2 }
            if (!(($1, $2) in least) || nanos < least[$1, $2]) least[$1, $2] = nanos
        }
        END {
            for (i = 0; i < kinds; i++) {
                ours = (("ours", names[i]) in least) ? sprintf("%.1f", least["ours", names[i]]) : "-"
                plain = (("plain", names[i]) in least) ? sprintf("%.1f", least["plain", names[i]]) : "-"
                ratio = (ours != "-" && plain + 0 > 0) ? sprintf("%.2f", ours / plain) : "-"
                printf "%-26s %-36s %10s %10s %6s\n", what, names[i], ours, plain, ratio
            }
        }'
}

printf '%-26s %-36s %10s %10s %6s\n' 'subject, N, bits, threads' 'call' 'ours' 'plain' 'ratio'
for texts in 10000 100000 1000000; do
    compare table "$texts" 12 1
done
compare hot 200000 12 1
for bits in 12 14; do
    for texts in 10000 100000; do
        compare live "$texts" "$bits" 1
    done
    turns=1 compare live 1000000 "$bits" 1
done
for threads in 1 2 4; do
    compare crowd 20000 12 "$threads"
done
for bits in 8 10; do
    for texts in 100 10000 100000; do
        compare named "$texts" "$bits" 1
    done
    turns=1 compare named 1000000 "$bits" 1
done
for texts in 10000 100000 1000000; do
    for threads in 1 2 4; do
        compare named_crowd "$texts" 8 "$threads"
    done
done
