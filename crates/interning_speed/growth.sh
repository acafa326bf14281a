#!/usr/bin/env bash
# How the cost of the set's calls grows with the number of live texts, for 8, 12 and 14 bits of buckets: ./growth.sh [MOST]
# It goes up to so many texts (1,000,000), and with 8 bits to 250,000. That takes two minutes, and 4,000,000 half an hour.
set -euo pipefail
cd "$(dirname "$0")"
most=${1:-1000000}
rt run -- counts all 1000 12 4 > /dev/null

# The arguments are the bits, the number of texts, and how many turns there are, of which the least times count.
grow() {
    for ((turn = 0; turn < $3; turn++)); do
        out/interning_speed times live "$2" "$1" 1
    done | awk -F': ' -v bits="$1" -v texts="$2" '
        / ns$/ {
            nanos = $2 + 0
            if (!($1 in least)) { names[kinds++] = $1; least[$1] = nanos }
            if (nanos < least[$1]) least[$1] = nanos
        }
        END { for (i = 0; i < kinds; i++) printf "%4d  %9d  %-32s  %10.1f\n", bits, texts, names[i], least[names[i]] }'
}

printf '%4s  %9s  %-32s  %10s\n' bits texts call ns
for bits in 8 12 14; do
    for texts in 1000 4000 16000 64000 250000 1000000 4000000; do
        if ((texts <= most && (bits > 8 || texts <= 250000))); then
            grow "$bits" "$texts" $((texts < 100000 ? 5 : 1))
        fi
    done
done
