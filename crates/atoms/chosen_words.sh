#!/usr/bin/env bash
# Times the program over words that were chosen to collide, and over as many others of the same length, in turn, and prints the least seconds of
# processor time of each command over both, and their ratio: ./chosen_words.sh [WORDS [TURNS]]
# First come words that all have one hash in a map without keys, whose hasher has a fixed seed; then words that all lie in one bucket of the set.
set -euo pipefail
cd "$(dirname "$0")"
words=${1:-100000}
turns=${2:-9}
room=$(mktemp -d)
trap 'rm -r "$room"' EXIT

rt run -- words < /dev/null > /dev/null
seq -f 'prefix0000000856J!(^`x8A%08g' 0 $((words - 1)) | shuf --random-source=<(yes) > "$room/one_hash"
awk -v words="$words" 'BEGIN {
    srand(1)
    for (n = 0; n < words; n++) {
        for (at = 0; at < 32; at++) printf "%c", 97 + int(26 * rand())
        print ""
    }
}' > "$room/random"
cc -O2 bucket_words.c -o "$room/bucket_words"
"$room/bucket_words" "$words" 10 > "$room/one_bucket"
"$room/bucket_words" "$words" 0 > "$room/all_buckets"

# The seconds of processor time that the program takes with these arguments over a text.
seconds() {
    local text=$1
    shift
    { TIMEFORMAT='%U %S'; time out/atoms "$@" < "$room/$text" > /dev/null; } 2>&1 | awk '{ print $1 + $2 }'
}

# A line of a command over chosen words and over others.
compare() {
    local chosen=$1 other=$2
    shift 2
    for ((turn = 0; turn < turns; turn++)); do
        echo "chosen $(seconds "$chosen" "$@")"
        echo "other $(seconds "$other" "$@")"
    done | awk -v what="$*" '
        !($1 in least) || $2 < least[$1] { least[$1] = $2 }
        END { printf "%-8s %9.3f %9.3f %6.2f\n", what, least["chosen"], least["other"], least["chosen"] / least["other"] }'
}

for texts in "one_hash random" "one_bucket all_buckets"; do
    read -r chosen other <<< "$texts"
    echo "$words words of ${chosen/_/ }"
    printf '%-8s %9s %9s %6s\n' command chosen others ratio
    for command in words "count 1" "count 4"; do
        # shellcheck disable=SC2086 # a command's words
        compare "$chosen" "$other" $command
    done
done
