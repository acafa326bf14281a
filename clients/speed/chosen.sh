#!/usr/bin/env bash
# Times of interning texts that somebody chose, beside as many random ones of the same length, from C, C++, Rust and Python. The chosen ones are
# words of 32 letters that all had one hash while tables hashed under a fixed seed: their first 16 letters leave the hasher in a state that the next 8
# are equal to, so that a product of it is 0. Of each the least of several turns: nanoseconds for one text.
#
# usage: clients/speed/chosen.sh LIBRARY [TEXTS [TURNS]]     LIBRARY is a folder that tools/c_library.sh filled
set -euo pipefail

here=$(cd "$(dirname "$0")" && pwd)
library=$(cd "$1" && pwd)
texts=${2:-20000}
turns=${3:-5}
room=$(mktemp -d)
trap 'rm -rf "$room"' EXIT

seq -f 'prefix0000000856J!(^`x8A%08g' 0 $((texts - 1)) > "$room/chosen"
awk -v texts="$texts" 'BEGIN {
    srand(7)
    for (at = 0; at < texts; at++) {
        text = ""
        for (letter = 0; letter < 24; letter++) text = text sprintf("%c", 97 + int(rand() * 26))
        printf "%s%08d\n", text, at
    }
}' > "$room/random"

cc -O2 -I "$library" "$here/chosen.c" "$library/libstring_cache.a" -o "$room/c"
c++ -O2 -std=c++17 -I "$library" -I "$here/../cpp" "$here/chosen.cpp" "$library/libstring_cache.a" -o "$room/cpp"
programs=("$room/c" "$room/cpp" "python3 $here/chosen.py")
if command -v cargo > "$room/which"; then
    cp -R "$here/../rust" "$room/crate"
    (cd "$room/crate" && STRING_CACHE_DIR=$library cargo build --release --offline --example intern_lines) 2> "$room/said"
    programs+=("$room/crate/target/release/examples/intern_lines")
fi

export STRING_CACHE_LIBRARY=$library/libstring_cache.so PYTHONPATH=$here/../python PYTHONDONTWRITEBYTECODE=1
cd "$room"
for _ in $(seq "$turns"); do
    for program in "${programs[@]}"; do
        for kind in chosen random; do
            # shellcheck disable=SC2086
            taskset -c "${PROCESSOR:-0}" $program "$kind"
        done
    done
done | awk '
    { if (!($1 in seen)) { seen[$1] = 1; order[++count] = $1 } name = $1 " " $2; if (!(name in least) || $3 < least[name]) least[name] = $3 }
    END { for (at = 1; at <= count; at++) { one = order[at]
        printf "%s: chosen %.1f, random %.1f, ratio %.2f\n", one, least[one " chosen"], least[one " random"], least[one " chosen"] / least[one " random"] } }'
