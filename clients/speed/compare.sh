#!/usr/bin/env bash
# Times of the table for C beside what one would use instead: uthash, g_intern_string of glib, maps of Rust's std, of hashbrown and indexmap, dict
# and sys.intern of Python. Programs whose tools or libraries aren't there are left out. Of each, the least of several turns, on one processor, in
# processor time: nanoseconds of a call, and bytes for each text.
#
# usage: clients/speed/compare.sh LIBRARY [TEXTS [TURNS]]     LIBRARY is a folder that tools/c_library.sh filled
set -euo pipefail

here=$(cd "$(dirname "$0")" && pwd)
library=$(cd "$1" && pwd)
texts=${2:-1000000}
turns=${3:-5}
room=$(mktemp -d)
trap 'rm -rf "$room"' EXIT

has() {
    command -v "$1" > "$room/which"
}

programs=()
cc -O2 -I "$library" "$here/table.c" "$library/libstring_cache.a" -o "$room/table"
programs+=("$room/table $texts")
if cc -O2 "$here/plain_uthash.c" -o "$room/plain_uthash" 2> "$room/said"; then
    programs+=("$room/plain_uthash $texts")
fi
if has pkg-config; then
    glib=$(pkg-config --cflags --libs glib-2.0 2> "$room/said" || true)
    # shellcheck disable=SC2086
    if cc -O2 "$here/plain_glib.c" $glib -o "$room/plain_glib" 2> "$room/said"; then
        programs+=("$room/plain_glib $texts")
    fi
fi
if has rustc && rustc -O --edition 2021 "$here/plain.rs" -o "$room/plain" 2> "$room/said"; then
    programs+=("$room/plain $texts map" "$room/plain $texts interner")
fi
# Debian's librust-indexmap-dev has the crates here. Cargo writes beside what it builds, so it gets a copy.
registry=/usr/share/cargo/registry
cp -R "$here/indexed" "$here/measure.rs" "$room"
if has cargo && (cd "$room/indexed" && cargo build --release --offline --config 'source.crates-io.replace-with="debian"' \
    --config "source.debian.directory=\"$registry\"") 2> "$room/said"; then
    programs+=("$room/indexed/target/release/indexed $texts hashbrown" "$room/indexed/target/release/indexed $texts indexmap")
fi
if has python3; then
    for kind in dict intern interner; do
        programs+=("python3 $here/plain.py $texts $kind")
    done
fi

export STRING_CACHE_LIBRARY=$library/libstring_cache.so PYTHONPATH=$here/../python PYTHONDONTWRITEBYTECODE=1
for _ in $(seq "$turns"); do
    for program in "${programs[@]}"; do
        # shellcheck disable=SC2086
        taskset -c "${PROCESSOR:-0}" $program
    done
done | awk '
    { name = $1 " " $2; if (!(name in least)) order[++count] = name; if (!(name in least) || $3 < least[name]) least[name] = $3 }
    END { for (at = 1; at <= count; at++) printf "%s %.1f\n", order[at], least[order[at]] }'
