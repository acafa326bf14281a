#!/usr/bin/env bash
# Times of 1, 2 and 4 threads that intern texts that are there, and give them back: the shared interner for C beside one mutex over uthash and
# g_intern_string of glib, and the facade for Rust beside Debian's string_cache. What isn't there is left out, with a line. Of each, the least of
# several turns, nanoseconds for one text: by the clock, so that two threads that don't wait for each other halve it, and of processors.
#
# usage: clients/speed/compare_threads.sh LIBRARY [TEXTS [TURNS [ROUNDS]]]     LIBRARY is a folder that tools/c_library.sh filled
# The words of RUN stand before each program: with RUN='chrt -f 1' other work on the machine waits meanwhile.
set -euo pipefail

here=$(cd "$(dirname "$0")" && pwd)
library=$(cd "$1" && pwd)
texts=${2:-5000}
turns=${3:-5}
rounds=${4:-100}
registry=/usr/share/cargo/registry
room=$(mktemp -d)
trap 'rm -rf "$room"' EXIT

programs=()

# Builds a program in C, and says if it can't be: what it needs isn't there.
in_c() {
    local name=$1
    shift
    if ${CC:-cc} -O2 -pthread -I "$library" -I "$here/../c" "$here/threads_$name.c" "$@" -o "$room/$name" 2> "$room/said"; then
        programs+=("$room/$name")
    else
        echo "left out: threads_$name.c isn't built here" >&2
    fi
}

# Builds the program over string_cache, which is Debian's or, with a line for its manifest, another.
in_rust() {
    local name=$1 patch=$2
    mkdir "$room/$name"
    cp -R "$here/atoms" "$room/$name/atoms"
    cp "$here/measure.rs" "$room/$name"
    printf '\n[patch.crates-io]\n%s\n' "$patch" >> "$room/$name/atoms/Cargo.toml"
    if (cd "$room/$name/atoms" && STRING_CACHE_DIR=$library cargo build --release --offline --target-dir "$room/$name/target" \
        --config 'source.crates-io.replace-with="debian"' --config "source.debian.directory=\"$registry\"") 2> "$room/said"; then
        programs+=("$room/$name/target/release/atoms $name")
    else
        echo "left out: atoms isn't built over the $name: Debian's librust-string-cache-dev and cargo have to be there" >&2
    fi
}

in_c shared "$here/../c/string_cache_shared.c" "$library/libstring_cache.a"
in_c uthash
# shellcheck disable=SC2046
in_c glib $(pkg-config --cflags --libs glib-2.0 2> "$room/said" || true)
cp -R "$here/../rust" "$here/../rust_facade" "$here/../rust_facade_0_8" "$here/../precomputed_hash" "$room"
in_rust facade "string_cache = { path = \"$room/rust_facade_0_8\" }"
in_rust original ""

for _ in $(seq "$turns"); do
    for threads in 1 2 4; do
        for program in "${programs[@]}"; do
            # shellcheck disable=SC2086
            ${RUN:-} $program "$texts" "$threads" "$rounds"
        done
    done
done | awk '
    { name = $1 " " $2 " " $4; if (!(name in least)) order[++count] = name; if (!(name in least) || $5 < least[name]) least[name] = $5 }
    END { for (at = 1; at <= count; at++) printf "%s %.1f\n", order[at], least[order[at]] }'
