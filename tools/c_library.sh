#!/usr/bin/env bash
# Builds the library for C, C++, Rust and Python, and says what was proved of it.
#
# It proves crates/string_cache_c, over what earlier checks kept, in some minutes, and says how far it is. Then it puts the guarded layer of
# clients/c beside it. Nothing of the kit is needed to link the library. CC, AR, CFLAGS and DESTDIR are taken from the environment.
#
# usage: tools/c_library.sh OUT [ARCHIVE]                leaves libstring_cache.a, libstring_cache.so, string_cache.h and string_cache.pc in OUT
#        tools/c_library.sh --prefix PREFIX [ARCHIVE]    installs: PREFIX/include, lib with its pkgconfig and cmake, share/man
#        tools/c_library.sh --help
#
# With an ARCHIVE that `rt lib` made before, nothing is proved. With DESTDIR all files of an installation go below that folder, and say nothing of
# it. What is installed may be moved as a whole.
set -euo pipefail
unset CDPATH # with which `cd` prints where it goes

top=$(cd "$(dirname "$0")/.." && pwd)
room=$(mktemp -d)
made= # the target, if it was made here and nothing was built for it yet
trap 'rm -rf "$room"; [[ -z $made ]] || rmdir "$made"' EXIT
C=$top/clients/c

usage() {
    sed -n '2,/^set /{/^set /d;s/^# \{0,1\}//;p}' "$0"
}

# A part of the version in the header: MAJOR, MINOR or PATCH.
part() {
    sed -n "s/^#define SC_VERSION_$1 //p" "$C/string_cache.h"
}

# Ends with a line that says why.
fault() {
    echo "c_library: $1" >&2
    exit 1
}

# Which crate is being proved, after this many seconds, and how much of it was checked: with several jobs lines `so far: ..` tell that, with one
# lines `checked ..` do.
how_far() {
    awk -v seconds="$1" '
        /^rt: chose --jobs [0-9]+ for / { crate = " " $NF; far = one = "" }
        /^so far: [0-9]+ of [0-9]+ functions checked/ { far = $3 " of " $5 " functions checked" }
        /^checked .*, [0-9]+ of [0-9]+$/ { one = $(NF - 2) " of " $NF " checked" }
        END { print "c_library: proving" crate ", " seconds " seconds; " (far ? far : one ? one : "nothing checked so far") }
    ' "$room/said"
}

# Tells how far the proof is, every ten seconds, while the process runs.
progress() {
    while sleep 10 > "$room/alive" 2>&1 && kill -0 "$1" 2> "$room/alive"; do
        how_far "$SECONDS" >&2
    done
}

# Proves the exports and builds their archive. Its last line is the prover's verdict.
prove() {
    local proof shown status=0
    (cd "$top/crates/string_cache_c" && exec rt lib) > "$room/said" 2>&1 &
    proof=$!
    progress "$proof" &
    shown=$!
    wait "$proof" || status=$?
    { kill -KILL "$shown" && wait "$shown"; } 2> "$room/alive" || true # with no chance to run the trap
    if [[ $status != 0 ]]; then
        tail -n 40 "$room/said" >&2
        fault "crates/string_cache_c isn't proved, so no library was built"
    fi
    grep '^logic=proved ' "$room/said" | tail -n 1
    archive=$top/crates/string_cache_c/out/libstring_cache_c.a
}

# Compiles a file of the guarded layer.
compile() {
    # shellcheck disable=SC2086
    ${CC:-cc} -std=c11 -Wall -Wextra -Wpedantic -O2 -fPIC -fvisibility=hidden ${CFLAGS:-} -c "$C/$1.c" -o "$room/$1.o"
}

# Sees that the archive is one.
see_archive() {
    [[ -f $archive ]] || fault "there is no archive $archive"
    ${AR:-ar} t "$archive" > "$room/parts" 2> "$room/ar" || fault "$archive is no archive: $(tail -n 1 "$room/ar")"
}

# Builds both libraries in the room. The shared one has this name for the loader. The program's own allocator serves it too, and only what
# string_cache.h declares can be called.
build() {
    compile string_cache
    compile heap
    cp "$archive" "$room/libstring_cache.a"
    chmod u+w "$room/libstring_cache.a"
    ${AR:-ar} rs "$room/libstring_cache.a" "$room/string_cache.o" "$room/heap.o" 2> "$room/ar" || fault "$(cat "$room/ar")"
    # shellcheck disable=SC2086
    ${CC:-cc} -shared ${CFLAGS:-} -Wl,-soname,"$1" -Wl,--exclude-libs,ALL -Wl,-z,defs -Wl,--gc-sections \
        -o "$room/libstring_cache.so" "$room/string_cache.o" "$room/heap.o" "$archive" || fault "the exports can't be linked from $archive"
    made=
}

# Writes the file by which pkg-config finds the library: where the folders are, as seen from the file.
describe() {
    cat << END
prefix=\${pcfiledir}$1
includedir=\${prefix}$2
libdir=\${prefix}$3

Name: string_cache
Description: Interned texts, proved
Version: $version
Cflags: -I\${includedir}
Libs: -L\${libdir} -lstring_cache
END
}

# Fills the folder OUT.
fill() {
    mkdir -p "$1"
    build libstring_cache.so
    describe '' '' '' > "$room/string_cache.pc"
    # As new files: one that is overwritten would change under programs that run with it.
    cp --remove-destination "$C/string_cache.h" "$room/libstring_cache.a" "$room/libstring_cache.so" "$room/string_cache.pc" "$1/"
    echo "c_library: libstring_cache.a, libstring_cache.so, string_cache.h and string_cache.pc are in $(cd "$1" && pwd)"
}

# Installs a file of the sources, with the version where it has @VERSION@, @MAJOR@.
put() {
    mkdir -p "$(dirname "$2")"
    sed "s/@VERSION@/$version/g; s/@MAJOR@/$major/g" "$1" > "$2"
    chmod 644 "$2"
}

# Installs a page of the manual, and under the name of each of its functions one that leads to it.
put_page() {
    local page=$1 names name
    put "$C/man/$page" "$2/$page"
    names=$(sed -n '/^\.SH NAME/{n;s/ \\- .*//;s/, / /g;p}' "$C/man/$page")
    for name in $names; do
        if [[ $name.3 != "$page" ]]; then
            echo ".so man3/$page" > "$2/$name.3"
            chmod 644 "$2/$name.3"
        fi
    done
}

# Installs all of it below this folder.
install_all() {
    local root=$1 file
    build "libstring_cache.so.$major"
    mkdir -p "$root/include" "$root/lib/pkgconfig" "$root/share/man/man3"
    for file in "$C"/string_cache*.h "$top"/clients/cpp/string_cache*.hpp; do
        put "$file" "$root/include/$(basename "$file")"
    done
    if [[ -f $C/string_cache_shared.c ]]; then
        put "$C/string_cache_shared.c" "$root/share/string_cache/string_cache_shared.c"
    fi
    install -m 644 "$room/libstring_cache.a" "$root/lib/libstring_cache.a"
    install -m 755 "$room/libstring_cache.so" "$root/lib/libstring_cache.so.$version"
    ln -sf "libstring_cache.so.$version" "$root/lib/libstring_cache.so.$major"
    ln -sf "libstring_cache.so.$major" "$root/lib/libstring_cache.so"
    describe /../.. /include /lib > "$root/lib/pkgconfig/string_cache.pc"
    chmod 644 "$root/lib/pkgconfig/string_cache.pc"
    for file in "$C"/cmake/*.cmake; do
        put "$file" "$root/lib/cmake/string_cache/$(basename "$file")"
    done
    for file in "$C"/man/*.3; do
        if [[ $(basename "$file") != string_cache_shared.3 || -f $C/string_cache_shared.h ]]; then
            put_page "$(basename "$file")" "$root/share/man/man3"
        fi
    done
    echo "c_library: version $version is installed in $root"
}

case ${1:-} in
-h | --help)
    usage
    exit 0
    ;;
--prefix) kind=install && shift ;;
--prefix=*) kind=install && set -- "${1#--prefix=}" "${@:2}" ;;
-*) kind=none ;;
*) kind=fill ;;
esac
if [[ $kind == none || $# -lt 1 || $# -gt 2 || -z $1 ]]; then
    usage >&2
    exit 2
fi
target=$1
archive=${2:-}
major=$(part MAJOR)
version=$major.$(part MINOR).$(part PATCH)
if [[ $kind == install ]]; then
    [[ $target == /* || -z ${DESTDIR:-} ]] || target=/$target
    target=${DESTDIR:-}$target
fi
if [[ ! -d $target ]]; then
    mkdir -p "$target" # before a proof of minutes
    made=$target
fi
if [[ -n $archive ]]; then
    see_archive
    echo "c_library: nothing was proved: the archive is $archive"
else
    prove
fi
if [[ $kind == fill ]]; then
    fill "$target"
else
    install_all "$target"
fi
