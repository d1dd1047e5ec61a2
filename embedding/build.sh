#!/usr/bin/env bash
# Makes the C library in a folder: libsws.a of the crate sws_c, which rt proves first where it is not kept, and of the two files
# in c/. With --shared it makes libsws.so of that. CC and CFLAGS are heeded.
set -euo pipefail
shared=
if [ "${1:-}" = --shared ]; then
    shared=yes
    shift
fi
if [ $# != 1 ] || [ "$1" = --help ]; then
    echo "usage: embedding/build.sh [--shared] FOLDER" >&2
    exit 2
fi
here=$(cd "$(dirname "${BASH_SOURCE[0]}")" && pwd)
crate=$here/../crates/sws_c
made=$crate/out/libsws_c.a
mkdir -p "$1"

# the archive is older than a file of the crates
is_old() {
    [ -n "$(find "$here/../crates.txt" "$here/../crates" \( -name out -o -name must-fail \) -prune -o -newer "$made" -print -quit)" ]
}

if [ ! -f "$made" ] || is_old; then
    command -v rt >/dev/null || { echo "build.sh: the Rattle toolchain's command rt is not on the path" >&2; exit 127; }
    mkdir -p "$crate/out"
    (cd "$crate" && rt lib) >"$crate/out/lib.log" 2>&1 || {
        echo "build.sh: the library could not be built; $crate/out/lib.log says why" >&2
        exit 126
    }
    touch "$made"
fi
objects=$(mktemp -d)
trap 'rm -rf "$objects"' EXIT
for file in heap text; do
    ${CC:-cc} -std=c11 -O2 -fPIC ${CFLAGS:-} -I"$here/include" -c "$here/c/$file.c" -o "$objects/$file.o"
done
cp "$made" "$objects/libsws.a"
chmod u+w "$objects/libsws.a"
ar rs "$objects/libsws.a" "$objects/heap.o" "$objects/text.o" 2>/dev/null
if [ -n "$shared" ]; then
    ${CC:-cc} -shared ${CFLAGS:-} -Wl,--whole-archive "$objects/libsws.a" -Wl,--no-whole-archive -o "$objects/libsws.so"
    mv "$objects/libsws.so" "$1/libsws.so"
fi
mv "$objects/libsws.a" "$1/libsws.a"
