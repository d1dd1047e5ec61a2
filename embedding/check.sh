#!/usr/bin/env bash
# Builds the C library and what stands over it, and runs it: the header as C99 and C++, the examples, random calls, random pairs.
# check.sh [PROGRAM]: PROGRAM is the converter that pairs are held against, made by ./sws where none is named.
set -euo pipefail
here=$(cd "$(dirname "${BASH_SOURCE[0]}")" && pwd)
program=${1:-$here/../out/sws}
[ -x "$program" ] || "$here/../sws" --task list >/dev/null
CC=${CC:-gcc}
work=$(mktemp -d)
trap 'rm -rf "$work"' EXIT
strict="-Wall -Wextra -Werror -pedantic -I$here/include"

"$here/build.sh" --shared "$work"

# the header
echo '#include "sws.h"
int main(void) { struct sws_plan plan = {NULL}; sws_close(&plan); return sws_version() != SWS_VERSION; }' >"$work/header.c"
$CC -std=c99 $strict "$work/header.c" "$work/libsws.a" -o "$work/header" && "$work/header"
if command -v g++ >/dev/null; then
    cp "$work/header.c" "$work/header.cpp"
    g++ -std=c++98 -Wno-long-long $strict "$work/header.cpp" "$work/libsws.a" -o "$work/header" && "$work/header"
fi

# the examples
for example in picture threads; do
    $CC -std=c11 -O2 -pthread $strict "$here/examples/$example.c" "$work/libsws.a" -o "$work/$example"
done
"$work/threads"
printf '\x51\x5a\xf0' | "$work/picture" rgb24 bgr24 1x1 | cmp - <(printf '\xf0\x5a\x51')
printf '\x51\x5a\xf0' | "$work/picture" yuv444p rgb24 1x1 | cmp - <(printf '\xfe\0\0')
[ "$("$work/picture" rgb24 yuv420p 1x1 2>&1 </dev/null || true)" = "picture: formats: the format has subsampled chroma" ]

# random calls, as a player makes them, and with every test of the compiler and refused allocations
$CC -std=c11 -O2 -D_DEFAULT_SOURCE -Wall -Wextra -I"$here/include" "$here/tests/calls.c" "$work/libsws.a" -o "$work/calls"
"$work/calls" 20000 1
$CC -std=c11 -O1 -g -fsanitize=address,undefined -fno-sanitize-recover=undefined -DSWS_REFUSES -Wall -Wextra -I"$here/include" \
    "$here/tests/calls.c" "$here/c/heap.c" "$here/c/text.c" "$here/../crates/sws_c/out/libsws_c.a" -o "$work/sanitized"
"$work/sanitized" 20000 2

# in Python, and against the program
if command -v python3 >/dev/null; then
    export SWS_LIBRARY=$work/libsws.so PYTHONPATH=$here/python PYTHONDONTWRITEBYTECODE=1
    python3 "$here/python/example.py"
    python3 "$here/tests/pairs.py" "$program" 3000
else
    echo "no python3: its module and the pairs are left out"
fi
echo "embedding: ok"
