#!/usr/bin/env bash
# archives.sh [NAME..]: proves the static libraries of the exported functions and what they stand on, and copies each under
# the name that C callers and bindings/ know: crates/NAME_c/out/libNAME_c.a is target/staticlib/libNAME.a then. NAME is
# build, find_cut or cut_moves; with none, all three. Where one isn't proved, rt says so, and the status is not 0.
set -eu
cd "$(dirname "$0")/.."
[ $# -gt 0 ] || set -- build find_cut cut_moves
for name; do
    [ -f "crates/${name}_c/src/lib.rt" ] || { echo "archives.sh: no static library $name" >&2; exit 2; }
    (cd "crates/${name}_c" && rt lib)
    mkdir -p target/staticlib
    cp "crates/${name}_c/out/lib${name}_c.a" "target/staticlib/lib$name.a"
done
