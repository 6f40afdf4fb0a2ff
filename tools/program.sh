#!/usr/bin/env bash
# program.sh NAME..: proves the programs and what they stand on, builds them, and prints the path of each one's binary,
# crates/NAME/out/NAME. With no change since, it only prints them. `rt run` builds a program by running it: here it reads
# nothing, and what it writes is dropped. Where one isn't proved, what rt said follows on standard error, and the status
# is 1.
set -eu
top=$(cd "$(dirname "$0")/.." && pwd)
[ $# -gt 0 ] || { echo "usage: program.sh NAME.." >&2; exit 2; }
log=$(mktemp)
trap 'rm -f "$log"' EXIT
for name; do
    [ -f "$top/crates/$name/src/main.rt" ] || { echo "program.sh: crates/$name is no program" >&2; exit 2; }
    (cd "$top/crates/$name" && rt run </dev/null >/dev/null 2>"$log") || true # the program's own status
    if ! grep -q "^rt: running out/$name" "$log"; then
        cat "$log" >&2
        echo "program.sh: $name is not built" >&2
        exit 1
    fi
    echo "$top/crates/$name/out/$name"
done
