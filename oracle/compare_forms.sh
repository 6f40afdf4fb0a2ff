#!/usr/bin/env bash
# compare_forms.sh [COUNT [SEED]]: holds the program `vregs` to the oracle, byte for byte, on generated sheets of the second
# form: COUNT sheets of every profile rewritten into it (of limits, full-tables, many-merges and long-sheets a tenth), COUNT
# of their mixture, and four times as many that are damaged in the second form. Each rewritten sheet that does not fall to
# test 1 is given in the first form too, and the program's two outputs are held to each other. One process for each sheet.
# `tools/program.sh vregs` has built the program; VREGS names another. Default: 500 sheets, seed 1. The exit status is 1 where
# something differs.
set -eu
program=$(readlink -f "${VREGS:-$(dirname "$0")/../crates/vregs/out/vregs}")
cd "$(dirname "$0")"
[ -x "$program" ] || { echo "compare_forms.sh: no program $program; 'tools/program.sh vregs' makes it" >&2; exit 2; }
count=${1:-500} seed=${2:-1}
cargo build --offline --release --quiet
bin=${CARGO_TARGET_DIR:-target}/release
aside=$(mktemp -d)
trap 'rm -rf "$aside"' EXIT
status=0
compare() { # PROFILE COUNT
    "$bin/compare_forms" "$program" "$1" "$seed" "$2" >"$aside/said" || status=1
    cat "$aside/said"
    tail -n 1 "$aside/said" >>"$aside/lines"
}
for profile in small classes groups hints floats damaged rooms bad-uses leaning; do
    compare "second:$profile" "$count"
done
for profile in limits full-tables many-merges long-sheets; do
    compare "second:$profile" $(((count + 9) / 10))
done
compare second "$count"
compare second-damaged $((count * 4))
awk '{ sheets += $2; differ += $6; both += $8; apart += $12 }
    END { print "in all: " sheets " sheets of the second form, " differ " differ; " both " in both forms, " apart " differ" }' "$aside/lines"
exit $status
