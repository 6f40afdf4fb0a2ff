#!/usr/bin/env bash
# compare_vregs.sh [COUNT [SEED]]: holds the program `vregs` to the oracle, byte for byte, on COUNT generated sheets of
# every profile (of limits, full-tables, many-merges and long-sheets a tenth), valid and damaged, one process for each
# sheet. `tools/program.sh vregs` has built it. Default: 500 sheets, seed 1.
set -eu
cd "$(dirname "$0")"
count=${1:-500} seed=${2:-1}
cargo build --offline --release --quiet
bin=${CARGO_TARGET_DIR:-target}/release
program=$(cd .. && pwd)/crates/vregs/out/vregs
status=0
for profile in small classes groups hints floats damaged rooms bad-uses leaning; do
    "$bin/compare" "$program" "$profile" "$seed" "$count" || status=1
done
for profile in limits full-tables many-merges long-sheets; do
    "$bin/compare" "$program" "$profile" "$seed" $(((count + 9) / 10)) || status=1
done
exit $status
