#!/usr/bin/env bash
# compare_published.sh [COUNT [SEED]]: how many answers of the Rust as it was published, without
# docs/builder-cut-side.patch, differ from those of the oracle, on COUNT generated sheets of every profile (of limits,
# full-tables, many-merges and long-sheets a tenth): other registers, or another outcome (the published Rust's for the
# oracle's). Default: 500 sheets, seed 1. Needs python3 besides cargo.
set -eu
cd "$(dirname "$0")"
count=${1:-500} seed=${2:-1}
target=${CARGO_TARGET_DIR:-target}
cargo build --offline --release --quiet
cargo build --offline --release --quiet --features published --target-dir "$target/published"
aside=$(mktemp -d)
trap 'rm -rf "$aside"' EXIT
for profile in small classes groups hints floats damaged rooms bad-uses leaning limits full-tables many-merges long-sheets; do
    sheets=$count
    case $profile in limits | full-tables | many-merges | long-sheets) sheets=$(((count + 9) / 10)) ;; esac
    "$target/release/gen" "$profile" "$seed" "$sheets" >"$aside/sheets"
    "$target/release/oracle" --stream <"$aside/sheets" >"$aside/altered"
    "$target/published/release/oracle" --stream <"$aside/sheets" >"$aside/published"
    echo "$profile: $(python3 eval/published.py "$aside/altered" "$aside/published")"
done
