#!/usr/bin/env bash
# compare_convert.sh [COUNT [SEED]]: holds the programs `to_form2` and `to_form1` to the second reading of the conversions
# (src/convert.rs), byte for byte, on generated sheets of both forms, sound and damaged: COUNT sheets of every profile in
# the first form and rewritten into the second (of limits, full-tables, many-merges and long-sheets a tenth), COUNT of the
# mixture `second`, and four times as many of `damaged` and of `second-damaged`. Each sheet is given to both programs. What
# a program converts is given to the other and has to come home. One process for each run.
# `tools/program.sh to_form2 to_form1` has built the programs; TO_FORM2 and TO_FORM1 name others. Default: COUNT 150, which is
# 4,020 sheets in all, and seed 1. COUNT 3800 is 101,840 sheets. The exit status is 1 where something differs.
set -eu
crates=$(dirname "$0")/../crates
second=$(readlink -m "${TO_FORM2:-$crates/to_form2/out/to_form2}")
first=$(readlink -m "${TO_FORM1:-$crates/to_form1/out/to_form1}")
cd "$(dirname "$0")"
for program in "$second" "$first"; do
    [ -x "$program" ] && continue
    echo "compare_convert.sh: no program $program; 'tools/program.sh to_form2 to_form1' makes it" >&2
    exit 2
done
count=${1:-150} seed=${2:-1}
cargo build --offline --release --quiet
bin=${CARGO_TARGET_DIR:-target}/release
aside=$(mktemp -d)
trap 'rm -rf "$aside"' EXIT
status=0
compare() { # PROFILE COUNT
    "$bin/compare_convert" "$second" "$first" "$1" "$seed" "$2" >"$aside/said" || status=1
    cat "$aside/said"
    tail -n 1 "$aside/said" >>"$aside/lines"
}
for form in "" second:; do
    for profile in small classes groups hints floats rooms bad-uses leaning; do
        compare "$form$profile" "$count"
    done
    for profile in limits full-tables many-merges long-sheets; do
        compare "$form$profile" $(((count + 9) / 10))
    done
done
compare damaged $((count * 4))
compare second:damaged "$count"
compare second "$count"
compare second-damaged $((count * 4))
# the counts by program and answer, and the sums
sed 's/.*(\(.*\))$/\1/; s/; /\n/' "$aside/lines" | awk '{ name = $1; sub(/^[^ ]* /, ""); n = split($0, answers, ", ")
    for (i = 1; i <= n; i++) { split(answers[i], of, ": "); sum[name ": " of[1]] += of[2] } }
    END { for (answer in sum) print answer ": " sum[answer] }' | sort -V
awk '{ sheets += $2; differ += $6; trips += $8; lost += $11 }
    END { print "in all: " sheets " sheets, " differ " outputs differ; " trips " round trips, " lost " differ" }' \
    "$aside/lines"
exit $status
