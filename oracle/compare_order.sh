#!/usr/bin/env bash
# compare_order.sh [COUNT [SEED]]: holds the program `order` to the second reading of the order (src/order.rs), byte for byte, on
# threes of sheets near one another (src/make/pairs), three pairs each, each pair turned too; and its own answers to one another:
# turning a pair has to turn its answer, and the answers to three sheets have to be those of an order. COUNT threes of every profile in the
# first form and rewritten into the second (of limits, full-tables, many-merges and long-sheets a tenth), COUNT of
# `damaged`, of its second form and of the mixture `second`, and twice as many of `second-damaged`. One process for each pair
# and for each turned one, as many at a time as there are processors; the files lie in memory where /dev/shm is.
# `tools/program.sh order` has built the program; ORDER names another. Default: COUNT 40, which is 872 threes, 2,616 pairs, and
# seed 1. COUNT 800 is 17,440 threes, 52,320 pairs. The exit status is 1 where something differs.
set -eu
program=$(readlink -m "${ORDER:-$(dirname "$0")/../crates/order/out/order}")
cd "$(dirname "$0")"
[ -x "$program" ] || { echo "compare_order.sh: no program $program; 'tools/program.sh order' makes it" >&2; exit 2; }
count=${1:-40} seed=${2:-1}
cargo build --offline --release --quiet
bin=${CARGO_TARGET_DIR:-target}/release
[ -n "${TMPDIR:-}" ] || [ ! -w /dev/shm ] || TMPDIR=/dev/shm
TMPDIR=$(mktemp -d "${TMPDIR:-/tmp}/order.XXXXXX")
export TMPDIR
trap 'rm -rf "$TMPDIR"' EXIT
status=0
compare() { # PROFILE COUNT
    "$bin/compare_order" "$program" "$1" "$seed" "$2" >"$TMPDIR/said" || status=1
    sed '$s/ (.*//' "$TMPDIR/said"
    tail -n 1 "$TMPDIR/said" >>"$TMPDIR/lines"
}
for form in "" second:; do
    for profile in small classes groups hints floats rooms bad-uses leaning damaged; do
        compare "$form$profile" "$count"
    done
    for profile in limits full-tables many-merges long-sheets; do
        compare "$form$profile" $(((count + 9) / 10))
    done
done
compare second "$count"
compare second-damaged $((count * 2))
# the counts by answer, and the sums
sed 's/.*(\(.*\))$/\1/; s/, /\n/g' "$TMPDIR/lines" | awk -F': ' '{ sum[$1] += $2 } END { for (answer in sum) print answer ": " sum[answer] }' |
    sort -V
sed 's/.* threes from [0-9]*: //; s/ (.*//' "$TMPDIR/lines" | awk '{ pairs += $1; differ += $7; turned += $10; other += $13; triples += $15
    intransitive += $17; pass += $19; near += $22 }
    END { print "in all: " pairs " pairs and as many turned, " differ " outputs differ; " turned " answers turned, " other " differ; " \
        triples " triples, " intransitive " differ; " pass " pairs pass, " near " of all are one line apart" }'
exit $status
