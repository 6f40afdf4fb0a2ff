#!/usr/bin/env bash
# evaluate_order.sh [THREES [DAMAGED [SEED]]]: holds `ordered_text` of the definition to the second reading of the order by
# computation (eval_order.py), on the three pairs of each of THREES threes of sheets near one another, of each of the profiles small to
# leaning in both forms and of the mixture `second`, and of DAMAGED threes of `damaged`, of its second form and of
# `second-damaged`; those pairs of which neither sheet has more than 2,000 bytes. Default 4, 20, 1. Needs the Rattle kit
# and python3.
set -eu
cd "$(dirname "$0")"
threes=${1:-4} damaged=${2:-20} seed=${3:-1}
cargo build --offline --release --quiet
bin=${CARGO_TARGET_DIR:-target}/release
pairs() {
    for profile in small classes groups hints floats rooms leaning bad-uses; do
        "$bin/gen" --threes "$profile" "$seed" "$threes"
        "$bin/gen" --threes "second:$profile" "$seed" "$threes"
    done
    "$bin/gen" --threes second "$seed" "$threes"
    for profile in damaged second:damaged second-damaged; do "$bin/gen" --threes "$profile" "$seed" "$damaged"; done
}
pairs | python3 eval_order.py "$bin/order"
