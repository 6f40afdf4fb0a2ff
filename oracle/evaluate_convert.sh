#!/usr/bin/env bash
# evaluate_convert.sh [JOBS [DAMAGED [SEED]]]: holds `to_form2` and `to_form1` of the definition to the second reading of the
# conversions by computation (eval_convert.py), on JOBS sheets of each of the profiles small to leaning in both forms and of
# the mixture `second`, and on DAMAGED sheets of `damaged`, of its second form and of `second-damaged`; those up to 3,000
# bytes. Default 20, 100, 1. Needs the Rattle kit and python3.
set -eu
cd "$(dirname "$0")"
jobs=${1:-20} damaged=${2:-100} seed=${3:-1}
cargo build --offline --release --quiet
bin=${CARGO_TARGET_DIR:-target}/release
sheets() {
    for profile in small classes groups hints floats rooms leaning bad-uses; do
        "$bin/gen" "$profile" "$seed" "$jobs"
        "$bin/gen" "second:$profile" "$seed" "$jobs"
    done
    "$bin/gen" second "$seed" "$jobs"
    for profile in damaged second:damaged second-damaged; do "$bin/gen" "$profile" "$seed" "$damaged"; done
}
sheets | python3 eval_convert.py "$bin/convert"
