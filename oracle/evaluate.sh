#!/usr/bin/env bash
# Generates jobs of the profiles small to rooms and leaning (of limits: those up to 8,000 bytes) and damaged sheets, has the oracle answer them, and holds the definition to the answers
# by computation (eval.py). usage: evaluate.sh [JOBS_PER_PROFILE [DAMAGED [SEED]]]   (default 200, 400, 1)
set -eu
cd "$(dirname "$0")"
jobs=${1:-200} damaged=${2:-400} seed=${3:-1}
cargo build --offline --release --quiet
bin=${CARGO_TARGET_DIR:-target}/release
aside=$(mktemp -d)
trap 'rm -rf "$aside"' EXIT
: > "$aside/manifest"
for profile in small classes groups hints floats rooms leaning; do
  "$bin/gen" "$profile" "$seed" "$jobs" | python3 eval/frames.py "$bin/oracle" "$aside/$profile" "$profile" >> "$aside/manifest"
done
"$bin/gen" damaged "$seed" "$damaged" | python3 eval/frames.py "$bin/oracle" "$aside/damaged" damaged >> "$aside/manifest"
# jobs at the limits: those that the checker can compute
"$bin/gen" limits "$seed" "$jobs" | python3 eval/frames.py "$bin/oracle" "$aside/limits" limits 8000 >> "$aside/manifest"
cut -f2 "$aside/manifest" | while read -r out; do head -n 1 "$out" | grep '^refused' || echo accepted; done | sort | uniq -c
python3 eval.py "$aside/manifest"
