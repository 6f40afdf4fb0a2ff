#!/usr/bin/env bash
# store.sh FOLDER COUNT [SEED] [MOST_BYTES]: COUNT sheets of each profile below with
# their answers, and a manifest: job, answer, room or -, stop or -, profile and
# seed, what the sheet is made for or -.
set -eu
if [ $# -lt 2 ]; then
    echo "usage: store.sh FOLDER COUNT [SEED] [MOST_BYTES]" >&2
    exit 2
fi
mkdir -p "$1"
folder=$(cd "$1" && pwd)
count=$2
seed=${3:-1}
most=${4:-4294967295}
cd "$(dirname "$0")"
cargo build --offline --release --quiet
rm -f "$folder"/manifest "$folder"/[0-9]*.job "$folder"/[0-9]*.out
for profile in small classes groups hints floats limits damaged rooms; do
    target/release/store "$folder" "$profile" "$seed" "$count" "$most"
done
wc -l < "$folder/manifest"
