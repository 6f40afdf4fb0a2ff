#!/usr/bin/env bash
# Makes the pictures of docs/SHEETS.md anew, from the sheet pairs in docs/samples and in this folder.
set -eu
cd "$(dirname "$0")"
cargo build --quiet --offline --release --manifest-path ../../drawing/Cargo.toml
draw() {
    cargo run --quiet --offline --release --manifest-path ../../drawing/Cargo.toml -- "$1.job" "$1.out" >"$2.svg"
}
draw ../samples/A A
for name in conflict group refused hundred; do
    draw "$name" "$name"
done
