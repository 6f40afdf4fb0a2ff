#!/usr/bin/env bash
# frames.sh: writes the answers that crates/replay replays, and the line that it has to write: the marked cases of
# docs/samples; 80 sheets of every profile from small to rooms and of leaning, of damaged 160 and of limits 8, those of
# them that have at most 70,000 bytes; and the four families of stored answers. Each sheet with the oracle's answer in the room of
# `vregs`. Behind them the same sheets rewritten into the second form (`gen --second`) with the same answers, but for those
# that are too long then, which are counted; every case of second-damaged once, with the oracle's answers; and the samples of
# docs/samples/second.
# stored.txt has a line for each: number, where it comes from, bytes of the sheet and of the answer, outcome,
# what it is made for or -. The same sources give the same bytes. A sheet has at most 262,144 bytes, an answer 524,288.
set -eu
cd "$(dirname "$0")"
cargo build --offline --release --quiet
bin=${CARGO_TARGET_DIR:-target}/release
aside=$(mktemp -d)
trap 'rm -rf "$aside"' EXIT
for profile in small classes groups hints floats rooms; do "$bin/store" "$aside" "$profile" 1 80 70000; done
"$bin/store" "$aside" damaged 1 160 70000
"$bin/store" "$aside" limits 1 8 70000
"$bin/store" "$aside" leaning 1 80
# every cause of 7 twice; the tables full and overfull; groups and merges; long sheets
"$bin/store" "$aside" bad-uses 0 200
"$bin/store" "$aside" full-tables 0 84
"$bin/store" "$aside" many-merges 0 56
"$bin/store" "$aside" long-sheets 0 45
"$bin/store" "$aside/second" second-damaged 0 "$("$bin/gen" --cases)"

most=262144
count=0 left=0
frame() { # JOB ANSWER SOURCE WHAT
    local job out outcome number
    job=$(stat -c %s "$1") out=$(stat -c %s "$2")
    [ "$job" -le $most ] && [ "$out" -le 524288 ] || { echo "frames.sh: $3 is too long" >&2; exit 1; }
    IFS=$'\t' read -r outcome number < "$2" || true
    [ "$outcome" = refused ] && outcome="refused $number" || outcome=accepted
    count=$((count + 1))
    printf '%d\t%s\t%d\t%d\t%s\t%s\n' "$count" "$3" "$job" "$out" "$outcome" "$4" >> "$aside/stored"
    printf '%08d\t%08d\n' "$job" "$out"
    cat "$1" "$2"
    printf '%d\t%s\t%s\t%s\n' "$count" "$1" "$2" "$4" >> "$aside/shelf"
}
first_form() {
    for job in ../docs/samples/*.job; do frame "$job" "${job%.job}.out" "${job#../}" -; done
    while IFS=$'\t' read -r job out room _ source what; do
        [ "$room" = - ] || "$bin/oracle" < "$aside/$job" > "$aside/$out" 2> "$aside/cause"
        frame "$aside/$job" "$aside/$out" "$source" "$what"
    done < "$aside/manifest"
}
rewritten() { # the frames so far
    mv "$aside/shelf" "$aside/first"
    while IFS=$'\t' read -r number job out what; do
        "$bin/gen" --second < "$job" > "$aside/rewritten"
        if [ "$(stat -c %s "$aside/rewritten")" -gt $most ]; then
            left=$((left + 1))
        else
            frame "$aside/rewritten" "$out" "second form of $number" "$what"
        fi
    done < "$aside/first"
}
damaged() {
    while IFS=$'\t' read -r job out _ _ source what; do
        frame "$aside/second/$job" "$aside/second/$out" "$source" "$what"
    done < "$aside/second/manifest"
}
second_samples() {
    for job in ../docs/samples/second/*.job; do frame "$job" "${job%.job}.out" "second form, ${job#../}" -; done
}
to=../crates/replay
{ first_form; rewritten; damaged; second_samples; } > "$to/stdin"
cp "$to/stdin" ../crates/home/stdin
cp "$aside/stored" stored.txt
echo "$(wc -l < stored.txt) answers, all equal" > "$to/stdout"
cat "$to/stdout"
wc -c "$to/stdin"
echo "$left too long in the second form"
cut -f5 stored.txt | sort | uniq -c
