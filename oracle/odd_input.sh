#!/usr/bin/env bash
# odd_input.sh [PROGRAM]: the program `vregs` (built by `tools/program.sh vregs`) under inputs that no generator makes and under faults of its
# standard streams. A line for each: what was tried; what stood on standard output (the whole answer, its first bytes, or none) and how
# many bytes; the status; standard error. A line that is not as expected begins with DIFFERS, and the exit status is then 1.
# The faults need gcc; a tmpfs of 64 KB needs the right to mount one, and the line says so where it was not tried.
# ODD_TIMES=10 makes the longest inputs of the second form ten times as long, some 300 MB each.
cd "$(dirname "$0")/.."
program=$(readlink -f "${1:-crates/vregs/out/vregs}")
[ -x "$program" ] || { echo "odd_input.sh: no program $program; 'tools/program.sh vregs' makes it" >&2; exit 2; }
sample=docs/samples/A.job
name=vregs label="" sheet="the register sheet"
job=crates/vregs/stdin answer=crates/vregs/stdout
usage='^usage: vregs <JOB-SHEET >REGISTER-SHEET'
. oracle/odd.sh

# --- inputs

# the sample with a vgroup line of $1 members before its first segment
long_group() {
    sed '/^seg/,$d' $sample
    printf 'vgroup'
    yes "$(printf '\t0')" | head -n "$1" | tr -d '\n'
    printf '\n'
    sed -n '/^seg/,$p' $sample
}
refusal 1
feed "no byte" "$d/want" </dev/null
feed "300 MB of noise" "$d/want" < <(head -c 300000000 /dev/urandom)
feed "400 MB of zeros" "$d/want" < <(head -c 400000000 /dev/zero)
feed "one line of 500 MB" "$d/want" < <(yes aaaaaaaaaaaaaaa | tr -d '\n' | head -c 500000000)
feed "a vgroup of 20,000,000 members and a bad last line" "$d/want" < <(long_group 20000000; echo x)
refusal 4
feed "a vgroup of 20,000,000 members" "$d/want" < <(long_group 20000000)
feed "a slow writer, a pause in every line" docs/samples/A.out < <(by_lines $sample)
feed "a file of 131,076 bytes" $answer <$job
feed "the same by a pipe" $answer < <(cat $job)
feed "the same by a pipe, in writes of many sizes" $answer \
    < <(at=0 n=1; while [ $at -lt 131076 ]; do tail -c +$((at + 1)) $job | head -c $n; at=$((at + n)); n=$(((n * 7 + 3) % 9001 + 1)); done)
gen=${CARGO_TARGET_DIR:-oracle/target}/release/gen
if [ -x "$gen" ]; then
    for seed in 1 2 3 4 5; do
        "$gen" limits $seed >"$d/job"
        "${gen%gen}oracle" <"$d/job" >"$d/want" 2>/dev/null
        feed "limits $seed" "$d/want" <"$d/job"
    done
else echo "five jobs of profile limits: not tried, no $gen"; fi

# --- the second form

second_form $sample >"$d/sample"
second_form $job >"$d/second"
long=$(stat -c %s "$d/second")
before() { sed "/^$1/,\$d" "$d/sample"; }      # the sample in the second form up to its first line of a record
behind() { sed "0,/^$1/d" "$d/sample"; }       # and what follows that line
times=${ODD_TIMES:-1}
digits=$((times * 30000000)) blocks=$((times * 1600000)) segs=$((times * 2200000))
long_first() { before block; printf 'block\t2\t3f800000\t'; of_digit 1 $digits; echo; behind block; }
long_set() { before seg; printf 'seg\t0\t2\t14\t0\t'; of_digit 1 $digits; echo; behind seg; }
# the sample with a line of a record more, so many times
many_blocks() { before block; yes "$(printf 'block\t1\t3f800000\t0')" | head -n "$1"; before end | sed -n '/^block/,$p'; }
many_segs() { before end; yes "$(printf 'seg\t0\t0\t2\t0\t0')" | head -n "$1"; }
refusal 1
feed "the form line, no byte behind it" "$d/want" < <(printf 'form\t2\n')
feed "the form line without its line feed" "$d/want" < <(printf 'form\t2')
feed "the form line before a sheet of the first form" "$d/want" < <(printf 'form\t2\n'; cat $sample)
feed "a form line of 300 MB" "$d/want" < <(printf 'form\t'; of_digit 2 300000000)
feed "the same before the rest of a good sheet" "$d/want" < <(printf 'form\t'; of_digit 2 300000000; echo; behind form)
feed "a first instruction of $digits digits" "$d/want" < <(long_first)
feed "a set of $digits digits" "$d/want" < <(long_set)
feed "$blocks blocks of the second form, 19 bytes each, and a bad last line" "$d/want" < <(many_blocks $blocks; echo end; echo x)
feed "$segs segments of the second form, 14 bytes each, and no end" "$d/want" < <(many_segs $segs)
refusal 2
feed "$blocks blocks of the second form" "$d/want" < <(many_blocks $blocks; echo end)
feed "$segs segments of the second form" "$d/want" < <(many_segs $segs; echo end)
refusal 10
sed 's/^\(seg.*\)\t0$/\1\t1/' "$d/sample" >"$d/wrong"
feed "a wrong set" "$d/want" <"$d/wrong"
feed "a slow writer of the second form, a pause in every line" docs/samples/A.out < <(by_lines "$d/sample")
feed "a file of the second form, $long bytes" $answer <"$d/second"
feed "the same by a pipe" $answer < <(cat "$d/second")
feed "the same by a slow pipe, 4,001 bytes at a time" $answer < <(in_pieces "$d/second" 0.02)
sed '$s/.*/end\t0/' "$d/second" >"$d/wrong"
refusal 1
feed "the same with a bad last line" "$d/want" < <(in_pieces "$d/wrong" 0)

# --- the streams
stream_faults
[ ! -x "$d/faults.so" ] || half_interrupted "$d/second" "half of all reads and writes interrupted, a sheet of the second form"
verdict
