#!/usr/bin/env bash
# odd_convert.sh: the programs `to_form2` and `to_form1` (built by `tools/program.sh to_form2 to_form1`; TO_FORM2 and TO_FORM1 name
# others) under inputs that no generator makes and under faults of their standard streams, as odd_input.sh does for `vregs`:
# a line for each, DIFFERS in front of what is not as expected, and then the exit status 1.
# The faults need gcc; a tmpfs of 64 KB needs the right to mount one, and the line says so where it was not tried.
# ODD_TIMES=10 makes the longest inputs ten times as long, some 300 MB each.
cd "$(dirname "$0")/.."
second_program=$(readlink -m "${TO_FORM2:-crates/to_form2/out/to_form2}")
first_program=$(readlink -m "${TO_FORM1:-crates/to_form1/out/to_form1}")
for program in "$second_program" "$first_program"; do
    [ -x "$program" ] && continue
    echo "odd_convert.sh: no program $program; 'tools/program.sh to_form2 to_form1' makes it" >&2
    exit 2
done
sheet="the job sheet" label=""
. oracle/odd.sh

times=${ODD_TIMES:-1}
most=$((times * 30000000)) # bytes
bins=${CARGO_TARGET_DIR:-oracle/target}/release
first_sample=docs/samples/A.job second_sample=docs/samples/second/A.job
first_job=crates/vregs/stdin second_job=$d/second
second_form $first_job >"$second_job"

# own and other: the sample in the form that the program reads and in the other one; field: what the first has behind a block or a segment
twice() { # NAME ANSWER-FILE: $most bytes of standard input, bare and behind the form line
    head -c $most >"$d/bytes"
    feed "$1, $most bytes" "$2" <"$d/bytes"
    feed "$1, $most bytes behind the form line" "$2" < <(printf 'form\t2\n'; cat "$d/bytes")
    rm "$d/bytes"
}

no_sheets() {
    refusal 1
    local want=$d/want
    feed "no byte" "$want" </dev/null
    feed "one line feed" "$want" < <(echo)
    feed "one NUL" "$want" < <(printf '\0')
    feed "the form line, no byte behind it" "$want" < <(printf 'form\t2\n')
    feed "the form line without its line feed" "$want" < <(printf 'form\t2')
    feed "the form line, one line feed behind it" "$want" < <(printf 'form\t2\n\n')
    feed "the form line before a good sheet" "$want" < <(printf 'form\t2\n'; cat "$own")
    feed "a good sheet of the other form" "$want" <"$other"
    feed "a good sheet of the other form, $(stat -c %s "$answer") bytes" "$want" <"$answer"
    feed "the same by a pipe" "$want" < <(cat "$answer")
    feed "a good sheet without its last line feed" "$want" < <(head -c -1 "$own")
    feed "a good sheet and a line feed" "$want" < <(cat "$own"; echo)
    feed "a good sheet and a NUL" "$want" < <(cat "$own"; printf '\0')
    feed "a good sheet with a NUL in a line" "$want" < <(before value; printf 'value\t0\t\0000\t0\n'; behind value)
    feed "a good sheet twice" "$want" < <(cat "$own" "$own")
    twice "noise" "$want" </dev/urandom
    twice "NUL bytes" "$want" </dev/zero
    twice "a line without an end" "$want" < <(yes aaaaaaaaaaaaaaa | tr -d '\n')
    twice "line feeds" "$want" < <(yes '')
    twice "tabs" "$want" < <(yes "$(printf '\t\t\t\t\t\t\t\t')" | tr -d '\n')
    feed "a form line of $most bytes before the rest of a good sheet" "$want" < <(printf 'form\t'; of_digit 2 $most; echo; cat "$own")
    feed "a block's last field of $most digits" "$want" < <(long_field block "$(printf 'block\t2\t3f800000')")
    feed "a segment's last field of $most digits" "$want" < <(long_field seg "$(printf 'seg\t0\t2\t14\t0')")
}

long_sheets() {
    local block seg use members=$((times * 10000000)) blocks=$((times * 1600000)) segs=$((times * 2200000)) uses=$((times * 2300000))
    block=$(printf 'block\t1\t3f800000')$field
    seg=$(printf 'seg\t0\t0\t2\t0')$field
    use=$(printf 'use\t4\t3\t0\t2')
    refusal 1
    feed "a vgroup of $members members and a bad last line" "$d/want" < <(long_group $members; echo x)
    feed "$blocks blocks more and a bad last line" "$d/want" < <(more block "$block" $blocks; echo x)
    feed "$segs segments more and no end" "$d/want" < <(more seg "$seg" $segs | without_end)
    feed "$uses uses more and no end" "$d/want" < <(more use "$use" $uses | without_end)
    refusal 2
    feed "$blocks blocks more" "$d/want" < <(more block "$block" $blocks)
    feed "$segs segments more" "$d/want" < <(more seg "$seg" $segs)
    feed "$uses uses more" "$d/want" < <(more use "$use" $uses)
    refusal 4
    feed "a vgroup of $members members" "$d/want" < <(long_group $members)
}

converted() {
    local long seed uses
    long=$(stat -c %s "$job")
    feed "a slow writer, a pause in every line" "$other" < <(by_lines "$own")
    feed "a file of $long bytes" "$answer" <"$job"
    feed "the same by a pipe" "$answer" < <(cat "$job")
    feed "the same by a slow pipe, 4,001 bytes at a time" "$answer" < <(in_pieces "$job" 0.02)
    sed '$s/.*/end\t0/' "$job" >"$d/wrong"
    refusal 1
    feed "the same with a bad last line" "$d/want" < <(in_pieces "$d/wrong" 0)
    if [ ! -x "$bins/gen" ]; then
        echo "${label}jobs at the limits: not tried, no $bins/gen"
        return
    fi
    for seed in 1 2 3 4 5; do at_limits "limits $seed" limits $seed; done
    for uses in tied group; do at_limits "the largest sheet, $uses uses" --largest $uses; done
}
at_limits() { # NAME WORD WORD: what gen makes by these words
    "$bins/gen" "$2" "$3" >"$d/first"
    "$bins/convert" 2 <"$d/first" >"$d/moved"
    if [ "$name" = to_form2 ]; then
        feed "$1" "$d/moved" <"$d/first"
    elif grep -q '^form' "$d/moved"; then
        feed "$1" "$d/first" <"$d/moved"
    else
        echo "$label$1: not tried, refused in the first form"
    fi
}

written_fields() { # of the sample, one wrong
    sed 's/^\(seg.*\)\t0$/\1\t1/' "$second_sample" >"$d/set"
    sed 's/^\(block.*\)\t2$/\1\t3/' "$second_sample" >"$d/instruction"
    refusal "$1"
    feed "a wrong set" "$d/want" <"$d/set"
    feed "a wrong first instruction" "$d/want" <"$d/instruction"
    refusal 1
    feed "the first of them without the form line" "$d/want" < <(sed 1d "$d/set")
    feed "the second of them without it" "$d/want" < <(sed 1d "$d/instruction")
}

stops() { # case B, to which `vregs` gives 8
    second_form docs/samples/B.job >"$d/B"
    if [ "$name" = to_form2 ]; then feed "case B, which stops" "$d/B" <docs/samples/B.job
    else feed "case B, which stops" docs/samples/B.job <"$d/B"; fi
}

one_program() { # NAME PROGRAM
    name=$1 program=$2 label="$1: "
    usage="^usage: $1 <JOB-SHEET >JOB-SHEET"
    no_sheets
    long_sheets
    written_fields "$3"
    stops
    converted
    stream_faults
    refusal 1
    fresh; "$program" </dev/null >/dev/full 2>"$d/err"; st=$?
    tell "a refusal to /dev/full" none "${cut}No space left on device" "$d/want"
    fresh; "$program" </dev/null >&- 2>"$d/err"; st=$?
    tell "a refusal, standard output closed" none "${cut}Bad file descriptor" "$d/want"
}

own=$first_sample other=$second_sample job=$first_job answer=$second_job field=""
one_program to_form2 "$second_program" 1
own=$second_sample other=$first_sample job=$second_job answer=$first_job field=$(printf '\t0')
one_program to_form1 "$first_program" 10
verdict
