#!/usr/bin/env bash
# odd_order.sh: the program `order` (built by `tools/program.sh order`; ORDER names another) with files that no generator makes,
# with names of none, and under faults of its files and streams, as odd_input.sh does for `vregs`: a line for each, DIFFERS
# in front of what is not as expected, and then the exit status 1. Here an answer is whole exactly if its last byte is a
# line feed and the line is before, same, after or refused and a number.
# The faults need gcc; what needs another right than this user's says so where it was not tried.
# ODD_TIMES=10 makes the longest files ten times as long, some 300 MB each.
cd "$(dirname "$0")/.."
program=$(readlink -m "${ORDER:-crates/order/out/order}")
[ -x "$program" ] || { echo "odd_order.sh: no program $program; 'tools/program.sh order' makes it" >&2; exit 2; }

# what it says on standard error
unopened='^order: .*could not be opened.*'
unread='^order: .*could not be read.*'
cut='^order: .*could not be written.*'
usage='^usage: order '

name=order label="" last_lines="before|same|after|refused"
. oracle/odd.sh
times=${ODD_TIMES:-1}
most=$((times * 30000000)) # bytes
bins=${CARGO_TARGET_DIR:-oracle/target}/release
first_sample=docs/samples/A.job second_sample=docs/samples/second/A.job
first_job=crates/vregs/stdin second_job=$d/second
second_form $first_job >"$second_job"
sums() { sha256sum $first_sample $second_sample $first_job "$second_job"; }
sums >"$d/sums"
printf 'same\n' >"$d/some_answer"

# --- how it is run

run() { # NAME KIND PATTERN ANSWER-FILE ARGUMENT...
    local what=$1 kind=$2 said=$3 want=$4
    shift 4
    fresh
    "$program" "$@" </dev/null >"$d/out" 2>"$d/err"
    st=$?
    tell "$what" "$kind" "$said" "$want"
}
answers() { # NAME ANSWER ARGUMENT...
    local what=$1
    printf '%s\n' "$2" >"$d/want"
    shift 2
    run "$what" whole "" "$d/want" "$@"
}
refuses() { # NAME NUMBER FIRST SECOND
    answers "$1" "$(printf 'refused\t%s' "$2")" "$3" "$4"
}
says() { # NAME PATTERN ARGUMENT...: nothing is answered
    local what=$1 pattern=$2
    shift 2
    run "$what" none "$pattern" "$d/some_answer" "$@"
}
turned() { # WORD
    case $1 in before) echo after ;; after) echo before ;; *) echo "$1" ;; esac
}
both_ways() { # NAME WORD FIRST SECOND
    answers "$1" "$2" "$3" "$4"
    answers "$1, turned" "$(turned "$2")" "$4" "$3"
}
# a file that is refused: in either place beside a good one of either form, and in both
in_each_place() { # NAME NUMBER FILE
    refuses "$1, in the first place" "$2" "$3" $first_sample
    refuses "$1, in the second place" "$2" $second_sample "$3"
    refuses "$1, in both" "$2" "$3" "$3"
}
piece() { # NAME NUMBER: what comes on standard input, as a file
    cat >"$d/piece"
    in_each_place "$1" "$2" "$d/piece"
}
long_piece() { # NAME NUMBER: the same, in two places alone
    cat >"$d/piece"
    refuses "$1, in the first place" "$2" "$d/piece" $second_sample
    refuses "$1, in the second place" "$2" $first_sample "$d/piece"
    rm "$d/piece"
}

# --- files

own=$first_sample
no_sheets() {
    piece "no byte" 1 </dev/null
    piece "one line feed" 1 < <(echo)
    piece "one NUL" 1 < <(printf '\0')
    piece "the form line alone" 1 < <(printf 'form\t2\n')
    piece "the form line without its line feed" 1 < <(printf 'form\t2')
    piece "the form line and a line feed" 1 < <(printf 'form\t2\n\n')
    piece "the form line before a sheet of the first form" 1 < <(printf 'form\t2\n'; cat $first_sample)
    piece "a sheet of the second form without the form line" 1 < <(sed 1d $second_sample)
    piece "a good sheet without its last line feed" 1 < <(head -c -1 $first_sample)
    piece "a good sheet and a line feed" 1 < <(cat $first_sample; echo)
    piece "a good sheet and a NUL" 1 < <(cat $second_sample; printf '\0')
    piece "a good sheet with a NUL in a line" 1 < <(before value; printf 'value\t0\t\0000\t0\n'; behind value)
    piece "a good sheet twice" 1 < <(cat $first_sample $first_sample)
    piece "a good sheet with carriage returns" 1 < <(sed 's/$/\r/' $first_sample)
    piece "4,096 bytes of noise" 1 < <(head -c 4096 /dev/urandom)
    refuses "/dev/null, in the first place" 1 /dev/null $second_sample
    refuses "/dev/null, in the second place" 1 $first_sample /dev/null
    refuses "/dev/null, in both" 1 /dev/null /dev/null
}

# $most bytes of standard input, bare and behind the form line
twice() { # NAME
    head -c $most >"$d/bytes"
    long_piece "$1, $most bytes" 1 <"$d/bytes"
    long_piece "$1, $most bytes behind the form line" 1 < <(printf 'form\t2\n'; cat "$d/bytes")
    rm "$d/bytes"
}
long_files() { # FIELD: what the sample has behind a block or a segment
    local block seg use members=$((times * 10000000)) blocks=$((times * 1600000)) segs=$((times * 2200000)) uses=$((times * 2300000))
    block=$(printf 'block\t1\t3f800000')$1
    seg=$(printf 'seg\t0\t0\t2\t0')$1
    use=$(printf 'use\t4\t3\t0\t2')
    long_piece "a block's last field of $most digits" 1 < <(long_field block "$(printf 'block\t2\t3f800000')")
    long_piece "a segment's last field of $most digits" 1 < <(long_field seg "$(printf 'seg\t0\t2\t14\t0')")
    long_piece "a vgroup of $members members and a bad last line" 1 < <(long_group $members; echo x)
    long_piece "$blocks blocks more and a bad last line" 1 < <(more block "$block" $blocks; echo x)
    long_piece "$segs segments more and no end" 1 < <(more seg "$seg" $segs | without_end)
    long_piece "$uses uses more and no end" 1 < <(more use "$use" $uses | without_end)
    long_piece "$blocks blocks more" 2 < <(more block "$block" $blocks)
    long_piece "$segs segments more" 2 < <(more seg "$seg" $segs)
    long_piece "$uses uses more" 2 < <(more use "$use" $uses)
    long_piece "a vgroup of $members members" 4 < <(long_group $members)
}

good_files() {
    local later=$d/later long=$d/long
    sed 's/3f000000/3f000001/' $first_sample >"$later"
    second_form "$later" >"$d/later2"
    sed '$i\use\t8\t3\t9' $first_sample >"$d/further"
    answers "the same file twice" same $first_sample $first_sample
    answers "the same file of the second form twice" same $second_sample $second_sample
    both_ways "one job in both forms" same $first_sample $second_sample
    both_ways "a greater frequency" before $first_sample "$later"
    both_ways "a greater frequency, in the second form" before $second_sample "$d/later2"
    both_ways "a greater frequency, in both forms" before $first_sample "$d/later2"
    both_ways "a use more" before "$d/further" $second_sample
    both_ways "case B, which stops, and case A" before docs/samples/B.job $second_sample
    answers "$(stat -c %s $first_job) bytes twice" same $first_job $first_job
    both_ways "the same in both forms" same $first_job "$second_job"
    tac $first_job | sed '0,/^block/s/^\(block\t[0-9]*\t\).*/\17f7fffff/' | tac >"$long"
    both_ways "the greatest frequency in its last block" before "$second_job" "$long"
    sed '$s/.*/end\t0/' "$second_job" >"$d/wrong"
    in_each_place "the same with a bad last line" 1 "$d/wrong"
    written 10 's/^\(seg.*\)\t0$/\1\t1/' "a wrong set"
    written 10 's/^\(block.*\)\t2$/\1\t3/' "a wrong first instruction"
    refuses "an empty file and a wrong set" 1 "$d/none" "$d/piece"
    refuses "a wrong set and an empty file" 10 "$d/piece" "$d/none"
    limits
}
written() { # NUMBER SED NAME
    : >"$d/none"
    piece "$3" "$1" < <(sed "$2" $second_sample)
}
limits() {
    local uses
    [ -x "$bins/gen" ] || { echo "the largest sheets: not tried, no $bins/gen"; return; }
    for uses in tied group; do
        "$bins/gen" --largest $uses >"$d/largest"
        second_form "$d/largest" >"$d/largest2"
        both_ways "the largest sheet in both forms, $uses uses" same "$d/largest" "$d/largest2"
        sed '$d' "$d/largest" | sed '$d' >"$d/less"
        echo end >>"$d/less"
        both_ways "the largest sheet and one without its last use, $uses uses" before "$d/largest2" "$d/less"
    done
}

# --- pipes: a sheet that comes slowly, or in more than one piece

by_fifos() { # NAME WORD FIRST SECOND: and both have to be read to the end, or their writers are told so
    local one two writers
    rm -f "$d/one" "$d/two"
    mkfifo "$d/one" "$d/two"
    timeout 60 cat "$3" >"$d/one" & one=$!
    timeout 60 cat "$4" >"$d/two" & two=$!
    answers "$1" "$2" "$d/one" "$d/two"
    wait $one; writers=$?
    wait $two; writers="$writers $?"
    [ "$writers" = "0 0" ] && return
    bad=1
    echo "DIFFERS (both have to be read to the end): $1, its writers' statuses: $writers"
}
pipes() {
    local long=$d/long
    by_fifos "two pipes" same $first_job "$second_job"
    { echo x; cat $first_job; } >"$long"
    by_fifos "two pipes, the first bad in its first line" "$(printf 'refused\t1')" "$long" "$second_job"
    by_fifos "two pipes, the second bad in its first line" "$(printf 'refused\t1')" $first_job "$long"
    by_fifos "two pipes, both bad in the first line" "$(printf 'refused\t1')" "$long" "$long"
    by_fifos "two pipes without a byte" "$(printf 'refused\t1')" /dev/null /dev/null
    answers "a slow writer, a pause in every line" same <(by_lines $first_sample) $second_sample
    answers "two slow pipes, 4,001 bytes at a time" same <(in_pieces "$second_job" 0.02) <(in_pieces $first_job 0.01)
    printf 'same\n' >"$d/want"
    fresh; "$program" /dev/stdin $second_sample <$first_sample >"$d/out" 2>"$d/err"; st=$?
    tell "standard input by its name" whole "" "$d/want"
    fresh; "$program" $first_sample $second_sample <&- >"$d/out" 2>"$d/err"; st=$?
    tell "standard input closed, which nobody reads" whole "" "$d/want"
    fresh; "$program" $first_sample $second_sample </dev/zero >"$d/out" 2>"$d/err"; st=$?
    tell "endless standard input, which nobody reads" whole "" "$d/want"
}

# --- names

either() { # NAME PATTERN FILE: nothing is answered, wherever it stands
    says "$1, in the first place" "$2" "$3" $first_sample
    says "$1, in the second place" "$2" $second_sample "$3"
    says "$1, in both" "$2" "$3" "$3"
    says "$1, behind a file that is refused" "$2" /dev/null "$3"
    says "$1, before a file that is refused" "$2" "$3" /dev/null
}
of_length() { # BYTES: a name, in folders of 200 bytes where it is longer
    local part left=$1
    part=$(of_digit 7 199)/
    while [ "$left" -gt 255 ] && [ "$1" -gt 1000 ]; do printf '%s' "$part"; left=$((left - 200)); done
    of_digit 7 "$left"
}
names() {
    local odd many
    either "a name that nothing has" "${unopened}No such file or directory" "$d/missing"
    either "the empty name" "${unopened}No such file or directory" ""
    either "a file taken for a folder" "${unopened}Not a directory" $first_sample/x
    ln -s "$d/missing" "$d/nowhere"
    ln -s "$d/round" "$d/round"
    ln -s "$PWD/$first_sample" "$d/link"
    either "a link to nothing" "${unopened}No such file or directory" "$d/nowhere"
    either "a link to itself" "${unopened}Too many levels of symbolic links" "$d/round"
    answers "a link to a file, and the file" same "$d/link" $first_sample
    either "a name of 300 bytes" "${unopened}File name too long" "$(of_length 300)"
    either "a name of 5,000 bytes" "${unopened}" "$(of_length 5000)"
    either "a name of 100,000 bytes" "${unopened}" "$(of_length 100000)"
    many=$(yes ./ | head -n 1900 | tr -d '\n')$first_sample
    answers "a name of ${#many} bytes that a file has" same "$many" $second_sample
    odd=$d/$(printf '\377\376 \t\n\342\202')
    # a path is UTF-8 for the library that opens it
    either "a name that is not UTF-8, of nothing" "${unopened}invalid filename" "$odd"
    cp $first_sample "$odd"
    either "a name that is not UTF-8, of a file" "${unopened}invalid filename" "$odd"
    cp $first_sample "$d/--help"
    (cd "$d" && answers "--help, of a file" same --help --help; exit $bad) || bad=1
    either "a folder" "${unread}Is a directory" /
    either "a folder with a slash behind it" "${unread}Is a directory" "$d/"
    [ ! -r /proc/self/mem ] || either "a file whose first read fails" "${unread}Input/output error" /proc/self/mem
    if [ "$(id -u)" = 0 ]; then echo "a file that may not be read: not tried, root may read it"
    else
        cp $first_sample "$d/shut"
        chmod 0 "$d/shut"
        either "a file that may not be read" "${unopened}Permission denied" "$d/shut"
    fi
    says "a folder, and a name that nothing has" "$unread|$unopened" / "$d/missing"
    says "a name that nothing has, and a folder" "$unopened|$unread" "$d/missing" /
}

arguments() {
    says "no argument" "$usage"
    says "one argument" "$usage" $first_sample
    says "one argument, of nothing" "$usage" "$d/missing"
    says "one argument, --help" "$usage" --help
    says "three arguments" "$usage" $first_sample $second_sample $first_sample
    says "three arguments, of nothing" "$usage" "$d/missing" "$d/missing" "$d/missing"
    says "three arguments, the last empty" "$usage" $first_sample $second_sample ""
    fresh; (exec -a "" "$program" </dev/zero >"$d/out" 2>"$d/err"); st=$?
    tell "no argument, and an empty name of the program" none "$usage" "$d/some_answer"
}

# --- the answer can't be written

unwritten() { # NAME WORD FIRST SECOND
    local word=$2
    printf '%s\n' "$word" >"$d/want"
    fresh; "$program" "$3" "$4" </dev/null >/dev/full 2>"$d/err"; st=$?
    tell "$1 to /dev/full" none "${cut}No space left on device" "$d/want"
    fresh; "$program" "$3" "$4" </dev/null >&- 2>"$d/err"; st=$?
    tell "$1, standard output closed" none "${cut}Bad file descriptor" "$d/want"
    fresh; "$program" "$3" "$4" <&- >&- 2>"$d/err"; st=$?
    tell "$1, standard input and output closed" none "${cut}Bad file descriptor" "$d/want"
    fresh; "$program" "$3" "$4" </dev/null 1<$first_sample 2>"$d/err"; st=$?
    tell "$1, standard output open for reading alone" none "${cut}Bad file descriptor" "$d/want"
    fresh; (trap '' PIPE; sleep 0.2; exec "$program" "$3" "$4" </dev/null 2>"$d/err") | true; st=${PIPESTATUS[0]}
    tell "$1 to an output that closed, its signal ignored" none "${cut}Broken pipe" "$d/want"
    fresh; (sleep 0.2; exec "$program" "$3" "$4" </dev/null 2>"$d/err") | true; st=${PIPESTATUS[0]}
    tell "$1 to an output that closed" none "${cut}Broken pipe" "$d/want"
    fresh; "$program" "$3" "$4" </dev/null >/dev/full 2>&-; st=$?
    tell "$1 to /dev/full, and standard error closed" none "" "$d/want"
    fresh; "$program" "$3" "$4" </dev/null >&- 2>&-; st=$?
    tell "$1, standard output and error closed" none "" "$d/want"
    fresh; "$program" "$3" "$4" </dev/null >/dev/full 2>/dev/full; st=$?
    tell "$1, standard output and error to /dev/full" none "" "$d/want"
}
output_faults() {
    unwritten "an answer" same $first_sample $second_sample
    unwritten "a refusal" "$(printf 'refused\t1')" /dev/null $second_sample
    printf 'same\n' >"$d/want"
    fresh; "$program" $first_sample $second_sample </dev/null >"$d/out" 2>&-; st=$?
    tell "an answer, standard error closed" whole "" "$d/want"
    fresh; "$program" / $second_sample </dev/null >"$d/out" 2>&-; st=$?
    tell "a folder, standard error closed" none "" "$d/want"
    fresh; "$program" $first_sample "$d/missing" </dev/null >"$d/out" 2>/dev/full; st=$?
    tell "a name that nothing has, standard error to /dev/full" none "" "$d/want"
    fresh; "$program" </dev/null >"$d/out" 2>&-; st=$?
    tell "no argument, standard error closed" none "" "$d/want"
}

# --- interrupted calls, short counts, signals

interrupted() {
    local each
    if ! gcc -O1 -shared -fPIC -DPRELOADED -DFILES -o "$d/faults.so" oracle/faults.c; then
        echo "interrupted calls: not tried, gcc failed"
        return
    fi
    printf 'same\n' >"$d/want"
    for each in "$first_job $second_job" "$second_job $second_job" "$first_sample $second_sample"; do
        # two names without a blank
        # shellcheck disable=SC2086
        fresh; LD_PRELOAD=$d/faults.so "$program" $each </dev/null >"$d/out" 2>"$d/err"; st=$?
        tell "half of all reads and writes interrupted, the others short" whole "" "$d/want"
    done
}
under_signals_too() {
    local pid part
    split -n 40 $first_job "$d/part."
    rm -f "$d/one"
    mkfifo "$d/one"
    printf 'same\n' >"$d/want"
    fresh; "$program" "$second_job" "$d/one" </dev/null >"$d/out" 2>"$d/err" & pid=$!
    exec 3>"$d/one"
    for part in "$d"/part.*; do signals $pid; cat "$part" >&3; done
    exec 3>&-
    wait $pid; st=$?
    tell "SIGWINCH, SIGSTOP, SIGCONT, SIGURG and SIGCHLD while it reads, 40 times" whole "" "$d/want"
}

arguments
names
no_sheets
good_files
pipes
output_faults
interrupted
under_signals_too
twice "noise" </dev/urandom
twice "NUL bytes" </dev/zero
twice "a line without an end" < <(yes aaaaaaaaaaaaaaa | tr -d '\n')
twice "line feeds" < <(yes '')
twice "tabs" < <(yes "$(printf '\t\t\t\t\t\t\t\t')" | tr -d '\n')
long_piece "a form line of $most bytes before the rest of a good sheet" 1 < <(printf 'form\t'; of_digit 2 $most; echo; cat $first_sample)
long_files ""
own=$second_sample label="in the second form: "
long_files "$(printf '\t0')"
label=""
sums | cmp -s - "$d/sums" || { bad=1; echo "DIFFERS: a file that was read is another now"; }
verdict
