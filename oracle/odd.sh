# For odd_input.sh, odd_convert.sh and odd_order.sh, which read it: a program under odd input and under faults of its streams.
# They set program, its path; name, as it calls itself; label, what stands before each line; sheet, what it calls its
# output; job, a file whose answer has more than 65,536 bytes; answer, the file of that answer; and usage. odd_order.sh sets
# last_lines, how the last line of a whole answer begins.
set -u
ulimit -Ss 8192 # the usual stack
d=$(mktemp -d)
trap 'umount "$d/small" 2>/dev/null; rm -rf "$d"' EXIT
bad=0

# The rule of docs/SHEETS.md: whole exactly if the last byte is a line feed and the last line begins with end or refused.
last_lines=${last_lines:-end|refused}
is_whole() { [ -z "$(tail -c 1 "$1")" ] && tail -n 1 "$1" | grep -qE "^($last_lines)"; }

kind_of() { # OUTPUT EXPECTED-ANSWER
    if cmp -s "$1" "$2"; then echo whole
    elif [ ! -s "$1" ]; then echo none
    elif cmp -s -n "$(stat -c %s "$1")" "$1" "$2"; then echo first
    else echo other; fi
}

# What was tried, what is expected of standard output (whole, first, none) and of standard error (a pattern; empty: nothing).
# $st is the status, 0 where the answer is whole.
tell() { # NAME KIND PATTERN [ANSWER]
    local want=${4:-$answer} kind said verdict="" rule=cut
    kind=$(kind_of "$d/out" "$want")
    said=$(tr '\n' '|' <"$d/err")
    is_whole "$d/out" && rule=whole
    [ "$kind" = "$2" ] || verdict="DIFFERS (expected $2): "
    [ "$kind" = whole ] && [ $rule = cut ] && verdict="DIFFERS (the rule says cut): "
    [ "$kind" != whole ] && [ $rule = whole ] && verdict="DIFFERS (the rule says whole): "
    if [ -z "$3" ]; then [ -z "$said" ] || verdict="DIFFERS (said something): "
    else printf '%s' "$said" | grep -qE "$3" || verdict="DIFFERS (expected to say $3): "; fi
    [ "$2" != whole ] || [ "$st" -eq 0 ] || verdict="DIFFERS (expected status 0): "
    [ -z "$verdict" ] || bad=1
    printf '%s%s: %s, %s bytes; status %s; said: %s\n' "$verdict" "$label$1" "$kind" "$(stat -c %s "$d/out")" "$st" "${said:-nothing}"
}
fresh() { : >"$d/out"; : >"$d/err"; }
refusal() { printf 'refused\t%s\n' "$1" >"$d/want"; }
feed() { # NAME ANSWER-FILE: what comes on standard input
    fresh
    "$program" >"$d/out" 2>"$d/err"
    st=$?
    tell "$1" whole "" "$2"
}

# a sheet of the first form in the second: the form line, the first instruction behind each block, the set behind each segment
second_form() { # FILE
    awk -F'\t' -v OFS='\t' 'BEGIN { print "form", 2 }
        $1 == "block" { print $0, first + 0; first += $2; next }
        $1 == "value" { leader[values++] = $3 }
        $1 == "seg" { print $0, leader[$2]; next }
        { print }' "$1"
}
of_digit() { yes "$1" | tr -d '\n' | head -c "$2"; } # DIGIT TIMES

# Sheets made of the sample own; most: how many bytes a long field has.
before() { sed "/^$1/,\$d" "$own"; } # the sample up to its first line of a record
behind() { sed "0,/^$1/d" "$own"; }  # and what follows that line
from() { sed -n "/^$1/,\$p" "$own"; }
more() { # RECORD LINE TIMES: the sample with so many lines more, before its first one of that record
    before "$1"
    yes "$2" | head -n "$3"
    from "$1"
}
without_end() { sed '$d'; }
long_field() { # RECORD FIELDS: the sample with a last field of $most digits in its first line of that record
    before "$1"
    printf '%s\t' "$2"
    of_digit 1 $most
    echo
    behind "$1"
}
long_group() { # MEMBERS
    before seg
    printf 'vgroup'
    yes "$(printf '\t0')" | head -n "$1" | tr -d '\n'
    echo
    from seg
}
in_pieces() { # FILE PAUSE: 4,001 bytes at a time
    local at=0
    while [ $at -lt "$(stat -c %s "$1")" ]; do tail -c +$((at + 1)) "$1" | head -c 4001; at=$((at + 4001)); sleep "$2"; done
}
by_lines() { # FILE: a pause in every line
    while IFS= read -r line; do printf '%s' "$line"; sleep 0.05; printf '\n'; done <"$1"
}

reads_that_fail() { # nothing is answered, and it is said
    fresh; "$program" <&- >"$d/out" 2>"$d/err"; st=$?; tell "standard input closed" none "${unread}Bad file descriptor"
    fresh; "$program" </ >"$d/out" 2>"$d/err"; st=$?; tell "a directory as standard input" none "${unread}Is a directory"
    fresh; "$program" 0>"$d/other" >"$d/out" 2>"$d/err"; st=$?
    tell "standard input open for writing alone" none "${unread}Bad file descriptor"
}

writes_that_fail() { # the answer is cut, and it is said
    fresh; "$program" <"$job" >/dev/full 2>"$d/err"; st=$?; tell "/dev/full" none "${cut}No space left on device"
    fresh; "$program" <"$job" >&- 2>"$d/err"; st=$?; tell "standard output closed" none "${cut}Bad file descriptor"
    fresh; "$program" <"$job" 1<"$job" 2>"$d/err"; st=$?; tell "standard output open for reading alone" none "${cut}Bad file descriptor"
    mkdir -p "$d/small"
    if mount -t tmpfs -o size=64k tmpfs "$d/small" 2>/dev/null; then
        fresh; "$program" <"$job" >"$d/small/out" 2>"$d/err"; st=$?
        cp "$d/small/out" "$d/out"; tell "a tmpfs of 64 KB" first "${cut}No space left on device"
        umount "$d/small"
    else echo "${label}a tmpfs of 64 KB: not tried, no right to mount one"; fi
    fresh; (trap '' XFSZ; ulimit -f 64; exec "$program" <"$job" >"$d/out" 2>"$d/err"); st=$?
    tell "a file-size limit of 64 KB, its signal ignored" first "${cut}File too large"
    fresh; { (trap '' PIPE; "$program" <"$job" 2>"$d/err"; echo $? >"$d/st"); } | head -c 4 >"$d/out"; st=$(cat "$d/st")
    tell "an output that closes, its signal ignored" first "${cut}Broken pipe"
    fresh; "$program" <"$job" >/dev/full 2>&-; st=$?; tell "/dev/full, and standard error closed" none ""
}

ended_by_the_system() { # the answer is cut: by a signal, which the status says, or by a pipe that closed, a write that fails
    fresh; (ulimit -f 64; exec "$program" <"$job" >"$d/out" 2>"$d/err"); st=$?; tell "a file-size limit of 64 KB" first ""
    fresh; "$program" <"$job" 2>"$d/err" | head -c 4 >"$d/out"; st=${PIPESTATUS[0]}; tell "an output that closes" first "${cut}Broken pipe"
}

odd_calls() { # pipes that would block, interrupted calls and short counts
    if ! gcc -O1 -o "$d/faults" oracle/faults.c || ! gcc -O1 -shared -fPIC -DPRELOADED -o "$d/faults.so" oracle/faults.c; then
        echo "${label}pipes that would block, interrupted calls: not tried, gcc failed"
        return
    fi
    fresh; "$d/faults" in "$program" >"$d/out" 2>"$d/err"; st=$?
    tell "a non-blocking standard input, its writer late" none "${unread}Resource temporarily unavailable"
    fresh; "$d/faults" out "$program" <"$job" >"$d/out" 2>"$d/err"; st=$?
    tell "a non-blocking standard output that nobody empties" first "${cut}Resource temporarily unavailable"
    half_interrupted "$job" "half of all reads and writes interrupted, the others short"
}
half_interrupted() { # JOB NAME
    fresh; LD_PRELOAD=$d/faults.so "$program" <"$1" >"$d/out" 2>"$d/err"; st=$?; tell "$2" whole ""
}

signals() { # PID
    local s
    for s in WINCH STOP CONT URG CHLD; do kill -$s "$1" 2>/dev/null; sleep 0.002; done
}
under_signals() {
    local pid part
    rm -f "$d"/part.*
    split -n 40 "$job" "$d/part."
    [ -p "$d/in" ] || mkfifo "$d/in" "$d/to"
    fresh; "$program" <"$d/in" >"$d/out" 2>"$d/err" & pid=$!
    exec 3>"$d/in"
    for part in "$d"/part.*; do signals $pid; cat "$part" >&3; done
    exec 3>&-
    wait $pid; st=$?; tell "SIGWINCH, SIGSTOP, SIGCONT, SIGURG and SIGCHLD while it reads, 40 times" whole ""
    fresh; "$program" <"$job" >"$d/to" 2>"$d/err" & pid=$!
    exec 3<"$d/to"
    while signals $pid; dd bs=4001 count=1 status=none <&3 >"$d/some"; [ -s "$d/some" ]; do cat "$d/some" >>"$d/out"; done
    exec 3<&-
    wait $pid; st=$?; tell "the same while it writes, to a pipe emptied 4,001 bytes at a time" whole ""
}

with_arguments() { # nothing is read
    fresh; "$program" "$job" </dev/zero >"$d/out" 2>"$d/err"; st=$?; tell "an argument, with endless input" none "$usage"
    fresh; "$program" --help </ >"$d/out" 2>"$d/err"; st=$?; tell "--help" none "$usage"
}

stream_faults() {
    unread="^$name: the job sheet could not be read, and nothing is answered: "
    cut="^$name: $sheet could not be written, and is cut: "
    reads_that_fail
    writes_that_fail
    ended_by_the_system
    odd_calls
    under_signals
    with_arguments
}

verdict() {
    [ $bad -eq 0 ] && echo "all as expected" || echo "NOT all as expected"
    exit $bad
}
