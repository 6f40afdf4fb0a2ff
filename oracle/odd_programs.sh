#!/usr/bin/env bash
# odd_programs.sh: the gate's own programs replay, home, sheet_samples, find_cut_main and cut_moves_main (built by `tools/program.sh`) under odd input
# and faults of their streams, as odd_input.sh does for `vregs`. A line for each: what was tried, the last line on standard output or none, the status,
# standard error. A line that is not as expected begins with DIFFERS, and the exit status is then 1.
# The faults need gcc; a tmpfs of 64 KB needs the right to mount one, and the line says so where it was not tried.
set -u
ulimit -Ss 8192 # the usual stack
cd "$(dirname "$0")/.."
top=$(pwd)
built() { echo "$top/crates/$1/out/$1"; }
replay=$(built replay) home=$(built home) samples=$(built sheet_samples) vectors=(find_cut_main cut_moves_main)
for name in replay home sheet_samples "${vectors[@]}"; do
    [ -x "$(built $name)" ] || { echo "odd_programs.sh: no program $(built $name); 'tools/program.sh $name' makes it" >&2; exit 2; }
done
stored=$top/crates/replay/stdin document=$top/crates/sheet_samples/data/SHEETS.md
all=$(cat crates/replay/stdout) moved=$(cat crates/home/stdout) agree=$(cat crates/sheet_samples/stdout)
d=$(mktemp -d)
trap 'umount "$d/small" 2>/dev/null; rm -rf "$d"' EXIT
bad=0

# What was tried, the last line that is expected on standard output (empty: no byte), and a pattern of standard error (empty: nothing).
tell() { # NAME LAST-LINE PATTERN
    local last said verdict=""
    last=$(tail -n 1 "$d/out")
    said=$(tr '\n' '|' <"$d/err")
    [ "$last" = "$2" ] || verdict="DIFFERS (expected ${2:-none}): "
    if [ -z "$3" ]; then [ -z "$said" ] || verdict="DIFFERS (said something): "
    else printf '%s' "$said" | grep -qE "$3" || verdict="DIFFERS (expected to say $3): "; fi
    [ -z "$verdict" ] || bad=1
    printf '%s%s: %s; status %s; said: %s\n' "$verdict" "$1" "${last:-none}" "$st" "${said:-nothing}"
}
fresh() { : >"$d/out"; : >"$d/err"; }
feed() { # NAME LAST-LINE PATTERN: to replay, what comes on standard input
    fresh
    "$replay" >"$d/out" 2>"$d/err"
    st=$?
    tell "replay: $1" "$2" "$3"
}
frame() { # SHEET ANSWER: one frame
    printf '%08d\t%08d\n%s%s' ${#1} ${#2} "$1" "$2"
}
sheet=$'x\n' refused=$'refused\t1\n' other=$'refused\t2\n'

# --- replay: whole, cut and other frames
none="0 answers, then no frame"
feed "the stored answers" "$all" "" <"$stored"
feed "the same by a pipe" "$all" "" < <(cat "$stored")
feed "no byte" "0 answers, all equal" "" </dev/null
feed "one byte behind the last frame" "${all%%,*}, then no frame" "" < <(cat "$stored"; echo)
feed "cut in the first head" "$none" "" < <(head -c 10 "$stored")
feed "cut in the first sheet" "$none" "" < <(head -c 40 "$stored")
feed "a letter in the head" "$none" "" < <(frame "$sheet" "$refused" | sed '1s/^0/a/')
feed "a blank for the tab" "$none" "" < <(frame "$sheet" "$refused" | sed '1s/\t/ /')
feed "a sheet of 262,144 bytes" "1 answers, all equal" "" < <(printf '%08d\t%08d\n' 262144 10; head -c 262144 /dev/zero; printf 'refused\t1\n')
feed "a sheet of 262,145 bytes" "$none" "" < <(printf '%08d\t%08d\n' 262145 10; head -c 262145 /dev/zero; printf 'refused\t1\n')
feed "another answer" "1 answers, 1 differ" "" < <(frame "$sheet" "$other")
feed "an answer with a byte more" "1 answers, 1 differ" "" < <(frame "$sheet" "${refused}x")
feed "an answer with a byte less" "1 answers, 1 differ" "" < <(frame "$sheet" "${refused%?}")
feed "endless zeros" "$none" "" </dev/zero

# --- replay: reads and writes that fail
unread='^replay: the stored answers could not be read, and the report is cut: '
cut='^replay: the report could not be written, and is cut: '
fresh; "$replay" <&- >"$d/out" 2>"$d/err"; st=$?; tell "replay: standard input closed" "" "${unread}Bad file descriptor"
fresh; "$replay" </ >"$d/out" 2>"$d/err"; st=$?; tell "replay: a directory as standard input" "" "${unread}Is a directory"
fresh; "$replay" <"$stored" >/dev/full 2>"$d/err"; st=$?; tell "replay: /dev/full" "" "${cut}No space left on device"
fresh; "$replay" <"$stored" >&- 2>"$d/err"; st=$?; tell "replay: standard output closed" "" "${cut}Bad file descriptor"
for _ in {1..9000}; do frame "$sheet" "$sheet"; done >"$d/differ"
mkdir "$d/small"
if mount -t tmpfs -o size=64k tmpfs "$d/small" 2>/dev/null; then
    fresh; "$replay" <"$d/differ" >"$d/small/out" 2>"$d/err"; st=$?
    cp "$d/small/out" "$d/out"; tell "replay: a tmpfs of 64 KB, 9,000 answers that differ" dif "${cut}No space left on device"
    cmp -s "$d/out" <("$replay" <"$d/differ" | head -c 65536) || { echo "DIFFERS: not the first 65,536 bytes of the report"; bad=1; }
else echo "replay: a tmpfs of 64 KB: not tried, no right to mount one"; fi

# --- home: the same frames
carry() { # NAME LAST-LINE PATTERN: to home, what comes on standard input
    fresh
    "$home" >"$d/out" 2>"$d/err"
    st=$?
    tell "home: $1" "$2" "$3"
}
left='^home: the stored sheets could not be read, and nothing is tallied: '
short='^home: the tally could not be written, and is cut: '
carry "the stored sheets" "$moved" "" <"$stored"
carry "no byte" "0 sheets: 0 moved and home, 0 refused, 0 differ" "" </dev/null
carry "one byte behind the last frame" "${moved%%:*}, then no frame" "" < <(cat "$stored"; echo)
carry "a sheet that is refused" "1 sheets: 0 moved and home, 1 refused, 0 differ" "" < <(frame "$sheet" "$refused")
carry "another answer" "1 sheets: 0 moved and home, 0 refused, 1 differ" "" < <(frame "$sheet" "$other")
carry "a sheet that passes, its answer a refusal" "1 sheets: 0 moved and home, 0 refused, 1 differ" "" < <(
    printf '%08d\t%08d\n' "$(wc -c <docs/samples/A.job)" ${#other}; cat docs/samples/A.job; printf %s "$other")
carry "endless zeros" "0 sheets, then no frame" "" </dev/zero
carry "a directory as standard input" "" "${left}Is a directory" </
fresh; "$home" <&- >"$d/out" 2>"$d/err"; st=$?; tell "home: standard input closed" "" "${left}Bad file descriptor"
fresh; "$home" <"$stored" >/dev/full 2>"$d/err"; st=$?; tell "home: /dev/full" "" "${short}No space left on device"
fresh; "$home" <"$stored" >&- 2>"$d/err"; st=$?; tell "home: standard output closed" "" "${short}Bad file descriptor"

# --- sheet_samples: the document in the folder that it is run in
in_folder() { # NAME FOLDER LAST-LINE PATTERN
    fresh
    (cd "$2" && "$samples" >"$d/out" 2>"$d/err")
    st=$?
    tell "sheet_samples: $1" "$3" "$4"
}
mkdir -p "$d/whole" "$d/none" "$d/dir/SHEETS.md" "$d/long" "$d/other"
cp "$document" "$d/whole"
{ cat "$document"; head -c 131072 /dev/zero | tr '\0' ' '; } >"$d/long/SHEETS.md"
sed '0,/^vreg\t0/s//vreg\t9/' "$document" >"$d/other/SHEETS.md"
one_less="$((${agree%% *} - 1)) samples agree, 1 differ, 0 blocks have no partner"
lost='^sheet_samples: SHEETS.md could not be'
in_folder "the document" "$d/whole" "$agree" ""
in_folder "a sample changed" "$d/other" "$one_less" ""
in_folder "no document" "$d/none" "" "$lost opened, and nothing is tallied: No such file or directory"
in_folder "a directory of that name" "$d/dir" "" "$lost read, and nothing is tallied: Is a directory"
in_folder "a document that is too long" "$d/long" "" "^sheet_samples: SHEETS.md is too long, and nothing is tallied"
fresh; (cd "$d/whole" && "$samples" >/dev/full 2>"$d/err"); st=$?
tell "sheet_samples: /dev/full" "" "^sheet_samples: the tally could not be written, and is cut: No space left on device"

# --- find_cut_main and cut_moves_main
whole() { # PROGRAM NAME: all lines, what was tried
    tell "$1: $2" "$(tail -n 1 "crates/$1/stdout")" ""
    cmp -s "$d/out" "crates/$1/stdout" || { echo "DIFFERS: not all lines"; bad=1; }
}
for program in "${vectors[@]}"; do
    fresh; "$(built $program)" >"$d/out" 2>"$d/err"; st=$?; whole "$program" "as usual"
    fresh; "$(built $program)" >/dev/full 2>"$d/err"; st=$?
    tell "$program: /dev/full" "" "^$program: the answers could not be written, and are cut: No space left on device"
done

# --- interrupted calls and short counts, pipes that would block
if gcc -O1 -o "$d/faults" oracle/faults.c && gcc -O1 -shared -fPIC -DPRELOADED -o "$d/faults.so" oracle/faults.c; then
    half="half of all reads and writes interrupted, the others short"
    fresh; LD_PRELOAD=$d/faults.so "$replay" <"$stored" >"$d/out" 2>"$d/err"; st=$?; tell "replay: $half" "$all" ""
    fresh; LD_PRELOAD=$d/faults.so "$home" <"$stored" >"$d/out" 2>"$d/err"; st=$?; tell "home: $half" "$moved" ""
    fresh; (cd "$d/whole" && LD_PRELOAD=$d/faults.so "$samples" >"$d/out" 2>"$d/err"); st=$?; tell "sheet_samples: $half" "$agree" ""
    for program in "${vectors[@]}"; do
        fresh; LD_PRELOAD=$d/faults.so "$(built $program)" >"$d/out" 2>"$d/err"; st=$?; whole "$program" "$half"
    done
    fresh; "$d/faults" in "$replay" >"$d/out" 2>"$d/err"; st=$?
    tell "replay: a non-blocking standard input, its writer late" "" "${unread}Resource temporarily unavailable"
else echo "interrupted calls, pipes that would block: not tried, gcc failed"; fi
[ $bad -eq 0 ] && echo "all as expected" || echo "NOT all as expected"
exit $bad
