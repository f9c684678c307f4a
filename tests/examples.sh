#!/usr/bin/env bash
# examples.sh BUILD CC: the example benches of that directory, on every sample, and the programs totext, tobytes and trace. The answers and the recovered words
# must be those of the trace program; over wrong boards, which the compiler makes of the plain engine, tear must tell. The last line is 'N passed,
# M failed'.
set -euo pipefail
cd "$(dirname "$0")"
build=$1
cc=$2
bin=../target/bin
. ./checks.sh

# found EXAMPLE FILE [STEPS]: the words that an example finds in the end, as the trace program prints them, and its exit code.
found() { said "$build/$1" "${@:2}" | sed -e '1,/^words found:/d' -e 's/^  line \([0-9]*\) word \([0-9]*\): /M \1 \2 /'; }

# due FILE: the words that recovery leaves, by the trace program, and the exit code that is due with them.
due() {
    "$bin/trace" < "$1" | grep '^M' || true
    echo 'exit 0'
}

# form EXAMPLE [-n] FILE: the whole output in a form, but for the length of the image, and the exit code.
form() { said "$build/$1" "${@:2}" | sed '1s/^image of [0-9]* bytes/image/'; }

for text in ../samples/*.txt; do
    file=${text%.txt}.events
    check "$text" "$(od -An -tx1 "$file")" "$("$bin/tobytes" < "$text" | od -An -tx1)"
    if grep -q '^cut' "$text"; then
        for example in bench tear; do
            check "$file, $example" "$(due "$file")" "$(found $example "$file")"
            check "$file, $example in the new form" "$(form $example "$file")" "$(form $example -n "$file")"
        done
    fi
done

check 'the values of the fences' '1 1 0 0 0 1 1 0' "$("$bin/trace" < ../samples/fence.events | grep '^7' | cut -d ' ' -f 3 | paste -sd ' ')"
check 'writes of bytes, what is read, and what recovery finds' '10 0 0, 10 27 0, 10 17 0, 10 0 0, 3 0 78644200, 10 0 0, 3 0 4294902760, M 0 0 1000' \
    "$("$bin/trace" < ../samples/bytes.events | grep -E '^(10|3|M) ' | paste -sd , | sed 's/,/, /g')"
check 'a line that is being read: who may write it, and what recovery finds' \
    '4 0 0, 3 0 70, 4 25 0, 10 25 0, 4 0 0, 4 25 0, 3 0 70, 4 0 0, 3 0 70, 4 25 0, 4 25 0, 4 0 0, 3 17 0, 3 0 71, 4 0 0, M 0 0 71, M 1 0 5, M 2 0 140' \
    "$("$bin/trace" < ../samples/readers.events | grep -E '^(10|3|4|M) ' | paste -sd , | sed 's/,/, /g')"

# begins NAME: the refusals of a sample's begins, the value of its cut, and what recovery finds.
begins() { "$bin/trace" < "../samples/$1.events" | sed -n -e 's/^1 \(.*\) 0$/\1/p' -e '/^[8M] /p' | paste -sd , | sed 's/,/, /g'; }
check 'begins under a reserve' '0, 0, 0, 16, 0, 0, 16, 0, 0, 0, 16, 8 0 5, M 0 0 7' "$(begins reserves)"
check 'begins in two channels' '0, 0, 16, 0, 0, 16, 0, 16, 0, 0, 0, 16, 0, 8 0 3, M 0 0 7' "$(begins channels)"

# answers that agree, that differ at an event, and too few of them
"$build/board" run ../samples/p1.events -a "$scratch/answers" > /dev/null
check 'answers that agree' $'11 answers agree\nexit 0' "$(said "$build/replay" ../samples/p1.events "$scratch/answers")"
byte "$scratch/answers" 63 18
check 'an answer that differs' \
    $'event 8: expected refusal 0 (accepted), value 0; found refusal 18 (needs a log entry on a line still locked), value 0\nexit 1' \
    "$(said "$build/replay" ../samples/p1.events "$scratch/changed")"
head -c 95 "$scratch/answers" > "$scratch/fewer"
check 'too few answers' $'10 answers agree, but the board gave 95 bytes and 99 are due\nexit 1' "$(said "$build/replay" ../samples/p1.events "$scratch/fewer")"
check 'an empty file' $'0 answers agree\nexit 0' "$(said "$build/replay" /dev/null /dev/null)"

# power lost after any number of recovery steps: the same memory is found
check 'the whole output of the bench' "$(cat recovery.expected)" "$("$build/bench" ../samples/recovery.events)"
for steps in 0 1 2 3 4 5 6 7 8 9 10 11; do
    check "power lost after step $steps" "$(due ../samples/recovery.events)" "$(found bench ../samples/recovery.events $steps)"
    check "power lost after step $steps, headers" "$(due ../samples/headers.events)" "$(found bench -n ../samples/headers.events $steps)"
done

# ten log entries of two regions under three headers: seven times four bytes fewer
check 'the whole output of the bench in the new form' "$(cat headers.expected)" "$("$build/bench" -n ../samples/headers.events)"
check 'the old image of the same state' 'image of 1379 bytes: 2 uncommitted regions, 10 log entries' "$("$build/bench" ../samples/headers.events | head -n 1)"

# power lost inside a store: the lines in flight are those at the accepted cut, wherever it stands in the file
torn=$(cat torn.expected)$'\nexit 0'
check 'the whole output of tear' "$torn" "$(said "$build/tear" ../samples/torn.events)"
printf '%s\n' "$(cat ../samples/torn.txt)" 'data-ack 1' cut 'bytes 200' | "$bin/tobytes" > "$scratch/between"
check 'events behind the cut' "$torn" "$(said "$build/tear" "$scratch/between")"
for option in '' -n; do
    check "no file $option" 'usage: tear [-n] FILE'$'\n''exit 2' "$(said "$build/tear" $option)"
    check "no file for the bench $option" 'usage: bench [-n] FILE [STEPS]'$'\n''exit 2' "$(said "$build/bench" $option)"
    check "a file that is not there $option" "cannot read $scratch/none"$'\n''exit 2' "$(said "$build/tear" $option "$scratch/none")"
    check "a file without a cut $option" 'no image: refused with 6'$'\n''exit 1' "$(said "$build/tear" $option ../samples/p4.events)"
done

# torn_on EDIT [-n]: what tear says of a board that is the plain engine with its recovery step edited.
torn_on() {
    sed "$1" plain/image.c > "$scratch/image.c"
    "$cc" -std=c11 -Iplain -Dboard_answer=plain_answer -Dboard_events=plain_events -Dboard_image=plain_image -Dboard_recovery_step=plain_recovery_step \
        -Dboard_image_headed=plain_image_headed -Dboard_recovery_step_headed=plain_recovery_step_headed -Dboard_record=plain_record \
        -o "$scratch/tear" ../examples/tear.c ../examples/files.c ../examples/saved_image.c plain/plain.c plain/text.c "$scratch/image.c"
    said "$scratch/tear" "${@:2}" ../samples/torn.events
}
check 'the plain engine' "$torn" "$(torn_on '')"
check 'the plain engine in the new form' "${torn/726/718}" "$(torn_on '' -n)"
check 'a step that leaves the first word' $'line 0, torn by the words 0: recovery finds other memory\nexit 1' \
    "$(torn_on 's/image + line_at(log->line), image + log->old_at, PLAIN_LINE_BYTES/8 + image + line_at(log->line), 8 + image + log->old_at, 56/' | tail -n 2)"
check 'a step that takes a line for restored if the first word is' $'recovery step 3, torn by the words 0: recovery finds other memory\nexit 1' \
    "$(torn_on 's/^    memcpy(image + line_at(log->line),/    if (get64(image + line_at(log->line)) != get64(image + log->old_at))&/' | tail -n 2)"
check "a step that says 'finished' too early" $'the image as it was saved: \'finished\' comes too early or too late\nexit 1' \
    "$(torn_on 's/step + 1 < c.logs/step + 2 < c.logs/' | tail -n 2)"

# in_parts FILE SIZE: the bytes of a file through a pipe, so many at a time.
in_parts() {
    local at=0 n
    n=$(wc -c < "$1")
    while [ "$at" -lt "$n" ]; do
        dd if="$1" bs="$2" skip=$((at / $2)) count=1 status=none
        at=$((at + $2))
    done
}

# a file read through a pipe in parts gives what it gives at once: three samples byte by byte, and one above 200 KB, whose parts end inside records
for name in p1 bytes reserves; do
    for size in 1 2 5 13; do
        file=../samples/$name.events
        check "$name in parts of $size" "$("$bin/trace" < "$file")" "$(in_parts "$file" "$size" | "$bin/trace")"
        check "$name as text in parts of $size" "$("$bin/totext" < "$file")" "$(in_parts "$file" "$size" | "$bin/totext")"
    done
done
{
    echo 'setup 2 9 0 0 0 0 0 0 0 0 0 0'
    for n in $(seq 1 6000); do
        l=$((n % 9))
        printf 'begin 1\nwrite 1 %d 3 %d\nwrite-bytes 1 %d 3 128 %d\nlog-ack %d\nread 1 %d 3\nend 1\ndata-ack %d\nwrite 0 1 1 1\n' $l "$n" $l $((n + 1)) $l $l $l
    done
    printf 'cut\nbytes 4 0 0\n'
} > "$scratch/long.txt"
"$bin/tobytes" < "$scratch/long.txt" > "$scratch/long"
check 'the long file is above 200 KB' yes "$([ "$(wc -c < "$scratch/long")" -gt 200000 ] && echo yes)"
check 'the lines of the long file' 48003 "$("$bin/trace" < "$scratch/long" | grep -vc '^M')"
check 'the long file, its end' $'8 0 0\n'"$(for n in 0 1 2 3 4 5 6 7 8; do echo "M $n 3 $((n <= 6 ? 5994 + n : 5985 + n))"; done)"$'\n4 1 0' "$("$bin/trace" < "$scratch/long" | tail -n 11)"
for size in 4093 65537; do
    check "the long file in parts of $size" "$("$bin/trace" < "$scratch/long" | md5sum)" "$(in_parts "$scratch/long" "$size" | "$bin/trace" | md5sum)"
    check "the long file as text in parts of $size" "$(md5sum < "$scratch/long.txt")" "$(in_parts "$scratch/long" "$size" | "$bin/totext" | md5sum)"
    check "the long text in parts of $size" "$(md5sum < "$scratch/long")" "$(in_parts "$scratch/long.txt" "$size" | "$bin/tobytes" | md5sum)"
done

# a line that is not in the form: all lines before it are written, and nothing after
printf 'setup 2 2 0 1 0 0 0 0 0 0 3 4\nbegin 0\nwrite 0 0 x\ncut\n' > "$scratch/bad.txt"
check 'a bad line' ' 00 02 02 00 00 01 00 00 00 00 00 00 03 04 01 00' "$("$bin/tobytes" < "$scratch/bad.txt" 2> "$scratch/said" | od -An -tx1)"
check 'a bad line is named' 'line 3 is not in the form' "$(cat "$scratch/said")"
for numbers in '2 2' '2 2 0 1 0 0 0 0 0 0 3' '2 2 0 1 0 0 0 0 0 0 3 4 5' '2 2 0 256 0 0 0 0 0 0 3 4' '2 2 0 1 0 0 0 0 0 0 3 256'; do
    check "setup $numbers" 'line 1 is not in the form' "$(echo "setup $numbers" | "$bin/tobytes" 2>&1)"
done
# input and output that fail are told once, and nothing else
for program in trace totext tobytes; do
    case $program in tobytes) input=../samples/p1.txt ;; *) input=../samples/p1.events ;; esac
    check "$program of a directory" "$program: standard input cannot be read" "$("$bin/$program" 2>&1 < /)"
    check "$program of closed input" "$program: standard input cannot be read" "$("$bin/$program" 2>&1 <&-)"
    check "$program to a full device" "$program: standard output cannot be written" "$("$bin/$program" 2>&1 > /dev/full < "$input")"
    check "$program to closed output" "$program: standard output cannot be written" "$("$bin/$program" 2>&1 >&- < "$input")"
    check "$program of nothing" '' "$("$bin/$program" 2>&1 < /dev/null)"
    check "$program as it should be" '' "$("$bin/$program" 2>&1 > /dev/null < "$input")"
done
report examples
