#!/usr/bin/env bash
# tool.sh BOARD: every command of the tool, on every sample and on bad input. Texts, answers and recovered words must be those of the proved programs totext,
# tobytes and trace. The last line is 'N passed, M failed'.
set -euo pipefail
board=$(realpath "$1")
cd "$(dirname "$0")/.."
bin=target/bin
. tests/checks.sh

# bytes_of TEXT: an event file of a readable form, in $scratch/events.
bytes_of() { printf '%s\n' "$@" | "$board" bytes - -o "$scratch/events"; }

# ---- help, bad use, lost input and output
check 'the version' "$(sed -n 's/^#define BOARD_VERSION "\(.*\)"/\1/p' include/board.h)" "$("$board" --version)"
commands=$("$board" --help | sed -n 's/^  \([a-z]*\) .*/\1/p')
check 'the commands' 'run text bytes image show recover diff check explain try timeline' "$(echo $commands)"
check 'no command' $'board: which command? board --help lists them\nexit 2' "$(said "$board")"
check 'a command that is none' $'board: unknown command walk; board --help lists them\nexit 2' "$(said "$board" walk)"
for command in $commands; do
    usage=$("$board" "$command" --help | head -n 1)
    check "$command --help" "board $command" "${usage%% [A-Z]*}"
    check "$command without words" "board: a word is missing"$'\n'"usage: $usage"$'\nexit 2' "$(said "$board" "$command")"
    check "$command with an option that is none" "board: unknown option --none"$'\n'"usage: $usage"$'\nexit 2' "$(said "$board" "$command" --none)"
    check "$command with a word too many" "board: one word too many: 5"$'\n'"usage: $usage"$'\nexit 2' "$(said "$board" "$command" 1 2 3 4 5 | sed 's/: [2345]$/: 5/')"
    check "$command, its help lost" 2 "$(code=0; "$board" "$command" --help > /dev/full 2> /dev/null || code=$?; echo $code)"
done
for command in run text bytes show explain 'image -o x' 'recover -o x' 'timeline -o x' "diff $scratch/none" "check $scratch/none"; do
    check "$command on a file that is not there" "board: $scratch/none: No such file or directory"$'\nexit 2' "$(said "$board" $command "$scratch/none")"
done
for command in run text bytes show explain; do
    check "$command on a directory" $'board: /: Is a directory\nexit 2' "$(said "$board" $command /)"
    check "$command on closed input" $'board: standard input: Bad file descriptor\nexit 2' "$(said "$board" $command - <&-)"
done
for output in run text explain; do
    for lost in /dev/full '&-'; do
        check "$output to $lost" 'board: standard output: exit 2' "$({ eval '"$board" $output samples/p1.events 2>&1 >'"$lost" || echo "exit $?"; } | sed 's/\(output: \).*/\1/' | paste -sd '')"
    done
done

# ---- run, text, bytes
for text in samples/*.txt; do
    file=${text%.txt}.events
    check "$file as text" "$("$bin/totext" < "$file")" "$("$board" text "$file")"
    check "$text as bytes" "$(md5sum < "$file")" "$("$board" bytes "$text" | md5sum)"
    check "$text with tabs and CR" "$(md5sum < "$file")" "$(sed -e 's/ /\t /g' -e 's/$/\r/' "$text" | "$board" bytes - | md5sum)"
    check "$file run" "$("$bin/trace" < "$file" | grep -v '^M' | cut -d ' ' -f 2)" \
        "$("$board" run "$file" | sed -e 's/.*refused with \([0-9]*\): .*/\1/' -e 's/.*  accepted.*/0/')"
done
check 'answers in words' "$(cat tests/run.expected)" "$("$board" run samples/p1.events)"
bytes_of 'setup 1 1 0 0 0 0 0 0 0 0 0 0' 'begin 0' 'read 0 0 1' 'fence 0' 'bytes 4 0'
head -c 64 /dev/zero | tr '\0' '\1' > "$scratch/memory"
check 'over lent memory' '    3  read 0 0 1                      accepted, the word is 72340172838076673' "$("$board" run "$scratch/events" -m "$scratch/memory" | sed -n 3p)"
check 'the end of a damaged file' '    5  bytes 4 0                       refused with 1: record cut short, or no end record' "$("$board" run "$scratch/events" | tail -n 1)"
check 'memory of another length' "board: $scratch/events: 29 bytes, but the setup asks for 64"$'\nexit 2' "$(said "$board" run "$scratch/events" -m "$scratch/events" | sed 's/: [0-9]* bytes/: 29 bytes/')"
check 'an empty file' 'exit 0' "$(said "$board" run /dev/null)"

# fault TEXT PLACE WHAT: a text that is not in the form is told with line, column and word, and nothing is written.
fault() {
    printf "$1" > "$scratch/text"
    rm -f "$scratch/out"
    check "$1" "board: $scratch/text:$2: $3"$'\nexit 2' "$(said "$board" bytes "$scratch/text" -o "$scratch/out")"
    check "$1 writes nothing" no "$([ -e "$scratch/out" ] && echo yes || echo no)"
}
fault 'begin 0\nbegn 0\n' 2:1 "unknown word 'begn'"
fault '# x\n\n  write 0 0 zero 1\n' 3:13 "not a number 'zero'"
fault 'begin 256\n' 1:7 "number out of range '256'"
fault 'write 0 0 0 18446744073709551616\n' 1:13 "number out of range '18446744073709551616'"
fault 'setup 2 2\n' 1:10 'missing number'
fault 'begin   # 0\n' 1:9 'missing number'
fault 'cut\r\ncut 1\r\n' 2:5 "extra number '1'"
fault 'bytes\n' 1:6 'missing number'
fault 'begin\t-1' 1:7 "not a number '-1'"

# ---- check

# front WORDS: the first line that a check prints, up to what was expected, and its exit code.
front() { said "$board" check "$@" | sed -n -e '1s/: expected .*//p' -e '$p' | paste -sd ' '; }

# check_file FILE: right answers agree; a wrong refusal and a wrong value are found at each event; answers too few and too many.
check_file() {
    local answers=$scratch/answers count n=0 refusal value line
    "$board" run "$1" -a "$answers" > /dev/null
    "$bin/totext" < "$1" > "$scratch/text"
    "$bin/trace" < "$1" | grep -v '^M' > "$scratch/due" || true
    count=$(wc -l < "$scratch/due")
    check "$1" "$count answers agree"$'\nexit 0' "$(said "$board" check "$1" "$answers")"
    while read -r _ refusal value && IFS= read -r line <&3; do
        byte "$answers" $((9 * n)) $((refusal == 18 ? 0 : 18))
        check "$1" "event $((n + 1)): $line exit 1" "$(front "$1" "$scratch/changed")"
        byte "$answers" $((9 * n + 2)) $(((value / 256 + 1) % 256))
        check "$1" "event $((n + 1)): $line exit 1" "$(front "$1" "$scratch/changed")"
        n=$((n + 1))
    done < "$scratch/due" 3< "$scratch/text"
    head -c $((9 * (count - 1))) "$answers" > "$scratch/fewer"
    check "$1" "event $count: $line exit 1" "$(front "$1" "$scratch/fewer")"
    check "$1" "$((count - 1)) answers were found, $count are due" "$(said "$board" check "$1" "$scratch/fewer" | sed -n 2p)"
    cat "$answers" <(printf '\0\1\0\0\0\0\0\0\0') > "$scratch/more"
    check "$1" 'behind the last event exit 1' "$(front "$1" "$scratch/more")"
}
for file in samples/*.events; do check_file "$file"; done
for end in 'bytes 4 0 1' 'bytes 9 0 255 1' 'bytes 10 1 2 0 3 1 2 0 0 0 0 0' 'bytes 11 1 2 0 3 1 2 0 0 0 0 0 0' 'bytes 0 2 3 0 0 0 0 0 0 0 0 0 0' 'bytes 200'; do
    bytes_of 'setup 9 1 0 0 0 0 0 0 0 0 0 0' 'setup 2 3 0 0 1 0 0 0 0 0 0 0' 'setup 2 3 0 1 0 0 0 0 0 0 200 100' 'setup 2 3 0 1 0 0 0 0 0 0 0 16' \
        'begin 0' 'begin 1' 'write 1 2 7 18446744073709551615' 'write 1 2 0 1311768467463790320' 'read 1 2 0' 'fence 0' "$end"
    check_file "$scratch/events"
done
check 'an empty file' $'0 answers agree\nexit 0' "$(said "$board" check /dev/null /dev/null)"

# over zeros each setup has the memory that it asks for, as in the trace program
bytes_of 'setup 2 1 0 0 1 0 0 0 0 0 0 0' 'setup 2 1 2 0 0 0 0 0 0 0 0 0' 'setup 2 1 0 0 0 0 0 0 0 0 17 0' 'setup 2 3 0 1 0 0 0 0 0 0 0 16' 'begin 0' 'begin 1'
"$board" run "$scratch/events" -a "$scratch/answers" > /dev/null
check 'setups with other lines, refused' '24 24 24 0 16 0' "$(od -An -v -w9 -tu1 "$scratch/answers" | awk '{ print $1 }' | paste -sd ' ')"

# ---- image, show, recover, diff

# words: the words in the lines of what show prints, behind its heading, as the trace program prints them.
words() { sed -e '1,/^the memory that it finds:/d' | awk '/^  line/ { line = $2 + 0; for (i = 4; i <= NF; i += 4) print "M", line, $i, $(i + 2) + 0 }' | sed 's/,//g'; }

for file in samples/*.events; do
    "$bin/trace" < "$file" | grep '^M' > "$scratch/due" || true
    for form in '' -n; do
        "$board" image "$file" -o "$scratch/image" $form > "$scratch/said" 2>&1 || {
            check "$file $form" "board: $file: no cut is accepted, so there is no image" "$(cat "$scratch/said")"
            continue
        }
        check "$file $form, its length" "$(wc -c < "$scratch/image")" "$(sed 's/ .*//' "$scratch/said")"
        check "$file $form, shown" "$(cat "$scratch/due")" "$("$board" show "$scratch/image" | words)"
        "$board" recover "$scratch/image" -o "$scratch/recovered" > "$scratch/steps"
        check "$file $form, recovered" "$(cat "$scratch/due")" "$("$board" show "$scratch/recovered" | words)"
        steps=$(sed -n 's/^finished at step //p' "$scratch/steps")
        check "$file $form, power lost" "finished at step $((steps > 1 ? 2 * steps - 1 : 1))" \
            "$("$board" recover "$scratch/image" -o "$scratch/again" --lose-power-at $((steps > 1 ? steps - 1 : 7)) | tail -n 1)"
        check "$file $form, power lost, recovered" $'the images are the same\nexit 0' "$(said "$board" diff "$scratch/recovered" "$scratch/again")"
        "$board" run "$file" -a "$scratch/answers" > /dev/null
        check "$file $form, its answers and image" "$("$bin/trace" < "$file" | grep -vc '^M') answers agree, and the image"$'\nexit 0' \
            "$(said "$board" check "$file" "$scratch/answers" "$scratch/image")"
        byte "$scratch/image" 5 77
        check "$file $form, another image" 'record 2 (line 0): word 0 is exit 1' "$(said "$board" diff "$scratch/image" "$scratch/changed" | sed 's/ is [0-9]* in .*/ is/' | paste -sd ' ')"
        check "$file $form, a board's other image" 'answers agree; the image differs: record 2 (line 0): word 0 is exit 1' \
            "$(said "$board" check "$file" "$scratch/answers" "$scratch/changed" | sed -e 's/^[0-9]* //' -e 's/ is [0-9]* in .*/ is/' | paste -sd ' ')"
    done
done
"$board" image samples/recovery.events -o "$scratch/image" > /dev/null
check 'an image in words' "$(cat tests/show.expected)" "$("$board" show "$scratch/image")"
check 'three steps' 'stopped after step 3, entries remain' "$("$board" recover "$scratch/image" -o "$scratch/again" --steps 3 | tail -n 1)"
{ head -c 946 "$scratch/image"; tail -c +1016 "$scratch/image"; } > "$scratch/shorter"
check 'a record less' $'record 19 (log entry of region 1.1): line of entry 1 is 2\nexit 1' "$(said "$board" diff "$scratch/image" "$scratch/shorter" | sed 's/ in .*//')"
"$board" run samples/p4.events -a "$scratch/answers" > /dev/null
check 'no cut for an image' 2 "$(code=0; "$board" check samples/p4.events "$scratch/answers" "$scratch/image" > /dev/null 2>&1 || code=$?; echo $code)"

# refused AT VALUE BYTE REFUSAL: an image with one byte changed is refused, by show and by recover, which writes nothing, at the byte where its record starts.
refused() {
    byte "$scratch/image" "$1" "$2"
    check "byte $1 is $2" "byte $3 refused with $4 exit 2" "$(said "$board" show "$scratch/changed" | sed 's/^board: [^:]*: \(byte [0-9]*\).*\(refused with [0-9]*\):.*/\1 \2/' | paste -sd ' ')"
    rm -f "$scratch/again"
    check "byte $1 is $2, not recovered" "2 no" "$(code=0; "$board" recover "$scratch/changed" -o "$scratch/again" 2> /dev/null || code=$?; echo $code $([ -e "$scratch/again" ] && echo yes || echo no))"
}
refused 0 99 0 2
refused 1 9 0 6
refused 4 34 4 7
refused 395 3 394 3
refused 396 9 411 7
refused 398 2 394 8
refused 466 6 462 4
check 'an image without its end' 'byte 1152, where it ends: refused with 1' \
    "$(head -c 1152 "$scratch/image" | "$board" show - 2>&1 | sed 's/^board: [^:]*: \(.*refused with [0-9]*\):.*/\1/')"
check 'an empty image' 'byte 0, where it ends: refused with 1' "$("$board" show /dev/null 2>&1 | sed 's/^board: [^:]*: \(.*refused with [0-9]*\):.*/\1/')"

# ---- explain

# why N EVENTS: what the last of the events, which is refused, met.
why() {
    bytes_of "${@:2}"
    check "${*: -1}" "$1" "$("$board" explain "$scratch/events" | sed -n 3p | sed 's/^ *//')"
}

setup='setup 2 9 0 0 0 0 0 0 0 0 0 0'
why '9 is no kind' "$setup" 'bytes 9'
why '2 bytes are left, too few for kind 4' "$setup" 'bytes 4 0'
why 'T is 2' "$setup" 'begin 2'
why 'L is 9' "$setup" 'begin 0' 'read 0 9 0'
why 'the word is 8' "$setup" 'begin 0' 'read 0 8 8'
why 'setup was event 1' "$setup" "$setup"
why 'no setup has been accepted before' 'begin 0'
why 'T is 9, of 1 to 8; L is 1, of 1 to 256' 'setup 9 1 0 0 0 0 0 0 0 0 0 0'
why 'the cut was event 2' "$setup" cut 'begin 0'
why 'thread 0 has begun no region' "$setup" 'end 0'
mapfile -t deep < <(for _ in $(seq 16); do echo 'begin 0'; done)
why 'thread 0 is at depth 15, in region 0.1' "$setup" "${deep[@]}"
mapfile -t ended < <(for l in 0 1 2 3; do printf 'begin 0\nwrite 0 %d 0 1\nend 0\n' "$l"; done)
why 'regions 0.1, 0.2, 0.3 and 0.4 are not done' "$setup" "${ended[@]}" 'begin 0'
why 'region 0.1 would stand in channel 1, which holds 0 of 16 entries' 'setup 2 9 0 1 0 0 0 0 0 0 0 16' 'begin 0'
why 'line 0 belongs to region 0.1, which is open' "$setup" 'begin 0' 'write 0 0 0 1' 'begin 1' 'write 1 0 0 1'
why 'line 0 is locked: the log entry of region 0.1 is still in flight' "$setup" 'begin 0' 'write 0 0 0 1' 'end 0' 'begin 1' 'write 1 0 0 1'
mapfile -t owners < <(for t in 1 2 3 4 5; do printf 'begin %d\nwrite %d %d 0 1\nend %d\n' "$t" "$t" "$t" "$t"; done)
why 'line 5 belongs to region 5.1, which has not committed; region 0.1 depends already on regions 1.1, 2.1, 3.1 and 4.1' \
    'setup 6 9 0 0 0 0 0 0 0 0 0 0' "${owners[@]}" 'begin 0' 'read 0 1 0' 'read 0 2 0' 'read 0 3 0' 'read 0 4 0' 'read 0 5 0'
mapfile -t writes < <(for l in 0 1 2 3 4 5 6 7 8; do echo "write 0 $l 0 1"; done)
why 'region 0.1 holds slots of lines 0, 1, 2, 3, 4, 5, 6 and 7' "$setup" 'begin 0' "${writes[@]}"
mapfile -t full < <(for r in 0 8 16 24; do
    echo 'begin 0'
    for l in 0 1 2 3 4 5 6 7; do printf 'write 0 %d 0 1\nlog-ack %d\n' $((r + l)) $((r + l)); done
    echo 'end 0'
done)
why 'thread 0 holds 32 log entries: 8 of region 0.1, 8 of region 0.2, 8 of region 0.3, 8 of region 0.4' 'setup 1 256 0 0 0 0 0 0 0 0 0 0' "${full[@]}" \
    'data-ack 8' 'data-ack 9' 'data-ack 10' 'data-ack 11' 'data-ack 12' 'data-ack 13' 'data-ack 14' 'data-ack 15' 'begin 0' 'write 0 99 0 1'
why 'no slot of line 4 is in flight; region 0.1 waits with count 0' "$setup" 'begin 0' 'write 0 4 0 1' 'log-ack 4' 'data-ack 4'
why 'no log entry of line 4 is in flight' "$setup" 'log-ack 4'
why 'T is 2, and the party of thread 2 is 1' 'setup 2 9 0 0 1 0 0 0 0 0 0 0'
why 'line 0 has been read by open region 0.1' "$setup" 'begin 0' 'read 0 0 0' 'begin 1' 'write 1 0 0 1'
why 'no bit of the mask is set' "$setup" 'begin 0' 'write-bytes 0 0 0 0 1'
check 'the tables in words' "$(cat tests/explain.expected)" "$("$board" explain samples/p1.events 8)"
check 'before the first event' $'before the first event: no setup yet\nexit 0' "$(said "$board" explain samples/p1.events 0)"
check 'an event that is not there' 2 "$(code=0; "$board" explain samples/p1.events 12 2> /dev/null || code=$?; echo $code)"
check 'an event that is no number' $'board: event: not a number: x\nexit 2' "$(said "$board" explain samples/p1.events x)"

# ---- timeline
"$board" timeline samples/p1.events -o "$scratch/picture"
check 'the picture of the README' "$(md5sum < docs/p1.svg)" "$(md5sum < "$scratch/picture")"
for file in samples/*.events /dev/null; do
    "$board" timeline "$file" -o "$scratch/picture"
    check "$file as a picture" '<svg </svg>' "$(sed -n -e '1s/ .*//p' -e '$p' "$scratch/picture" | paste -sd ' ')"
done
check 'a picture that is lost' 2 "$(code=0; "$board" timeline samples/p1.events -o /dev/full 2> /dev/null || code=$?; echo $code)"

report tool
