#!/usr/bin/env bash
# try.sh BOARD MODEL: `board try` on the model that is right, which must agree on 2000 files, and on the six that are wrong: each must be found and its file
# shrunk below 15 events, by which the difference is found again. The random files meet every refusal but 14, which needs more events. The last line is
# 'N passed, M failed'.
set -euo pipefail
board=$(realpath "$1")
model=$(realpath "$2")
. "$(dirname "$0")/checks.sh"
cd "$scratch"

check 'the right model' $'2000 files agree\nexit 0' "$(said "$board" try "$model --image --recovered" --image --recovered --count 2000)"
check 'another seed, answers alone' $'300 files agree\nexit 0' "$(said "$board" try "$model" --seed 7 --count 300)"

"$board" try "$model | tee -a all.answers" > said
check 'every refusal' '0 1 2 3 4 5 6 11 12 13 15 16 17 18 19 20 21 22 24 25 27' "$(od -An -v -w9 -tu1 all.answers | awk '{ print $1 }' | sort -nu | paste -sd ' ')"

# due FILE: what the right model writes.
due() { "$model" --image --recovered < "$1"; }

for way in 1 2 3 4 5 6; do
    check "wrong way $way" 1 "$(code=0; "$board" try "$model --image --recovered --wrong $way" --image --recovered -o wrong.events > said || code=$?; echo $code)"
    events=$("$board" run wrong.events | wc -l)
    echo "try: wrong way $way: $events events"
    check "wrong way $way, shrunk" yes "$([ "$events" -lt 15 ] && echo yes)"
    check "wrong way $way, the readable form" "$(md5sum < wrong.events)" "$("$board" bytes wrong.txt | md5sum)"
    check "wrong way $way, found again" differs "$(cmp -s <(due wrong.events) <("$model" --image --recovered --wrong $way < wrong.events) || echo differs)"
done

# models that give nothing, too much, crash, or are not there; numbers that are none
for command in true 'cat; cat' 'kill -SEGV $$' ./none 'exit 3'; do
    check "$command" 1 "$(code=0; "$board" try "$command" -o wrong.events > said 2>&1 || code=$?; echo $code)"
done
check 'a count that is none' $'board: --count: not a number: many\nexit 2' "$(said "$board" try "$model" --count many)"
check 'a seed that is missing' "exit 2" "$(said "$board" try "$model" --seed | tail -n 1)"
check 'a difference that cannot be saved' 2 "$(code=0; "$board" try true -o /none/wrong.events > said 2>&1 || code=$?; echo $code)"
report try
