#!/usr/bin/env bash
# watched.sh BOARD MODEL: every command of the tool under valgrind, on right and on damaged input: no access that is wrong, no decision by a byte that was not set,
# no block that is lost. The last line is 'N passed, M failed'.
set -euo pipefail
board=$(realpath "$1")
model=$(realpath "$2")
samples=$(realpath ../samples)
. ./checks.sh
cd "$scratch"

# watched WORDS: whether valgrind finds nothing in a command, whatever its own exit code is.
watched() {
    local code=0
    valgrind -q --error-exitcode=99 --leak-check=full --errors-for-leak-kinds=definite,indirect "$board" "$@" > said 2>&1 || code=$?
    check "$*" yes "$([ "$code" != 99 ] && echo yes)"
}
for name in p1 recovery headers; do
    file=$samples/$name.events
    "$board" run "$file" -a answers > said
    "$board" image "$file" -o image > said
    byte image 400 9
    head -c 100 answers > fewer
    for command in run text explain 'explain 5'; do watched ${command%% *} "$file" ${command#"${command%% *}"}; done
    watched bytes "$samples/$name.txt"
    watched image "$file" -o again -n
    watched timeline "$file" -o picture
    for each in image changed answers /dev/null; do
        watched show "$each"
        watched recover "$each" -o again --lose-power-at 2
        watched diff image "$each"
        watched check "$file" answers "$each"
    done
    watched check "$file" fewer
done
printf 'begin 0\nbegin x\n' > bad.txt
watched bytes bad.txt
watched try "$model" --count 20
watched try "$model --wrong 2" --count 100
watched try true --count 3
report watched
