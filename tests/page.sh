#!/usr/bin/env bash
# page.sh PAGE: the commands of a page do what it says. A block that begins with '$ ' has commands, each with what it prints below it; a line '...' stands for any
# lines. A fenced block whose first line is a comment with a file's name is that file. All run in one folder, with the repository's files beside them. Where a
# language's compiler is missing, its command is left out, which is said. The last line is 'N passed, M failed'.
set -euo pipefail
root=$(cd "$(dirname "$0")/.." && pwd)
page=$(realpath "$1")
. "$root/tests/checks.sh"
for name in Makefile crates include samples target tool examples tests; do ln -s "$root/$name" "$scratch/$name"; done
cd "$scratch"
export PATH=$scratch/target/board:$PATH

# files: writes the fenced blocks that are files.
files() {
    awk '
        /^```/ { inside = !inside; fresh = inside; name = ""; next }
        inside && fresh { fresh = 0; if (match($0, /^(\/\/|#|\/\*) [a-z]+\.[a-z]+/)) { split($0, words, " "); name = words[2] } }
        inside && name != "" { print > name }
    ' "$page"
}

# matches EXPECTED FOUND: whether a text is the one expected, where a line '...' stands for any lines.
matches() { expected=$1 found=$2 awk '
    function fits(i, j) {
        if (i > n) return j > m
        if (e[i] == "...") { for (; j <= m + 1; j++) if (fits(i + 1, j)) return 1; return 0 }
        return j <= m && e[i] == f[j] && fits(i + 1, j + 1)
    }
    BEGIN { n = split(ENVIRON["expected"], e, "\n"); m = split(ENVIRON["found"], f, "\n"); exit !fits(1, 1) }'; }

# try COMMAND EXPECTED: one command of the page.
try() {
    local found tool=${1%% *}
    case $tool in
    g++ | rustc | python3 | pkg-config)
        if ! command -v "$tool" > /dev/null; then
            echo "left out, no $tool: $1"
            return
        fi
        ;;
    esac
    found=$(bash -c "$1" 2>&1) || true
    if matches "$2" "$found"; then
        passed=$((passed + 1))
    else
        failed=$((failed + 1))
        printf 'FAILED %s\n expected: %s\n found: %s\n' "$1" "$2" "$found"
    fi
}

files
command='' expected='' blank=''
while IFS= read -r line || [ -n "$line" ]; do
    case $line in
    '    $ '*)
        [ -z "$command" ] || try "$command" "$expected"
        command=${line#'    $ '} expected='' blank=''
        ;;
    '    '*)
        [ -z "$command" ] || expected=${expected:+$expected$'\n'}$blank${line#'    '}
        blank=''
        ;;
    '') blank=$blank$'\n' ;;
    *)
        [ -z "$command" ] || try "$command" "$expected"
        command=''
        ;;
    esac
done < "$page"
[ -z "$command" ] || try "$command" "$expected"
report "${page##*/}"
