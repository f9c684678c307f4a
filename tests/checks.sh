# What the tests of programs share: a folder of their own, checks that are counted, what a command says.
scratch=$(mktemp -d)
trap 'rm -rf "$scratch"' EXIT
passed=0
failed=0

# check WHAT EXPECTED FOUND: two texts must be the same.
check() {
    if [ "$2" = "$3" ]; then
        passed=$((passed + 1))
    else
        failed=$((failed + 1))
        printf 'FAILED %s\n expected: %s\n found: %s\n' "$1" "$2" "$3"
    fi
}

# byte FILE AT VALUE: a copy with one byte changed, in $scratch/changed.
byte() {
    cp "$1" "$scratch/changed"
    printf "\\x$(printf %02x "$3")" | dd of="$scratch/changed" bs=1 seek="$2" conv=notrunc status=none
}

# said COMMAND: what it prints on both outputs, and its exit code.
said() {
    local code=0
    "$@" 2>&1 || code=$?
    echo "exit $code"
}

# report NAME: the last line, 'N passed, M failed', and whether all passed.
report() {
    echo "$1: $passed passed, $failed failed"
    [ "$failed" = 0 ] && [ "$passed" -gt 0 ]
}
