#!/usr/bin/env bash
# How many tests passed and failed, added up over programs that close with 'N passed, M failed'; sourced by .ci/run and tests/run.
passed=0
failed=0

# add_up STATUS LOG: adds the last closing line of a program that ended so; fails, and adds nothing, where there is none
add_up() {
    local status=$1 closing
    closing=$(grep -E '^[0-9]+ passed, [0-9]+ failed$' "$2" | tail -n 1)
    [[ $closing =~ ^([0-9]+)\ passed,\ ([0-9]+)\ failed$ ]] || return 1
    passed=$((passed + BASH_REMATCH[1]))
    failed=$((failed + BASH_REMATCH[2]))
    # a status that its own count does not own up to is one failure more
    if [ "$status" -ne 0 ] && [ "${BASH_REMATCH[2]}" -eq 0 ]; then
        failed=$((failed + 1))
    fi
}

# count_one STATUS: one test, passed where the status is 0
count_one() {
    if [ "$1" -eq 0 ]; then
        passed=$((passed + 1))
    else
        failed=$((failed + 1))
    fi
}

# close: the closing line and the exit status
close() {
    printf '\n%d passed, %d failed\n' "$passed" "$failed"
    [ "$failed" -eq 0 ]
    exit
}
