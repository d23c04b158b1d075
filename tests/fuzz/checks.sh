# Bad input in the tests and by hand. Sourced by tests/run, which prepares the machine and has `check` and `give_up`.
# shellcheck shell=bash disable=SC2154,SC2317

# build_fuzz PROGRAM FOLDER OPTION..: the fuzzing program, with the archive of a folder
build_fuzz() {
    local program=$1 folder=$2
    shift 2
    "${rust_compiler[@]}" --edition 2021 "$@" -L "native=$folder" -l static=bannogwy -o "$program" tests/fuzz/main.rs
}

# build_checked_fuzz PROGRAM OPTION..: the same with the compiler's address checks in the library
build_checked_fuzz() {
    local program=$1
    shift
    build_fuzz "$program" "$library/checked" --cfg address_checks -l dylib=asan "$@"
}

# fuzz_by_hand [--address-checks] SECONDS [SEED [ROUND]]
fuzz_by_hand() {
    if [ "${1:-}" = --address-checks ]; then
        shift
        build_checked_fuzz "$out/fuzz" -O || give_up 'the fuzzing program does not link with address checks'
    else
        build_fuzz "$out/fuzz" "$library" -O || give_up 'the fuzzing program does not compile'
    fi
    "$out/fuzz" "$@"
}

# stopped PROGRAM FAULT TEXT: the program with this fault planted ends with status 1 and says this
stopped() {
    local program=$out/$1 log=$out/$1-$2.log status
    FAULT=$2 "$program" 60 >"$log" 2>&1
    status=$?
    [ "$status" -eq 1 ] && grep -q "$3" "$log"
}

# repeated FAULT: with this fault the program says the same once more, from the seed and the round that it named
repeated() {
    local log=$out/fuzz-faulty-$1.log
    [[ $(cat "$log") =~ "mismatch: seed "([0-9]+)" round "([0-9]+) ]] || return 1
    FAULT=$1 "$out/fuzz-faulty" 60 "${BASH_REMATCH[@]:1}" >"$log.again" 2>&1
    diff <(tail -n +2 "$log") <(tail -n +2 "$log.again")
}

# the programs: as it is and with faults to plant, and both once more with the address checks
fuzz_programs() {
    printf '== the fuzzing programs\n'
    beside 'the fuzzing program compiles' build_fuzz "$out/fuzz" "$library" -O
    beside 'the one with faults to plant compiles' build_fuzz "$out/fuzz-faulty" "$library" --cfg faults
    beside 'the fuzzing program compiles with address checks' build_checked_fuzz "$out/fuzz-checked" -O
    beside 'the one with faults to plant compiles with them' build_checked_fuzz "$out/fuzz-checked-faulty" --cfg faults
    together
}

# blind: a run that meets none of the answers fails
blind() {
    "$out/fuzz" 0 >"$out/fuzz-blind.log" && return 1
    grep -q NEVER "$out/fuzz-blind.log"
}

# Bad input, 20 seconds of it or so.
fuzz() {
    local fault
    printf '== bad input: raw numbers and slices against the independent program\n'
    beside 'every answer and every slice is the independent one' "$out/fuzz" 20
    beside 'a run that meets no answer fails' blind
    beside 'the same under address checks' "$out/fuzz-checked" 10
    beside 'the address checks stop it: longer_than_lent' stopped fuzz-checked-faulty longer_than_lent 'use-after-poison'
    for fault in three_before_two run_needs_three one_bit_more_cleared written_on_refusal short_answer_written bits_of_nodes_only \
        ceiling_one_lower checksum_unseen zeros_in_short_answer; do
        beside "caught: $fault" stopped fuzz-faulty "$fault" '^mismatch: '
    done
    for fault in reads_behind reads_before longer_than_lent; do
        beside "the page without access stops it: $fault" stopped fuzz-faulty "$fault" '^fault: an access outside the slices'
    done
    beside 'caught: writes_beside' stopped fuzz-faulty writes_beside '^bytes beside the slice'
    together
    check 'repeated: ceiling_one_lower' repeated ceiling_one_lower
}
