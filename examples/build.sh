#!/usr/bin/env bash
# How an example is compiled; sourced, from the repository's root, beside tests/machine.sh, whose C compiler it uses.

# build_example NAME PROGRAM WORD..: compiles examples/NAME.c with the files that it shares; the words go to the compiler
build_example() {
    local name=$1 program=$2 sources=(network_file text_lines settled_table)
    shift 2
    case $name in
    routes) sources+=(journey cost_matrix) ;;
    daemon | packet_hop) sources+=(next_hop) ;;
    esac
    sources=("${sources[@]/%/.c}")
    # shellcheck disable=SC2154 # c_compiler: tests/machine.sh
    "${c_compiler[@]}" -std=c99 -Wall -Wextra -pedantic -O2 -Iinclude -o "$program" "examples/$name.c" "${sources[@]/#/examples/}" "$@" \
        target/staticlib/libbannogwy.a
}
