#!/usr/bin/env bash
# What this machine needs for programs that are linked with the library; sourced by scripts that define give_up TEXT and use c_compiler and
# rust_compiler.
# shellcheck disable=SC2034

# as_root COMMAND..: for installing packages
as_root() {
    if [ "$(id -u)" -eq 0 ]; then
        "$@"
    else
        sudo "$@"
    fi
}

# install PACKAGE..: Debian's packages
install() {
    printf 'installing %s\n' "$*"
    as_root apt-get update -q >/dev/null || give_up "apt-get update failed; install by hand: $*"
    as_root env DEBIAN_FRONTEND=noninteractive apt-get install -q -y "$@" >/dev/null || give_up "apt-get install $* failed"
}

# prepare_c: the C compiler, on a machine on which the Rattle kit and the library run
prepare_c() {
    [ "$(uname -m)" = x86_64 ] || give_up "the Rattle kit and its libraries run on x86-64 machines alone, and this one is of the kind $(uname -m)"
    command -v gcc >/dev/null 2>&1 || install gcc libc6-dev
    c_compiler=(gcc)
}

# prepare_rust: the Rust compiler, which links with the C compiler
prepare_rust() {
    command -v rustc >/dev/null 2>&1 || install rustc
    rust_compiler=(rustc)
}
