#!/usr/bin/env bash
# Builds the two programs, proved: crates/register/out/register and crates/simulator/out/simulator. Each is run
# once on the way, as the toolchain builds a program by running it.
cd "$(dirname "$0")/../crates" || exit 1
log=$(mktemp) || exit 1
trap 'rm -f "$log"' EXIT

build() {
    (cd "$1" && shift && rt run -- "$@") >"$log" 2>&1 && return
    cat "$log"
    exit 1
}

build register --help
build simulator data/no-calls.sim
