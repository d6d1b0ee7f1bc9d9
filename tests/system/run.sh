#!/usr/bin/env bash
# The system tests: builds the shim that fails and kills, and runs the tests on the built program; all of them, or
# those that are named.
cd "$(dirname "$0")" || exit 1
for tool in cc python3; do
    if ! command -v "$tool" >/dev/null; then
        echo "system tests: $tool is missing"
        exit 1
    fi
done
work=$(mktemp -d -p /dev/shm 2>/dev/null || mktemp -d) || exit 1
trap 'rm -rf "$work"' EXIT
cc -Wall -Werror -O1 -shared -fPIC -o "$work/faults.so" faults.c -ldl || exit 1
python3 -B run_tests.py "$work" "${REGISTER:-../../crates/register/out/register}" "$@"
