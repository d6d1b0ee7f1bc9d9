#!/usr/bin/env bash
# The gate: the check that is given, then the system tests on the programs. The last line is the check's verdict,
# 'N passed, M failed'. The check passes an edit that no longer fits the text, and says of how many that is so in its
# line `rt: ok`: the gate fails there.
cd "$(dirname "$0")/.." || exit 1
log=$(mktemp) || exit 1
start=$(mktemp) || exit 1
trap 'rm -f "$log" "$start"' EXIT

# All but the last line is shown as it comes; the last is held back until the system tests are done.
"$@" 2>&1 | tee "$log" | sed '$d'
status=${PIPESTATUS[0]}
verdict=$(tail -n 1 "$log")
if [ "$status" -ne 0 ]; then
    echo "$verdict"
    exit "$status"
fi

# The check leaves the programs that it built, but in a checkout that had others it puts those back.
are_built() {
    [ crates/register/out/register -nt "$start" ] && [ crates/simulator/out/simulator -nt "$start" ]
}

if grep -Eq '^rt: ok.*, [0-9]+ bad' "$log"; then
    echo "must-fail edits that don't fit: see above"
elif { are_built || tests/build.sh; } && tests/system/run.sh; then
    echo "$verdict"
    exit 0
fi
echo "${verdict%% passed*} passed, 1 failed"
exit 1
