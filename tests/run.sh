#!/bin/sh
# Proves and tests everything. The last line is 'N passed, M failed'; the status is 0 only if nothing failed.
set -u
cd "$(dirname "$0")/.."
passed=0
failed=0

# Adds the 'N passed, M failed' that ends a log, and counts a failure where there is none or the status is not 0.
count() {
    line=$(tail -n 1 "$1" | sed -n 's/^\(rt: \)\{0,1\}\([0-9][0-9]*\) passed, \([0-9][0-9]*\) failed.*$/\2 \3/p')
    if [ -z "$line" ]; then
        failed=$((failed + 1))
        return
    fi
    passed=$((passed + ${line% *}))
    failed=$((failed + ${line#* }))
    if [ "$2" -ne 0 ] && [ "${line#* }" -eq 0 ]; then
        failed=$((failed + 1))
    fi
}

# Runs a test that ends with 'N passed, M failed', shows what it says, and counts it.
suite() {
    "$@" >"$log" 2>&1
    status=$?
    cat "$log"
    count "$log" "$status"
}

# Runs a command that passes or fails as a whole; what it says is shown where it fails.
step() {
    if "$@" >"$log" 2>&1; then
        passed=$((passed + 1))
    else
        cat "$log"
        failed=$((failed + 1))
    fi
}

# Installs a Debian package where its command is missing.
need() {
    command -v "$1" >/dev/null 2>&1 || { apt-get update -qq && apt-get install -y -qq "$2"; }
}

need python3 python3
need cc gcc
need valgrind valgrind
log=$(mktemp)
tools=$(mktemp -d)
trap 'rm -rf "$log" "$log.status" "$tools"' EXIT
seed=${SEED:-1}

{ rt ci 2>&1; echo $? >"$log.status"; } | tee "$log"
status=$(cat "$log.status")
count "$log" "$status"
# an edit that cannot be applied or read shows nothing
if grep -qE '^rt: ok.*, [1-9][0-9]* bad' "$log"; then
    failed=$((failed + 1))
fi

if [ "$status" -eq 0 ]; then
    for program in plan session_plan marks; do
        step sh tools/program.sh "$program"
    done
    suite python3 tests/check_plan.py crates/plan/out/plan "$seed"
    suite python3 tests/check_plan.py crates/session_plan/out/session_plan "$seed" halves
    step sh c/build.sh "$tools/map"
    suite python3 tests/check_session.py crates/session_plan/out/session_plan crates/marks/out/marks "$tools/map" "$seed"
    suite python3 tests/check_memory.py "$tools/map" "$seed"
    step sh examples/run.sh
fi

echo "$passed passed, $failed failed"
[ "$failed" -eq 0 ]
