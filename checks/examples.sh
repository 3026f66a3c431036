#!/usr/bin/env bash
# Runs `explain` on each sheet of examples/ and `diagnose` on each session, and compares what they print with the report or the
# answers beside it. It proves and builds the programs.
set -u
cd "$(dirname "$0")/.."
failed=0
for program in explain diagnose; do
    (cd "crates/$program" && rt run <stdin) >/dev/null 2>&1 || echo "$program: not built"
done

# check PROGRAM INPUT EXPECTED
check() {
    if "crates/$1/out/$1" <"$2" | diff "$3" - >&2; then
        echo "example $2: as in $3"
    else
        echo "example $2: not as in $3"
        failed=1
    fi
}

for sheet in examples/*.sheet; do
    check explain "$sheet" "${sheet%.sheet}.report"
done
for session in examples/*.session; do
    check diagnose "$session" "${session%.session}.answers"
done
exit $failed
