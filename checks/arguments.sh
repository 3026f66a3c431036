#!/usr/bin/env bash
# What the programs do with arguments, and what they tell on the standard error of a text that is no sheet. It proves and builds them.
set -u
cd "$(dirname "$0")/.."
failed=0

# expect WHAT FOUND WANTED
expect() {
    if [ "$2" = "$3" ]; then
        echo "$1: as it must be"
    else
        echo "$1: expected '$3', found '$2'"
        failed=1
    fi
}

for program in explain check_sheet copy_sheet diagnose; do
    (cd "crates/$program" && rt run <stdin) >/dev/null 2>&1 || echo "$program: not built"
    run=crates/$program/out/$program
    for word in --help -h; do
        text=$("$run" "$word" </dev/null)
        expect "$program $word ends well" "$?" 0
        expect "$program $word begins with its name" "${text%% *}" "$program"
    done
    expect "$program with another argument" "$("$run" sheet </dev/null 2>&1)" "there is no argument sheet: see --help"
    "$run" sheet </dev/null >/dev/null 2>&1
    expect "$program then ends with status" "$?" 1
    expect "$program prints a refusal" "$(printf 'a b\nh b\nh\n' | "$run" 2>/dev/null)" "refused 4 line 3"
    expect "$program tells what is wrong" "$(printf 'a b\nh b\nh\n' | "$run" 2>&1 >/dev/null)" \
        "line 3 is not a clause line: it needs one of b, h and . for each of the 2 names, one space between two, and a line end"
done
exit $failed
