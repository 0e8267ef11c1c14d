#!/usr/bin/env bash
# Tests scripts/explain.sh:
#
#     scripts/explain_tests.sh
#
# It ends with how many tests passed, and with status 1 where one failed.
set -uo pipefail
cd -- "$(dirname -- "$0")/.." || exit
passed=0 failed=0

# Tests that words give this text and this status.
gives() {
    local wanted=$1 status=$2 text
    text=$(scripts/explain.sh "${@:3}" 2> /dev/null)
    if [[ $?:$text == "$status:$wanted" ]]; then
        passed=$((passed + 1))
    else
        failed=$((failed + 1))
        printf 'failed: %s\n    %s\n' "${*:3}" "$text"
    fi
}

type='fault 15: procedures: an expression or a column of the wrong type; exit status 1'
gives "$type" 0 15
gives "$type" 0 fault 15
gives "$type" 0 fault 15 at /2/0/3/0/4
gives "$type" 0 'fault 15 at /2/0/3/0/4'
form='fault 11: procedures: wrong form, or a declared name that breaks the rule for names; exit status 1'
gives "$form" 0 'fault 11 at '
gives 'fault 37: no memory, in any other work than reading the setup; exit status 3' 0 fault 37 line 0
gives 'fault 41: setup: not JSON; exit status 1' 0 fault 41

size="abort 7: a reply of more than 64 values, or a footprint of more than 65,536 resources"
gives "$size" 0 abort 7
gives "$size" 0 0 abort 7
gives "$size" 0 '12 of 5 abort 7'
gives "abort 100: the procedure's own" 0 abort 100
gives "abort 65535: the procedure's own" 0 3 abort 65535

for words in '' 8 'fault' 'fault 8' 'fault x' 'fault 15 near 3' 'fault 31 line' 'abort' 'abort 0' 'abort 10' \
    'abort 65536' 'abort 099' '0 commit 1' 'no memory'; do
    gives '' 2 "$words"
done
# Each fault of the program is explained, and so is each abort.
for number in {1..7} {11..19} {31..38} {41..47}; do
    cells="^\| <a id=\"fault-$number\"><\/a>$number \| (.*) \| ([0-9]) \|$"
    wanted=$(sed -n -E "s/$cells/fault $number: \1; exit status \2/p" docs/faults.md)
    gives "${wanted:-is listed}" 0 fault "$number"
done

echo "explain: $passed tests passed, $failed failed"
((failed == 0))
