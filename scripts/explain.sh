#!/usr/bin/env bash
# Prints what a fault or an abort code means, as the documents say it:
#
#     scripts/explain.sh 15                          the fault 15, with its exit status
#     scripts/explain.sh fault 15 at /2/0/3/0/4      the same, from the line that the program writes
#     scripts/explain.sh abort 9                     the abort code 9
#     scripts/explain.sh 0 abort 9                   the same, from a reply line
#
# A line may be one word or several. It ends with status 2 where there is no such number.
set -euo pipefail
docs=$(cd -- "$(dirname -- "${BASH_SOURCE[0]}")/../docs" && pwd)

# The cells after the number, in the row of a page's table that begins with it.
row() {
    sed -n -E "s/^\| (<a id=\"[a-z]*-?$2\"><\/a>)?$2 \| (.*) \|$/\2/p" "$docs/$1" | head -n 1
}

# What a fault means, or nothing.
fault() {
    local text
    text=$(row faults.md "$1")
    [[ -z $text ]] || printf 'fault %s: %s; exit status %s\n' "$1" "${text% | *}" "${text##* | }"
}

# What an abort code means, or nothing.
abort() {
    local text=
    if [[ $1 =~ ^[1-9]$ ]]; then
        text=$(row language.md "$1")
    elif [[ $1 =~ ^[1-9][0-9]{2,4}$ ]] && (($1 <= 65535)); then
        text="the procedure's own"
    fi
    [[ -z $text ]] || printf 'abort %s: %s\n' "$1" "$text"
}

fault_line='^(fault )?([0-9]+)( at .*| line [0-9]+)?$'
reply_line='^([0-9]+ (of [0-9]+ )?)?abort ([0-9]+)$'
line=$* text=
if [[ $line =~ $fault_line ]]; then
    text=$(fault "${BASH_REMATCH[2]}")
elif [[ $line =~ $reply_line ]]; then
    text=$(abort "${BASH_REMATCH[3]}")
fi
if [[ -z $text ]]; then
    echo "usage: scripts/explain.sh NUMBER, or abort CODE, or a line with one; docs/faults.md lists the faults" >&2
    exit 2
fi
printf '%s\n' "$text"
