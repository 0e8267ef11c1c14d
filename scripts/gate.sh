#!/usr/bin/env bash
# Runs the gate: `rt ci`; then, on the programs that it left built,
#
# - `scripts/examples.py`, `scripts/manual.py --check` and `scripts/crates.py --check`, which compare what comes out,
#   and the crates, with what the documents say, `scripts/definitions.py --check` with its tests, which compares the
#   list of definitions with the comments in `specs/`, `scripts/pages.py --check` with its tests, which looks at the
#   documents' lengths, words, links and names of files, `scripts/figures.py --check` with its tests, which compares the
#   figures with their texts, `scripts/rules.py --check` with its tests, which compares the index of rules with what
#   names them, `scripts/unsafe.py` with its tests, which refuses words that let a value go without its end,
#   `scripts/build_tests.py`, which tries the script of the first build, and the tests of `./calvin try` and
#   `scripts/explain.sh`,
# - `scripts/cases.py`, which runs the stored cases, `scripts/moved_rows.py`, which goes on from their rows at each cut,
#   and `scripts/hostile_documents.py`, which runs 1,000 setups and logs made at random, each on the program as either
#   compiler makes it,
# - `tools/notation/tests.py`, which tries the notation of setups, `workloads/cases.py --check`, which compares the
#   stored cases of the workloads with what their models say, and `bench/tests.py`, which tries the benchmarks that are
#   built,
# - `scripts/refuse_memory.sh`, which refuses each 40th allocation;
#
# and then, after the script's own tests, `scripts/edits.py together`, which tries the edits that must be refused, many
# in one check. It says before its last line how much of a processor's time it took, and what each crate took of it. The
# last line counts what `rt ci` and the edits passed, and each other run of a script as one more; the lines before it
# name the scripts that failed and the edits that were not refused.
#
# One check runs on each processor; each takes less than 5 GB of memory. The time of the whole is exact. The shares of
# the crates, for their own proof, for their tests and for their edits, are read off the checks every two seconds, so
# that each lacks the end of its checks. Checks of other process sessions count for nothing. It ends with 0 only where
# all of these do. Where it does on a checkout without changes, it leaves out/gate.passed, for scripts/release.sh: the
# commit, the toolchain and the last line.
set -uo pipefail
cd -- "$(dirname -- "$0")/.."

notes=$(mktemp)
output=$(mktemp)
taken=$(mktemp)
edited=$(mktemp -u) # is there once edits are tried
trap 'kill "$sampler" 2> /dev/null; rm -f -- "$notes" "$output" "$taken" "$edited"' EXIT

# This session, which is 0 where the process that leads it can't be seen from here.
session=$(ps -o sid= -p $$ | tr -d ' ')

# A line for each check: its process, the seconds of a processor that it has taken, its crate, and what it is for.
running_checks() {
    local purpose=proof
    [[ -e $edited ]] && purpose=edits
    ps -eo sid=,pid=,cputimes=,args= | awk -v session="$session" -v purpose="$purpose" '
        $1 == session && $4 ~ /\/rattle$/ && ($5 == "build" || $5 == "check") && $6 == "--crate-name" {
            print $2, $3, $7, / --test / ? "tests" : purpose
        }'
}

while sleep 2; do
    running_checks
done > "$notes" &
sampler=$!

# Runs a script, and counts it. One that fails is named at the end, too.
counted() {
    if "$@"; then
        echo '1 passed, 0 failed'
    else
        echo "gate: $* failed"
        echo '0 passed, 1 failed'
        return 1
    fi
}

TIMEFORMAT='%U %S'
gate() {
    local status=0 program
    RT_JOBS="$(nproc)" rt ci || return
    counted scripts/examples.py || status=1
    counted scripts/manual.py --check || status=1
    counted scripts/crates.py --check || status=1
    counted scripts/definitions.py --check || status=1
    counted scripts/definitions_tests.py || status=1
    counted scripts/crates_tests.py || status=1
    counted scripts/pages.py --check || status=1
    counted scripts/pages_tests.py || status=1
    counted scripts/figures.py --check || status=1
    counted scripts/figures_tests.py || status=1
    counted scripts/rules.py --check || status=1
    counted scripts/rules_tests.py || status=1
    counted scripts/unsafe.py || status=1
    counted scripts/unsafe_tests.py || status=1
    counted scripts/build_tests.py || status=1
    counted scripts/calvin_tests.sh || status=1
    counted scripts/explain_tests.sh || status=1
    counted tools/notation/tests.py || status=1
    counted workloads/cases.py --check || status=1
    counted bench/tests.py || status=1
    for program in crates/cli/out/cli{,.by-rattle}; do
        if [[ $program == *.by-rattle && ! -x $program ]]; then
            echo "the second compiler didn't make the program: its runs are left out"
            continue
        fi
        counted scripts/cases.py "$program" || status=1
        counted scripts/moved_rows.py "$program" || status=1
        counted scripts/hostile_documents.py 1000 1 "$program" || status=1
    done
    EVERY=40 counted scripts/refuse_memory.sh --left || status=1
    counted scripts/edits_tests.py || status=1
    : > "$edited"
    scripts/edits.py together || status=1
    return "$status"
}
{ time gate > "$output" 2>&1; } 2> "$taken" &
gate=$!
tail -f --pid="$gate" -n +1 -- "$output" | sed -u -E '/^[0-9]+ (passed|edits refused), [0-9]+ (failed|not)$/d'
wait "$gate"
status=$?
kill "$sampler"

awk -v minutes="$((SECONDS / 60))" -v taken="$(awk '{ print ($1 + $2) / 60 }' "$taken")" '
    # the last that was seen of a process is what it took
    { seconds[$1, $3, $4] = $2 }
    END {
        for (check in seconds) {
            split(check, part, SUBSEP)
            share[part[2], part[3]] += seconds[check] / 60
            of_crate[part[2]] += seconds[check] / 60
        }
        printf "the gate took %d minutes, and %.0f minutes of one processor:\n", minutes, taken
        printf "%-22s %8s %8s %8s\n", "crate", "proof", "tests", "edits"
        sorted = "sort -k5,5nr | cut -c1-49"
        for (crate in of_crate)
            printf "%-22s %8.1f %8.1f %8.1f %.1f\n", crate, share[crate, "proof"], share[crate, "tests"],
                share[crate, "edits"], of_crate[crate] | sorted
        close(sorted)
    }' "$notes"
last=$(awk '/^[0-9]+ (passed, [0-9]+ failed|edits refused, [0-9]+ not)$/ { passed += $1; failed += $(NF - 1) }
    END { printf "%d passed, %d failed\n", passed, failed }' "$output")

grep -E '^gate: .* failed$|: NOT REFUSED$|: cannot be made$' -- "$output"

# scripts/release.sh packs a commit on which the gate has passed.
if ((status == 0)) && [[ -z $(git status --porcelain) ]]; then
    mkdir -p out
    printf '%s\n' "$(git rev-parse HEAD)" "$(rt --version)" "$last" > out/gate.passed
fi
echo "$last"
exit "$status"
