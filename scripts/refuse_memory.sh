#!/usr/bin/env bash
# Refuses each allocation of each step of crates/test_memory_refusals in turn, and counts what the steps answer:
#
#     scripts/refuse_memory.sh [--built | --left] [STEP ..]
#     scripts/refuse_memory.sh --library
#
# The steps are the words in crates/test_memory_refusals/args; without any named here, all of them. For each step it prints how many
# refusals were met, one a run: how many of these runs answered so, how many were right all the same, and how many were wrong.
# The last runs of a step meet no refusal. It ends with status 1 where an answer is wrong or one is missing, or no run of a step
# answered so. In the steps of `made_good` below a reading that lacks memory begins anew in another way, so each of their runs is
# right, and none answers so. In the step `gate_before_run` a job makes these allocations while it passes the gate, and a run answers so only where
# nothing was settled when it met the refusal: so the gate is passed before the job runs.
#
# All runs share one build: the program makes some allocations of its own before the step, so that the one that is refused, always
# the one with the same number in the whole run, is the first of the step, the second, and so on. With EVERY=25 in the environment,
# only each 25th of them is refused.
#
# With --built the proved program is built, and a library that the script has `cc` make and that is loaded in front of the
# system's refuses the allocation. A run takes some milliseconds, and as many are made side by side as there are processors. The
# steps `resume` and `resume_alone`, in which a thread is refused first, and then an allocation while the batch is gone on with, are
# tried so alone; and of the steps on several batches each thread is refused in turn, too. With --left it is the program that an
# earlier run of the toolchain left built.
#
# With --library it is the static library that `rt lib` in crates/calvin_c left: `scripts/refuse_memory.c` runs a log through it
# once for each of its allocations, which fails, and the last lines say in how many runs one failed in each function of the
# header.
#
# Without any of them, the refusals are those of the toolchain's `try`, which also looks for bad accesses. A run takes a second or so,
# and the steps have some thousands of allocations.
set -euo pipefail
cd -- "$(dirname -- "$0")/../crates/test_memory_refusals"

# The number of the allocation that is refused, which is that of src/refusal.rt.
refused=20000
# Runs with threads don't always make the same number of allocations: this many more are tried.
spare=80
every=${EVERY:-1}

folder=$(mktemp -d)
trap 'rm -rf -- "$folder"' EXIT
: > "$folder/said"

if [ "${1:-}" = --library ]; then
    cd ../..
    cc -std=c99 -O2 -Wall -Wextra -Werror -Iinclude -Wl,--wrap=malloc,--wrap=realloc,--wrap=free scripts/refuse_memory.c \
        crates/calvin_c/out/libcalvin_c.a "$(dirname -- "$(rt doc)")/c/liblibc_c.a" -o "$folder/refuse_memory"
    "$folder/refuse_memory" examples/inventory.{json,log,report} item
    exit 0
fi

built=false
left=false
if [ "${1:-}" = --built ] || [ "${1:-}" = --left ]; then
    built=true
    [ "$1" = --left ] && left=true
    shift
fi
steps=("$@")
if [ ${#steps[@]} -eq 0 ]; then
    mapfile -t steps < args
fi
if ! $built; then
    echo 'the steps resume and resume_alone are tried with --built alone' >&2
    mapfile -t steps < <(printf '%s\n' "${steps[@]}" | grep -v '^resume')
fi

# The logs of several batches are those of stored cases.
for pair in setup.json:setup.json log:log report:stdout; do
    cmp -- "data/${pair%:*}" "../../cases/settings/calls-that-clash/${pair#*:}"
    cmp -- "data/retries-${pair%:*}" "../../cases/retries/013/${pair#*:}"
done

# Builds the program where that is asked for, and writes the library that refuses one allocation or one thread.
build() {
    $left || rt run > "$folder/said" 2>&1 || {
        cat -- "$folder/said" >&2
        return 1
    }
    cc -O1 -shared -fPIC -x c -o "$folder/refuse.so" - << 'SOURCE'
#define _GNU_SOURCE
#include <dlfcn.h>
#include <errno.h>
#include <pthread.h>
#include <stdatomic.h>
#include <stdlib.h>
#include <unistd.h>

static atomic_long made, started;
static long refused, refused_thread;

static long number_in(const char *name) {
    const char *text = getenv(name);
    return text ? atol(text) : 0;
}

__attribute__((constructor)) static void begin(void) {
    refused = number_in("REFUSED");
    refused_thread = number_in("REFUSED_THREAD");
    alarm(60);
}

static int is_the_one(atomic_long *asked, long which) {
    return atomic_fetch_add(asked, 1) + 1 == which;
}

void *malloc(size_t size) {
    static void *(*next)(size_t);
    if (!next) next = (void *(*)(size_t))dlsym(RTLD_NEXT, "malloc");
    return is_the_one(&made, refused) ? NULL : next(size);
}

void *realloc(void *block, size_t size) {
    static void *(*next)(void *, size_t);
    if (!next) next = (void *(*)(void *, size_t))dlsym(RTLD_NEXT, "realloc");
    return is_the_one(&made, refused) ? NULL : next(block, size);
}

int pthread_create(pthread_t *thread, const pthread_attr_t *attributes, void *(*begin)(void *), void *given) {
    static int (*next)(pthread_t *, const pthread_attr_t *, void *(*)(void *), void *);
    if (!next) next = (int (*)(pthread_t *, const pthread_attr_t *, void *(*)(void *), void *))dlsym(RTLD_NEXT, "pthread_create");
    return is_the_one(&started, refused_thread) ? EAGAIN : next(thread, attributes, begin, given);
}
SOURCE
}

# Runs the program once for each line of a file, `STEP BEFORE`: with BEFORE allocations before the step; or `STEP 0 THREAD`: where
# the thread with this number is refused, and no allocation.
run_built() {
    mkdir -- "$folder/shares"
    awk -v refused="$refused" '{
        thread = $3 ? $3 : $1 ~ /^resume/ ? 2 : 0
        printf "REFUSED=%d REFUSED_THREAD=%d ../out/test_memory_refusals %s:%06d\n", $3 ? 0 : refused, thread, $1, $2
    }' "$1" | split -n "r/$(nproc)" - "$folder/shares/"
    for share in "$folder"/shares/*; do
        (cd data && xargs -r -L 1 env LD_PRELOAD="$folder/refuse.so" < "$share" > "$share.said" || true) &
    done
    wait
    cat -- "$folder"/shares/*.said
    rm -r -- "$folder/shares"
}

# The same by the toolchain's `try`.
run_tried() {
    mkdir -- "$folder/cases"
    while read -r step before; do
        : > "$folder/cases/$step.$before"
        printf '%s:%06d\n' "$step" "$before" > "$folder/cases/$step.$before.args"
    done < "$1"
    local given=() file
    for file in setup.json log report retries-setup.json retries-log retries-report; do
        given+=(--data "$file=data/$file")
    done
    rt try --fail-alloc "$refused" "${given[@]}" --cases "$folder/cases" 2> "$folder/said"
    rm -r -- "$folder/cases"
}

# The lines of the steps among what the runs print.
answers() {
    { if $built; then run_built "$1"; else run_tried "$1"; fi; } | grep -E '^[a-z_0-9]+ (right|refused|wrong|untried) ' || {
        cat -- "$folder/said" >&2
        return 1
    }
}

if $built; then build; fi

# How many allocations can be made until one is refused, from the beginning of each step on, and from its end on.
for step in "${steps[@]}"; do
    printf '%s 0\n%s 999999\n' "$step" "$step"
done > "$folder/measured"
answers "$folder/measured" > "$folder/rooms"

declare -A runs
for step in "${steps[@]}"; do
    beginning=$(awk -v step="$step" '$1 == step && $4 == "none" { print $3 }' "$folder/rooms")
    end=$(awk -v step="$step" '$1 == step && $4 != "none" { print $4 }' "$folder/rooms")
    runs[$step]=0
    for ((before = beginning; before > end - spare && before >= 0; before--)); do
        if ((before <= end || (beginning - before) % every == 0)); then
            echo "$step $before"
            runs[$step]=$((runs[$step] + 1))
        fi
    done >> "$folder/refusals"
done
answers "$folder/refusals" > "$folder/answers"

# A setup whose tokens can't be read for want of memory is read as a document.
made_good=(read_setup read_setup_of_retries)

failed=0
for step in "${steps[@]}"; do
    is_made_good=0
    [[ " ${made_good[*]} " == *" $step "* ]] && is_made_good=1
    awk -v step="$step" -v runs="${runs[$step]}" -v is_made_good="$is_made_good" '
        $1 == step { answered++; said[$2]++; if ($4 == "none") { met++; said_then[$2]++ } }
        END {
            wrong = runs - said["right"] - said["refused"]
            printf "%s: %d refusals met, %d answered so, %d right, %d wrong or missing; %d runs met none\n", step, met,
                said_then["refused"], said_then["right"], wrong, answered - met
            exit wrong != 0 || met == 0 || met == answered || (said["refused"] == 0) != is_made_good || said["refused"] != said_then["refused"]
        }' "$folder/answers" || failed=1
done

# Each thread of the steps on several batches, and a few after the last. Where batches are executed one by one, each starts a thread a
# worker; where the report is written, the first does so for all. Calls that are run in place start none, so none can be refused.
threads_refused() {
    for step in "${steps[@]}"; do
        workers=$(cut -d_ -f2 <<< "$step")
        for ((thread = 1; thread <= 5 * workers + 3; thread++)); do
            if ((thread > 5 * workers || thread % every == 1 % every)); then
                echo "$step 0 $thread"
            fi
        done
    done
}

mapfile -t steps < <(printf '%s\n' "${steps[@]}" | grep -E '^(batches|report|retries)_' || true)
if $built && [ ${#steps[@]} -ne 0 ]; then
    threads_refused > "$folder/refusals"
    answers "$folder/refusals" > "$folder/answers"
    for step in "${steps[@]}"; do
        awk -v step="$step" -v runs="$(grep -c "^$step " "$folder/refusals")" '
            $1 == step { said[$2]++ }
            END {
                wrong = runs - said["right"] - said["refused"]
                printf "%s: %d threads refused, %d wrong or missing; %d runs met none\n", step, said["refused"], wrong, said["right"]
                starts_none = step ~ /_in_place/
                exit wrong != 0 || (said["refused"] == 0) != starts_none || said["right"] == 0
            }' "$folder/answers" || failed=1
    done
fi
exit "$failed"
