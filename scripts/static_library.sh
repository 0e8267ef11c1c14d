#!/usr/bin/env bash
# Builds the static library and the examples in C and in Rust over it, and compares what they print with what the program prints:
#
#     scripts/static_library.sh [PROGRAM]      PROGRAM is crates/cli/out/cli where none is named
#
# Each setup in examples/ that has a log and a report is run by each of them, fed at once and in pieces of 1 and of 7 bytes, and
# so are a log with a fault and a setup with one: standard output, standard error and the exit status are the program's. These
# logs are run by single calls, too (`scripts/session_calls.c`). The example in C is fed the logs of the stored cases in pieces of
# 1, 7 and 4096 bytes, and leaves what is stored with them. Then `scripts/refuse_memory.sh --library` runs a log once for each of
# its allocations, which fails, alone or with all that follow. The archive is proved and built first, over what is built already.
# All in C needs `cc`, and the example in Rust `cargo` and `cc`, which links it; where one of these isn't there, the script says
# what it leaves out. It ends with how many runs agree, and with status 1 where one doesn't. `scripts/session_rows.c` prints the
# replies and rows of each example as values, which are the report's and those of `calvin rows`. The tests of the bindings for
# Python and for Rust are run, too, and those of examples/store.
set -euo pipefail
cd -- "$(dirname -- "$0")/.."
program=$(readlink -f -- "${1-crates/cli/out/cli}")
archive=$PWD/crates/calvin_c/out/libcalvin_c.a
heap=$(dirname -- "$(rt doc)")/c/liblibc_c.a

work=$(mktemp -d)
trap 'rm -rf -- "$work"' EXIT

(cd crates/calvin_c && rt lib) > "$work/built" 2>&1 || { cat -- "$work/built" >&2; exit 1; }

languages=()
if command -v cc > /dev/null; then
    cc -std=c99 -O2 -Wall -Wextra -Werror -Iinclude examples/c/replay.c "$archive" "$heap" -o "$work/replay-c"
    for tool in session_calls session_rows; do
        cc -std=c99 -O2 -Wall -Wextra -Werror -Iinclude "scripts/$tool.c" "$archive" "$heap" -o "$work/$tool"
        ! command -v clang > /dev/null || clang -std=c99 -Wall -Wextra -Werror -fsyntax-only -Iinclude "scripts/$tool.c"
    done
    languages+=(c)
else
    echo "there is no cc here: the example in C is left out, and so are refusals of memory" >&2
fi
if command -v cc > /dev/null && command -v cargo > /dev/null; then
    CARGO_TARGET_DIR=$work/target RUSTFLAGS="-C link-arg=$archive -C link-arg=$heap" \
        cargo build --quiet --release --offline --manifest-path examples/rust/Cargo.toml
    cp -- "$work/target/release/replay" "$work/replay-rust"
    languages+=(rust)
else
    echo "there is no cargo with a cc here: the example in Rust is left out" >&2
fi

# A setup and a log of the examples with a fault each.
sed 's/"setup"/"setups"/' examples/bank.json > "$work/no-setup.json"
{ cat examples/two-batches.log; printf '["call","pay",[1]]\n["cut"]\n'; } > "$work/fault.log"

runs=()
for report in examples/*.report; do
    runs+=("${report%.report}.json ${report%.report}.log")
done
runs+=("examples/bank.json $work/fault.log" "examples/bank.json examples/two-batches.log" "$work/no-setup.json examples/two-pays.log")

# What a command prints on the log: standard output, standard error and the exit status, into files of a name.
record() {
    local name=$1 log=$2 status=0
    "${@:3}" < "$log" > "$work/$name.out" 2> "$work/$name.err" || status=$?
    printf '%s\n' "$status" > "$work/$name.status"
}

agree=0 differ=0
for run in "${runs[@]}"; do
    read -r setup log <<< "$run"
    record wanted "$log" "$program" run "$setup"
    for language in "${languages[@]}"; do
        for piece in 1 7 1000000; do
            record given "$log" "$work/replay-$language" "$setup" "$piece"
            if cmp -s "$work/wanted.out" "$work/given.out" && cmp -s "$work/wanted.err" "$work/given.err" &&
                cmp -s "$work/wanted.status" "$work/given.status"; then
                agree=$((agree + 1))
            else
                differ=$((differ + 1))
                echo "examples/$language: on $setup and $log in pieces of $piece bytes it prints something else than the program"
            fi
        done
    done
done
# The tests of the bindings.
mkdir -p "$work/lib"
if scripts/library.sh "$work/lib"; then
    CALVIN_LIBRARY=$work/lib/libcalvin.so bindings/python/tests.py || differ=$((differ + 1))
    CALVIN_LIBRARY=$work/lib/libcalvin.so examples/store/tests.py || differ=$((differ + 1))
    if command -v cargo > /dev/null; then
        CALVIN_LIB=$work/lib CARGO_TARGET_DIR=$work/target cargo test --quiet --offline --manifest-path bindings/rust/Cargo.toml ||
            differ=$((differ + 1))
    fi
else
    differ=$((differ + 1))
fi

# Each log by single calls, with a line that has a fault between them, and with a last cut: the program's report on the log with that
# cut alone.
if [[ -x $work/session_calls ]]; then
    for report in examples/*.report; do
        setup=${report%.report}.json log=${report%.report}.log
        { cat "$log"; printf '["cut"]\n'; } > "$work/cut.log"
        { printf '["call",1]\n'; cat "$log"; } > "$work/calls.log"
        record wanted "$work/cut.log" "$program" run "$setup"
        record given "$work/calls.log" "$work/session_calls" "$setup"
        if cmp -s "$work/wanted.out" "$work/given.out" && cmp -s "$work/wanted.status" "$work/given.status" &&
            [[ $(cat "$work/given.err") == 'fault 32 line 1' ]]; then
            agree=$((agree + 1))
        else
            differ=$((differ + 1))
            echo "by single calls $setup and $log print something else than the program"
            cat "$work/given.err"
        fi
    done
fi

# Replies and rows as values: the reply lines of the report, the row text that `calvin rows` prints, and its digest.
if [[ -x $work/session_rows ]]; then
    for report in examples/*.report; do
        setup=${report%.report}.json log=${report%.report}.log
        tables=$(python3 -c 'import json, sys; print(",".join(table[0] for table in json.load(open(sys.argv[1]))[2][2]))' "$setup")
        {
            grep '^[0-9]' "$report"
            printf '\n'
            "$program" rows "$setup" < "$log"
            printf '\n%s\n' "$(tail -n 1 "$report" | cut -d ' ' -f 4)"
            "$program" rows --document "$setup" < "$log"
        } > "$work/wanted.rows"
        if "$work/session_rows" "$setup" "$tables" < "$log" > "$work/given.rows" && cmp "$work/wanted.rows" "$work/given.rows"; then
            agree=$((agree + 1))
        else
            differ=$((differ + 1))
            echo "as values $setup and $log have other replies or rows"
        fi
    done
fi
if [[ -x $work/replay-c ]]; then
    scripts/cases.py --sessions "$work/replay-c" || differ=$((differ + 1))
    scripts/refuse_memory.sh --library || differ=$((differ + 1))
fi
echo "$agree runs of the examples over the static library agree, $differ comparisons don't"
((differ == 0))
