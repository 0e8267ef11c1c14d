#!/usr/bin/env bash
# Builds the programs that the executor is measured beside, each where what it needs is installed:
#
#     bench/build.sh [FOLDER]
#
# FOLDER is bench/out where none is named. It says what was built and what is missing, and ends with status 1 where a
# compiler refuses a program. bench/README.md says which packages of Debian have what is needed; nothing is fetched.
set -uo pipefail
here=$(cd -- "$(dirname -- "$0")" && pwd)
out=$(realpath -m -- "${1:-$here/out}")
# The folder that Debian's package has its sources in, and those of other crates beside them.
registry=$(dpkg -L librust-serde-json-dev 2>/dev/null | sed -n 's|/serde_json-[^/]*/Cargo.toml$||p' | head -n 1)
mkdir -p -- "$out"
built=() missing=()

# Whether all of these are there: paths, libraries as `-lNAME`, and commands.
has() {
    local one
    for one in "$@"; do
        case $one in
            */*) compgen -G "$one" >/dev/null || return ;;
            -l*) pkg-config --exists "${one#-l}" 2>/dev/null || return ;;
            *) command -v "$one" >/dev/null || return ;;
        esac
    done
}

plain() {
    cargo build --quiet --release --offline --manifest-path "$here/plain/Cargo.toml" --target-dir "$out/cargo" \
        --config 'source.crates-io.replace-with="debian"' --config "source.debian.directory=\"$registry\"" &&
        cp -- "$out/cargo/release/plain" "$out/plain"
}

# Compiles a program in C of its own folder and of what the clients share.
client() {
    local name=$1
    shift
    compiled "$name" -I"$here/shared" "$here/shared"/*.c "$@"
}

# Compiles a program in C of its own folder and of further words.
compiled() {
    local name=$1
    shift
    cc -std=c17 -D_GNU_SOURCE -O2 -Wall -Wextra -Werror -o "$out/$name" "$here/$name"/*.c "$@"
}

# Builds a program, or notes that it is missing: its name, what it needs, --, and how it is built.
program() {
    local name=$1 needs=()
    shift
    while [[ $1 != -- ]]; do
        needs+=("$1")
        shift
    done
    shift
    if ! has "${needs[@]}"; then
        rm -f -- "$out/$name"
        missing+=("$name")
    elif "$@"; then
        built+=("$name")
    else
        echo "$name can't be built" >&2
        exit 1
    fi
}

program taken cc -- compiled taken
program plain cargo "$registry/serde_json-*" "$registry/sha2-*" -- plain
program sqlite cc -lsqlite3 -- client sqlite -lsqlite3
program redis cc -lhiredis redis-server -- client redis -lhiredis
echo "built in $out: ${built[*]:-nothing}; missing: ${missing[*]:-nothing}"
