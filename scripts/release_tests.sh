#!/usr/bin/env bash
# Tests scripts/install.sh and scripts/release.sh on the built program and the built archive:
#
#     scripts/release_tests.sh
#
# - What is installed: each file, the version that `pkg-config` says, examples/c/replay.c linked with the archive and with the shared
#   object, each over the logs of examples/, and the program by itself in an empty root that has libc alone.
# - What is packed: it is unpacked, its digests hold, and its program runs. Packed again it has the same bytes.
# - What is refused: a checkout with changes, a commit on which the gate has not passed, a program that is older than a source.
#
# It needs cc, ar and pkg-config; the empty root needs the right to call chroot, and is left out, said, without it. It ends with how
# many tests passed, and with status 1 where one failed.
set -uo pipefail
cd -- "$(dirname -- "$0")/.." || exit
work=$(mktemp -d)
trap 'rm -rf -- "$work"' EXIT
passed=0 failed=0

# Counts what comes of a test, which is a command.
try() {
    local name=$1
    if "${@:2}" > "$work/said" 2>&1; then
        passed=$((passed + 1))
    else
        failed=$((failed + 1))
        echo "failed: $name"
        sed 's/^/    /' "$work/said"
    fi
}

# A checkout of its own, with what is built here, so that no test changes this one.
copy=$work/copy
git clone -q . "$copy"
git -C . diff HEAD --binary | git -C "$copy" apply --allow-empty 2> /dev/null
(cd -- "$copy" && git add -A && git -c user.name=test -c user.email=test@localhost commit -qm test --allow-empty)
mkdir -p "$copy"/crates/{cli,calvin_c}/out "$copy/out"
cp crates/cli/out/cli "$copy/crates/cli/out/" && cp crates/calvin_c/out/libcalvin_c.a "$copy/crates/calvin_c/out/" || exit 1
commit=$(git -C "$copy" rev-parse HEAD)
cd -- "$copy" || exit 1

is_installed() {
    scripts/install.sh "$work/prefix" && (cd -- "$work/prefix" && find . -type f | LC_ALL=C sort) | diff - <(printf '%s\n' \
        ./bin/calvin ./include/calvin.h ./lib/libcalvin.a ./lib/libcalvin.so ./lib/pkgconfig/calvin.pc \
        ./share/bash-completion/completions/calvin ./share/calvin/python/calvin.py ./share/calvin/rust/Cargo.toml \
        ./share/calvin/rust/build.rs ./share/calvin/rust/src/lib.rs ./share/man/man1/calvin.1)
}
try 'what is installed' is_installed

has_version() {
    [[ $(PKG_CONFIG_PATH=$work/prefix/lib/pkgconfig pkg-config --modversion calvin) == \
        "$("$work/prefix/bin/calvin" --version 2>&1 | awk '{ print $NF }')" ]]
}
try 'the version that pkg-config says' has_version

# Replays each example by a program that was linked so.
replays() {
    local report
    for report in examples/*.report; do
        "$1" "${report%.report}.json" 7 < "${report%.report}.log" | cmp - "$report" || return
    done
}
is_linked() {
    local flags
    flags=$(PKG_CONFIG_PATH=$work/prefix/lib/pkgconfig pkg-config --cflags --libs calvin)
    # shellcheck disable=SC2086 # the flags are words
    cc -std=c99 -Wall -Wextra -Werror examples/c/replay.c $flags "$@" -o "$work/replay" && replays "$work/replay"
}
try 'a program over the shared object' env LD_LIBRARY_PATH="$work/prefix/lib" bash -c "$(declare -f replays is_linked)
    work='$work' is_linked"
try 'a program over the archive' is_linked -static

has_python() {
    PYTHONPATH=$work/prefix/share/calvin/python python3 -B -c 'import sys
from calvin import Session
with Session.open(open("examples/bank.json", "rb").read()) as session:
    session.feed(open("examples/two-pays.log", "rb").read())
    session.end()
    sys.exit(b"end 2 " not in session.report())'
}
try 'the binding for Python, as installed' has_python

runs_alone() {
    local root=$work/root
    mkdir -p "$root"
    cp "$1" "$root/calvin"
    ldd "$1" | grep -o '/[^ ]*' | while read -r library; do
        mkdir -p "$root$(dirname -- "$library")"
        cp "$library" "$root$library"
    done
    cp examples/bank.json "$root/bank.json"
    chroot "$root" /calvin run /bank.json < examples/two-pays.log | cmp - <("$1" run examples/bank.json < examples/two-pays.log)
}
if chroot / true 2> /dev/null; then
    try 'the program in an empty root' runs_alone "$work/prefix/bin/calvin"
else
    echo 'left out: the empty root, since this user may not call chroot'
fi

is_refused() {
    ! scripts/release.sh "$work/release" && [[ ! -e $work/release ]]
}
rm -f out/gate.passed
try 'a commit on which the gate has not passed is refused' is_refused
printf '%s\n' "$commit" 'toolchain' '3 passed, 0 failed' > out/gate.passed
touch a-change
try 'a checkout with changes is refused' is_refused
rm a-change
printf '%s\n' "${commit/[0-9a-f]/x}" 'toolchain' '3 passed, 0 failed' > out/gate.passed
try 'a commit other than that of the gate is refused' is_refused
printf '%s\n' "$commit" 'toolchain' '3 passed, 0 failed' > out/gate.passed

is_packed() (
    scripts/release.sh "$work/release" && cp -r "$work/release" "$work/first" && scripts/release.sh "$work/release" &&
        diff -r "$work/first" "$work/release" && cd -- "$work/release" && sha256sum -c SHA256SUMS && tar -xzf ./*.tar.gz &&
        cd calvin-*-linux-x86_64 && sha256sum -c SHA256SUMS && grep -q "3 passed, 0 failed" RELEASE.md &&
        bin/calvin run "$copy/examples/bank.json" < "$copy/examples/two-pays.log" | grep -q '^end 2 '
)
try 'what is packed' is_packed

touch crates/cli/src/main.rt
is_too_old() { ! scripts/install.sh "$work/other" && [[ ! -e $work/other ]]; }
try 'a program that is older than a source is refused' is_too_old

echo "releases: $passed tests passed, $failed failed"
((failed == 0))
