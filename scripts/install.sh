#!/usr/bin/env bash
# Puts the built program and the library for C where they belong under a folder:
#
#     scripts/install.sh PREFIX
#
#     bin/calvin                                       the program
#     lib/libcalvin.a, lib/libcalvin.so                the library for C, as an archive and as a shared object
#     lib/pkgconfig/calvin.pc                          its flags, by `pkg-config calvin`, wherever the folder is moved
#     include/calvin.h                                 its declarations
#     share/man/man1/calvin.1                          the manual's page
#     share/bash-completion/completions/calvin         bash's completions
#     share/calvin/python/calvin.py                    the binding for Python
#     share/calvin/rust/                               the binding for Rust, a crate
#
# The program and the archive are taken as they are built: `./calvin --version` builds the first, `rt lib` in crates/calvin_c the
# second. Where one of them isn't there, or is older than a source, nothing is put anywhere and the status is 1. The archive has
# all that it needs but libc. It needs what scripts/library.sh does. It ends with how many files there are.
set -euo pipefail
cd -- "$(dirname -- "$0")/.."
say() { printf 'install: %s\n' "$*" >&2; }

if (($# != 1)) || [[ $1 == -* ]]; then
    say 'usage: scripts/install.sh PREFIX'
    exit 2
fi
program=crates/cli/out/cli
archive=crates/calvin_c/out/libcalvin_c.a

# What is built, and how it is built where it isn't or where a source is newer.
for built in "$program: ./calvin --version" "$archive: (cd crates/calvin_c && rt lib)"; do
    file=${built%%: *}
    if [[ ! -e $file ]]; then
        say "$file is not built: ${built#*: }"
        exit 1
    fi
    newer=$(find crates.txt crates/*/src crates/*/specs crates/*/proofs -newer "$file" -print -quit)
    if [[ -n $newer ]]; then
        say "$file is older than $newer: ${built#*: }"
        exit 1
    fi
done
version=$("$program" --version 2>&1 | awk '{ print $NF }') || true

mkdir -p -- "$1"
prefix=$(cd -- "$1" && pwd)
mkdir -p -- "$prefix"/{bin,include,lib/pkgconfig,share/man/man1,share/bash-completion/completions,share/calvin/python,share/calvin/rust/src}
install -m 755 -- "$program" "$prefix/bin/calvin"
install -m 644 -- include/calvin.h "$prefix/include/calvin.h"
install -m 644 -- docs/calvin.1 "$prefix/share/man/man1/calvin.1"
install -m 644 -- docs/calvin.bash "$prefix/share/bash-completion/completions/calvin"
install -m 644 -- bindings/python/calvin.py "$prefix/share/calvin/python/calvin.py"
install -m 644 -- bindings/rust/{Cargo.toml,build.rs} "$prefix/share/calvin/rust/"
install -m 644 -- bindings/rust/src/lib.rs "$prefix/share/calvin/rust/src/lib.rs"

scripts/library.sh "$prefix/lib"
cat > "$prefix/lib/pkgconfig/calvin.pc" << END
prefix=\${pcfiledir}/../..
libdir=\${prefix}/lib
includedir=\${prefix}/include

Name: calvin
Description: A deterministic transaction executor that is proved to give one answer
Version: $version
Cflags: -I\${includedir}
Libs: -L\${libdir} -lcalvin
END
echo "11 files are in $prefix: calvin $version, its library for C, and its pages"
