#!/usr/bin/env bash
# Makes the library for C whole, from the archive that `rt lib` in crates/calvin_c leaves and the toolchain's that it needs:
#
#     scripts/library.sh FOLDER      puts libcalvin.a and libcalvin.so into FOLDER
#
# Both need libc alone. It needs `ar` and `cc`, and says what is missing with status 1.
set -euo pipefail
cd -- "$(dirname -- "$0")/.."
if (($# != 1)) || [[ $1 == -* ]]; then
    echo 'usage: scripts/library.sh FOLDER' >&2
    exit 2
fi
for tool in ar cc; do
    command -v "$tool" > /dev/null || { echo "library: there is no $tool here" >&2; exit 1; }
done
archive=crates/calvin_c/out/libcalvin_c.a heap=$(dirname -- "$(rt doc)")/c/liblibc_c.a
[[ -e $archive ]] || { echo "library: $archive is not built: (cd crates/calvin_c && rt lib)" >&2; exit 1; }

work=$(mktemp -d)
trap 'rm -rf -- "$work"' EXIT
ar -M << END
CREATE $work/libcalvin.a
ADDLIB $archive
ADDLIB $heap
SAVE
END
cc -shared -o "$work/libcalvin.so" -Wl,-soname,libcalvin.so -Wl,--whole-archive "$work/libcalvin.a" -Wl,--no-whole-archive
install -m 644 -- "$work/libcalvin.a" "$1/libcalvin.a"
install -m 644 -- "$work/libcalvin.so" "$1/libcalvin.so"
