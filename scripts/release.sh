#!/usr/bin/env bash
# Packs what scripts/install.sh installs, for machines that have no toolchain:
#
#     scripts/release.sh [FOLDER]      FOLDER is out/release where none is named
#
# FOLDER gets calvin-VERSION-linux-x86_64.tar.gz and SHA256SUMS beside it. In the archive is one folder of the same name, with the
# installed files, a RELEASE.md that names the commit, the toolchain and the last line of the gate, and SHA256SUMS of all files.
# The same commit and toolchain give the same bytes.
#
# It refuses, with status 1, where the checkout has changes, or where the gate has not passed on this commit: scripts/gate.sh leaves
# out/gate.passed where it has. It ends with a line that names the archive and its digest.
set -euo pipefail
cd -- "$(dirname -- "$0")/.."
say() { printf 'release: %s\n' "$*" >&2; }

if (($# > 1)) || [[ ${1-} == -* ]]; then
    say 'usage: scripts/release.sh [FOLDER]'
    exit 2
fi
passed=out/gate.passed
commit=$(git rev-parse HEAD)
if [[ -n $(git status --porcelain) ]]; then
    say 'the checkout has changes that are not committed'
    exit 1
fi
if [[ ! -f $passed ]] || [[ $(sed -n 1p "$passed") != "$commit" ]]; then
    say "the gate has not passed on $commit: scripts/gate.sh"
    exit 1
fi
toolchain=$(sed -n 2p "$passed") last=$(sed -n 3p "$passed")

work=$(mktemp -d)
trap 'rm -rf -- "$work"' EXIT
scripts/install.sh "$work/calvin" > /dev/null
version=$("$work/calvin/bin/calvin" --version 2>&1 | awk '{ print $NF }') || true
name=calvin-$version-linux-x86_64
mv -- "$work/calvin" "$work/$name"
cat > "$work/$name/RELEASE.md" << END
# calvin $version for Linux on x86-64

Built and proved from commit $commit by $toolchain.

The gate of that commit ended with: $last.

\`bin/calvin\` needs libc alone. \`bin/calvin run SETUP < LOG\` runs a log; \`man -l share/man/man1/calvin.1\` is its page. Programs in
C take \`include/calvin.h\` and \`lib/libcalvin.a\`, or \`pkg-config --cflags --libs calvin\` with \`lib/pkgconfig\` in
\`PKG_CONFIG_PATH\`. \`sha256sum -c SHA256SUMS\` checks the files.
END
(cd -- "$work/$name" && find . -type f ! -name SHA256SUMS -printf '%P\n' | LC_ALL=C sort | xargs sha256sum > SHA256SUMS)

folder=${1-out/release}
mkdir -p -- "$folder"
tar -C "$work" --sort=name --owner=0 --group=0 --numeric-owner --mtime="@$(git log -1 --format=%ct)" -cf - "$name" |
    gzip -n > "$folder/$name.tar.gz"
(cd -- "$folder" && sha256sum "$name.tar.gz" > SHA256SUMS)
echo "$folder/$name.tar.gz has $(wc -c < "$folder/$name.tar.gz") bytes and the digest $(cut -c1-64 "$folder/SHA256SUMS")"
