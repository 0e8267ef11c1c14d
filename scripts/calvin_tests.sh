#!/usr/bin/env bash
# Tests what the script `calvin` does after `try`, with a stub in the place of the toolchain's command `rt`:
#
#     scripts/calvin_tests.sh
#
# It ends with how many tests passed, and with status 1 where one failed.
set -uo pipefail
cd -- "$(dirname -- "$0")/.." || exit
top=$PWD
work=$(mktemp -d)
trap 'rm -rf -- "$work"' EXIT
passed=0 failed=0

# Counts what comes of a test, which is a command.
check() {
    local name=$1
    if "${@:2}"; then
        passed=$((passed + 1))
    else
        failed=$((failed + 1))
        echo "failed: $name"
    fi
}

# The stub says where it runs, its words, the files that it is given and standard input, and ends with status 7.
mkdir "$work/bin" "$work/here"
cat > "$work/bin/rt" <<'END'
#!/usr/bin/env bash
basename -- "$PWD"
printf '<%s>' "$@" | sed -E 's/=[^>]*>/=..>/g'
echo
for word in "$@"; do
    [[ $word == file-*=* ]] && head -c 9 -- "${word#*=}" && echo
done
cat
exit 7
END
chmod +x "$work/bin/rt"

# Runs `calvin try` with these words on a log, from another folder, with the stub on the path.
try() {
    (cd -- "$work/here" && PATH=$work/bin:$PATH "$top/calvin" try "$@" <<< 'the log') > "$work/out" 2> "$work/err"
}
kept() { (cd -- "$top" && find crates -path '*/out*' | LC_ALL=C sort); }
printed() { diff <(printf '%s\n' "$@") "$work/out"; }
ends_with() { [[ $1 == "$2" ]]; }
says() { grep -q -F -- "$1" "$work/err"; }
says_nothing_of_a_try() { ! says 'a try'; }
asked_nobody() { [[ ! -s $work/out ]]; }

kept > "$work/before"
cp examples/bank.json "$work/here/bank.json"
try run --workers 2 bank.json
check 'the status is that of the run' ends_with $? 7
check 'the words, a copy of the setup and the log go to the toolchain, in the folder of the program' printed cli \
    '<try><--seconds><400><--data><file-1=..><--><run><--workers><2><file-1>' '["setup",' 'the log'
check 'it says that nothing is proved' says 'a try, which proves nothing'

cp "$top/examples/two-pays.log" "$work/here/report"
try replicas bank.json report
check 'two files are two copies' printed cli \
    '<try><--seconds><400><--data><file-1=..><--data><file-2=..><--><replicas><file-1><file-2>' \
    '["setup",' '["call","' 'the log'

touch "$work/here/run" "$work/here/2"
try run --lanes 2 bank.json
check 'a command and a number are no files' printed cli \
    '<try><--seconds><400><--data><file-1=..><--><run><--lanes><2><file-1>' '["setup",' 'the log'

cp examples/shop.calvin "$work/here/shop.calvin"
try check shop.calvin
check 'a setup in the notation is translated' printed cli \
    '<try><--seconds><400><--data><file-1=..><--><check><file-1>' '["setup",' 'the log'
check 'nothing is kept' diff <(kept) "$work/before"

try --help
check 'help has status 2' ends_with $? 2
check 'help is the stored text' diff "$work/err" cases/command-line/help/stderr
check 'help needs no toolchain' asked_nobody
check 'help is no try' says_nothing_of_a_try

try run gone.json
check 'a setup that is not there has status 4' ends_with $? 4
check 'its path is told' says 'cannot read gone.json'

if ! (PATH=/usr/bin:/bin && command -v rt) > /dev/null; then
    (cd -- "$work/here" && PATH=/usr/bin:/bin "$top/calvin" try run bank.json) > "$work/out" 2> "$work/err" < /dev/null
    check 'without the toolchain the status is 1' ends_with $? 1
    check 'and it says so' says 'is not on the path'
else
    echo 'left out: a path without the toolchain, since it is in /usr/bin or /bin here'
fi

echo "calvin: $passed tests passed, $failed failed"
((failed == 0))
