#!/usr/bin/env bash
# A replicated store in small, on this machine: etcd keeps one log in three members, and replicas feed it to `calvin run`.
#
#     examples/replicated/run.sh
#
# It needs `etcd` and `etcdctl` (in Debian the packages etcd-server and etcd-client) and the ports 23791 to 23793 and 23801 to
# 23803 of the loopback. docs/replication.md explains it. It says what it sees, ends all that it has started, and ends with
# status 1 where replicas that must agree don't.
set -uo pipefail

top=$(cd -- "$(dirname -- "${BASH_SOURCE[0]}")/../.." && pwd)
setup=$top/examples/bank.json
work=$(mktemp -d)
members=(1 2 3)
declare -A member_process replica_process watch_process
export ETCDCTL_ENDPOINTS=http://127.0.0.1:23791,http://127.0.0.1:23792,http://127.0.0.1:23793

end_all() {
    trap - EXIT
    kill -KILL "${replica_process[@]}" "${watch_process[@]}" "${member_process[@]}" 2>/dev/null
    wait 2>/dev/null
    rm -rf -- "$work"
}
trap end_all EXIT
trap 'exit 130' INT TERM HUP

fail() {
    printf 'FAILED: %s\n' "$*"
    exit 1
}

# Waits until a command succeeds, for a minute at most.
wait_for() {
    local deadline=$((SECONDS + 60))
    until "$@" >/dev/null 2>&1; do
        ((SECONDS < deadline)) || fail "waited a minute for: $*"
        sleep 0.05
    done
}

start_member() {
    local cluster=m1=http://127.0.0.1:23801,m2=http://127.0.0.1:23802,m3=http://127.0.0.1:23803
    etcd --name "m$1" --data-dir "$work/m$1" --initial-cluster "$cluster" --initial-cluster-state new \
        --listen-client-urls "http://127.0.0.1:2379$1" --advertise-client-urls "http://127.0.0.1:2379$1" \
        --listen-peer-urls "http://127.0.0.1:2380$1" --initial-advertise-peer-urls "http://127.0.0.1:2380$1" \
        >"$work/m$1.out" 2>&1 &
    member_process[$1]=$!
}

# Puts an entry of the log where its name isn't there yet.
put_once() {
    etcdctl txn <<END
create("log/$1") = "0"

put log/$1 "${2//\"/\\\"}"


END
}

# Appends an entry to the log, under a name that no other entry has. The revision that etcd gives it is its place. An answer that was
# lost, as while the members elect a leader, is asked for again.
append() {
    wait_for put_once "$1" "$2"
}

# Starts a replica with options of its own: it follows the log from its first entry on, in the order of the revisions, and runs it
# on a setup, up to the entry `end`. Of each event etcdctl prints three lines: what was done, the name and the value.
start_replica() {
    local name=$1 rows=$2
    shift 2
    rm -f -- "$work/$name.events" "$work/$name.log"
    mkfifo -- "$work/$name.events" "$work/$name.log"
    etcdctl watch --prefix log/ --rev=1 >"$work/$name.events" 2>/dev/null &
    watch_process[$name]=$!
    sed --unbuffered --quiet '0~3 { /^end$/ q; p }' <"$work/$name.events" >"$work/$name.log" &
    "$top/calvin" run "$@" "$rows" <"$work/$name.log" >"$work/$name.report" 2>"$work/$name.errors" &
    replica_process[$name]=$!
}

stop_replica() {
    {
        kill -KILL "${replica_process[$1]}" "${watch_process[$1]}"
        wait "${replica_process[$1]}" "${watch_process[$1]}"
    } 2>/dev/null
    unset "replica_process[$1]" "watch_process[$1]"
}

# The line that a replica's report has for a batch, once it is there.
batch_line() {
    grep -a "^batch $2 " "$work/$1.report"
}

# Whether a replica's report and the first one's agree up to a batch.
agrees() {
    wait_for batch_line one "$2"
    wait_for batch_line "$1" "$2"
    cmp -s <(sed "/^batch $2 /q" "$work/one.report") <(sed "/^batch $2 /q" "$work/$1.report")
}

compare() {
    local batch=$1 name
    shift
    for name in "$@"; do
        agrees "$name" "$batch" || fail "batch $batch: replica $name differs from replica one"
    done
    printf 'batch %s: one agrees with %s\n' "$batch" "$*"
}

# Three clients append calls side by side, and then the batch is cut.
append_batch() {
    local client call clients=()
    for client in a b c; do
        for call in 1 2 3 4 5 6; do
            append "$1-$client-$call" "[\"call\",\"pay\",[$((1 + call % 2)),$((2 - call % 2)),$call]]"
        done &
        clients+=($!)
    done
    for client in "${clients[@]}"; do wait "$client" || fail "a client's call was not taken"; done
    append "$1-cut" '["cut"]'
}

command -v etcd etcdctl >/dev/null || fail "etcd and etcdctl are needed: the packages etcd-server and etcd-client of Debian"
"$top/calvin" check "$setup" || fail "the setup"
for member in "${members[@]}"; do start_member "$member"; done
wait_for etcdctl endpoint health
echo "the log is kept by three members of etcd"

sed 's/\["acct", *1, *\[100\]\]/["acct", 1, [101]]/' "$setup" >"$work/changed.json"
cmp -s "$setup" "$work/changed.json" && fail "no row was changed"
start_replica one "$setup" --workers 1 --lanes 1 --coarsen 0
start_replica two "$setup" --workers 4 --lanes 8
start_replica three "$setup" --workers 16 --lanes 64 --coarsen 65535 --arena 1
start_replica changed "$work/changed.json"

append_batch 1
compare 1 two three
if agrees changed 1; then fail "a replica with another row was not told apart"; fi
echo "batch 1: one differs from changed, which began with another row and is stopped"
stop_replica changed

append_batch 2
compare 2 two three

stop_replica two
{
    kill -KILL "${member_process[3]}"
    wait "${member_process[3]}"
} 2>/dev/null
unset "member_process[3]"
echo "replica two and a member of etcd are killed"

append_batch 3
compare 3 three
append_batch 4
compare 4 three

start_replica two "$setup" --workers 2
compare 4 two
echo "replica two was started anew, with other settings, and has caught up from the log"

append_batch 5
compare 5 two three

append end end
for name in one two three; do
    wait "${replica_process[$name]}" || fail "replica $name ended with $?: $(cat -- "$work/$name.errors")"
done
for name in two three; do
    cmp -- "$work/one.report" "$work/$name.report" || fail "the report of replica $name differs"
done
printf 'the log has ended: three reports of %s calls are the same, byte for byte\n' "$(sed -n 's/^end \([0-9]*\) .*/\1/p' "$work/one.report")"
