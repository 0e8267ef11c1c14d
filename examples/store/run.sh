#!/usr/bin/env bash
# A replicated store that answers, on this machine: etcd keeps one log in three members, and three servers take calls, put them into
# the log and execute it.
#
#     examples/store/run.sh [SECONDS]
#
# Clients call for SECONDS (20). Meanwhile one server is killed and started from the rows of another, over a log that has been
# compacted; and the leader of etcd is killed. At the end each acknowledged call must be there once, and all servers must have the
# same rows. README.md beside it explains it.
#
# It needs `etcd` and `etcdctl` (in Debian the packages etcd-server and etcd-client), Python, the library that CALVIN_LIBRARY
# names or that `rt lib` in crates/calvin_c has left for scripts/library.sh, and the ports 23791 to 23793, 23801 to 23803 and 24791 to
# 24793 of the loopback. It ends all that it has started, and ends with status 1 where something is wrong.
set -uo pipefail

here=$(cd -- "$(dirname -- "${BASH_SOURCE[0]}")" && pwd)
top=$(cd -- "$here/../.." && pwd)
seconds=${1-20}
work=$(mktemp -d)
members=(1 2 3)
servers=(one two three)
declare -A member_process server_process port=([one]=24791 [two]=24792 [three]=24793)
export ETCDCTL_API=3 ETCDCTL_ENDPOINTS=http://127.0.0.1:23791,http://127.0.0.1:23792,http://127.0.0.1:23793

end_all() {
    trap - EXIT
    kill -KILL "${server_process[@]}" "${member_process[@]}" ${load:+"$load"} 2>/dev/null
    wait 2>/dev/null
    rm -rf -- "$work"
}
trap end_all EXIT
trap 'exit 130' INT TERM HUP

fail() {
    printf 'FAILED: %s\n' "$*"
    cat -- "$work"/*.errors
    exit 1
}

# Waits until a command succeeds, for a minute at most.
wait_for() {
    local deadline=$((SECONDS + 60))
    until "$@" >/dev/null 2>&1; do
        ((SECONDS < deadline)) || fail "waited a minute for: $*"
        sleep 0.05
    done
}

start_member() {
    local cluster=m1=http://127.0.0.1:23801,m2=http://127.0.0.1:23802,m3=http://127.0.0.1:23803
    etcd --name "m$1" --data-dir "$work/m$1" --initial-cluster "$cluster" --initial-cluster-state new \
        --listen-client-urls "http://127.0.0.1:2379$1" --advertise-client-urls "http://127.0.0.1:2379$1" \
        --listen-peer-urls "http://127.0.0.1:2380$1" --initial-advertise-peer-urls "http://127.0.0.1:2380$1" \
        >"$work/m$1.out" 2>&1 &
    member_process[$1]=$!
}

start_server() {
    : >"$work/$1.said"
    "$here/server.py" --name "$1" --port "${port[$1]}" --etcd "$ETCDCTL_ENDPOINTS" --rows "$work/$1.rows" --batches 100 \
        >"$work/$1.said" 2>>"$work/$1.errors" &
    server_process[$1]=$!
    wait_for grep -q begins "$work/$1.said"
    cat -- "$work/$1.said"
}

# Kills a process of ours, and doesn't wait for its last words.
kill_at_once() {
    {
        kill -KILL "$1"
        wait "$1"
    } 2>/dev/null
}

# The number of the member that leads.
leader() {
    local member
    for member in "${members[@]}"; do
        ETCDCTL_ENDPOINTS=http://127.0.0.1:2379$member etcdctl endpoint status --write-out json | python3 -c '
import json, sys
status = json.load(sys.stdin)[0]["Status"]
sys.exit(status["leader"] != status["header"]["member_id"])' && echo "$member"
    done 2>/dev/null
}

# The revision of the rows that a server has written.
revision() {
    head -n 1 -- "$work/$1.rows" | cut -d ' ' -f 1
}

command -v etcd etcdctl >/dev/null || fail "etcd and etcdctl are needed: the packages etcd-server and etcd-client of Debian"
if [[ -z ${CALVIN_LIBRARY-} ]]; then
    mkdir -- "$work/lib"
    "$top/scripts/library.sh" "$work/lib" || exit 1
    export CALVIN_LIBRARY=$work/lib/libcalvin.so
fi

for member in "${members[@]}"; do start_member "$member"; done
wait_for etcdctl endpoint health
echo "the log is kept by three members of etcd"
for server in "${servers[@]}"; do start_server "$server"; done

"$here/load.py" --seconds "$seconds" "${port[@]}" >"$work/load.said" 2>"$work/load.errors" &
load=$!
sleep "$((seconds / 4))"

kill_at_once "${server_process[three]}"
rm -f -- "$work/three.rows"
echo "server three is killed, and its rows are gone"
wait_for test -s "$work/one.rows"
cp -- "$work/one.rows" "$work/three.rows"
etcdctl compact "$(revision three)" >/dev/null || fail "the log was not compacted"
echo "the rows of server one are copied, and the log is compacted up to their revision, $(revision three)"
start_server three
sleep "$((seconds / 4))"

member=$(leader)
[[ -n $member ]] || fail "no member of etcd leads"
kill_at_once "${member_process[$member]}"
unset "member_process[$member]"
echo "member $member of etcd is killed, which led; the other two elect a leader"

wait "$load"
status=$?
load=
cat -- "$work/load.said"
((status == 0)) || fail "the clients found something wrong"
