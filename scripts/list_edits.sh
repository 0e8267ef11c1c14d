#!/usr/bin/env bash
# Prints the list of the edits that must be refused, as a page, from the names of their folders and files alone:
#
#     scripts/list_edits.sh
set -euo pipefail
cd -- "$(dirname -- "$0")/.."

# A line for each edit: its crate, its function, whether the gate tries it, its name.
edits() {
    local file name
    for file in crates/*/must-fail/{together,more}/*.md; do
        [[ -f $file ]] || continue
        name=$(basename -- "${file%.*}")
        echo "$(cut -d/ -f2 <<< "$file") ${name%%__*} $([[ $file == */more/* ]] && echo beside || echo gate) ${name#*__}"
    done | LC_ALL=C sort
}

cat << 'END'
# Edits that must be refused

Each crate's folder `must-fail/` holds edits. Each makes one wrong body of a function, or turns a definition, and
the prover must refuse it by the crate's own contracts. Those in `must-fail/together/` are tried by the gate: one of
each public function, and beside it the wrong bodies that such an executor is most easily written with, as a lock that
is overtaken, a reply out of order or a job that is claimed twice. They are tried many in one check, where each is told
apart by the open goals of its own function. Those in `must-fail/more/` the gate leaves out, and `scripts/edits.py more`
tries them. A file is named after the function whose meaning it turns, and after what it does.
`scripts/list_edits.sh` prints this list from those names.

Without an edit in the gate are laws, which have no body; `Entry::request`, `Attempts::batch`, `RowStore::catalogue`, `Loan::catalogue`, `KeptDigests::new`,
`Job::entry`, `Scheduler::rows`, `Proc::clone`, `Procs::new`, `ProcFault::from` and `LineFault::from`, for which no other answer can be written down with what their
crates have; `procs` and `rows` of both engines, `Engine::watcher`, `Engine::run_alone` and `Engine::execute_in`, and `make_place`, `lend_row` and `share_row` of `shelves`, whose edits
are in `must-fail/more/`; each other `from` of a fault, which says only which refusal is answered; the orders of `RowName` and of
`Resource`, which are derived; `calvin_c_feed`, `calvin_c_end` and `calvin_c_fault`, whose edits are in `must-fail/more/`;
`calvin_c_close`, which promises no more than to return; and `NoMemory::from`, `count_places`, `RowStore::count_rows`, `Gate::is_open`, `OpenGate::enter`, `WorkerPool::new`, `WorkerPool::runtime`, `Silence::hear` and `Display`,
which promise nothing.

| crate | function | in the gate | beside it |
|---|---|---|---|
END
edits | awk '
    function row() { if (key != "") printf "| `%s` | `%s` | %s | %s |\n", crate, name, gate, other }
    $1 " " $2 != key { row(); key = $1 " " $2; crate = $1; name = $2; gate = other = "" }
    $3 == "gate" { gate = gate (gate == "" ? "" : ", ") $4; tried++ }
    $3 == "beside" { other = other (other == "" ? "" : ", ") $4; left++ }
    END { row(); printf "| all | | %d | %d |\n", tried, left }'
