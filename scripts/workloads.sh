#!/usr/bin/env bash
# Writes setups and logs into a folder, with which to measure the executor:
#
#     scripts/workloads.sh FOLDER
#
# bank.json       10,000 accounts in 64 partitions, and the procedures of the logs
# transfers.log   20,000 transfers in five batches of 4,000; within a batch no two touch a common account
# computing.log   4,000 calls in one batch, each of which reads an account of its own and goes 900 times
#                 through a loop
# round.json      a ring of 10 rows, each of which names the next, and procedures that follow it, each once with a footprint that
#                 is found and once with the same rows declared
# few.json        the same with 1,000 rows
# many.json       the same with 100,000 rows
# PROCEDURE.log   4,096 calls of `hop`, which follows the ring 10 times, or 64 calls of `walk`, which goes round the ring of 10
#                 rows in 5,000 steps; after `found_` with the footprint found, after `declared_` with these rows declared,
#                 and after `idle_` with them declared and no body. one.log is one call of `found_hop`
# fewer.json      1,000 rows in a table of 2 partitions, and the procedures of the logs below
# more.json       the same with 100,000 rows
# lock_table.log  4,096 calls that lock the table to be written and do nothing
# insert.log      4,096 calls of which each inserts a row, with that row declared; with --coarsen 0 each locks the table
# insert_part.log the same with the row's partition declared
set -euo pipefail

folder=${1:?the folder to write into}
mkdir -p -- "$folder"

{
    cat <<'SETUP'
["setup",1,
["catalogue",1,[["acct",64,[["bal","int"]]]]],
["procs",1,[
["pay",[["a","int"],["b","int"],["n","int"]],
 ["declared",["row","w","acct","a"],["row","w","acct","b"]],
 [["get","x","acct","a","bal"],["get","y","acct","b","bal"],
  ["if",["<","x","n"],[["abort",100]],[]],
  ["put","acct","a","bal",["-","x","n"]],
  ["put","acct","b","bal",["+","y","n"]],
  ["reply",["-","x","n"]]]],
["compute",[["k","int"]],
 ["declared",["row","r","acct","k"]],
 [["get","x","acct","k","bal"],
  ["for","i",1,900,[
   ["let","x",["%",["+",["*","x",31],"i"],1000003]],
   ["let","x",["%",["+",["*","x",31],"i"],1000003]],
   ["let","x",["%",["+",["*","x",31],"i"],1000003]],
   ["let","x",["%",["+",["*","x",31],"i"],1000003]],
   ["let","x",["%",["+",["*","x",31],"i"],1000003]],
   ["let","x",["%",["+",["*","x",31],"i"],1000003]],
   ["let","x",["%",["+",["*","x",31],"i"],1000003]],
   ["let","x",["%",["+",["*","x",31],"i"],1000003]]]],
  ["reply","x"]]]]],
["rows",1,[
SETUP
    seq 0 9999 | sed 's/.*/["acct",&,[1000]]/; $!s/$/,/'
    echo ']]]'
} >"$folder/bank.json"

for batch in 1 2 3 4 5; do
    for pair in $(seq 0 3999); do
        echo "[\"call\",\"pay\",[$((2 * pair)),$((2 * pair + 1)),$batch]]"
    done
    echo '["cut"]'
done >"$folder/transfers.log"

seq 0 3999 | sed 's/.*/["call","compute",[&]]/' >"$folder/computing.log"

# Writes a procedure with a footprint, which follows the ring by a number of pairs of steps.
procedure() {
    cat <<SETUP
["$1",[["k","int"]],$2,
 [["let","x","k"],
  ["for","i",1,$3,[["get","x","ring","x","next"],["get","x","ring","x","next"]]],
  ["reply","x"]]],
SETUP
}

# Writes a setup whose ring has a number of rows.
ring() {
    local ten='["declared",["rows","r","ring","k",["+","k",9]]]' all='["declared",["rows","r","ring",0,9]]'
    cat <<'SETUP'
["setup",1,
["catalogue",1,[["ring",64,[["next","int"]]]]],
["procs",1,[
SETUP
    procedure found_hop '["recon"]' 5
    procedure declared_hop "$ten" 5
    procedure found_walk '["recon"]' 2500
    procedure declared_walk "$all" 2500
    cat <<SETUP
["idle_hop",[["k","int"]],$ten,[["reply","k"]]],
["idle_walk",[["k","int"]],$all,[["reply","k"]]]]],
["rows",1,[
SETUP
    seq 1 "$1" | awk -v rows="$1" '{ printf "[\"ring\",%d,[%d]]%s\n", $1 - 1, $1 % rows, $1 < rows ? "," : "" }'
    echo ']]]'
}

ring 10 >"$folder/round.json"
ring 1000 >"$folder/few.json"
ring 100000 >"$folder/many.json"
for footprint in found declared idle; do
    seq 0 4095 | awk -v name="${footprint}_hop" '{ printf "[\"call\",\"%s\",[%d]]\n", name, $1 % 990 }' >"$folder/${footprint}_hop.log"
    seq 0 63 | awk -v name="${footprint}_walk" '{ printf "[\"call\",\"%s\",[%d]]\n", name, $1 % 10 }' >"$folder/${footprint}_walk.log"
done
head -n 1 "$folder/found_hop.log" >"$folder/one.log"

# Writes a setup whose table of 2 partitions has a number of rows.
accounts() {
    cat <<'SETUP'
["setup",1,
["catalogue",1,[["acct",2,[["bal","int"]]]]],
["procs",1,[
["lock_table",[],["declared",["table","w","acct"]],[]],
["insert",[["k","int"]],["declared",["row","w","acct","k"]],[["insert","acct","k",[1]]]],
["insert_part",[["k","int"],["p","int"]],["declared",["part","w","acct","p"]],[["insert","acct","k",[1]]]]]],
["rows",1,[
SETUP
    seq 1 "$1" | awk -v rows="$1" '{ printf "[\"acct\",%d,[1000]]%s\n", $1 - 1, $1 < rows ? "," : "" }'
    echo ']]]'
}

accounts 1000 >"$folder/fewer.json"
accounts 100000 >"$folder/more.json"
seq 0 4095 | sed 's/.*/["call","lock_table",[]]/' >"$folder/lock_table.log"
seq 100000 104095 | sed 's/.*/["call","insert",[&]]/' >"$folder/insert.log"
seq 100000 104095 | awk '{ printf "[\"call\",\"insert_part\",[%d,%d]]\n", $1, $1 % 2 }' >"$folder/insert_part.log"
