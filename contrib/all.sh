#!/bin/sh
# Settles the tree of N states by a coordinator and a process of workers for each processor of this machine, and prints the
# report:
#   contrib/all.sh N [OPTIONS OF bb work..]
# Without options it takes --hard. LEDGER names the coordinator's ledger, which a run that was stopped goes on from
# (none is kept if it isn't set). BB names the program (bb beside contrib/ if it isn't set), JOBS how many processes work (one for
# each processor). The report comes on standard output, how far it is on standard error, and the exit status is that of bb coord.
# Workers come over a socket file, which is its owner's alone, so holdouts are taken of them.
case $1 in --help | -h) sed -n '2,$ { /^#/!q; /^#SBATCH/d; s/^# \{0,1\}//p; }' "$0"; exit ;; esac
set -e
states=${1:?"contrib/all.sh N [OPTIONS..]"}
shift
[ $# -gt 0 ] || set -- --hard
# The script bb sums up its sources each time: it is asked once which program it runs.
bb=${BB:-$("$(dirname "$0")/../bb" --where)}
jobs=${JOBS:-$(getconf _NPROCESSORS_ONLN)}
folder=$(mktemp -d)
workers=
coordinator=
trap 'kill $workers $coordinator 2> /dev/null || true; rm -rf "$folder"' EXIT
trap 'exit 130' INT TERM HUP
"$bb" coord "$states" --listen "$folder/socket" --accept-holdouts ${LEDGER:+--ledger "$LEDGER"} &
coordinator=$!
until [ -S "$folder/socket" ]; do
    kill -0 "$coordinator" 2> /dev/null || { wait "$coordinator" && exit 0 || exit $?; }
    sleep 0.05
done
for job in $(seq "$jobs"); do
    "$bb" work --connect "$folder/socket" --id $((job * 64)) "$@" &
    workers="$workers $!"
done
wait "$coordinator" && exit 0 || exit $?
