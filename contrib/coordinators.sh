#!/bin/sh
# Settles the tree of N states by several coordinators, each with a part of the tree and workers of its own, and prints its report:
#   contrib/coordinators.sh N DIR [OPTIONS OF bb work..]
# `bb split` cuts the tree into a trunk and parts, ledgers in DIR. Each part then has a coordinator (`bb coord PART --listen`) and
# WORKERS processes of workers (1 if it isn't set), JOBS parts at once (half as many as there are processors if it isn't set), and
# `bb join` judges all of them again and prints the report, with its exit status. Without options it takes --hard. BB names the
# program (bb beside contrib/ if it isn't set), FILLED how many entries the tables of the trunk have (as in contrib/tree.sh if it
# isn't set). DIR is made; a run that was stopped goes on from it. A part that fails is named with its exit status, the others go
# on, and the script ends with 1.
case $1 in --help | -h) sed -n '2,$ { /^#/!q; /^#SBATCH/d; s/^# \{0,1\}//p; }' "$0"; exit ;; esac
set -e
states=${1:?"contrib/coordinators.sh N DIR [OPTIONS..]"}
folder=${2:?"contrib/coordinators.sh N DIR [OPTIONS..]"}
shift 2
[ $# -gt 0 ] || set -- --hard
# The script bb sums up its sources each time: it is asked once which program it runs.
bb=${BB:-$("$(dirname "$0")/../bb" --where)}
jobs=${JOBS:-$((($(getconf _NPROCESSORS_ONLN) + 1) / 2))}
"$bb" split "$states" "$folder" --filled "${FILLED:-$((states < 5 ? states - 1 : states))}" "$@" >&2
# A part that keeps holdouts ends with 1, and is done too.
find "$folder" -name '*.ledger' ! -name trunk.ledger | sort | xargs -P "$jobs" -I {} sh -c '
    part=$1 workers=$2 working=
    shift 2
    place=$(mktemp -d)
    coordinator=
    trap "kill \$working \$coordinator 2> /dev/null || :; rm -rf \"$place\"" EXIT
    trap "exit 130" INT TERM HUP
    "$0" coord "$part" --listen "$place/socket" --accept-holdouts > "$place/report" &
    coordinator=$!
    until [ -S "$place/socket" ]; do
        kill -0 "$coordinator" 2> /dev/null || { wait "$coordinator" || echo "$part: status $?" >&2; exit 1; }
        sleep 0.01
    done
    for process in $(seq "$workers"); do
        "$0" work --connect "$place/socket" --id $((process * 64)) --ids 16 "$@" 2> /dev/null &
        working="$working $!"
    done
    wait "$coordinator" && status=0 || status=$?
    [ "$status" -le 1 ] || { echo "$part: status $status" >&2; exit 1; }' "$bb" {} "${WORKERS:-1}" "$@" || exit 1
exec "$bb" join "$folder"
