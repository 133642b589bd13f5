#!/bin/sh
# Walks the tree of N states on all processors of this machine, and adds the reports up:
#   contrib/walk.sh N [K] [OPTIONS OF bb walk..]
# The tables with fewer than K filled entries (4, or N - 1 for less than five states) are the trunk; each table that it leaves
# open is the root of a walk, and their trees are disjoint. Without options it takes --hard. BB names the program (bb beside
# contrib/ if it isn't set), JOBS how many walks go on at once. Every ten seconds, or every EVERY seconds, standard error says
# how many are done; a walk that fails is named with its exit status, and ends the script. The report comes on standard output;
# status 0 where it says complete, 1 where it doesn't.
#
# It adds, and proves nothing: what is proved holds of each report by itself. bb walk N, in one process, proves the whole, and
# so do contrib/tree.sh and bb join, which keep all records.
case $1 in --help | -h) sed -n '2,$ { /^#/!q; /^#SBATCH/d; s/^# \{0,1\}//p; }' "$0"; exit ;; esac
set -e
states=${1:?"contrib/walk.sh N [K] [OPTIONS..]"}
shift
filled=$((states < 5 ? states - 1 : 4))
case $1 in [0-9]*) filled=$1; shift ;; esac
[ $# -ne 0 ] || set -- --hard
# The script bb sums up its sources each time: it is asked once which program it runs.
bb=${BB:-$("$(dirname "$0")/../bb" --where)}
jobs=${JOBS:-$(getconf _NPROCESSORS_ONLN)}
folder=$(mktemp -d)
teller= walking=
trap 'kill $teller 2> /dev/null || :; [ -z "$walking" ] || kill -- "-$walking" 2> /dev/null || :; rm -rf "$folder"' EXIT
trap 'exit 130' INT TERM HUP
mkdir "$folder/reports"
"$bb" split "$states" "$folder/tree" --filled "$filled" "$@" >&2
"$bb" report "$folder/tree/trunk.ledger" > "$folder/trunk" || [ $? -eq 1 ]
# A part's ledger has the name of its root. A walk that leaves holdouts ends with 1; what ends with more stops all. A report that has
# anything in it is done.
find "$folder/tree" -name '*.ledger' ! -name trunk.ledger -exec basename {} .ledger \; | LC_ALL=C sort > "$folder/roots"
all=$(wc -l < "$folder/roots")
echo "$all walks, $jobs at once" >&2
while sleep "${EVERY:-10}" < /dev/null > /dev/null 2>&1 && kill -0 $$ 2> /dev/null; do
    echo "$(find "$folder/reports" -size +0 -name '*_*' | wc -l) of $all walks done" >&2
done &
teller=$!
# In a session of its own, so that all of it can be ended.
setsid xargs -P "$jobs" -I {} sh -c 'reports=$1 states=$2 root=$3 status=0; shift 3
    "$0" walk "$states" --root="$root" "$@" > "$reports/$root" || status=$?
    [ "$status" -le 1 ] || { echo "$root: status $status" >&2; exit 255; }' \
    "$bb" "$folder/reports" "$states" {} "$@" < "$folder/roots" &
walking=$!
wait "$walking"
walking=
# The trunk's open tables are the roots, which are counted with their walks.
{ cat "$folder/trunk"; xargs -I {} cat "$folder/reports/{}" < "$folder/roots"; } | LC_ALL=C awk '
    $1 == "root" { files++; if (files == 1) root = $2 }
    $1 == "nodes" { nodes += $2 }
    $1 == "halting" { halting += $2 }
    $1 == "never" { never += $2 }
    $1 == "holdouts" { holdouts += $2 }
    $1 == "open" { if (files == 1) nodes -= $2; else open += $2 }
    $1 == "best" && $2 != "none" { steps = $2 + 0; if (steps > best) best = steps }
    $1 == "ones" && $2 != "none" { score = $2 + 0; if (score > ones) ones = score }
    $1 == "best" { steps = $2 }
    $1 == "ones" { score = $2 }
    $1 == "champion" { champions[steps] = champions[steps] $0 "\n" }
    $1 == "ones_champion" { scored[score] = scored[score] $0 "\n" }
    $1 == "holdout" { left = left $0 "\n" }
    function sorted(lines) { if (lines != "") { printf "%s", lines | "sort"; close("sort") } }
    END {
        status = open > 0 ? "working" : holdouts > 0 ? "holdouts" : "complete"
        printf "root %s\nstatus %s\nnodes %d\nhalting %d\nnever %d\n", root, status, nodes, halting, never
        printf "holdouts %d\nopen %d\nbest %s\n", holdouts, open, best ? best : "none"
        fflush()
        if (best) sorted(champions[best])
        printf "ones %s\n", ones ? ones : "none"
        fflush()
        if (ones) sorted(scored[ones])
        sorted(left)
        exit status != "complete"
    }'
