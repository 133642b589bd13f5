#!/bin/sh
# Settles the tree of N states in parts, on all processors of this machine, and prints its report:
#   contrib/tree.sh N DIR [OPTIONS OF bb settle..]
# DIR is made; a run that was stopped goes on from it. Without options it takes --hard. BB names the program (bb beside contrib/
# if it isn't set), JOBS how many parts are settled at once, FILLED how many entries the tables of the trunk have (N - 1 up to
# four states, N from five on, if it isn't set).
#
# Before it begins it says how much disk the tree takes and how much there is, and stops where that isn't enough; ROOM=any begins
# all the same. contrib/parallel.sh then says how far it is, and names each part that fails: the others go on, and the script ends
# with 1. The report comes on standard output, and the exit status is that of bb join.
case $1 in --help | -h) sed -n '2,$ { /^#/!q; /^#SBATCH/d; s/^# \{0,1\}//p; }' "$0"; exit ;; esac
set -e
usage='contrib/tree.sh N DIR [OPTIONS..], with N from 1 to 7'
states=${1:?"$usage"}
folder=${2:?"$usage"}
shift 2
case $states in [1-7]) ;; *) echo "$usage" >&2; exit 2 ;; esac
here=$(dirname "$0")
[ $# -ne 0 ] || set -- --hard
# The script bb sums up its sources each time: it is asked once which program it runs.
BB=${BB:-$("$here/../bb" --where)}
export BB
filled=${FILLED:-$((states < 5 ? states - 1 : states))}

# The megabytes of a tree's ledgers: up to five states as they were settled, six by a sample. Of seven nobody knows.
case $states in
    4) takes=35 ;;
    5) takes=9300 ;;
    6) takes=3800000 ;;
    7) takes= ;;
    *) takes=1 ;;
esac
parent=$folder
while [ ! -d "$parent" ]; do parent=$(dirname "$parent"); done
room=$(df -Pk "$parent" | awk 'END { printf "%.0f", $4 * 1024 / 1e6 }')
begun=0
[ ! -d "$folder" ] || begun=$(du -sk "$folder" | awk '{ printf "%.0f", $1 * 1024 / 1e6 }')
echo "disk: a tree of $states states takes ${takes:-an unknown number of} MB; $folder has $begun MB of it, and $room MB are free" >&2
if [ "${takes:-0}" -gt $((begun + room)) ] && [ "$ROOM" != any ]; then
    echo "disk: that isn't enough. ROOM=any begins all the same; bb split and contrib/parallel.sh --xz need a tenth" >&2
    exit 1
fi

echo "1 of 3: the trunk of $folder" >&2
"$BB" split "$states" "$folder" --filled "$filled" "$@" >&2
echo "2 of 3: its parts; one that is done is only read" >&2
"$here/parallel.sh" "$folder" "$@" >&2
echo "3 of 3: all of them judged again" >&2
exec "$BB" join "$folder"
