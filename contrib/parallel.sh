#!/bin/sh
# Settles the parts of a tree, as many at once as there are processors:
#   contrib/parallel.sh [--xz] DIR [OPTIONS OF bb settle..]
# DIR is a folder that `bb split` made. With --xz each part is compressed once it is done (contrib/pack.sh reads it so). BB
# names the program (bb beside contrib/ if it isn't set), JOBS how many parts are settled at once. Begun again, it goes on with
# what is left: a part that is done takes as long as reading it, a compressed one no time.
#
# Every ten seconds, or every EVERY seconds, standard error says how far it is. A part that fails is named with its exit status,
# the others go on, and the script ends with 1. DIR/parallel.log has a line for each part: its status, what bb settle printed, and
# its name.
case $1 in --help | -h) sed -n '2,$ { /^#/!q; /^#SBATCH/d; s/^# \{0,1\}//p; }' "$0"; exit ;; esac
set -e
compress=
[ "$1" != --xz ] || { compress=--xz; shift; }
folder=${1:?"contrib/parallel.sh [--xz] DIR [OPTIONS..]"}
shift
# The script bb sums up its sources each time: it is asked once which program it runs.
bb=${BB:-$("$(dirname "$0")/../bb" --where)}
log=$folder/parallel.log
# Names below the folder, since xargs would take quotes in the folder's own name for quotes.
parts() { (CDPATH='' cd "$folder" && find . -name '*.ledger' ! -name trunk.ledger) | sed 's|^\./||' | sort; }
: > "$log"
all=$(parts | wc -l)
start=$(date +%s)

# How many parts are done, with how many tables, and how long the rest takes at this pace.
tell() {
    awk -v all="$all" -v seconds="$(($(date +%s) - start))" '
        $2 == "settled" { tables += $3; next }
        { failed++ }
        END {
            rest = NR ? int(seconds * (all - NR) / NR) : 0
            printf "%d of %d parts done, %d tables, %d a second", NR, all, tables, tables / (seconds ? seconds : 1)
            printf ", %d:%02d:%02d left", int(rest / 3600), int(rest / 60) % 60, rest % 60
            printf failed ? ", %d failed\n" : "\n", failed
        }' "$log" >&2
}

# Whoever reads standard error needn't wait for the last pause, and who kills the script ends this too.
while sleep "${EVERY:-10}" < /dev/null > /dev/null 2>&1 && kill -0 $$ 2> /dev/null; do tell; done &
teller=$!
trap 'kill $teller 2> /dev/null || :' EXIT
trap 'exit 130' HUP INT TERM
parts | xargs -P "${JOBS:-$(getconf _NPROCESSORS_ONLN)}" -I {} sh -c '
    script=$1 folder=$2 name=$3 compress=$4 status=0
    shift 4
    said=$("$script" $compress "$0" "$folder/$name" "$@") || status=$?
    case $said in settled\ *) ;; *) echo "$folder/$name: status $status" >&2 ;; esac
    echo "$status $said $name" >> "$folder/parallel.log"' "$bb" "$(dirname "$0")/part.sh" "$folder" {} "$compress" "$@"
tell
failed=$(awk '$2 != "settled"' "$log" | wc -l)
[ "$failed" -eq 0 ] || { echo "$failed parts failed: $log names them" >&2; exit 1; }
if [ -n "$compress" ]; then
    echo "all parts are done and compressed: contrib/pack.sh $folder | bb join - says how the tree stands"
else
    echo "all parts are done: bb join $folder says how the tree stands"
fi
