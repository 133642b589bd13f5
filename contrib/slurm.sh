#!/bin/sh
#SBATCH --job-name=bb-settle
#SBATCH --requeue
# Settles the parts of a tree as an array job of Slurm, each task its share of them:
#   sbatch --array=1-100 contrib/slurm.sh [--xz] DIR [OPTIONS OF bb settle..]
# DIR is a folder that `bb split` made, which all nodes see. With --xz each part is compressed once it is done
# (contrib/pack.sh reads it so). BB names the program (bb beside contrib/ if it isn't set). Slurm runs a copy of this script, from a
# folder of its own; the other scripts are then those of the folder that CONTRIB names (contrib if it isn't set). A part that
# fails is named with its exit status, and the others go on. Submitted again, it goes on with what is left, and so does a task that
# is killed and queued again.
case $1 in --help | -h) sed -n '2,$ { /^#/!q; /^#SBATCH/d; s/^# \{0,1\}//p; }' "$0"; exit ;; esac
compress=
[ "$1" != --xz ] || { compress=--xz; shift; }
folder=${1:?"sbatch --array=1-N contrib/slurm.sh [--xz] DIR [OPTIONS..]"}
shift
first=${SLURM_ARRAY_TASK_MIN:-1}
step=${SLURM_ARRAY_TASK_COUNT:-1}
mine=$((${SLURM_ARRAY_TASK_ID:-1} - first))
status=0
here=$(dirname "$0")
[ -e "$here/part.sh" ] || here=${CONTRIB:-contrib}
# The script bb sums up its sources each time: it is asked once which program it runs.
bb=${BB:-$("$here/../bb" --where)}
# A part's share hangs on its name alone, so that it stays with its task when others are compressed and gone.
share() { find "$folder" -name '*.ledger' ! -name trunk.ledger | sort | while IFS= read -r part; do
    sum=$(basename "$part" | cksum)
    [ $((${sum%% *} % step)) -ne "$mine" ] || echo "$part"
done; }
for part in $(share); do
    "$here/part.sh" $compress "$bb" "$part" "$@" || { status=$?; [ "$status" -eq 1 ] || echo "$part: status $status" >&2; }
done
exit "$status"
