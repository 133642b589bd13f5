#!/bin/sh
# Settles one part of a tree, and ends as bb settle does; with --xz a part that is done is then compressed:
#   contrib/part.sh [--xz] PROGRAM PART [OPTIONS OF bb settle..]
# PART.xz takes the place of PART. Where both stand PART counts: what was killed while it compressed is begun again.
case $1 in --help | -h) sed -n '2,$ { /^#/!q; /^#SBATCH/d; s/^# \{0,1\}//p; }' "$0"; exit ;; esac
compress=
[ "$1" != --xz ] || { compress=yes; shift; }
bb=${1:?"contrib/part.sh [--xz] PROGRAM PART [OPTIONS..]"}
part=${2:?"contrib/part.sh [--xz] PROGRAM PART [OPTIONS..]"}
shift 2
status=0
"$bb" settle "$part" "$@" || status=$?
# A part that keeps holdouts ends with 1, and is done too.
[ -z "$compress" ] || [ "$status" -gt 1 ] || xz -f "$part" || exit 4
exit "$status"
