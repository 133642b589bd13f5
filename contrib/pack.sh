#!/bin/sh
# Prints the ledgers of a tree in parts one behind the other, as bb join - reads them: the trunk, and then the parts in the
# order of their names. Standard error gets the SHA-256 of what is printed:
#   contrib/pack.sh DIR | xz -T0 > DIR.xz
#   xz -dc DIR.xz | bb join -
# A part that was compressed (PART.xz) is read so; where PART stands too, that counts.
case $1 in --help | -h) sed -n '2,$ { /^#/!q; /^#SBATCH/d; s/^# \{0,1\}//p; }' "$0"; exit ;; esac
set -e
folder=${1:?"contrib/pack.sh DIR"}
export LC_ALL=C
[ -r "$folder/trunk.ledger" ] || { echo "no $folder/trunk.ledger" >&2; exit 1; }
ledgers() {
  echo "$folder/trunk.ledger"
  find "$folder" \( -name '*.ledger' -o -name '*.ledger.xz' \) ! -name trunk.ledger | sort
}
# A last line without newline gets one, so that the next header stands on a line of its own.
printed() {
  ledgers | while IFS= read -r ledger; do
    case $ledger in
      *.xz) [ -e "${ledger%.xz}" ] || xz -dc "$ledger" | awk 1 ;;
      *) cat "$ledger"
         [ -z "$(tail -c 1 "$ledger")" ] || echo ;;
    esac
  done
}
exec 3>&1
printed | tee -a /dev/fd/3 | sha256sum >&2
