#!/bin/sh
# Walks the tree of six states by groups, on all processors of this machine, and adds up what was walked:
#   contrib/six.sh DIR --groups FROM-TO [--hours H]   walks groups that aren't walked yet
#   contrib/six.sh DIR --again G                      walks a group once more, and compares
#   contrib/six.sh DIR --sum                          what all groups in DIR come to, as a report
#   contrib/six.sh DIR --holdouts                     the tables that are left, a line each
#   contrib/six.sh DIR --settle OPTIONS..             tries those with other options of bb decide, and keeps what it finds
#   contrib/six.sh DIR --begin COMMIT OPTIONS..       makes DIR, for the program of a commit and these options of bb walk
# examples/six is such a DIR, and what was walked so far.
#
# The tables with fewer than six filled entries are the trunk. The children of those of them that halt with five, 241,368, are the
# roots, and their trees are disjoint. Group G, from 0 to 241, is the roots 1000 G + 1 to 1000 G + 1000 by name. Groups are
# independent of one another, so machines can share them. A walk is by one program with one set of options, whose names `about`
# has: git gives the program back (git show COMMIT:dist/bb-linux-x86_64), and any other is refused.
#
# DIR has
#   about      commit and SHA-256 of the program, its version, the options, the SHA-256 of the list of roots
#   trunk.xz   the records of the trunk, by bb decide --hard
#   GGG.xz     of each root of the group, in order, a line `nodes halting never holdouts best ones`, and behind it its holdouts; its
#              champions where its best is the group's; made once and never changed
#   sums       a line a group: G, the SHA-256 of its text, tables, holdouts, processor seconds (without those of a run that kill -9
#              ended)
#   late.xz    the records that --settle found of what the groups have left, by the program of now (or the one that BB names), in the
#              order of their texts; each is accepted by bb check
#   below.xz   of each of those that halt and have more than one entry open a line `below TABLE` and the numbers of its tree, of
#              which only the table itself was walked before, and behind it the tree's holdouts and champions
#   begun/     roots that are walked of groups that aren't whole yet; nothing else is left by a run that was stopped
#
# --hours begins no root after H hours, says which groups are whole, and ends with 0. JOBS is how many walks go on at once. --sum says
# `complete` only where all groups are whole and no table is left. It adds, and proves nothing: what is proved holds of each walk by
# itself.
set -e
export LC_ALL=C
script=$0
top=$(cd "$(dirname "$0")/.." && pwd)
groups=242

help() {
    sed -n '2,/^set -e/ { /^#/ s/^# \{0,1\}//p }' "$script"
}

fail() {
    echo "contrib/six.sh: $1" >&2
    exit 1
}

# The children of each table that halts: it names its states in the order in which they come, and the very first entry goes to the
# right.
children='
function halting_pair(    tape, at, symbol, cell) {
    at = 0
    state = 1
    for (;;) {
        symbol = tape[at] + 0
        cell = substr(entries[state], 1 + 3 * symbol, 3)
        if (cell == "---") return symbol
        tape[at] = substr(cell, 1, 1)
        at += substr(cell, 2, 1) == "R" ? 1 : -1
        state = index(states, substr(cell, 3))
    }
}
BEGIN { states = "ABCDEF" }
$2 == "H" {
    split($1, entries, "_")
    used = 1
    for (i = 1; i <= 6; i++) if (index($1, substr(states, i, 1))) used = i
    targets = used < 6 ? used + 1 : 6
    symbol = halting_pair()
    place = 7 * (state - 1) + 3 * symbol
    count = split($1 ~ /[01]/ ? "0L 1L 0R 1R" : "0R 1R", ways, " ")
    for (i = 1; i <= count; i++) for (j = 1; j <= targets; j++)
        print substr($1, 1, place) ways[i] substr(states, j, 1) substr($1, place + 4)
}'

# The records of the trunk, level by level.
trunk() {
    echo "------_------_------_------_------_------" > "$place/tables"
    for filled in 0 1 2 3 4 5; do
        "$bb" decide --hard --input "$place/tables" | tee "$place/records"
        awk "$children" "$place/records" > "$place/tables"
    done
}

# The roots, from the records of the trunk: the children of those with five filled entries.
roots() {
    xz -dc "$folder/trunk.xz" | awk '{ table = $1; if (gsub(/---/, "", table) == 7) print }' | awk "$children" | sort
}

said() {
    sed -n "s/^$1 //p" "$folder/about"
}

# Puts the program of DIR into place/bb, and sees that it is that one.
program() {
    bb=$place/bb
    if [ -n "$BB" ]; then
        cp "$BB" "$bb"
    else
        git -C "$top" show "$(said commit):dist/bb-linux-x86_64" > "$bb" || fail "git doesn't have the program of $folder/about"
    fi
    chmod +x "$bb"
    [ "$(sha256sum < "$bb" | cut -d ' ' -f 1)" = "$(said program)" ] || fail "another program than that of $folder/about"
}

# A root, by the program with its options; what was walked of it before stays. Ends with 255 where xargs is to begin no more.
# Arguments: the program, the folder of the group, the second after which no root begins (0 for none), the root, the options.
walk='
    bb=$1 begun=$2 last=$3 root=$4
    shift 4
    [ ! -e "$begun/$root" ] || exit 0
    [ "$last" = 0 ] || [ "$(date +%s)" -lt "$last" ] || exit 255
    "$bb" walk 6 --root "$root" "$@" > "$begun/$root.part" || [ $? -eq 1 ] || { echo "$root: no report" >&2; exit 255; }
    mv "$begun/$root.part" "$begun/$root"'

# The text of a group, of the reports of its roots, which come one after another.
group='
$1 == "root" { roots++ }
{ value[$1] = $2 }
$1 == "ones" { line[roots] = value["nodes"] " " value["halting"] " " value["never"] " " value["holdouts"] " " value["best"] " " value["ones"] }
$1 == "best" { steps[roots] = $2 == "none" ? -1 : $2 + 0; if (steps[roots] > best) best = steps[roots] }
$1 == "ones" { score[roots] = $2 == "none" ? -1 : $2 + 0; if (score[roots] > ones) ones = score[roots] }
$1 == "champion" { champions[roots] = champions[roots] $0 "\n" }
$1 == "ones_champion" { scored[roots] = scored[roots] $0 "\n" }
$1 == "holdout" { left[roots] = left[roots] $0 "\n" }
END {
    for (i = 1; i <= roots; i++) {
        print line[i]
        printf "%s", left[i]
        if (steps[i] == best) printf "%s", champions[i]
        if (score[i] == ones) printf "%s", scored[i]
    }
}'

# Walks the roots of group $1 into the folder $2, until second $3 (0 for no end). Succeeds where the group is whole.
walked() {
    mkdir -p "$2"
    find "$2" -name '*.part' -exec rm {} +
    tail -n "+$((1000 * $1 + 1))" "$place/roots" | head -n 1000 > "$place/group"
    # In a session of its own, so that all of it can be ended.
    # shellcheck disable=SC2046
    setsid xargs -P "$jobs" -I {} sh -c "$walk" walk "$bb" "$2" "$3" {} $(said options) < "$place/group" 2> "$place/said" &
    walking=$!
    wait "$walking" || :
    walking=
    grep -v 'exited with status 255' "$place/said" >&2 || :
    [ "$(find "$2" -type f ! -name '*.part' | wc -l)" = "$(wc -l < "$place/group")" ]
}

# The text of a group that is whole.
text() {
    (cd "$1" && xargs cat) < "$place/group" | awk "$group"
}

# Puts the processor seconds of all that was begun so far into `spent`. A subshell would have times of its own.
spend() {
    times > "$place/times"
    spent=$(awk 'NR == 2 { gsub(/[ms]/, " "); printf "%.0f", $1 * 60 + $2 + $3 * 60 + $4 }' "$place/times")
}

# Adds what was spent since the last time to what group $name took.
count() {
    earlier=$spent
    spend
    took=$((took + spent - earlier))
    echo "$took" > "$folder/begun/$name.seconds"
}

begin() {
    [ $# -gt 1 ] || fail "a commit and the options of bb walk are wanted"
    [ ! -e "$folder/about" ] || fail "$folder is begun already"
    mkdir -p "$folder"
    bb=$place/bb
    git -C "$top" show "$1:dist/bb-linux-x86_64" > "$bb"
    chmod +x "$bb"
    trunk | xz > "$folder/trunk.xz"
    {
        echo "commit $(git -C "$top" rev-parse "$1")"
        echo "program $(sha256sum < "$bb" | cut -d ' ' -f 1)"
        echo "version $("$bb" --version | head -n 1)"
        shift
        echo "options $*"
        echo "roots $(roots | sha256sum | cut -d ' ' -f 1)"
        echo "group G is the roots 1000 G + 1 to 1000 G + 1000 by name, G from 0 to $((groups - 1))"
    } > "$folder/about"
    : > "$folder/sums"
}

walk_groups() {
    from=${1%-*} to=${1#*-} last=0
    [ "$from" -le "$to" ] && [ "$to" -lt "$groups" ] || fail "groups are 0 to $((groups - 1))"
    [ -z "$2" ] || last=$(awk -v now="$(date +%s)" -v hours="$2" 'BEGIN { printf "%d", now + 3600 * hours }')
    list
    mkdir -p "$folder/begun"
    exec 9> "$folder/begun/lock"
    flock -n 9 || fail "somebody walks in $folder already"
    spend
    for number in $(seq "$from" "$to"); do
        name=$(printf %03d "$number")
        [ ! -e "$folder/$name.xz" ] || continue
        [ "$last" = 0 ] || [ "$(date +%s)" -lt "$last" ] || break
        took=0
        [ ! -e "$folder/begun/$name.seconds" ] || took=$(cat "$folder/begun/$name.seconds")
        walked "$number" "$folder/begun/$name" "$last" && whole=yes || whole=
        count
        [ -n "$whole" ] || continue
        keep "$number" "$took"
    done
    rm "$folder/begun/lock"
    rmdir "$folder/begun" 2> /dev/null || :
    echo "whole: $(find "$folder" -maxdepth 1 -name '[0-9][0-9][0-9].xz' | wc -l) of $groups groups" >&2
}

# Ends what walks, as this script is ended, and keeps what its group took.
ended() {
    if [ -n "$walking" ]; then
        kill -- "-$walking" 2> /dev/null || :
        wait "$walking" 2> /dev/null || :
        [ -z "$took" ] || count
    fi
    rm -rf "$place"
}

# Keeps group $1, which took so many processor seconds.
keep() {
    text "$folder/begun/$name" > "$place/text"
    xz -c "$place/text" > "$folder/$name.xz.new"
    line=$(awk -v group="$1" -v sum="$(sha256sum < "$place/text" | cut -d ' ' -f 1)" -v took="$2" '
        /^[0-9]/ { tables += $1; left += $4 }
        END { printf "%d %s %.0f %d %d", group, sum, tables, left, took }' "$place/text")
    { grep -v "^$1 " "$folder/sums" || :; echo "$line"; } | sort -n > "$folder/sums.new"
    mv "$folder/sums.new" "$folder/sums"
    mv "$folder/$name.xz.new" "$folder/$name.xz"
    rm -rf "$folder/begun/$name" "$folder/begun/$name.seconds"
    echo "group $line" >&2
}

again() {
    list
    name=$(printf %03d "$1")
    [ -e "$folder/$name.xz" ] || fail "group $1 isn't walked yet"
    walked "$1" "$place/again" 0 || fail "group $1 isn't whole"
    text "$place/again" > "$place/text"
    xz -dc "$folder/$name.xz" | cmp - "$place/text" || fail "group $1 comes out otherwise"
    echo "group $1 is the same, byte for byte"
}

# The list of roots, which is that of `about`.
list() {
    program
    roots > "$place/roots"
    [ "$(sha256sum < "$place/roots" | cut -d ' ' -f 1)" = "$(said roots)" ] || fail "other roots than those of $folder/about"
}

# The kept groups one after another, each behind its number, as far as its sum is the one in `sums`.
kept() {
    for file in "$folder"/[0-9][0-9][0-9].xz; do
        [ -e "$file" ] || continue
        number=$(basename "$file" .xz | sed 's/^0*\(.\)/\1/')
        xz -dc "$file" > "$place/text"
        [ "$(sha256sum < "$place/text" | cut -d ' ' -f 1)" = "$(sed -n "s/^$number \([^ ]*\) .*/\1/p" "$folder/sums")" ] ||
            fail "group $number isn't the one in $folder/sums"
        echo "group $number"
        cat "$place/text"
    done
}

# The tables that are left: of the groups and of what lies below, except those that have a record by now.
left() {
    late below | sed -n 's/^holdout //p' | sort > "$place/below"
    late late | cut -d ' ' -f 1 > "$place/settled"
    sed -n 's/^holdout //p' "$place/kept" | sort - "$place/below" | comm -23 - "$place/settled"
}

# What is kept of --settle: late or below.
late() {
    [ ! -e "$folder/$1.xz" ] || xz -dc "$folder/$1.xz"
}

# Tries what is left with some options of bb decide. A table that halts after all hides the tree below it, which is walked then, and
# what that leaves is tried too.
settle() {
    bb=${BB:-$top/dist/bb-linux-x86_64}
    left > "$place/left"
    late late > "$place/late"
    late below > "$place/trees"
    : > "$place/all"
    cp "$place/left" "$place/next"
    while [ -s "$place/next" ]; do
        split -n "r/$jobs" "$place/next" "$place/next."
        find "$place" -name 'next.*' | xargs -P "$jobs" -I {} "$bb" decide "$@" --input {} | grep -v ' U$' | sort > "$place/found" || :
        stand=$("$bb" check < "$place/found" | grep -c '^[^ ]* \(halts\|never\)' || :)
        [ "$stand" = "$(wc -l < "$place/found")" ] || fail "a record doesn't stand"
        sort -o "$place/late" "$place/late" "$place/found"
        cat "$place/found" >> "$place/all"
        rm "$place"/next*
        : > "$place/next"
        awk '{ table = $1 } $2 ~ /^[HL]$/ && gsub(/---/, "", table) > 1 { print $1 }' "$place/found" | while read -r root; do
            # shellcheck disable=SC2046
            "$bb" walk 6 --root "$root" --known "$place/late" $(said options) > "$place/report" || [ $? -eq 1 ] || fail "$root: no report"
            awk "$group" "$place/report" | sed "1s/^/below $root /" >> "$place/trees"
            sed -n 's/^holdout //p' "$place/report" >> "$place/next"
        done
    done
    xz -c "$place/late" > "$folder/late.xz.new"
    xz -c "$place/trees" > "$folder/below.xz.new"
    mv "$folder/below.xz.new" "$folder/below.xz"
    mv "$folder/late.xz.new" "$folder/late.xz"
    echo "$(wc -l < "$place/all") of $(wc -l < "$place/left") and what lies below have a record now, $(left | wc -l) are left" >&2
}

# The report of the trunk's records and of all groups; the trunk's tables that halt are nodes of the tree too. Behind a line `late`
# stand records of holdouts, and the trees below those that halt.
sum='
$1 == "group" { groups++; number = $2; expected += number < 241 ? 1000 : 368; next }
/^[0-9]/ && NF == 6 { roots++; nodes += $1; halting += $2; never += $3; holdouts += $4; steps = $5 == "none" ? -1 : $5 + 0
    score = $6 == "none" ? -1 : $6 + 0
    if (steps > best) { best = steps; champions = "" }
    if (score > ones) { ones = score; scored = "" }
    next }
$1 == "champion" { if (steps == best) champions = champions $0 "\n"; next }
$1 == "ones_champion" { if (score == ones) scored = scored $0 "\n"; next }
$1 == "holdout" { next }
$1 == "below" { nodes += $3 - 1; halting += $4 - 1; never += $5; holdouts += $6; steps = $7 == "none" ? -1 : $7 + 0
    score = $8 == "none" ? -1 : $8 + 0
    if (steps > best) { best = steps; champions = "" }
    if (score > ones) { ones = score; scored = "" }
    next }
$1 == "late" { late = 1; next }
late { nodes--; holdouts-- }
$2 ~ /^[HL]$/ { nodes++; halting++; if ($3 + 0 > best) { best = $3 + 0; champions = "" } if ($4 + 0 > ones) { ones = $4 + 0; scored = "" }
    if ($3 + 0 == best) champions = champions "champion " $1 "\n"
    if ($4 + 0 == ones) scored = scored "ones_champion " $1 "\n"
    next }
$2 == "U" { nodes++; holdouts++; next }
$2 != "" { nodes++; never++ }
function sorted(lines) { if (lines != "") { printf "%s", lines | "sort"; close("sort") } }
END {
    if (roots != expected) { print "a group has another number of roots" > "/dev/stderr"; exit 1 }
    whole = groups == 242 && roots == 241368
    printf "whole: %d of 242 groups\n", groups
    open = 241368 - roots
    printf "root ------_------_------_------_------_------\nstatus %s\n", open ? "working" : holdouts ? "holdouts" : "complete"
    printf "nodes %.0f\nhalting %.0f\nnever %.0f\nholdouts %d\nopen %d\nbest %.0f\n", nodes + open, halting, never, holdouts, open, best
    fflush(); sorted(champions)
    printf "ones %.0f\n", ones
    fflush(); sorted(scored)
    exit !whole
}'

case $1 in
    --help | -h | "") help; exit ;;
esac
folder=$1
jobs=${JOBS:-$(getconf _NPROCESSORS_ONLN)}
walking=
took=
place=$(mktemp -d)
trap ended EXIT
trap 'exit 130' INT TERM HUP
[ "$2" = --begin ] || [ -e "$folder/about" ] || fail "there is no $folder/about; --begin makes it"
case $2 in
    --begin) shift 2; begin "$@" ;;
    --groups)
        case $4 in --hours | "") walk_groups "$3" "$5" ;; *) fail "--hours H may follow" ;; esac ;;
    --again) again "${3:?a group}" ;;
    --sum) kept > "$place/kept"; { xz -dc "$folder/trunk.xz"; cat "$place/kept"; late below; echo late; late late; } | awk "$sum" ;;
    --holdouts) kept > "$place/kept"; left ;;
    --settle) shift 2; kept > "$place/kept"; settle "$@" ;;
    *) help >&2; exit 2 ;;
esac
