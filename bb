#!/bin/sh
# Runs bb from any folder, also through links: the program that is kept in dist/ where it is the one of these sources, else
# one that is built from them, once. BB_BUILD=1 builds it in any case. `./bb --where` prints the path of the program that it
# would run: who runs it often asks once.
set -e
self=$0
while [ -L "$self" ]; do
    link=$(readlink "$self")
    case $link in
        /*) self=$link ;;
        *) self=$(dirname "$self")/$link ;;
    esac
done
top=$(cd "$(dirname "$self")" && pwd)
kept=$top/dist/bb-linux-x86_64
built=$top/crates/bb/out/bb
stamp=$top/crates/bb/out/bb.sources

sources=$("$top/tools/sources")

run() {
    if [ "$1" = --where ] && [ $# = 1 ]; then
        echo "$program"
        exit
    fi
    exec "$program" "$@"
}

if [ -z "$BB_BUILD" ] && [ "$(uname -s)-$(uname -m)" = Linux-x86_64 ] && [ -x "$kept" ] &&
    [ "$(sed -n 's/^sources //p' "$top/dist/SOURCES")" = "$sources" ]; then
    program=$kept
    run "$@"
fi

if [ ! -x "$built" ] || [ "$(cat "$stamp" 2> /dev/null)" != "$sources" ]; then
    if [ -n "$BB_BUILD" ]; then
        why="since BB_BUILD asks for it"
    else
        why="since dist/ has no program of these sources for this system"
    fi
    if ! command -v rt > /dev/null; then
        echo "bb: it has to be built, $why, and Rattle's kit isn't here (no rt on the PATH)" >&2
        exit 1
    fi
    echo "bb: proving and building the program, $why; that takes some minutes the first time" >&2
    mkdir -p "$top/crates/bb/out"
    log=$top/crates/bb/out/build.log
    # Crates that don't wait for one another are proved side by side. One that waits for those below it holds a
    # place too, so there are more places than processors.
    jobs=$(($(nproc 2> /dev/null || echo 1) * 2))
    [ "$jobs" -le 8 ] || jobs=8
    {
        if cd "$top/crates" && rt all check --jobs "$jobs" && cd bb && rt run -- --help; then
            echo "== bb, the program"
        else
            echo "== failed"
        fi
    } 2>&1 < /dev/null | tee "$log" | sed -n -u '/^== summary/d; s/^== /bb: proved or tried: /p' >&2
    if [ "$(tail -n 1 "$log")" != "== bb, the program" ]; then
        tail -n 40 "$log" >&2
        echo "bb: the build failed; its log is $log" >&2
        exit 1
    fi
    echo "$sources" > "$stamp"
fi
program=$built
run "$@"
