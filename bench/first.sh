#!/bin/sh
# Times the first answer of ./secv to whoever has nothing: on a clone of the last commit, in an empty folder, with the program of release/
# (asked: at most 2 seconds). With --build it goes on to `./secv --build` there, over a copy of the kit beside which nothing is kept, prints
# when each crate was proved, in seconds from the start, and the last line says whether the bytes are those of release/. That takes more
# than an hour on four processors, 8 GB of memory and 13 GB of disk, and measures something where nothing else runs.
set -eu
top=$(CDPATH='' cd -- "$(dirname -- "$0")/.." && pwd -P)
work=$(mktemp -d)
trap 'rm -rf "$work"' EXIT
git clone -q "$top" "$work/clone"
cd "$work/clone"
# Says how many seconds something took that began then, and keeps it.
took() {
    seconds=$(awk -v from="$2" -v to="$(date +%s.%N)" 'BEGIN { printf "%.2f\n", to - from }')
    echo "$1: $seconds s"
    printf '%s\tseconds=%s\n' "$1" "$seconds" | python3 "$top/bench/results.py" first
}

if ! [ -f release/ABOUT ]; then
    echo "first.sh: the last commit has no release/" >&2
    exit 1
fi
# With no kit, as most have it who only want to try it.
mkdir "$work/tools"
for folder in $(echo "$PATH" | tr ':' ' '); do
    for tool in "$folder"/*; do
        case ${tool##*/} in rt | '*') ;; *) [ -e "$work/tools/${tool##*/}" ] || ln -s "$tool" "$work/tools/" ;; esac
    done
done
began=$(date +%s.%N)
PATH=$work/tools ./secv check examples/multiplier_leak.v >"$work/answer" || [ $? = 1 ]
took "first answer" "$began"
began=$(date +%s.%N)
./secv check examples/multiplier_leak.v >"$work/answer" || [ $? = 1 ]
took "second answer" "$began"
[ "${1:-}" = --build ] || exit 0

kit=$(dirname -- "$(dirname -- "$(readlink -f -- "$(command -v rt)")")")
mkdir "$work/kit"
if ! cp -al "$kit" "$work/kit/rattle" 2>/dev/null; then
    echo "first.sh: the kit cannot be linked into $work: let TMPDIR name a folder on the kit's disk" >&2
    exit 1
fi
began=$(date +%s.%N)
status=0
PATH=$work/kit/rattle/bin:$PATH ./secv --build 2>"$work/said" || status=$?
took "built and proved" "$began"
for crate in crates/*/out/rlib/stamp; do
    [ -f "$crate" ] && echo "$(stat -c %Y "$crate") $crate"
done | sort -n | awk -F '[ /]' -v from="$began" '{ printf "%6.0f %s\n", $1 - from, $3 }'
tail -n 1 "$work/said"
exit "$status"
