#!/bin/sh
# Runs the program, as `rt try` builds it, with one allocation that fails: each of the first 40, and every tenth after them until a run
# takes fewer. Each run ends with status 9 and writes nothing, or answers as it does with memory. On the stored sample, which is accepted,
# and on a receiver that is reported. A run takes half a minute; the words name allocations to be tried in place of all.
#
# usage: fail_alloc.sh [N ..]
set -eu

top=$(cd "$(dirname "$0")/.." && pwd)
cd "$top/crates/nosleep"

# answer FILE FLAG..: the status of a run, and what it writes
answer() {
    file=$1
    shift
    rt try "$@" --data a.dex="$file" -- receiver a.dex 'Lapp/R;' 2>&1 | grep -v '^run=\|^rt:\|^checked' || true
}

for file in "$top/crates/nosleep/data/receiver.dex" "$top/crates/sample_apps/data/thrown_leaks.dex"; do
    whole=$(answer "$file")
    for number in ${*:-$(seq 1 40) $(seq 50 10 400)}; do
        text=$(answer "$file" --fail-alloc "$number")
        case $text in
            "$whole") echo "$(basename "$file") $number: the answer" ;;
            '') echo "$(basename "$file") $number: nothing written" ;;
            *) echo "$(basename "$file") $number: $text"; exit 1 ;;
        esac
    done
done
