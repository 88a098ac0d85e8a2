#!/bin/sh
# Measures the class hierarchy, the targets of calls and what calls assign, beside reading and linking the same file, in
# one run: on a chain of classes, on interfaces that cross, on classes apart, each also at four times the size, on as many entries as the limit
# and one more (which has to be refused), and on files that are named.
# Needs rt and python3. Prints seconds, medians of five turns, and the ratio of hierarchy and targets to reading.
#
# usage: call_times.sh [FILE.dex ...]
set -eu

. "$(dirname "$0")/workspace.sh"

make_workspace call_times "call_targets class_graph app_link dex_file app_model dalvik ns_base" \
    ns_base dex_bytes dex_tables dex_code dalvik dalvik_decode method_graph dex_file app_model class_graph call_reach \
    call_targets app_rows app_link

mkdir -p "$work/crates/call_times/proofs/link_file"
cp "$top/bench/call_times/link_file.antt.in" "$work/crates/call_times/proofs/link_file/Answers.antt"
touch "$work/crates/call_times/proofs/Lib.antt"

for shape in chain crossing apart; do
    for count in 2000 8000; do
        PYTHONDONTWRITEBYTECODE=1 python3 "$top/bench/make_hierarchy.py" $shape $count "$work/$shape-$count.dex"
    done
done
for count in 16777216 16777217; do
    PYTHONDONTWRITEBYTECODE=1 python3 "$top/bench/make_hierarchy.py" entries $count "$work/entries-$count.dex"
done
build_on "$work/chain-2000.dex"

PYTHONDONTWRITEBYTECODE=1 python3 - "$work/crates/call_times/out/call_times" \
    "$work/chain-2000.dex" "$work/chain-8000.dex" "$work/crossing-2000.dex" "$work/crossing-8000.dex" \
    "$work/apart-2000.dex" "$work/apart-8000.dex" \
    "$work/entries-16777216.dex" "$work/entries-16777217.dex" "$@" <<'PYTHON'
import os, statistics, subprocess, sys

program, *files = sys.argv[1:]
TURNS = 5

print(f'{"":24}{"linked":>9}{"hierarchy":>11}{"targets":>9}{"assigns":>9}{"ratio":>8}{"peak":>9}')
for path in files:
    turns, peak = [], 0
    for _ in range(TURNS):
        child = subprocess.Popen([program, path], stdout=subprocess.PIPE, text=True)
        line = child.stdout.read().split()
        _, status, used = os.wait4(child.pid, 0)
        if status:
            sys.exit(f'{program} {path} ended with {status}')
        turns.append([int(n) / 1e6 for n in line[:4]])
        within, peak = line[4], max(peak, used.ru_maxrss)
    linked, built, found, assigned = (statistics.median(column) for column in zip(*turns))
    ratio = (built + found) / linked if linked else 0
    name = os.path.basename(path)
    if within != ('false' if name == 'entries-16777217.dex' else 'true'):
        sys.exit(f'{name}: {within} is wrong: the limit is 16,777,216 entries')
    print(f'{name:24}{linked:9.3f}{built:11.3f}{found:9.3f}{assigned:9.3f}{ratio:8.2f}{peak // 1024:6} MB  {within}')
PYTHON
