#!/bin/sh
# Measures the steps from a file and its component list to a subject, beside reading and linking the same file, in one run: hierarchy
# and targets, tags, scope; on calls in a chain, in falling order and in a cycle, on one wide method, each also at four times the
# size, and on files that are named, each with the list that make_list.py writes for it.
# Needs rt and python3. Prints seconds, medians of five turns, nanoseconds a cell of tags where the shape says how many there are,
# and the rule of scope that is broken (0 for none).
#
# usage: analysis_times.sh [FILE.dex ...]
set -eu

. "$(dirname "$0")/workspace.sh"

make_workspace analysis_times "sample_apps scope_check tag_flow class_graph app_model dalvik ns_base" \
    ns_base dex_bytes dex_tables dex_code dalvik dalvik_decode method_graph dex_file app_model act_model class_graph call_reach \
    call_targets component_list flow_model tag_rows tag_flow scope_facts scope_check solution solver view_solver app_rows app_link cert_line certificate cert_facts cert_check \
    report_path path_text path_reader log_queue fact_log derivation report_text sample_apps

export PYTHONDONTWRITEBYTECODE=1
pairs=
for shape in chain-2000 chain-8000 falling-2000 falling-8000 cycle-2000 cycle-8000 wide-15000 wide-60000; do
    python3 "$top/bench/make_app.py" "${shape%-*}" "${shape#*-}" "$work/$shape.dex" "$work/$shape.toml"
    pairs="$pairs $work/$shape.dex $work/$shape.toml"
done
for file in "$@"; do
    list="$work/$(basename "$file").toml"
    python3 "$top/bench/make_list.py" "$file" "$list"
    pairs="$pairs $file $list"
done
build_on "$work/chain-2000.dex"

python3 - "$work/crates/analysis_times/out/analysis_times" $pairs <<'PYTHON'
import os, statistics, subprocess, sys

program, *words = sys.argv[1:]
TURNS = 5

print(f'{"":20}{"linked":>9}{"targets":>9}{"tags":>9}{"scope":>9}{"ns a cell":>11}{"peak":>9}  rule')
for path, listed in zip(words[::2], words[1::2]):
    turns, peak = [], 0
    for _ in range(TURNS):
        child = subprocess.Popen([program, path, listed], stdout=subprocess.PIPE, text=True)
        line = child.stdout.read().split()
        _, status, used = os.wait4(child.pid, 0)
        if status:
            sys.exit(f'{program} {path} ended with {status}')
        turns.append([int(n) / 1e6 for n in line[:4]])
        rule, peak = line[4], max(peak, used.ru_maxrss)
    linked, called, tagged, scoped = (statistics.median(column) for column in zip(*turns))
    name = os.path.basename(path).removesuffix('.dex')
    shape, _, count = name.partition('-')
    cells = {'wide': lambda n: 500 * (n + 1)}.get(shape, lambda n: n * 24 * 17)(int(count)) if count.isdigit() else 0
    each = f'{tagged / cells * 1e9:11.1f}' if cells else f'{"":11}'
    print(f'{name:20}{linked:9.3f}{called:9.3f}{tagged:9.3f}{scoped:9.3f}{each}{peak // 1024:6} MB  {rule}')
PYTHON
