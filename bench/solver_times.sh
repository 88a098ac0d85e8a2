#!/bin/sh
# Measures all steps from a file and its component list to the violations of each lock, beside the same analysis as a plain Rust
# program (twin/), in one run: reading and linking, hierarchy and targets, tags, scope, and for each lock the least solution with its
# violations. Each shape of make_app.py comes at two sizes; what a lock takes at the larger one, to what it takes at the smaller one, is
# the growth. Both programs have to find the same violations.
# Needs rt, python3, and rustc for the twin. Prints seconds, medians of five turns in which the programs alternate, the ratio of each to
# the twin's, and peaks of memory.
#
# usage: solver_times.sh [SHAPE-COUNT ...]
set -eu

. "$(dirname "$0")/workspace.sh"

make_workspace solver_times \
    "sample_apps view_solver solver solution flow_model act_model scope_check tag_flow component_list class_graph app_model dalvik ns_base" \
    ns_base dex_bytes dex_tables dex_code dalvik dalvik_decode method_graph dex_file app_model act_model solution class_graph call_reach \
    call_targets component_list flow_model solver view_solver tag_rows tag_flow scope_facts scope_check app_rows app_link cert_line certificate cert_facts cert_check report_path path_text path_reader \
    log_queue fact_log derivation report_text sample_apps

export PYTHONDONTWRITEBYTECODE=1
if [ $# -eq 0 ]; then
    set -- chain-2000 chain-8000 falling-2000 falling-8000 cycle-2000 cycle-8000 shared-16 shared-64 switch-2500 switch-10000 \
        loop-25000 loop-100000 backward-250 backward-1000 sequence-500 sequence-2000 real-6750 real-27000
fi
for shape in "$@"; do
    python3 "$top/bench/make_app.py" "${shape%-*}" "${shape#*-}" "$work/$shape.dex" "$work/$shape.toml"
done
(cd "$work/crates/solver_times" && rt run -- "$work/$1.toml" "$work/$1.dex") > "$work/build.txt" 2>&1 || { cat "$work/build.txt"; exit 1; }
if command -v rustc > /dev/null; then
    rustc -O --edition 2024 -o "$work/twin" "$top/bench/twin/main.rs"
else
    echo 'no rustc: no twin'
fi
python3 "$top/bench/solver_times/turns_of.py" "$work" "$@"
