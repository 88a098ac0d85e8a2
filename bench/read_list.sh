#!/bin/sh
# Measures read_list on a list of 256 components and 1 MiB of comments, beside toml's reading of the same bytes. Needs
# rt. Prints the microseconds of each of seven rounds.
set -eu

. "$(dirname "$0")/workspace.sh"

make_workspace read_list "component_list toml anyhow" ns_base dalvik app_model class_graph component_list
(cd "$work/crates/read_list" && rt run) 2> "$work/build.txt" || { cat "$work/build.txt"; exit 1; }
