#!/bin/sh
# Measures decode_at over a generated method of four million units of mixed opcodes. Needs rt. Prints how many
# instructions were found and the microseconds of each of five sweeps.
set -eu

. "$(dirname "$0")/workspace.sh"

make_workspace decode "dalvik_decode dalvik" ns_base dalvik dalvik_decode
(cd "$work/crates/decode" && rt run) 2> "$work/build.txt" || { cat "$work/build.txt"; exit 1; }
