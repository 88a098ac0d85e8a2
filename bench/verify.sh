#!/bin/sh
# Measures `nosleep verify` on whole applications beside dexdump -d and the plain Rust twin of the analysis (twin/), in one run: on an
# application in scope as large as a real one with 27,000 methods and on one of half that size, on 64 locks over 2,000 shared methods,
# and on the largest DEX file of Debian's packages, where FOLDER has it as debian.dex (receiver.sh leaves it there), with the list of
# make_list.py. Prints seconds, ratios and peaks of memory; what is absent is left out, with a line that says so.
# Needs python3; rustc for the twin.
#
# usage: verify.sh [PROGRAM [FOLDER]]
set -eu

. "$(dirname "$0")/workspace.sh"

program=${1:-$top/crates/nosleep/out/nosleep}
folder=${2:-$work}
[ -x "$program" ] || { echo "no program $program: build it first"; exit 1; }
mkdir -p "$folder"

# tool FILE WORD..: a Python program of this folder
tool() {
    PYTHONPATH="$top/bench" PYTHONDONTWRITEBYTECODE=1 python3 "$@"
}

for shape in real-13500 real-27000 shared-64; do
    [ -f "$folder/$shape.dex" ] || tool "$top/bench/make_app.py" "${shape%-*}" "${shape#*-}" "$folder/$shape.dex" "$folder/$shape.toml"
done
if [ -f "$folder/debian.dex" ]; then
    tool "$top/bench/make_list.py" "$folder/debian.dex" "$folder/debian.toml"
else
    echo 'no debian.dex: left out'
fi
if command -v rustc > /dev/null; then
    rustc -O --edition 2024 -o "$work/twin" "$top/bench/twin/main.rs"
else
    echo 'no rustc: no twin'
fi

tool - "$program" "$work/twin" "$folder" <<'PYTHON'
import os, shutil, subprocess, sys
from turns import Turns, cost_of

PROGRAM = 'nosleep verify'
TURNS = 7

program, twin, folder = sys.argv[1:]
paths = [os.path.join(folder, f'{name}.dex') for name in ('real-13500', 'real-27000', 'shared-64', 'debian')]


def words_of(path):
    listed = path.removesuffix('.dex') + '.toml'
    words = {PROGRAM: [program, 'verify', listed, path], 'nosleep receiver': [program, 'receiver', path, 'Lapp/R;']}
    if shutil.which('dexdump'):
        words['dexdump -d'] = ['dexdump', '-d', path]
    if os.path.exists(twin):
        words['twin'] = [twin, listed, path]
    return words


for path in filter(os.path.exists, paths):
    words = words_of(path)
    run = subprocess.run(words[PROGRAM], stdout=subprocess.PIPE, text=True)
    first = (run.stdout.splitlines() or ['nothing'])[0]
    print(f'\n{os.path.basename(path)}: {os.path.getsize(path)} bytes; status {run.returncode}, {first}')
    turns = Turns(lambda: {name: cost_of(each) for name, each in words.items()}, TURNS)
    for name in words:
        seconds = turns.middle(lambda turn: turn[name].seconds)
        ratio = turns.middle(lambda turn: turn[PROGRAM].seconds / turn[name].seconds)
        peak = max(turn[name].peak for turn in turns.turns)
        print(f'{name:18}{seconds:8.3f} s{ratio:8.2f}{peak / 1e6:8.0f} MB')
PYTHON
