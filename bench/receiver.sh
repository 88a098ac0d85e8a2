#!/bin/sh
# Measures the whole program beside dexdump, dexlist and sha1sum, in one run, on the largest DEX file that Debian's
# packages hold and on a generated one of 32 MiB. Prints seconds, ratios and peaks of memory. Needs python3 and sha1sum;
# what else is absent is left out, with a line that says so.
#
# usage: receiver.sh [PROGRAM [FOLDER]]
#
# PROGRAM is crates/nosleep/out/nosleep where none is named. In FOLDER the two files are kept and used again, as
# debian.dex and generated.dex; each further .dex file there is measured too.
set -eu

. "$(dirname "$0")/workspace.sh"

program=${1:-$top/crates/nosleep/out/nosleep}
folder=${2:-$work}
[ -x "$program" ] || { echo "no program $program: build it first"; exit 1; }
mkdir -p "$folder"

# tool FILE WORD..: a Python program of this folder
tool() {
    PYTHONPATH="$top/bench" PYTHONDONTWRITEBYTECODE=1 python3 "$@"
}

# of Debian 12's packages androguard has DEX files, in its examples; it is unpacked, not installed
fetch() {
    for word in apt-get dpkg-deb; do
        command -v "$word" > "$work/where" || { echo "no $word here"; return 1; }
    done
    mkdir -p "$work/package"
    (cd "$work/package" && apt-get download androguard) > "$work/fetched.txt" 2>&1 \
        || { tail -n 1 "$work/fetched.txt"; return 1; }
    dpkg-deb -x "$work"/package/androguard_*.deb "$work/package" || return 1
    tool "$top/bench/largest_dex.py" "$work/package" "$folder/debian.dex"
}

[ -f "$folder/debian.dex" ] || fetch || echo "no DEX file of Debian's packages: left out"
[ -f "$folder/generated.dex" ] || tool "$top/bench/generate_dex.py" "$folder/generated.dex"

tool - "$program" "$folder"/*.dex <<'PYTHON'
import os, shutil, subprocess, sys
from turns import Turns, cost_of, own_peak

PROGRAM = 'nosleep'
OTHERS = [['dexdump', '-f'], ['dexdump', '-d'], ['dexlist'], ['sha1sum']]
TURNS = 7
WANTED_MEMORY = 12

program, *paths = sys.argv[1:]
there = [words for words in OTHERS if shutil.which(words[0])]
for name in sorted({words[0] for words in OTHERS if words not in there}):
    print(f'no {name} here: left out')


def one_turn(path):
    costs = {PROGRAM: cost_of([program, 'receiver', path, 'Lapp/R;'])}
    for words in there:
        costs[' '.join(words)] = cost_of([*words, path])
    return costs


def say_answer(path):
    run = subprocess.run([program, 'receiver', path, 'Lapp/R;'], stdout=subprocess.PIPE, text=True, errors='replace')
    lines = run.stdout.splitlines() or ['nothing']
    print(f'{PROGRAM} answers: {lines[0]} (status {run.returncode}, {len(lines)} lines)')
    return run.returncode


def check(turns, status):
    for turn in turns.turns:
        for name, cost in turn.items():
            if cost.status != (status if name == PROGRAM else 0):
                sys.exit(f'{name} ended with {cost.status}')


def memory(peak, size):
    """In MB and to the file; less than this process has is not seen."""
    own = own_peak()
    return [f'under {own / 1e6:.0f}', '-'] if peak <= own else [f'{peak / 1e6:.0f}', f'{peak / size:.1f}']


def row(turns, name, size):
    seconds = turns.middle(lambda turn: turn[name].seconds)
    busy = turns.middle(lambda turn: turn[name].busy)
    ratio = turns.middle(lambda turn: turn[PROGRAM].seconds / turn[name].seconds)
    busy_ratio = turns.middle(lambda turn: turn[PROGRAM].busy / turn[name].busy)
    peak = max(turn[name].peak for turn in turns.turns)
    return [name, f'{seconds:.3f}', f'{busy:.3f}', f'{ratio:.2f}', f'{busy_ratio:.2f}', *memory(peak, size)]


def goals(turns, size):
    if 'dexdump -d' in turns.names():
        ratio = turns.middle(lambda turn: turn[PROGRAM].seconds / turn['dexdump -d'].seconds)
        print(f'time to dexdump -d: {ratio:.2f}, to be below 1: {"met" if ratio < 1 else "missed"}')
    else:
        print('time to dexdump -d: not measured')
    times = max(turn[PROGRAM].peak for turn in turns.turns) / size
    said = 'met' if times < WANTED_MEMORY else 'missed'
    print(f'memory to the file: {times:.1f}, to be below {WANTED_MEMORY}: {said}')


def measure(path):
    size = os.path.getsize(path)
    print(f'\n{os.path.basename(path)}: {size} bytes')
    status = say_answer(path)
    turns = Turns(lambda: one_turn(path), TURNS)
    check(turns, status)
    rows = [['', 'seconds', 'user+sys', 'ratio', 'ratio', 'peak MB', 'to file']]
    rows += [row(turns, name, size) for name in turns.names()]
    for first, *more in rows:
        print(f'{first:12}' + ''.join(f'{word:>10}' for word in more))
    goals(turns, size)


print(f'medians of {TURNS} turns; the ratios are those of {PROGRAM} to each, by seconds and by user+sys')
for path in paths:
    measure(path)
PYTHON
