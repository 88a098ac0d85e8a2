#!/bin/sh
# Measures how the time of the whole program grows where a careless body would multiply two sizes: a chain of classes in
# either order, a cycle of classes in the worst one, and a file that is read in many pieces. Each at a size and at four
# times that size, in turns, in one run. Prints seconds and ratios. Needs python3 and sha1sum.
#
# usage: growth.sh [PROGRAM]
#
# PROGRAM is crates/nosleep/out/nosleep where none is named.
set -eu

. "$(dirname "$0")/workspace.sh"

program=${1:-$top/crates/nosleep/out/nosleep}
[ -x "$program" ] || { echo "no program $program: build it first"; exit 1; }

PYTHONPATH="$top/bench" PYTHONDONTWRITEBYTECODE=1 python3 - "$program" "$work" <<'PYTHON'
import struct, sys
from dex_writer import string_data, summed
from turns import Turns, cost_of

CLASSES = 10_000
BYTES = 8 * 1024 * 1024
TIMES = 4
NONE = 0xffffffff
TURNS = 5

program, folder = sys.argv[1:]


def classes(parents):
    """A file of classes with no members; the superclass of each is the row of that number, if there is one."""
    count = len(parents)
    at = 112 + (4 + 4 + 32) * count
    texts, data = bytearray(), bytearray()
    for n in range(count):
        texts += struct.pack('<I', at + len(data))
        data += string_data(f'Lc{n:07};')
    sizes = [(count, 112), (count, 112 + 4 * count), (0, 0), (0, 0), (0, 0), (count, 112 + 8 * count)]
    front = struct.pack('<IIIIII', at + len(data), 112, 0x12345678, 0, 0, 0)
    front += b''.join(struct.pack('<II', *size) for size in sizes) + struct.pack('<II', len(data), at)
    rows = [struct.pack('<8I', n, 1, parent, 0, NONE, 0, 0, 0) for n, parent in enumerate(parents)]
    return summed(front + texts + struct.pack(f'<{count}I', *range(count)) + b''.join(rows) + data)


def below_the_one_before(count):
    return classes([NONE, *range(count - 1)])


def below_the_one_behind(count):
    return classes([*range(1, count), NONE])


def below_the_one_before_in_a_circle(count):
    return classes([count - 1, *range(count - 1)])


# What is measured, the file of a size, the size, and the status.
CASES = [
    ('chain, each below the one before', below_the_one_before, CLASSES, 3),
    ('chain, each below the one behind', below_the_one_behind, CLASSES, 3),
    ('cycle, each below the one before', below_the_one_before_in_a_circle, CLASSES, 3),
    ('zero bytes, read in pieces', bytes, BYTES, 3),
]


def cost(words, status):
    """Seconds of the processors, so that other work on the machine counts for little."""
    found = cost_of(words)
    if found.status != status:
        sys.exit(f'{words[0]} ended with {found.status}, and not with {status}')
    return found.busy


def measure(make, size, status):
    paths = {}
    for times in (1, TIMES):
        paths[times] = f'{folder}/{times}'
        with open(paths[times], 'wb') as file:
            file.write(make(times * size))

    def turn():
        took = {times: cost([program, 'receiver', path, 'Lapp/R;'], status) for times, path in paths.items()}
        return {**took, 'sha1sum': cost(['sha1sum', paths[TIMES]], 0)}

    return Turns(turn, TURNS)


print(f'medians of {TURNS} turns of user and system time; the larger file is {TIMES} times as large')
print(f'{"":34}{"size":>10}{"seconds":>9}{"larger":>9}{"ratio":>7}{"to sha1sum":>12}')
for name, make, size, status in CASES:
    turns = measure(make, size, status)
    small, large = (turns.middle(lambda turn: turn[times]) for times in (1, TIMES))
    beside = turns.middle(lambda turn: turn[TIMES] / turn['sha1sum'])
    print(f'{name:34}{size:>10}{small:>9.3f}{large:>9.3f}{large / small:>7.2f}{beside:>12.2f}', flush=True)
PYTHON
