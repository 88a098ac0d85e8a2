#!/bin/sh
# Measures read_tables on a generated DEX file with 1,000,000 strings, 65,535 types and 65,535 prototypes beside
# sha1sum of the same file, in one run. Needs rt, python3 and sha1sum. Prints seconds and the ratio.
set -eu

. "$(dirname "$0")/workspace.sh"

make_workspace read_tables "dex_tables dex_bytes" ns_base dex_bytes dex_tables

# the tables in their order, then the data of the strings, then the type lists
python3 - "$work/big.dex" <<'PYTHON'
import struct, sys

STRINGS, IDS, CLASSES = 1_000_000, 65_535, 10_000
sizes = [STRINGS, IDS, IDS, IDS, IDS, CLASSES]
widths = [4, 4, 12, 8, 8, 32]
offsets, at = [], 112
for size, width in zip(sizes, widths):
    offsets.append(at)
    at += size * width

ids, data = bytearray(), bytearray()
for i in range(STRINGS):
    ids += struct.pack('<I', at + len(data))
    text = b'name%012d' % i
    data += bytes([len(text)]) + text + b'\0'
at += len(data)
lists = bytearray()
protos = bytearray()
for i in range(IDS):
    protos += struct.pack('<III', i, i, at + len(lists))
    lists += struct.pack('<IHHH', 3, i, (i * 7) % IDS, (i * 11) % IDS)
rows = bytearray(ids)
rows += b''.join(struct.pack('<I', i * 3) for i in range(IDS))
rows += protos
rows += b''.join(struct.pack('<HHI', i, IDS - 1 - i, i) for i in range(IDS))
rows += b''.join(struct.pack('<HHI', i, IDS - 1 - i, i) for i in range(IDS))
rows += b''.join(struct.pack('<8I', i, 1, 0xffffffff, at, 0, 0, 0, 0) for i in range(CLASSES))
front = bytearray(56)
for size, off in zip(sizes, offsets):
    front += struct.pack('<II', size, off)
front += bytes(8)
with open(sys.argv[1], 'wb') as file:
    file.write(front + rows + data + lists)
PYTHON

build_on "$work/big.dex"

measure "$work/big.dex" <<'PYTHON'
import os, sys
from turns import Turns, spent_by_sha1sum, words_of

path, program = sys.argv[1:]


def turn():
    tables, strings = words_of(program, path)
    assert int(strings) == 1_000_000, strings
    return {'read_tables': int(tables) / 1e6, 'sha1sum': spent_by_sha1sum(path)}


turns = Turns(turn)
print(f'file: {os.path.getsize(path)} bytes')
for name in turns.names():
    print(f'{name}: {turns.middle(lambda turn: turn[name]):.3f} s')
print(f'time of read_tables to sha1sum: {turns.middle(lambda turn: turn["read_tables"] / turn["sha1sum"]):.2f}')
PYTHON
