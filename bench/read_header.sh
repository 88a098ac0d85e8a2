#!/bin/sh
# Measures read_header and adler32 on a DEX file of 32 MiB beside sha1sum and the Adler-32 of Python's zlib, in one
# run. Needs rt, python3 and sha1sum. Prints MB/s and ratios.
set -eu

. "$(dirname "$0")/workspace.sh"

make_workspace read_header dex_bytes ns_base dex_bytes

# a file with a right header and no tables
python3 - "$work/big.dex" <<'PYTHON'
import hashlib, random, struct, sys, zlib

SIZE = 32 * 1024 * 1024
fields = [SIZE, 112, 0x12345678] + [0] * 15 + [SIZE - 112, 112]
body = struct.pack('<20I', *fields) + random.Random(1).randbytes(SIZE - 112)
signature = hashlib.sha1(body).digest()
checksum = zlib.adler32(signature + body)
with open(sys.argv[1], 'wb') as file:
    file.write(b'dex\n035\0' + struct.pack('<I', checksum) + signature + body)
PYTHON

build_on "$work/big.dex"

measure "$work/big.dex" <<'PYTHON'
import os, sys, zlib
from turns import Turns, spent, spent_by_sha1sum, words_of

path, program = sys.argv[1:]
size = os.path.getsize(path) / 1e6
data = open(path, 'rb').read()
wanted = zlib.adler32(data)


def turn():
    header, is_read, adler, value = words_of(program, path)
    assert is_read == 'true' and int(value) == wanted, (is_read, value)
    return {
        'read_header': int(header) / 1e6,
        'adler32': int(adler) / 1e6,
        'sha1sum': spent_by_sha1sum(path),
        'zlib Adler-32': spent(lambda: zlib.adler32(data)),
    }


turns = Turns(turn)
for name in turns.names():
    print(f'{name}: {size / turns.middle(lambda turn: turn[name]):.0f} MB/s')
print('time of read_header to sha1sum and zlib Adler-32 together: '
      f'{turns.middle(lambda turn: turn["read_header"] / (turn["sha1sum"] + turn["zlib Adler-32"])):.2f}')
print(f'time of read_header to sha1sum: {turns.middle(lambda turn: turn["read_header"] / turn["sha1sum"]):.2f}')
print(f'time of adler32 to zlib Adler-32: {turns.middle(lambda turn: turn["adler32"] / turn["zlib Adler-32"]):.2f}')
PYTHON
