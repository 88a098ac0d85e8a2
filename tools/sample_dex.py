#!/usr/bin/env python3
"""Writes a small DEX 035 file: one receiver class with the static wake lock `wl` and `onReceive`.

usage: sample_dex.py OUT [returns|worked|leaks|throws]

It lays the file out independently of the proved program, so that the two can be compared:
  returns  3 registers, return-void alone
  worked   make, store, acquire, release, return
  leaks    the same without the release
  throws   an outside call in a try between acquire and release; its handler returns with the lock held
"""
import hashlib
import struct
import sys
import zlib

STRINGS = ["Lapp/R;", "Landroid/content/BroadcastReceiver;", "Landroid/os/PowerManager$WakeLock;", "wl", "V",
           "Landroid/content/Context;", "Landroid/content/Intent;", "VLL", "onReceive", "power", "Ljava/lang/String;",
           "Ljava/lang/Object;", "LL", "getSystemService", "Landroid/os/PowerManager;", "t", "I", "LIL",
           "newWakeLock", "acquire", "release", "Ljava/lang/System;", "gc", "Ljava/lang/Exception;"]
TYPES = [0, 1, 2, 4, 5, 6, 10, 11, 14, 16, 21, 23]
PROTOS = [(7, 3, [4, 5]), (12, 7, [6]), (17, 2, [9, 6]), (4, 3, [])]
FIELDS = [(0, 2, 3)]
METHODS = [(0, 0, 8), (4, 1, 13), (8, 2, 18), (2, 3, 19), (2, 3, 20), (10, 3, 22)]
OPENING = [0x001a, 9, 0x206e, 1, 0x0004, 0x000c, 0x001f, 8, 0x1112, 0x021a, 15, 0x306e, 2, 0x0210, 0x000c, 0x0069, 0]
ACQUIRE = [0x0062, 0, 0x106e, 3, 0]
RELEASE = [0x0062, 0, 0x106e, 4, 0]
BODIES = {
    "returns": (3, [0x000e], b"", 0),
    "worked": (6, OPENING + ACQUIRE + RELEASE + [0x000e], b"", 0),
    "leaks": (6, OPENING + ACQUIRE + [0x000e], b"", 0),
    "throws": (6, OPENING + ACQUIRE + [0x0071, 5, 0] + RELEASE + [0x000e, 0x000d, 0x000e],
               struct.pack("<IHH", 22, 3, 1) + bytes([1, 1, 11, 31]), 1),
}


def uleb(n):
    out = b""
    while n > 127:
        out += bytes([n & 127 | 128])
        n >>= 7
    return out + bytes([n])


def layout(registers, units, tries, try_count):
    ids = 112 + 4 * len(STRINGS) + 4 * len(TYPES) + 12 * len(PROTOS) + 8 * len(FIELDS) + 8 * len(METHODS) + 32
    data = b""

    def here():
        return ids + len(data)

    def pad():
        return b"\0" * (-here() % 4)

    lists = []
    for _, _, params in PROTOS:
        if not params:
            lists.append(0)
            continue
        data += pad()
        lists.append(here())
        data += struct.pack("<I", len(params)) + b"".join(struct.pack("<H", p) for p in params)
    texts = []
    for s in STRINGS:
        texts.append(here())
        data += uleb(len(s)) + s.encode() + b"\0"
    members = here()
    # the code offset takes two bytes at this size, so the code item's place is known beforehand
    code = members + len(uleb(1) + uleb(0) + uleb(0) + uleb(1) + uleb(0) + uleb(9) + uleb(0) + uleb(1)) + 2
    code += -code % 4
    data += uleb(1) + uleb(0) + uleb(0) + uleb(1) + uleb(0) + uleb(9) + uleb(0) + uleb(1) + uleb(code)
    data += pad()
    assert here() == code
    data += struct.pack("<HHHHII", registers, 3, 255, try_count, 0, len(units))
    data += b"".join(struct.pack("<H", u) for u in units)
    if try_count and len(units) % 2:
        data += b"\0\0"
    data += tries
    rows = b"".join(struct.pack("<I", t) for t in texts)
    rows += b"".join(struct.pack("<I", t) for t in TYPES)
    rows += b"".join(struct.pack("<III", s, r, o) for (s, r, _), o in zip(PROTOS, lists))
    rows += b"".join(struct.pack("<HHI", *f) for f in FIELDS)
    rows += b"".join(struct.pack("<HHI", *m) for m in METHODS)
    rows += struct.pack("<IIIIIIII", 0, 1, 1, 0, 0xffffffff, 0, members, 0)
    parts, off = b"", 112
    for size, width in ((len(STRINGS), 4), (len(TYPES), 4), (len(PROTOS), 12), (len(FIELDS), 8), (len(METHODS), 8), (1, 32)):
        parts += struct.pack("<II", size, off)
        off += size * width
    tail = struct.pack("<IIIIII", ids + len(data), 112, 0x12345678, 0, 0, 0) + parts + struct.pack("<II", 0, 0) + rows + data
    signed = hashlib.sha1(tail).digest() + tail
    return b"dex\n035\0" + struct.pack("<I", zlib.adler32(signed)) + signed


if __name__ == "__main__":
    out, kind = sys.argv[1], (sys.argv[2:] or ["returns"])[0]
    with open(out, "wb") as f:
        f.write(layout(*BODIES[kind]))
