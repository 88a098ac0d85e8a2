#!/usr/bin/env python3
"""Takes the largest DEX 035 file with right sums out of a folder, also from within archives, and says which one it is.

usage: largest_dex.py FOLDER OUT
"""
import hashlib
import io
import os
import struct
import sys
import zipfile
import zlib

LARGEST = 32 * 1024 * 1024


def files_in(folder):
    for base, _, names in sorted(os.walk(folder)):
        for name in sorted(names):
            path = os.path.join(base, name)
            if os.path.isfile(path) and not os.path.islink(path):
                with open(path, "rb") as file:
                    yield from dex_in(os.path.relpath(path, folder), file.read())


def dex_in(name, data):
    """The DEX files in these bytes: they themselves, or what an archive holds."""
    if data.startswith(b"dex\n"):
        yield name, data
    elif data.startswith(b"PK"):
        for inner, content in members(data):
            yield from dex_in(f"{name}!{inner}", content)


def members(data):
    """What can be read of an archive; test archives of packages may be broken by intent."""
    try:
        archive = zipfile.ZipFile(io.BytesIO(data))
    except zipfile.BadZipFile:
        return
    for name in archive.namelist():
        try:
            yield name, archive.read(name)
        except (zipfile.BadZipFile, zlib.error, NotImplementedError, RuntimeError, EOFError):
            pass


def is_sound(data):
    """Version 035, the file's own size, Adler-32 from byte 12 on and SHA-1 from byte 32 on."""
    if not data.startswith(b"dex\n035\0") or not 112 <= len(data) <= LARGEST:
        return False
    checksum, signature, size = struct.unpack_from("<I20sI", data, 8)
    return size == len(data) and checksum == zlib.adler32(data[12:]) and signature == hashlib.sha1(data[32:]).digest()


def main():
    folder, out = sys.argv[1:]
    found = {}
    for name, data in files_in(folder):
        found.setdefault(data, name)
    sound = [data for data in found if is_sound(data)]
    print(f"{len(found)} different DEX files, {len(sound)} of version 035 with right sums")
    if not sound:
        sys.exit(1)
    largest = max(sound, key=len)
    print(f"the largest of these: {found[largest]}")
    with open(out, "wb") as file:
        file.write(largest)


if __name__ == "__main__":
    main()
