#!/usr/bin/env python3
"""Compares the instruction starts and names of dalvik_decode with `dexdump -d` over a DEX file.

usage: decode_against_dexdump.py FILE.dex

Needs rt and dexdump (Debian's package of that name); without dexdump it says so and ends with 0. The starts and opcodes
come from the program `decode_against_dexdump/main.rt.in` over the proved crate, the names from the constants of
crates/dalvik_decode/src/opcode.rt.
"""
import pathlib
import re
import shutil
import struct
import subprocess
import sys
import tempfile

top = pathlib.Path(__file__).resolve().parent.parent
CRATES = ("ns_base", "dalvik", "dalvik_decode")


def names():
    text = (top / "crates/dalvik_decode/src/opcode.rt").read_text()
    found = re.findall(r"pub const (\w+): u8 = 0x([0-9a-f]{2});", text)
    return {int(code, 16): name for name, code in found}


def plain(mnemonic):
    return re.sub(r"[-/]", "_", mnemonic).upper()


def dumped(path):
    """The methods of the file, each as the (pc, text) of its lines."""
    out = subprocess.run(["dexdump", "-d", path], check=True, capture_output=True, text=True, errors="replace").stdout
    methods = []
    for line in out.splitlines():
        if re.match(r"^[0-9a-f]+:\s+\|\[[0-9a-f]+\]", line):
            methods.append([])
            continue
        row = re.match(r"^[0-9a-f]+: [0-9a-f. ]+?\s*\|([0-9a-f]{4}): (.*)$", line)
        if row and methods:
            methods[-1].append((int(row[1], 16), row[2]))
    return methods


def code_items(path):
    """The units of each method with code, in the order of the class data, read from the file itself."""
    data = pathlib.Path(path).read_bytes()

    def uleb(at):
        value = shift = 0
        while True:
            byte = data[at]
            at += 1
            value |= (byte & 127) << shift
            shift += 7
            if byte < 128:
                return value, at

    count, off = struct.unpack_from("<II", data, 96)
    items = []
    for row in range(count):
        place = struct.unpack_from("<I", data, off + 32 * row + 24)[0]
        if place == 0:
            continue
        counts = []
        for _ in range(4):
            value, place = uleb(place)
            counts.append(value)
        for _ in range(2 * (counts[0] + counts[1])):
            _, place = uleb(place)
        for _ in range(counts[2] + counts[3]):
            _, place = uleb(place)
            _, place = uleb(place)
            code, place = uleb(place)
            if code:
                size = struct.unpack_from("<I", data, code + 12)[0]
                items.append(struct.unpack_from(f"<{size}H", data, code + 16))
    return items


def build(work):
    (work / "crates/sweep/src").mkdir(parents=True)
    shutil.copy(top / "bench/decode_against_dexdump/main.rt.in", work / "crates/sweep/src/main.rt")
    for crate in CRATES:
        shutil.copytree(top / "crates" / crate, work / "crates" / crate)
    (work / "crates.txt").write_text(
        "ns_base:\ndalvik: ns_base\ndalvik_decode: dalvik ns_base\nsweep: dalvik_decode\n")
    shutil.copy(top / "HANDLES", work / "HANDLES")
    (work / "none").write_text("")
    run = subprocess.run(["rt", "run", "--", str(work / "none")], cwd=work / "crates/sweep", capture_output=True, text=True)
    if run.returncode != 0:
        sys.exit(run.stdout + run.stderr)
    return work / "crates/sweep/out/sweep"


def main():
    if shutil.which("dexdump") is None:
        print("no dexdump here: nothing compared")
        return
    path = sys.argv[1]
    want = dumped(path)
    items = code_items(path)
    with tempfile.TemporaryDirectory() as folder:
        work = pathlib.Path(folder)
        program = build(work)
        (work / "units").write_text("".join(" ".join(f"{u:04x}" for u in units) + "\n" for units in items))
        out = subprocess.run([program, work / "units"], check=True, capture_output=True, text=True).stdout
    got = []
    for line in out.splitlines():
        if line == "method":
            got.append([])
        else:
            pc, code = line.split()
            got[-1].append((int(pc), int(code)))
    known = names()
    if len(want) != len(got):
        sys.exit(f"dexdump has {len(want)} methods with code, the program {len(got)}")
    total = 0
    for number, (theirs, ours) in enumerate(zip(want, got)):
        if len(theirs) != len(ours):
            sys.exit(f"method {number}: dexdump has {len(theirs)} lines, the program {len(ours)}")
        for (pc, name), (our_pc, code) in zip(theirs, ours):
            total += 1
            is_payload = "-data (" in name or "-payload" in name
            if pc != our_pc or not (is_payload or plain(name.split()[0]) == known.get(code)):
                sys.exit(f"method {number}: dexdump has {pc} {name}, the program {our_pc} {known.get(code)}")
    print(f"{len(got)} methods, {total} instructions and payloads: the same starts and names")


main()
