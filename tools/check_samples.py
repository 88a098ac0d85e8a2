#!/usr/bin/env python3
"""Checks that the stored sample is what sample_dex.py lays out and the tests of nosleep hold, and that the applications of
sample_apps are what assemble.py makes of their texts."""
import pathlib
import re
import sys

import assemble
import sample_dex
import write_samples

top = pathlib.Path(__file__).resolve().parent.parent


def in_tests(crate, name):
    """The bytes of a constant of a crate's tests."""
    literal = (top / "crates" / crate).read_text()
    block = re.search(rf"pub const {name}: .*?];", literal, re.DOTALL).group()
    return bytes.fromhex("".join(re.findall(r'"([0-9a-f]+)"', block)))


stored = (top / "crates/nosleep/data/receiver.dex").read_bytes()
for name, found in (("sample_dex.py", sample_dex.layout(*sample_dex.BODIES["worked"])), ("the tests", in_tests("nosleep/src/tests/sample.rt", "RECEIVER"))):
    if found != stored:
        sys.exit(f"crates/nosleep/data/receiver.dex differs from what {name} has")
print("the stored sample is the same in all three places")

data = write_samples.data
texts = sorted(data.glob("*.txt"))
for text in texts:
    made = text.with_suffix(".dex")
    if not made.exists() or assemble.assemble(text.read_text()) != made.read_bytes():
        sys.exit(f"{text} differs from the file that was made of it: run tools/write_samples.py")
if write_samples.samples.read_text() != write_samples.written():
    sys.exit(f"{write_samples.samples} has other digits than {data}: run tools/write_samples.py")
if (data / "receiver.dex").read_bytes() != stored:
    sys.exit("crates/sample_apps/data/receiver.dex is not the stored sample")
print(f"{len(texts)} applications are what their texts say, and what the tests have")
