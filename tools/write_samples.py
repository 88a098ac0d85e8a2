#!/usr/bin/env python3
"""Assembles the texts of sample_apps' data, and writes all files there as hexadecimal digits for its tests.

usage: write_samples.py

A new sample is a text in crates/sample_apps/data: this makes its file, and its constant in src/tests/samples.rt.
"""
import pathlib

import assemble

crate = pathlib.Path(__file__).resolve().parent.parent / "crates/sample_apps"
data = crate / "data"
samples = crate / "src/tests/samples.rt"
LINE = 100


def constant(file):
    """A file's constant: a text for each 50 bytes."""
    digits = file.read_bytes().hex()
    lines = [digits[at:at + LINE] for at in range(0, len(digits), LINE)]
    rows = "".join(f'    "{line}",\n' for line in lines)
    return f"\n/// `data/{file.name}`.\npub const {file.stem.upper()}: [&str; {len(lines)}] = [\n{rows}];\n"


def written():
    """What samples.rt is to be."""
    return "//! The files of `data/`, as hexadecimal digits.\n" + "".join(map(constant, sorted(data.glob("*.dex"))))


if __name__ == "__main__":
    for text in data.glob("*.txt"):
        text.with_suffix(".dex").write_bytes(assemble.assemble(text.read_text()))
    samples.write_text(written())
