#!/usr/bin/env python3
"""Takes each application package of a folder from the package to the answer, and prints a row of a table for each.

usage: real_packages.py FOLDER [PROGRAM]

Of files that are alike one is taken. A package is taken apart by `apktool d`, its list is written by list-from-manifest, and
PROGRAM, or crates/nosleep/out/nosleep, verifies it. A component that does not bind is taken out of the list, and a DEX file
with an old signature gets a right one; the row says so. Then the answer is written as SARIF and as a page. It ends with
status 1 where a step fails otherwise than by saying what is wrong with the package.
"""
import hashlib
import pathlib
import re
import subprocess
import sys
import tempfile
import time

tools = pathlib.Path(__file__).resolve().parent
UNBOUND = re.compile(r"bad list No(?:Class|Callback) (\d+)\n")
SIGNED = re.compile(r"bad dex (\d+) Signature\n")
COMPONENT = re.compile(r"# component \d+\n(?:.+\n)+\n")


def run(*words):
    """A command's status, its output and its seconds."""
    begin = time.monotonic()
    ran = subprocess.run(words, capture_output=True, text=True)
    return ran.returncode, ran.stdout, time.monotonic() - begin


class Package:
    """A package that was taken apart, with its list."""

    def __init__(self, apk, folder, program):
        self.folder, self.program, self.mended = folder / "apart", program, []
        _, _, self.apart = run("apktool", "d", "-s", "-o", str(self.folder), str(apk))
        self.files = sorted(map(str, self.folder.glob("*.dex")), key=lambda name: (len(name), name))
        self.list = folder / "list.toml"
        words = ["--runnables", *self.files] if self.files else []
        status, text, self.listing = run(tools / "list-from-manifest", self.folder / "AndroidManifest.xml", *words)
        self.has_list = status == 0
        self.list.write_text(text)

    def answer(self):
        """The answer once each component binds and each signature is right, and the seconds of the last run."""
        while True:
            status, text, seconds = run(self.program, "verify", self.list, *self.files)
            if found := UNBOUND.fullmatch(text):
                self.take_out(int(found[1]))
            elif found := SIGNED.fullmatch(text):
                file = self.files[int(found[1])]
                run(tools / "reseal", file, file)
                self.mended.append(f"resealed {pathlib.Path(file).name}")
            else:
                return status, text, seconds

    def take_out(self, number):
        rows = COMPONENT.findall(self.list.read_text())
        self.mended.append("without " + re.search(r'class = "(.*)"', rows[number])[1])
        self.list.write_text("".join(rows[:number] + rows[number + 1:]))

    def told(self, text):
        """Whether both writers take the answer."""
        answer = self.list.with_name("answer.txt")
        answer.write_text(text)
        return all(run(tools / writer, answer, "--list", self.list, "--dex", *self.files)[0] == 0 for writer in ("report-to-sarif", "report-to-html"))


def row_of(apk, program):
    """The row of a package, and whether all steps ended as they should."""
    name = f"| `{apk.name}`, {apk.stat().st_size:,} bytes "
    with tempfile.TemporaryDirectory() as folder:
        package = Package(apk, pathlib.Path(folder), program)
        if not package.has_list or not package.files:
            lacks = "no manifest" if not package.has_list else "no DEX file"
            return name + f"| {package.apart:.1f} | {package.listing:.1f} | - | {lacks} |", True
        status, text, seconds = package.answer()
        answer = "; ".join([*package.mended, f"{status}: `{text.splitlines()[0]}`"])
        return name + f"| {package.apart:.1f} | {package.listing:.1f} | {seconds:.2f} | {answer} |", status in range(4) and package.told(text)


def main():
    if len(sys.argv) not in (2, 3):
        sys.exit("usage: real_packages.py FOLDER [PROGRAM]")
    program = pathlib.Path(*sys.argv[2:] or [tools.parent / "crates/nosleep/out/nosleep"]).resolve()
    alike = {hashlib.sha1(apk.read_bytes()).digest(): apk for apk in sorted(pathlib.Path(sys.argv[1]).rglob("*.apk"), reverse=True)}
    print("| Package | `apktool d` | list | `verify` | Answer |\n|---|---|---|---|---|")
    is_right = True
    for apk in sorted(alike.values(), key=lambda apk: apk.name.lower()):
        row, is_ended = row_of(apk, program)
        print(row, flush=True)
        is_right = is_right and is_ended
    sys.exit(0 if is_right else 1)


if __name__ == "__main__":
    main()
