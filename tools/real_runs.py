#!/usr/bin/env python3
"""Runs the proved program as a build server does, and compares its status and all that it writes.

usage: real_runs.py [PROGRAM]

PROGRAM is crates/nosleep/out/nosleep where none is named. No clause speaks of what is tried here: that `main` ends
with the exit of the top call and hands on all words, that the adapters reach real files, pipes and standard output,
and that memory is found where there is memory.
"""
import hashlib
import os
import pathlib
import re
import shutil
import subprocess
import sys
import tempfile
from dataclasses import dataclass

import assemble
import sample_dex

TOP = pathlib.Path(__file__).resolve().parent.parent
LIMIT = 33_554_432
LIST_LIMIT = 1_048_576
CERT_LIMIT = 268_435_456
TARGETS = 16_777_216
SECONDS = 60

HELP = b"""usage: nosleep receiver [--json] [--count] DEX CLASS
       nosleep verify [--json] [--count] LIST DEX...
       nosleep check [--json] [--count] CERT LIST DEX...
       nosleep demo N
"""
LEAK = b"""report 1 of 2: Lapp/R;->wl is C1 after Lapp/R;->onReceive
report 2 of 2: Lapp/R;->wl is L after Lapp/R;->onReceive
"""
# The same with their paths: into the callback, where the lock is made, acquired and held at the return; and once more, where the
# next broadcast stores another lock over it.
LEAK_PATHS = b"""report 1 of 2: Lapp/R;->wl is C1 after Lapp/R;->onReceive
body 0 0 A ret C1 0/A 2/A 5/A 6/A 8/A 9/A 11/A 14/A 15/A 17/C0 19/C0 22/C1
view 0 0 0 A start
exit 0 0 C1 0 0 0
report 2 of 2: Lapp/R;->wl is L after Lapp/R;->onReceive
body 0 0 A ret C1 0/A 2/A 5/A 6/A 8/A 9/A 11/A 14/A 15/A 17/C0 19/C0 22/C1
body 1 0 C1 ret L 0/C1 2/C1 5/C1 6/C1 8/C1 9/C1 11/C1 14/C1 15/C1 17/L 19/L 22/L
view 0 0 0 A start
view 1 0 0 C1 own 0 0 0
exit 0 0 L 1 1 0
"""
R = "Lapp/R;"
LIST = b'[[component]]\nkind = "receiver"\nclass = "Lapp/R;"\n'
# A name that no folder takes. Its text is longer than a pipe holds, so that it cannot go in one piece.
LONG = "\x01" * 30_000

ROWS = b"""lock 0 Lapp/R;->wl
view 0 0 03
body 0 A 02 01 0101010101010101010202040402
body 0 C0 02 02 0202020202020202020202040402
end
"""


@dataclass
class Certificate:
    """The text of a certificate, by its rows and the files that it is of."""
    rows: bytes
    listed: str
    file: str

    def text(self, folder):
        digests = [hashlib.sha1(pathlib.Path(folder, name).read_bytes()).hexdigest() for name in (self.listed, self.file)]
        return f"nosleep 1\nlist {digests[0]}\ndex {digests[1]}\n".encode() + self.rows


# What is shown, the words, the file on standard input, the status, and the text.
RUNS = [
    ("an accepted file", ["receiver", "works.dex", R], None, 0, b"accept\n"),
    ("a reported file", ["receiver", "leaks.dex", R], None, 1, LEAK),
    ("a bad file", ["receiver", "changed.dex", R], None, 3, b"bad dex 0 Checksum\n"),
    ("no words", [], None, 4, HELP),
    ("two words", ["receiver", "works.dex"], None, 4, HELP),
    ("another third word", ["receiver", "works.dex", "Lapp/Q;"], None, 3, b"bad list NoClass 0\n"),
    ("a fourth word", ["receiver", "works.dex", R, R], None, 4, HELP),
    ("a word that is no text", ["receiver", "works.dex", b"\xff"], None, 4, HELP),
    ("an absent file", ["receiver", "absent.dex", R], None, 5, b"cannot read absent.dex\n"),
    ("a folder", ["receiver", ".", R], None, 5, b"cannot read .\n"),
    ("a text longer than a pipe", ["receiver", LONG, R], None, 5, b"cannot read " + rb"\x01" * len(LONG) + b"\n"),
    ("as many bytes as there may be", ["receiver", "most.dex", R], None, 3, b"bad dex 0 Magic\n"),
    ("one byte more", ["receiver", "more.dex", R], None, 8, b"limit FileBytes\n"),
    ("a large application", ["receiver", "large.dex", R], None, 0, b"accept\n"),
    ("a pipe", ["receiver", "/dev/stdin", R], "leaks.dex", 1, LEAK),
    ("a pipe of many pieces", ["receiver", "/dev/stdin", R], "large.dex", 0, b"accept\n"),
    ("a pipe that gives too many bytes", ["receiver", "/dev/stdin", R], "more.dex", 8, b"limit FileBytes\n"),
    ("a list", ["verify", "list.toml", "works.dex"], None, 0, Certificate(ROWS, "list.toml", "works.dex")),
    ("a certificate", ["check", "works.cert", "list.toml", "works.dex"], None, 0, b"valid\n"),
    ("a certificate of another list", ["check", "works.cert", "most.toml", "works.dex"], None, 10, b"broken digest list\n"),
    ("a certificate without a return", ["check", "broken.cert", "list.toml", "works.dex"], None, 10, b"broken I1 0 0 0 27\n"),
    ("an empty certificate", ["check", "/dev/null", "list.toml", "works.dex"], None, 3, b"bad certificate line 1\n"),
    ("a certificate that is too long", ["check", "more.cert", "list.toml", "works.dex"], None, 8, b"limit CertBytes\n"),
    ("an absent certificate", ["check", "absent.cert", "list.toml", "works.dex"], None, 5, b"cannot read absent.cert\n"),
    ("a certificate and a list", ["check", "works.cert", "list.toml"], None, 4, HELP),
    ("a list of a leaking receiver", ["verify", "list.toml", "leaks.dex"], None, 1, LEAK_PATHS),
    ("a list and no file", ["verify", "list.toml"], None, 4, HELP),
    ("an empty list", ["verify", "/dev/null", "works.dex"], None, 2, b"refused N8 Lapp/R;->onReceive 0 11\n"),
    ("as many targets of calls as there may be", ["verify", "/dev/null", "targets.dex"], None, 0, Certificate(b"end\n", "/dev/null", "targets.dex")),
    ("one more", ["verify", "/dev/null", "more_targets.dex"], None, 8, b"limit Targets\n"),
    ("too many cells of tags", ["receiver", "wide.dex", R], None, 8, b"limit TagCells\n"),
    ("a list that is none", ["verify", "works.dex", "works.dex"], None, 3, b"bad list Text\n"),
    ("a folder as a list", ["verify", ".", "works.dex"], None, 5, b"cannot read .\n"),
    ("a pipe as a list", ["verify", "/dev/stdin", "works.dex"], "list.toml", 0, Certificate(ROWS, "list.toml", "works.dex")),
    ("as long a list as there may be", ["verify", "most.toml", "works.dex"], None, 0, Certificate(ROWS, "most.toml", "works.dex")),
    ("a list of one byte more", ["verify", "more.toml", "works.dex"], None, 8, b"limit ListBytes\n"),
    ("a file twice", ["verify", "list.toml", "works.dex", "works.dex"], None, 3, b"bad link DuplicateClass Lapp/R; 1 0\n"),
    ("a second file that is absent", ["verify", "list.toml", "works.dex", "absent.dex"], None, 5, b"cannot read absent.dex\n"),
    ("seventeen files, of which none is read", ["verify", "list.toml", *["absent.dex"] * 17], None, 8, b"limit Files\n"),
]


# A report behind its head: bodies, then views, then its exit.
PATH = re.compile(rb"(body [^\n]+\n)*(view [^\n]+\n)+exit [^\n]+\n")


def reports(callback, *statuses, lock="Lapp/R;->wl"):
    """The heads of the reports of one lock field after one callback."""
    return "".join(f"report {number} of {len(statuses)}: {lock} is {status} after {callback}\n"
                   for number, status in enumerate(statuses, 1)).encode()


def lock(*views, name="Lapp/R;->wl", bodies=()):
    """The lines of a certificate's only lock field: its name, what may be between callbacks, and those of methods where they
    are compared too."""
    return [f"lock 0 {name}", *(f"view {view}" for view in views), *(f"body {body}" for body in bodies)]


# Whole applications, those of sample_apps among them: what is shown, the file, the components, the status, and the text; of
# a certificate the lines of lock fields and views.
USES = [
    ("no component, and a class without members", "bare", [], 0, []),
    ("an outside call throws while a lock is held, and the handler returns", "thrown_leaks", ["receiver R"], 1, LEAK),
    ("each throw comes to a release", "thrown_released", ["receiver R"], 0,
     lock("0 0 03", bodies=["0 A 02 03 01010101010101010102020404040204040402", "0 C0 02 02 02020202020202020202020404040204040402"])),
    ("an uncounted lock, acquired at each start and released once", "uncounted_service", ["service S"], 0,
     lock("0 0 21", "0 1 60", name="Lapp/S;->wl")),
    ("a counted one", "counted_service", ["service S"], 1,
     reports("Lapp/S;->onDestroy", "C1", "C2", "CT", "L", lock="Lapp/S;->wl")),
    ("each resume makes a new lock and releases the last one", "renewing_activity", ["activity A"], 0,
     lock("0 0 03", "0 1 03", "0 2 03", "0 3 04", "0 4 02", "0 5 03", "0 6 03", name="Lapp/A;->wl")),
    ("a runnable releases the activity's lock through a getter", "inner_class", ["activity A", "runnable A$1"], 0,
     lock("0 0 03", "0 1 02", "0 2 02", "0 3 06", "0 4 02", "0 5 02", "0 6 02", "1 0 07", name="Lapp/A;->wl")),
    ("a call that may store comes between the read and the release", "locks", ["receiver Renews"], 2,
     b"refused N4 Lapp/Renews;->onReceive 2 5\n"),
    ("methods call each other while they hold", "mutual_holds", ["receiver R"], 1,
     reports("Lapp/R;->onReceive", "C1", "C2", "CT", "L")),
    ("methods call each other after they released", "mutual_frees", ["receiver R"], 0, lock("0 0 03")),
    ("a service ends while another one holds", "two_services", ["service S", "service T"], 1,
     reports("Lapp/S;->onDestroy", "C1", lock="Lapp/W;->wl")),
    ("a callback that calls native code", "calls_out", ["receiver NativeCall"], 2, b"refused N1 Lapp/NativeCall;->onReceive 6 1\n"),
    ("a class by its name", "calls_out", ["receiver Reflects"], 2, b"refused N2 Lapp/Reflects;->onReceive 9 2\n"),
    ("an object of a class below a thread's", "calls_out", ["receiver MakesThread"], 2, b"refused N3 Lapp/MakesThread;->onReceive 13 0\n"),
    ("a class initialises its lock field", "initialises", ["receiver R"], 0, lock("0 0 03")),
    ("64 lock fields that nothing touches", "locks64", [], 0, [f"lock {number} Lapp/L;->{name}" for number, name in enumerate(sorted(f"f{field}" for field in range(64)))]),
    ("65 of them", "locks65", [], 8, b"limit Locks\n"),
]


def component(row):
    """The text of a row of a list."""
    kind, name = row.split()
    return f'[[component]]\nkind = "{kind}"\nclass = "Lapp/{name};"\n'


def is_use_wrong(program, folder, shows, file, rows, status, text):
    """Whether an application under a list is answered otherwise than it should be. What is written of an accepted one is kept,
    and checked."""
    (folder / "use.toml").write_text("".join(map(component, rows)))
    words = ["use.toml", f"{file}.dex"]
    ran = run(program, ["verify", *words], folder)
    if status == 1:
        return are_reports_wrong(shows, ran, text)
    if status != 0:
        return differs(shows, ran, status, text)
    head = Certificate(b"", *words).text(folder)
    kinds = ("lock ", "view ", "body ") if any(line.startswith("body ") for line in text) else ("lock ", "view ")
    lines = [line for line in ran.stdout.decode().splitlines() if line.startswith(kinds)]
    if not ran.stdout.startswith(head) or not ran.stdout.endswith(b"end\n") or lines != text:
        print(f"{shows}: another certificate: {ran.stdout[:400]!r}")
        return True
    (folder / "use.cert").write_bytes(ran.stdout)
    return differs(shows, ran, 0, ran.stdout) or differs(f"{shows}, checked", run(program, ["check", "use.cert", *words], folder), 0, b"valid\n")


def are_reports_wrong(shows, ran, heads):
    """Whether other reports were written, by their heads, or one without a path."""
    lines = ran.stdout.splitlines(True)
    found = b"".join(line for line in lines if line.startswith(b"report "))
    behind = re.split(rb"report [^\n]+\n", ran.stdout)[1:]
    if (ran.returncode, found, ran.stderr) == (1, heads, b"") and all(map(PATH.fullmatch, behind)):
        return False
    print(f"{shows}: status {ran.returncode}; it wrote {ran.stdout[:400]!r} in place of {heads!r} with a path each, and {ran.stderr[:200]!r} as errors")
    return True


def is_telling_wrong(program, folder):
    """Whether other events are told, or a watcher that cannot write is not answered."""
    words = ["verify", "--json", "--count", "list.toml", "leaks.dex"]
    size = (folder / "leaks.dex").stat().st_size
    told = f"""{{"bytes":{len(LIST)},"event":"read","file":0}}
{{"bytes":{size},"event":"read","file":1}}
{{"callback":0,"component":0,"event":"held","lock":0,"status":2}}
{{"callback":0,"component":0,"event":"held","lock":0,"status":7}}
{{"event":"ended","exit":1}}
reads 2 helds 2 exit 1
""".encode()
    wrong = differs("both options", run(program, words, folder), 1, LEAK_PATHS, told)
    counted = b"reads 3 helds 0 exit 10\n"
    wrong |= differs("a count of a broken certificate", run(program, ["check", "--count", "broken.cert", "list.toml", "works.dex"], folder), 10,
                     b"broken I1 0 0 0 27\n", counted)
    wrong |= differs("an option that is none", run(program, ["verify", "--x", "list.toml", "works.dex"], folder), 4, HELP)
    wrong |= differs("an option twice", run(program, ["verify", "--json", "--json", "list.toml", "works.dex"], folder), 4, HELP)
    if not os.path.exists("/dev/full"):
        print("no /dev/full here: standard error on a full disk is left out")
        return wrong
    with open("/dev/full", "wb") as full:
        for option in ("--json", "--count"):
            ran = run(program, ["verify", option, "list.toml", "leaks.dex"], folder, errors=full)
            wrong |= differs(f"{option} on a full disk", ran, 7, LEAK_PATHS, None)
    return wrong


def lay_out(folder):
    """The files that the runs name."""
    for name, body in (("works", "worked"), ("leaks", "leaks")):
        (folder / f"{name}.dex").write_bytes(sample_dex.layout(*sample_dex.BODIES[body]))
    *front, last = (folder / "works.dex").read_bytes()
    (folder / "changed.dex").write_bytes(bytes([*front, last ^ 1]))
    for name, size in (("most", LIMIT), ("more", LIMIT + 1)):
        with open(folder / f"{name}.dex", "wb") as file:
            file.truncate(size)
    (folder / "list.toml").write_bytes(LIST)
    text = Certificate(ROWS, "list.toml", "works.dex").text(folder)
    (folder / "works.cert").write_bytes(text)
    (folder / "broken.cert").write_bytes(text.replace(b"body 0 A 02", b"body 0 A 00"))
    with open(folder / "more.cert", "wb") as file:
        file.truncate(CERT_LIMIT + 1)
    for file in (TOP / "crates/sample_apps/data").glob("*.dex"):
        shutil.copy(file, folder)
    for count in (64, 65):
        fields = "".join(f"field f{number} WL static\n" for number in range(count))
        (folder / f"locks{count}.dex").write_bytes(assemble.assemble(f"class Lapp/L; Ljava/lang/Object;\n{fields}"))
    (folder / "bare.dex").write_bytes(assemble.assemble("class Lapp/E; Ljava/lang/Object;\n"))
    for name, size in (("most", LIST_LIMIT), ("more", LIST_LIMIT + 1)):
        (folder / f"{name}.toml").write_bytes(LIST + b"#" * (size - len(LIST)))
    for name, count in (("targets", TARGETS), ("more_targets", TARGETS + 1)):
        subprocess.run([sys.executable, TOP / "bench/make_hierarchy.py", "entries", str(count), folder / f"{name}.dex"], check=True)
    # classes, members, code with each payload, and tries, as a compiled application has them
    subprocess.run([sys.executable, TOP / "bench/generate_dex.py", folder / "large.dex"], check=True)


def run(program, words, folder, given=b"", out=subprocess.PIPE, errors=subprocess.PIPE):
    return subprocess.run([program, *words], input=given, stdout=out, stderr=errors, cwd=folder, timeout=SECONDS)


def differs(shows, ran, status, text, told=b""):
    """Whether a run ended otherwise, or wrote or told something else; it is then said."""
    if (ran.returncode, ran.stdout, ran.stderr) == (status, text, told):
        return False
    print(f"{shows}: status {ran.returncode} in place of {status}; it wrote {(ran.stdout or b'')[:200]!r}"
          f" in place of {(text or b'')[:200]!r}, and {(ran.stderr or b'')[:400]!r} as errors in place of {(told or b'')[:400]!r}")
    return True


def is_untaken_wrong(program, folder):
    """Whether a text that nothing takes is answered otherwise than it should be."""
    words = ["receiver", "works.dex", R]
    reader, writer = os.pipe()
    os.close(reader)
    with open(writer, "wb") as closed:
        wrong = differs("a closed pipe", run(program, words, folder, out=closed), 6, None)
    if not os.path.exists("/dev/full"):
        print("no /dev/full here: a full disk is left out")
        return wrong
    with open("/dev/full", "wb") as full:
        return differs("a full disk", run(program, words, folder, out=full), 6, None) or wrong


def main():
    program = pathlib.Path(*sys.argv[1:2] or [TOP / "crates/nosleep/out/nosleep"]).resolve()
    if not program.is_file():
        sys.exit(f"no program {program}: rt ci leaves it there")
    with tempfile.TemporaryDirectory() as room:
        folder = pathlib.Path(room)
        lay_out(folder)
        wrong = is_untaken_wrong(program, folder) | is_telling_wrong(program, folder)
        for shows, words, given, status, text in RUNS:
            fed = (folder / given).read_bytes() if given else b""
            text = text.text(folder) if isinstance(text, Certificate) else text
            wrong |= differs(shows, run(program, words, folder, fed), status, text)
        for use in USES:
            wrong |= is_use_wrong(program, folder, *use)
    if wrong:
        sys.exit(f"{program} runs otherwise than it should")
    print("all real runs ended and wrote as they should")


if __name__ == "__main__":
    main()
