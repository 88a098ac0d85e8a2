#!/bin/sh
# Measures read_certificate on texts of 100 MB: rows of 500,000, of 20 and of 2 instructions, and view rows. Needs
# rt and python3. Prints the seconds of reading, and the peak memory beyond that of a program that only holds the text, in
# parts of its size.
set -eu

. "$(dirname "$0")/workspace.sh"

make_workspace read_certificate "certificate" ns_base dalvik app_model solution cert_line certificate
head='nosleep 1\nlist 0000000000000000000000000000000000000000\ndex 0000000000000000000000000000000000000000\nend\n'
printf "$head" > "$work/small"
build_on "$work/small"
measure "$work/text" <<'PYTHON'
import os, subprocess, sys

path, program = sys.argv[1:3]
HEAD = "nosleep 1\nlist " + "0" * 40 + "\ndex " + "0" * 40 + "\nlock 0 a\n"
STATUSES = ("A", "C0", "C1", "C2", "CT", "U0", "U1", "L")


def body(i, masks):
    return "body %d %s 01 00 %s\n" % (i // 8, STATUSES[i % 8], "07" * masks)


def view(i):
    return "view %d %d 07\n" % (i // 256, i % 256)


def peak(words):
    pid = os.spawnv(os.P_NOWAIT, program, [program] + words)
    _, status, usage = os.wait4(pid, 0)
    return usage.ru_maxrss * 1024


SHAPES = (
    ("500,000 masks a row", lambda i: body(i, 500000)),
    ("20 masks a row", lambda i: body(i, 20)),
    ("2 masks a row", lambda i: body(i, 2)),
    ("views", view),
)
for name, row in SHAPES:
    with open(path, "w") as out:
        size = out.write(HEAD)
        i = 0
        while size < 100000000:
            size += out.write(row(i))
            i += 1
        size += out.write("end\n")
    lines = [subprocess.run([program, path], capture_output=True, text=True, check=True).stdout.split() for _ in range(5)]
    assert all(words[2] == "true" for words in lines), lines
    seconds = sorted(int(words[1]) / 1e6 for words in lines)
    more = peak([path]) - peak([path, "alone"])
    print("%s: %d bytes in %.2f to %.2f s, memory %.2f" % (name, size, seconds[0], seconds[-1], more / size), flush=True)
PYTHON
