#!/usr/bin/env python3
"""Writes a DEX 035 file whose class hierarchy is hard on whoever asks it, with a call of `f` on every class.

usage: make_hierarchy.py chain|crossing|apart|entries|sample COUNT OUT

chain: COUNT classes, each the subclass of the one before it; every eighth one declares `f`.
crossing: COUNT interfaces, each below the one before it and the seventh before it; of each hundredth one there is a class
with a method `f`.
apart: COUNT classes with no superclass among them, which all declare `f`.
entries: a call graph of COUNT entries, at least 16,776,528: 5,792 classes in a chain that all declare `f`, and static calls.
sample: a small application with each kind of call; COUNT is not used.
"""
import sys

from dex_writer import Class, Code, Ids, lay_out

PUBLIC, PRIVATE, STATIC, INTERFACE, ABSTRACT = 1, 2, 8, 0x200, 0x400
VIRTUAL, ON_INTERFACE = 0x6E, 0x72
FULL = 5792
OBJECT, RUNNABLE, SOURCE = "Ljava/lang/Object;", "Ljava/lang/Runnable;", "x"
NOTHING = ("V", ())


def declare(row, flags=PUBLIC):
    """A method f that does nothing."""
    code = None if flags & ABSTRACT else Code(1, 1, 0, [0x000E])
    row.virtuals.append(((row.name, "f", NOTHING), flags, code))


def chain(count):
    rows = []
    for i in range(count):
        rows.append(Class(f"Lc/{i:06};", PUBLIC, rows[-1].name if rows else OBJECT, (), SOURCE))
        if i % 8 == 0:
            declare(rows[-1])
    return rows, VIRTUAL


def crossing(count):
    rows, classes = [], []
    for i in range(count):
        above = [rows[i - n].name for n in (1, 7) if n <= i]
        rows.append(Class(f"Li/{i:06};", PUBLIC | INTERFACE | ABSTRACT, OBJECT, above, SOURCE))
        if i % 100 == 0:
            classes.append(Class(f"Lc/{i:06};", PUBLIC, OBJECT, (rows[-1].name,), SOURCE))
            declare(classes[-1])
    return rows + classes, ON_INTERFACE


def apart(count):
    rows = [Class(f"Lc/{i:06};", PUBLIC, OBJECT, (), SOURCE) for i in range(count)]
    for row in rows:
        declare(row)
    return rows, VIRTUAL


def entries(count):
    rows = []
    for i in range(FULL):
        rows.append(Class(f"Lc/{i:06};", PUBLIC, rows[-1].name if rows else OBJECT, (), SOURCE))
        declare(rows[-1])
    return rows, VIRTUAL, count - FULL * (FULL + 1) // 2


def call(opcode, ids, method, register=0):
    return [1 << 12 | opcode, ids.method[method], register]


def sample():
    """Each kind of call, with what is inherited, overridden, abstract, outside, an array or a lock."""
    lock, boot = "Landroid/os/PowerManager$WakeLock;", "Lout/B;"
    shapes = [("P", OBJECT, (), PUBLIC), ("Q", "Lapp/P;", (), PUBLIC), ("S", boot, (), PUBLIC),
              ("I", OBJECT, (), PUBLIC | INTERFACE | ABSTRACT), ("D", OBJECT, (), PUBLIC),
              ("E", "Lapp/D;", ("Lapp/I;",), PUBLIC), ("A", "Lapp/P;", (), PUBLIC | ABSTRACT), ("T", OBJECT, (), PUBLIC),
              ("M", OBJECT, (), PUBLIC), ("Z", OBJECT, (), PUBLIC)]
    row = {name: Class(f"Lapp/{name};", flags, parent, above, SOURCE) for name, parent, above, flags in shapes}
    own = {}

    def method(name, of, flags=PUBLIC, direct=False):
        code = None if flags & ABSTRACT else Code(1, 0 if flags & STATIC else 1, 1, [])
        own[f"{of}.{name}"] = code
        id_of = (f"Lapp/{of};", name, NOTHING)
        (row[of].directs if direct else row[of].virtuals).append((id_of, flags, code))

    for name in ("P.f", "Q.f", "S.f", "S.g", "S.release", "D.h", "T.f", "Z.z"):
        method(name[2:], name[0])
    method("h", "I", PUBLIC | ABSTRACT)
    method("f", "A", PUBLIC | ABSTRACT)
    row["T"].directs.append((("Lapp/T;", "f", NOTHING), PRIVATE, own["T.f"]))
    for name in ("k", "m", "n"):
        method(name, "M", PUBLIC | STATIC, True)
    field = ("Lapp/M;", "wl", lock)
    row["M"].statics.append((field, PUBLIC | STATIC))
    array, numbers = ("[Lapp/Z;", "f", NOTHING), ("[I", "f", NOTHING)
    outside = [(boot, "f", NOTHING), ("Lout/D;", "f", NOTHING), numbers, array, (lock, "release", NOTHING)]
    inside = [m for r in row.values() for m, _, _ in r.methods()]
    types = {OBJECT, "V", lock, boot, "Lout/D;", "[I", "[Lapp/Z;", *(r.name for r in row.values())}
    ids = Ids([SOURCE], types, [NOTHING], [field], set(inside + outside))

    def named(name):
        return (f"Lapp/{name[0]};", name[2:], NOTHING)

    own["Q.f"].units += call(0x6F, ids, named("P.f"))
    own["S.g"].units += call(0x6F, ids, outside[0])
    own["Z.z"].units += call(VIRTUAL, ids, array)
    own["M.k"].units += [0x0012, 0x0069, ids.field[field]]
    own["M.m"].units += [0x0012] + call(VIRTUAL, ids, named("P.f")) + call(VIRTUAL, ids, outside[0])
    own["M.m"].units += call(VIRTUAL, ids, outside[1]) + call(VIRTUAL, ids, numbers) + call(VIRTUAL, ids, outside[4])
    own["M.m"].units += call(ON_INTERFACE, ids, named("I.h")) + call(VIRTUAL, ids, named("A.f"))
    own["M.m"].units += call(VIRTUAL, ids, named("T.f")) + call(0x70, ids, named("P.f")) + [0x0071, ids.method[named("M.k")], 0]
    for code in own.values():
        if code:
            code.units.append(0x000E)
    return lay_out(ids, list(row.values()), lambda texts, others: None)


def file_of(rows, opcode, statics=0):
    """The classes, and one whose method m calls f on each of them, and so many static methods of its own."""
    row = Class("Lm/M;", PUBLIC, OBJECT, (RUNNABLE,), SOURCE)
    code = Code(1, 0, 1, [])
    method = ("Lm/M;", "m", NOTHING)
    own = [("Lm/M;", f"s{n:05}", NOTHING) for n in range(statics)]
    row.directs.append((method, PUBLIC | STATIC, code))
    row.directs += [(name, PUBLIC | STATIC, Code(0, 0, 0, [0x000E])) for name in own]
    called = [(other.name, "f", NOTHING) for other in rows]
    classes = rows + [row]
    types = {OBJECT, RUNNABLE, "V", *(other.name for other in classes)}
    ids = Ids([SOURCE], types, [NOTHING], [], [method, *own, *called])
    code.units += [0x0012]
    for name in called:
        code.units += call(opcode, ids, name)
    for name in own:
        code.units += [0x0071, ids.method[name], 0]
    code.units += [0x000E]
    return lay_out(ids, classes, lambda texts, others: None)


def main():
    shape, count, out = sys.argv[1:]
    shapes = {"chain": chain, "crossing": crossing, "apart": apart, "entries": entries}
    with open(out, "wb") as file:
        file.write(sample() if shape == "sample" else file_of(*shapes[shape](int(count))))


if __name__ == "__main__":
    main()
