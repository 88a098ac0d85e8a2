#!/usr/bin/env python3
"""Writes a DEX 035 file that is hard on an analysis over calls or on a solver, and its list. All shapes are in scope.

usage: make_app.py SHAPE COUNT OUT.dex OUT.toml

In all but `real`, `shared` and `wide` there is one receiver, Lapp/R;, with the static wake lock `wl`, which `onReceive` makes
once, acquires each time and never releases.

chain: COUNT static methods of 16 registers and 24 instructions, each of which calls the next one.
falling: the same with the methods in the order in which their results are known last: each calls the one before it.
cycle: as chain, and the last one calls the first.
wide: one method of COUNT registers and 500 instructions, and no lock.
shared: COUNT receivers, at most 64, each with a lock of its own, over one chain of 2,000 methods; each seventh one leaks.
switch: one method with a switch of COUNT targets, at which the lock is acquired or released by turns.
loop: one method of COUNT instructions in a loop, the lock acquired in the middle.
backward: one method of COUNT blocks, of which each jumps to the one before it; at most 5,000.
sequence: one method that calls COUNT methods, one behind the other; each of them does nothing.
real: an application like a real one, of COUNT methods and fourteen instructions a method (`real_app.py`).
"""
import pathlib
import sys

sys.dont_write_bytecode = True
sys.path.insert(0, str(pathlib.Path(__file__).resolve().parent.parent / "tools"))
from assemble import NAMES, assemble, code_of, parse, refs
from dex_writer import Code, Ids, lay_out
from real_app import real_app

PARENT = "Landroid/content/BroadcastReceiver;"
RECEIVER = f"class Lapp/R; {PARENT}\nfield wl WL static\n"
CALLBACK = "method onReceive (Landroid/content/Context;Landroid/content/Intent;)V {}\n"
STEPS = "".join(f"move v{i % 16} v{(i * 5 + 3) % 16}\n" for i in range(20))
MAKE = "sget-object v0 {0}->wl:WL\nif-nez v0 made\nmake v4 {0}->wl:WL\nmade:\n"
TAKE, FREE = ("sget-object v0 {0}->wl:WL\ninvoke-virtual v0 WL->%s()V\n" % call for call in ("acquire", "release"))
OPENING = CALLBACK.format(6) + (MAKE + TAKE).format("Lapp/R;")
CHAIN = 2_000


def listed(names):
    return "".join(f'[[component]]\nkind = "receiver"\nclass = "{name}"\n' for name in names)


def method(number, called):
    call = f"invoke-static v3 Lapp/R;->h{called:06}(I)I\nmove-result v4\n" if called is not None else "nop\nnop\n"
    return f"method h{number:06} (I)I 16 static\n{STEPS}{call}nop\nreturn v4\n"


def calls(shape, count):
    after = {"chain": lambda i: i + 1 if i + 1 < count else None, "falling": lambda i: i - 1 if i else None,
             "cycle": lambda i: (i + 1) % count}[shape]
    first = count - 1 if shape == "falling" else 0
    body = "".join(method(i, after(i)) for i in range(count))
    return RECEIVER + body + OPENING + f"const/4 v0 1\ninvoke-static v0 Lapp/R;->h{first:06}(I)I\nreturn-void\n"


def wide(count):
    return f"class Lapp/R; {PARENT}\n" + CALLBACK.format(count) + "repeat 499 nop\nreturn-void\n"


def leaking(name):
    """The outside call throws, and its handler returns with the lock held."""
    return ("from:\ninvoke-static Ljava/lang/System;->gc()V\nto:\n" + FREE.format(name)
            + "return-void\ncaught:\nmove-exception v0\nreturn-void\ncatch from to Ljava/lang/Exception; caught\n")


def shared(count):
    text = "class Lapp/H; Ljava/lang/Object;\n"
    for k in range(CHAIN):
        call = f"invoke-static Lapp/H;->h{k + 1}()V\n" if k + 1 < CHAIN else ""
        text += f"method h{k} ()V 0 static\n{call}return-void\n"
    for i in range(count):
        name = f"Lapp/D{i};"
        text += f"class {name} {PARENT}\nfield wl WL static\n{CALLBACK.format(6)}invoke-static Lapp/H;->h0()V\n"
        text += (MAKE + TAKE).format(name)
        text += leaking(name) if i % 7 == 3 else FREE.format(name) + "return-void\n"
    return text


def backward(count):
    assert count <= 5_000, "a jump reaches no further"
    blocks = "".join(f"b{k}:\nmove v1 v2\nmove v2 v1\nif-eqz v1 last\n" + (f"goto b{k - 1}\n" if k else "goto last\n")
                     for k in range(count))
    return RECEIVER + OPENING + f"goto b{count - 1}\nlast:\nreturn-void\n" + blocks


def sequence(count):
    callees = "".join(f"method h{k:06} ()V 0 static\nreturn-void\n" for k in range(count))
    return RECEIVER + callees + OPENING + "".join(f"invoke-static Lapp/R;->h{k:06}()V\n" for k in range(count)) + "return-void\n"


def far(distance):
    """A jump by as many units as one likes."""
    return [0x2A, distance & 0xFFFF, distance >> 16 & 0xFFFF]


def lock_call(ids, call):
    field, method = ("Lapp/R;", "wl", NAMES["WL"]), (NAMES["WL"], call, ("V", ()))
    return [0x0062, ids.field[field], 0x106E, ids.method[method], 0x0000]


def with_units(text, finish):
    """The file of a text whose onReceive gets more units: `finish` makes its code of what the text has."""
    rows = parse(text)
    ids = Ids(*refs(rows))
    for row, own in rows:
        for method in own:
            code = code_of(method, ids)
            finished = finish(code, ids) if method.name[1] == "onReceive" else code
            (row.directs if method.flags & 8 else row.virtuals).append((method.name, 1 | method.flags, finished))
    return lay_out(ids, [row for row, _ in rows], lambda texts, others: None)


def switched(count):
    """Behind the opening: the switch, a return for its default, the cases, the payload."""
    def finish(code, ids):
        units = code.units + [0x042B, 0, 0, 0x000E]
        at, starts = len(units) - 4, []
        for k in range(count):
            starts.append(len(units) - at)
            units += lock_call(ids, ("acquire", "release")[k % 2])
            units += far(at + 3 - len(units))
        units += [0x0000] * (len(units) % 2)
        offset = len(units) - at
        units[at + 1:at + 3] = [offset & 0xFFFF, offset >> 16]
        units += [0x0100, count, 0, 0] + [unit for start in starts for unit in (start & 0xFFFF, start >> 16)]
        return Code(code.registers, code.ins, code.outs, units)
    free = "method free ()V 1 static\n" + FREE.format("Lapp/R;") + "return-void\n"
    return with_units(RECEIVER + free + OPENING + "invoke-static Lapp/R;->free()V\n", finish)


def looping(count):
    """Behind the opening: moves, an acquire, moves, and back to the first one or out."""
    def finish(code, ids):
        moves = [0x2101, 0x1201] * (count // 4)
        start = len(code.units)
        units = code.units + moves + lock_call(ids, "acquire") + moves
        units += [0x0138, 5]
        units += far(start - len(units)) + [0x000E]
        return Code(code.registers, code.ins, code.outs, units)
    return with_units(RECEIVER + OPENING, finish)


def made(shape, count):
    """The bytes of the file, and its list."""
    if shape == "real":
        return real_app(count)
    if shape in ("switch", "loop"):
        return (switched if shape == "switch" else looping)(count), listed(["Lapp/R;"])
    if shape == "shared":
        return assemble(shared(count)), listed(f"Lapp/D{i};" for i in range(count))
    text = {"wide": wide, "backward": backward, "sequence": sequence}.get(shape, lambda count: calls(shape, count))(count)
    return assemble(text), listed(["Lapp/R;"])


def main():
    shape, count, out, list_out = sys.argv[1:]
    file, components = made(shape, int(count))
    pathlib.Path(out).write_bytes(file)
    pathlib.Path(list_out).write_text(components)


if __name__ == "__main__":
    main()
