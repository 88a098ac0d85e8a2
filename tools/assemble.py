#!/usr/bin/env python3
"""Assembles small applications, written as text, into DEX 035 files.

usage: assemble.py TEXT OUT

A text has classes with their fields and methods, one item a line; `#` begins a comment, an indent has no meaning:

    class Lapp/R; Landroid/content/BroadcastReceiver; [INTERFACE ..] [FLAG ..]
    field wl WL [FLAG ..]
    method onReceive (Landroid/content/Context;Landroid/content/Intent;)V REGISTERS [FLAG ..]
    sget-object v0 Lapp/R;->wl:WL
    invoke-virtual v0 WL->acquire()V
    if-eqz v0 end
    catch FROM TO TYPE HANDLER        (TYPE is `all` for every throw; FROM, TO, HANDLER are labels)
    end:

FLAG is one of static, private, native, abstract, interface; all else is public. A method that is native or abstract has
no instructions. `WL` and `PM` stand for the wake lock's class and that of the power manager. `make vC FIELD` makes a wake lock
with the context in vC and stores it into a static field; `make vC FIELD vO` into a field of the object in vO. `repeat N` stands
before an instruction that comes N times. Classes keep their order; all ids stand in the order of the format.
"""
import pathlib
import re
import struct
import sys

top = pathlib.Path(__file__).resolve().parent.parent
sys.dont_write_bytecode = True
sys.path.insert(0, str(top / "bench"))
from dex_writer import Class, Code, Ids, lay_out

FLAGS = {"private": 2, "static": 8, "native": 0x100, "interface": 0x200, "abstract": 0x400}
NAMES = {"WL": "Landroid/os/PowerManager$WakeLock;", "PM": "Landroid/os/PowerManager;"}
OPS = {
    "nop": (0x00, "10x"), "move": (0x01, "12x"), "move-object": (0x07, "12x"), "move-result": (0x0A, "11x"),
    "move-result-object": (0x0C, "11x"), "move-exception": (0x0D, "11x"), "return-void": (0x0E, "10x"), "return": (0x0F, "11x"),
    "return-object": (0x11, "11x"), "const/4": (0x12, "11n"), "const-string": (0x1A, "21s"), "const-class": (0x1C, "21t"),
    "check-cast": (0x1F, "21t"), "new-instance": (0x22, "21t"), "new-array": (0x23, "22t"), "filled-new-array": (0x24, "35t"),
    "throw": (0x27, "11x"), "goto": (0x29, "20b"), "if-eqz": (0x38, "21b"), "if-nez": (0x39, "21b"), "aput-object": (0x4D, "23x"),
    "iget": (0x52, "22f"), "iget-object": (0x54, "22f"), "iput": (0x59, "22f"), "iput-object": (0x5B, "22f"),
    "sget": (0x60, "21f"), "sget-object": (0x62, "21f"), "sput": (0x67, "21f"), "sput-object": (0x69, "21f"),
    "invoke-virtual": (0x6E, "35m"), "invoke-super": (0x6F, "35m"), "invoke-direct": (0x70, "35m"),
    "invoke-static": (0x71, "35m"), "invoke-interface": (0x72, "35m"),
}
UNITS = {"10x": 1, "11x": 1, "12x": 1, "11n": 1, "35m": 3, "35t": 3}
MAKE = ["const-string v0 power", "invoke-virtual {},v0 Landroid/content/Context;->getSystemService(Ljava/lang/String;)Ljava/lang/Object;",
        "move-result-object v0", "check-cast v0 PM", "const/4 v1 1", "const-string v2 t",
        "invoke-virtual v0,v1,v2 PM->newWakeLock(ILjava/lang/String;)WL", "move-result-object v0"]
DESCRIPTOR = re.compile(r"\[*(?:L[^;]+;|[VZBSCIJFD])")


def spelled(word):
    return re.sub(r"\b(WL|PM)\b(?!;)", lambda found: NAMES[found.group()], word)


def proto(text):
    params, result = re.fullmatch(r"\((.*)\)(.+)", text).groups()
    return result, tuple(DESCRIPTOR.findall(params))


def method_ref(text):
    owner, name, types = re.fullmatch(r"(.+)->([^(]+)(\(.*)", text).groups()
    return owner, name, proto(types)


def field_ref(text):
    return re.fullmatch(r"(.+)->([^:]+):(.+)", text).groups()


class Method:
    def __init__(self, name, registers, flags):
        self.name, self.registers, self.flags, self.lines = name, registers, flags, []


def parse(text):
    """The classes, each with its methods that still are text."""
    rows = []
    for line in text.splitlines():
        words = spelled(line.split("#")[0]).split()
        if not words:
            continue
        flags = sum(FLAGS.get(word, 0) for word in words[2:])
        rest = [word for word in words[1:] if word not in FLAGS]
        if words[0] == "class":
            rows.append((Class(rest[0], 1 | flags, rest[1], rest[2:], "x"), []))
        elif words[0] == "field":
            field = (rows[-1][0].name, rest[0], rest[1])
            (rows[-1][0].statics if flags & 8 else rows[-1][0].instances).append((field, 1 | flags))
        elif words[0] == "method":
            name = (rows[-1][0].name, rest[0], proto(rest[1]))
            rows[-1][1].append(Method(name, int(rest[2]) if len(rest) > 2 else 0, flags))
        elif words[0] == "make":
            lines = [spelled(own.format(words[1])).split() for own in MAKE]
            store = ["sput-object", "v0", words[2]] if len(words) == 3 else ["iput-object", f"v0,{words[3]}", words[2]]
            rows[-1][1][-1].lines += lines + [store]
        elif words[0] == "repeat":
            rows[-1][1][-1].lines += [words[2:]] * int(words[1])
        else:
            rows[-1][1][-1].lines.append(words)
    return rows


def refs(rows):
    """The texts, types, prototypes, fields and methods that instructions and rows name."""
    texts, types, fields, methods = {"x"}, set(), set(), set()
    for row, own in rows:
        types |= {row.name, row.parent, *row.interfaces}
        fields |= {field for field, _ in row.statics + row.instances}
        for method in own:
            methods.add(method.name)
            for words in method.lines:
                kind = OPS[words[0]][1] if words[0] in OPS else ""
                if kind in ("21t", "22t", "35t"):
                    types.add(words[-1])
                elif kind in ("21f", "22f"):
                    fields.add(field_ref(words[-1]))
                elif kind == "35m":
                    methods.add(method_ref(words[-1]))
                elif kind == "21s":
                    texts.add(words[-1])
                elif words[0] == "catch" and words[3] != "all":
                    types.add(words[3])
    protos = {types_of for _, _, types_of in methods}
    types |= {owner for owner, _, _ in fields | methods} | {kind for _, _, kind in fields}
    types |= {name for result, params in protos for name in (result, *params)}
    return texts, types, protos, fields, methods


def places(lines):
    """The pc of each label, and of each instruction."""
    labels, at = {}, 0
    for words in lines:
        if words[0].endswith(":"):
            labels[words[0][:-1]] = at
        elif words[0] != "catch":
            at += UNITS.get(OPS[words[0]][1], 2)
    return labels


def registers_of(words):
    return [int(register[1:]) for word in words[1:] if re.fullmatch(r"(v\d+,?)+", word) for register in word.split(",") if register]


def units_of(words, at, labels, ids):
    op, form = OPS[words[0]]
    v = registers_of(words)
    if form == "10x":
        return [op]
    if form == "11x":
        return [v[0] << 8 | op]
    if form == "12x":
        return [v[1] << 12 | v[0] << 8 | op]
    if form == "11n":
        return [(int(words[2]) & 15) << 12 | v[0] << 8 | op]
    if form in ("20b", "21b"):
        return [(v[0] << 8 if v else 0) | op, (labels[words[-1]] - at) & 0xFFFF]
    if form == "23x":
        return [v[0] << 8 | op, v[2] << 8 | v[1]]
    last = words[-1]
    index = {"s": lambda: ids.text[last], "t": lambda: ids.type[last], "f": lambda: ids.field[field_ref(last)],
             "m": lambda: ids.method[method_ref(last)]}[form[2]]()
    if form.startswith("21"):
        return [v[0] << 8 | op, index]
    if form.startswith("22"):
        return [v[1] << 12 | v[0] << 8 | op, index]
    v += [0] * (5 - len(v))
    count = len(registers_of(words))
    return [count << 12 | v[4] << 8 | op, index, v[3] << 12 | v[2] << 8 | v[1] << 4 | v[0]]


def words_of(method):
    _, _, (_, params) = method.name
    return (0 if method.flags & 8 else 1) + sum(2 if name in "JD" else 1 for name in params)


def code_of(method, ids):
    if method.flags & (FLAGS["native"] | FLAGS["abstract"]):
        return None
    labels, units, tries, lists = places(method.lines), [], [], []
    for words in method.lines:
        if words[0] == "catch":
            first, end, target = labels[words[1]], labels[words[2]], labels[words[4]]
            tries.append((first, end - first, len(lists)))
            lists.append(([], target) if words[3] == "all" else ([(words[3], target)], None))
        elif not words[0].endswith(":"):
            units += units_of(words, len(units), labels, ids)
    return Code(method.registers, words_of(method), 5, units, tries, lists)


def assemble(text):
    rows = parse(text)
    texts, types, protos, fields, methods = refs(rows)
    ids = Ids(texts, types, protos, fields, methods)
    for row, own in rows:
        for method in own:
            direct = method.flags & 10 or method.name[1].startswith("<")
            (row.directs if direct else row.virtuals).append((method.name, 1 | method.flags, code_of(method, ids)))
    return lay_out(ids, [row for row, _ in rows], lambda others, count: None)


if __name__ == "__main__":
    source, out = sys.argv[1:]
    pathlib.Path(out).write_bytes(assemble(pathlib.Path(source).read_text()))
