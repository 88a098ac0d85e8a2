#!/usr/bin/env python3
"""Writes the component list of a DEX file: every class that inherits Activity, Service or BroadcastReceiver and binds.

usage: make_list.py FILE.dex OUT
"""
import struct
import sys

KINDS = {"Landroid/app/Activity;": "activity", "Landroid/app/Service;": "service",
         "Landroid/content/BroadcastReceiver;": "receiver"}
RECEIVE = ("onReceive", "V", ("Landroid/content/Context;", "Landroid/content/Intent;"))
ABSTRACT, LIMIT = 0x400, 256


class Dex:
    def __init__(self, data):
        self.data = data
        parts = struct.unpack_from("<12I", data, 56)
        self.tables = list(zip(parts[::2], parts[1::2]))
        texts, types, protos, _, methods, classes = self.tables
        self.texts = [self.text(struct.unpack_from("<I", data, texts[1] + 4 * i)[0]) for i in range(texts[0])]
        self.types = [self.texts[struct.unpack_from("<I", data, types[1] + 4 * i)[0]] for i in range(types[0])]
        self.protos = [self.proto(protos[1] + 12 * i) for i in range(protos[0])]
        self.methods = [struct.unpack_from("<HHI", data, methods[1] + 8 * i) for i in range(methods[0])]
        self.classes = [struct.unpack_from("<8I", data, classes[1] + 32 * i) for i in range(classes[0])]

    def uleb(self, at):
        value, shift = 0, 0
        while True:
            byte = self.data[at]
            value |= (byte & 127) << shift
            at, shift = at + 1, shift + 7
            if byte < 128:
                return value, at

    def text(self, at):
        _, at = self.uleb(at)
        return self.data[at:self.data.index(0, at)].decode("utf-8", "replace")

    def proto(self, at):
        _, result, params = struct.unpack_from("<3I", self.data, at)
        if not params:
            return self.types[result], ()
        count, = struct.unpack_from("<I", self.data, params)
        return self.types[result], tuple(self.types[t] for t in struct.unpack_from(f"<{count}H", self.data, params + 4))

    def receives(self, row):
        """Whether the class has an onReceive that is not abstract."""
        if not row[6]:
            return False
        counts, at = [], row[6]
        for _ in range(4):
            count, at = self.uleb(at)
            counts.append(count)
        for _ in range(2 * (counts[0] + counts[1])):
            _, at = self.uleb(at)
        for part in counts[2:]:
            number = 0
            for _ in range(part):
                difference, at = self.uleb(at)
                flags, at = self.uleb(at)
                _, at = self.uleb(at)
                number += difference
                _, proto, name = self.methods[number]
                if not flags & ABSTRACT and (self.texts[name], *self.protos[proto]) == RECEIVE:
                    return True
        return False


def components(dex):
    rows = {dex.types[row[0]]: row for row in dex.classes}
    for name, row in rows.items():
        line, above = [row], name
        while above in rows and len(line) <= len(rows):
            above = dex.types[rows[above][2]] if rows[above][2] != 0xFFFFFFFF else None
            if above in rows:
                line.append(rows[above])
        kind = KINDS.get(above)
        if kind and (kind != "receiver" or any(dex.receives(one) for one in line)):
            yield name, kind


def main():
    source, out = sys.argv[1:]
    with open(source, "rb") as file:
        found = list(components(Dex(file.read())))[:LIMIT]
    with open(out, "w") as file:
        for name, kind in found:
            file.write(f'[[component]]\nclass = "{name}"\nkind = "{kind}"\n')
    print(f"{len(found)} components")


if __name__ == "__main__":
    main()
