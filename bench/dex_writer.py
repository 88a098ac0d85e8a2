"""Lays out a DEX 035 file from classes: id tables in their order, type lists, code items, class data, strings, map.

A prototype is (result, parameters) by type names; a field is (class, name, type), a method (class, name, prototype).
"""
import hashlib
import struct
import zlib

ID_WIDTHS = [4, 4, 12, 8, 8, 32]
TYPE_LISTS, CLASS_DATA, CODE_ITEMS, STRINGS, MAP = 0x1001, 0x2000, 0x2001, 0x2002, 0x1000
MAP_ENTRIES = 12


class Class:
    """A class row with its members: fields as (field, flags), methods as (method, flags, code or None)."""

    def __init__(self, name, flags, parent, interfaces, source):
        self.name, self.flags, self.parent, self.source = name, flags, parent, source
        self.interfaces = tuple(interfaces)
        self.statics, self.instances, self.directs, self.virtuals = [], [], [], []

    def methods(self):
        return self.directs + self.virtuals


class Code:
    """A code item. A try is (first unit, units, number of its list), a list ([(type, address)], address of all or None)."""

    def __init__(self, registers, ins, outs, units, tries=(), lists=()):
        self.registers, self.ins, self.outs, self.units = registers, ins, outs, units
        self.tries, self.lists = tries, lists


def order(text):
    """Strings stand in the order of their UTF-16 units."""
    return text.encode("utf-16-be", "surrogatepass")


def shorty(proto):
    return "".join("L" if name[0] in "L[" else name for name in (proto[0], *proto[1]))


def numbered(rows):
    return {row: i for i, row in enumerate(rows)}


class Ids:
    """The id tables in the order of the format, and the number of each row."""

    def __init__(self, texts, types, protos, fields, methods):
        texts = set(texts) | set(types)
        texts.update(shorty(proto) for proto in protos)
        texts.update(name for _, name, _ in fields)
        texts.update(name for _, name, _ in methods)
        self.texts = sorted(texts, key=order)
        self.text = numbered(self.texts)
        self.types = sorted(types, key=self.text.get)
        self.type = numbered(self.types)
        self.protos = sorted(protos, key=lambda p: (self.type[p[0]], [self.type[name] for name in p[1]]))
        self.proto = numbered(self.protos)
        self.fields = sorted(fields, key=lambda f: (self.type[f[0]], self.text[f[1]], self.type[f[2]]))
        self.field = numbered(self.fields)
        self.methods = sorted(methods, key=lambda m: (self.type[m[0]], self.text[m[1]], self.proto[m[2]]))
        self.method = numbered(self.methods)


def uleb(n):
    out = bytearray()
    while n > 127:
        out.append(n & 127 | 128)
        n >>= 7
    out.append(n)
    return bytes(out)


def sleb(n):
    out = bytearray()
    while not -64 <= n < 64:
        out.append(n & 127 | 128)
        n >>= 7
    out.append(n & 127)
    return bytes(out)


def mutf8(text):
    if text.isascii() and "\0" not in text:
        return text.encode()
    out = bytearray()
    for unit in struct.unpack(f">{len(order(text)) // 2}H", order(text)):
        if 0 < unit < 0x80:
            out.append(unit)
        elif unit < 0x800:
            out += bytes([0xC0 | unit >> 6, 0x80 | unit & 63])
        else:
            out += bytes([0xE0 | unit >> 12, 0x80 | unit >> 6 & 63, 0x80 | unit & 63])
    return bytes(out)


def string_data(text):
    return uleb(len(order(text)) // 2) + mutf8(text) + b"\0"


class Data:
    """The part of the file behind the id tables, with the sections that the map lists."""

    def __init__(self, start):
        self.start, self.bytes, self.sections = start, bytearray(), []

    def here(self):
        return self.start + len(self.bytes)

    def align(self):
        self.bytes += bytes(-len(self.bytes) % 4)

    def section(self, kind, items, aligned):
        """Appends the items; gives the offset of each."""
        offsets = []
        for item in items:
            if aligned:
                self.align()
            offsets.append(self.here())
            self.bytes += item
        if offsets:
            self.sections.append((kind, len(offsets), offsets[0]))
        return offsets


def type_list(ids, names):
    return struct.pack(f"<I{len(names)}H", len(names), *(ids.type[name] for name in names))


def handler_list(ids, typed, catch_all):
    out = sleb(len(typed) if catch_all is None else -len(typed))
    for name, address in typed:
        out += uleb(ids.type[name]) + uleb(address)
    return out if catch_all is None else out + uleb(catch_all)


def code_item(ids, code):
    out = struct.pack("<HHHHII", code.registers, code.ins, code.outs, len(code.tries), 0, len(code.units))
    out += struct.pack(f"<{len(code.units)}H", *code.units)
    if not code.tries:
        return out
    places, lists = [], uleb(len(code.lists))
    for typed, catch_all in code.lists:
        places.append(len(lists))
        lists += handler_list(ids, typed, catch_all)
    if len(code.units) % 2:
        out += b"\0\0"
    for first, units, number in code.tries:
        out += struct.pack("<IHH", first, units, places[number])
    return out + lists


def class_data(ids, row, code_at):
    fields = [sorted((ids.field[field], flags) for field, flags in rows) for rows in (row.statics, row.instances)]
    methods = [sorted((ids.method[method], flags, code_at.get(method, 0)) for method, flags, _ in rows)
               for rows in (row.directs, row.virtuals)]
    out = b"".join(uleb(len(rows)) for rows in fields + methods)
    for rows in fields + methods:
        before = 0
        for number, *rest in rows:
            out += b"".join(map(uleb, (number - before, *rest)))
            before = number
    return out


def put_items(data, ids, classes):
    """Type lists, code items and class data; gives where each stands, by its types, its method, its class."""
    lists = sorted({p[1] for p in ids.protos if p[1]} | {c.interfaces for c in classes if c.interfaces})
    list_at = dict(zip(lists, data.section(TYPE_LISTS, [type_list(ids, names) for names in lists], True)))
    bodies = [(method, code) for row in classes for method, _, code in row.methods() if code]
    items = data.section(CODE_ITEMS, [code_item(ids, code) for _, code in bodies], True)
    code_at = {method: offset for (method, _), offset in zip(bodies, items)}
    with_data = [row for row in classes if row.statics or row.instances or row.methods()]
    places = data.section(CLASS_DATA, [class_data(ids, row, code_at) for row in with_data], False)
    return list_at, {row.name: place for row, place in zip(with_data, places)}


def table_rows(ids, classes, text_at, list_at, data_at):
    """The bytes of the id tables."""
    rows = [struct.pack(f"<{len(text_at)}I", *text_at)]
    rows += [struct.pack("<I", ids.text[name]) for name in ids.types]
    rows += [struct.pack("<III", ids.text[shorty(p)], ids.type[p[0]], list_at.get(p[1], 0)) for p in ids.protos]
    rows += [struct.pack("<HHI", ids.type[c], ids.type[t], ids.text[name]) for c, name, t in ids.fields]
    rows += [struct.pack("<HHI", ids.type[c], ids.proto[p], ids.text[name]) for c, name, p in ids.methods]
    for c in classes:
        rows.append(struct.pack("<8I", ids.type[c.name], c.flags, ids.type[c.parent], list_at.get(c.interfaces, 0),
                                ids.text[c.source], 0, data_at.get(c.name, 0), 0))
    return b"".join(rows)


def lay_out(ids, classes, settle):
    """The file. `settle(texts, bytes)` may lengthen texts, in place and in their order; the rest takes so many bytes."""
    tables = [ids.texts, ids.types, ids.protos, ids.fields, ids.methods, classes]
    starts, at = [], 112
    for table, width in zip(tables, ID_WIDTHS):
        starts.append(at if table else 0)
        at += len(table) * width
    data = Data(at)
    list_at, data_at = put_items(data, ids, classes)
    settle(ids.texts, data.here() + 4 + 12 * MAP_ENTRIES)
    text_at = data.section(STRINGS, [string_data(text) for text in ids.texts], False)
    data.align()
    map_at = data.here()
    sections = [(0, 1, 0)] + [(kind + 1, len(table), start) for kind, (table, start) in enumerate(zip(tables, starts)) if table]
    sections += data.sections + [(MAP, 1, map_at)]
    assert len(sections) <= MAP_ENTRIES
    data.bytes += struct.pack("<I", len(sections))
    data.bytes += b"".join(struct.pack("<HHII", kind, 0, count, off) for kind, count, off in sections)
    front = struct.pack("<IIIIII", data.here(), 112, 0x12345678, 0, 0, map_at)
    front += b"".join(struct.pack("<II", len(table), start) for table, start in zip(tables, starts))
    front += struct.pack("<II", len(data.bytes), data.start)
    return summed(front + table_rows(ids, classes, text_at, list_at, data_at) + data.bytes)


def summed(body):
    """The file of the bytes from 32 on."""
    signed = hashlib.sha1(body).digest() + body
    return b"dex\n035\0" + struct.pack("<I", zlib.adler32(signed)) + signed
