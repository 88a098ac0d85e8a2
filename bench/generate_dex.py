#!/usr/bin/env python3
"""Writes a DEX 035 file of 32 MiB that is built as an application's is, nearly as large as the program's limits allow.

usage: generate_dex.py OUT

The same bytes each time. Proportions of members, instructions and tries are after compiled applications; code is close
to the limit of 4,194,304 units, and texts fill the rest. The class `Lapp/R;` is a receiver with a wake lock.
"""
import sys

from dex_bodies import Body, const_string
from dex_writer import Class, Code, Ids, lay_out, string_data
from draw import below, early, pick, rng, toss

SIZE = 32 * 1024 * 1024
UNITS = 4_194_000
CLASSES, OUTSIDE = 8_000, 1_200
METHODS, OUTSIDE_METHODS, FIELDS = 65_536, 8_500, 60_000
SHORT_TEXTS, LONG_TEXTS = 80_000, 220_000
PUBLIC, PRIVATE, PROTECTED, STATIC, FINAL = 1, 2, 4, 8, 0x10
NATIVE, INTERFACE, ABSTRACT, SYNTHETIC, CONSTRUCTOR = 0x100, 0x200, 0x400, 0x1000, 0x10000

WORDS = """account action adapter address album alarm anchor app array asset audio badge banner base battery binder
bitmap block board border bounds bucket buffer builder bundle button cache call camera card cell channel chart chat
check child clip clock cloud code color column comment config contact content context control cookie count cursor data
date day default detail device dialog display document draft drawer driver edge edit element email entry error event
factory feature feed field file filter flag folder font footer format fragment frame friend gallery gesture grid group
handler header height helper history holder home icon image index info input insert intent item job key label language
layer layout level library limit line link list loader local lock login main manager map mark match media member menu
message method model monitor month name network node note notice number object offset option order output owner page
panel parser password path payment phone photo picker place player point policy position post preview price process
product profile progress provider proxy queue range rate reader record region remote report request resource response
result review ring root route row rule sample scale schedule scope screen scroll search section select server service
session setting shape share sheet shop sign size slide sort source space stack stage state status step store stream
string style subject switch symbol sync table tag target task text theme thread thumb ticket time title token tool
topic track transfer tree type update upload user value vendor version video view voice wallet watch weather web week
widget width window worker""".split()
VERBS = """add apply bind build cancel check clear close compute copy create decode delete dispatch draw encode ensure
fetch find finish format get handle has init insert invoke is load make map measure merge move notify observe on open
parse post process put query read receive register release remove render replace request reset resolve restore run
save schedule select send set show start stop store submit sync to transform unregister update validate visit wait
wrap write""".split()
ENDINGS = ["Activity", "Adapter", "Builder", "Callback", "Controller", "Factory", "Fragment", "Handler", "Helper",
           "Impl", "Listener", "Manager", "Model", "Presenter", "Provider", "Receiver", "Service", "Task", "Utils",
           "View", ""]
KINDS = ["Exception", "Error", "List", "Map", "Set", "Stream", "Manager", "View", "Drawable", "Info", "Service",
         "Utils", ""]
TOPS = ["android/app", "android/content", "android/graphics", "android/media", "android/os", "android/text",
        "android/util", "android/view", "android/widget", "java/io", "java/lang", "java/net", "java/nio", "java/text",
        "java/util", "javax/net"]
OWN_TOPS = ["com/acme/shop", "com/acme/core", "androidx/core", "androidx/view", "com/vendor/sdk", "io/reactive",
            "org/json", "net/http", "kotlin/collections", "a/b"]
OBJECT, TEXT, THROWABLE = "Ljava/lang/Object;", "Ljava/lang/String;", "Ljava/lang/Throwable;"
RECEIVER, LOCK = "Lapp/R;", "Landroid/os/PowerManager$WakeLock;"
CONTEXT, POWER, PARENT = "Landroid/content/Context;", "Landroid/os/PowerManager;", "Landroid/content/BroadcastReceiver;"
ON_RECEIVE = (RECEIVER, "onReceive", ("V", (CONTEXT, "Landroid/content/Intent;")))
GET_SERVICE = (CONTEXT, "getSystemService", (OBJECT, (TEXT,)))
MAKE_LOCK = (POWER, "newWakeLock", (LOCK, ("I", TEXT)))
ACQUIRE, RELEASE = (LOCK, "acquire", ("V", ())), (LOCK, "release", ("V", ()))
LOCK_FIELD = (RECEIVER, "wl", LOCK)


def words_in(names):
    """How many registers values of these types take."""
    return sum(2 if name in "JD" else 1 for name in names)


def camel(count):
    first, *rest = (pick(WORDS) for _ in range(count))
    return first + "".join(word.capitalize() for word in rest)


def titled(count):
    name = camel(count)
    return name[0].upper() + name[1:]


def fresh(names, make):
    """A name that is not among these yet; it is put there."""
    name = make()
    while name in names:
        name = make()
    names.add(name)
    return name


def outside_name():
    return f"L{pick(TOPS)}/{titled(1 + below(2))}{pick(KINDS)};"


def own_name():
    inner = pick(["", "", f"${1 + below(9)}", "$" + titled(1)])
    return f"L{pick(OWN_TOPS)}/{pick(WORDS)}/{titled(1 + below(2))}{pick(ENDINGS)}{inner};"


def long_text(n):
    """A text that begins as no other does, so that it can grow without changing its place."""
    words = " ".join(pick(WORDS) for _ in range(1 + int(rng.expovariate(1 / 6))))
    strange = pick(["\u00e9t\u00e9", "\u4e2d\u6587\u5b57", "\U0001f600", "\0\x01\x02"]) if toss() < 0.03 else ""
    return f"{n:06x} {strange}{words}"


class Method:
    """A method as calls and bodies see it."""

    def __init__(self, id, call):
        self.id, self.call = id, call
        self.result, self.params = id[2]
        self.has_receiver = call != "static"
        self.words = words_in(self.params) + self.has_receiver


class Application:
    """Names, classes and members; bodies come later, since instructions name numbers of sorted rows."""

    def __init__(self):
        self.names = {OBJECT, TEXT, THROWABLE, RECEIVER, LOCK, CONTEXT, POWER, PARENT, ON_RECEIVE[2][1][1]}
        self.outside = [fresh(self.names, outside_name) for _ in range(OUTSIDE)]
        self.outside_interfaces = self.outside[: OUTSIDE // 4]
        self.parents = [OBJECT] * 300 + self.outside[OUTSIDE // 4:]
        self.thrown = [THROWABLE] + [fresh(self.names, outside_name)[:-1] + "Exception;" for _ in range(60)]
        own = [fresh(self.names, own_name) for _ in range(CLASSES)]
        self.values = [OBJECT, TEXT] * 400 + self.outside + own
        self.arrays = ["[I", "[B", "[Z", "[J", "[F", "[[I", f"[{TEXT}", f"[{OBJECT}"]
        self.arrays += [f"[{pick(self.values)}" for _ in range(600)]
        self.members = sorted({camel(1 + below(3)) for _ in range(9_000)})
        self.calls = sorted({pick(VERBS) + titled(1 + below(2)) for _ in range(14_000)})
        rng.shuffle(self.members)
        rng.shuffle(self.calls)
        self.protos = [("V", ())]
        self.fields, self.methods, self.constructors, self.known = [], [], {}, {}
        self.classes = [self.receiver_class()]
        self.interfaces = []
        self.outside_methods()
        for n, name in enumerate(own):
            self.add_class(name, CLASSES - n)
        literals = {f"{pick(WORDS)}_{camel(2)}_{below(90)}" for _ in range(SHORT_TEXTS)} | {"power", "t"}
        self.fillers = [long_text(n) for n in range(LONG_TEXTS)]
        self.literals = sorted(literals) + self.fillers
        self.ids_of_all()

    def value_type(self):
        x = toss()
        return pick("IIIIZZJFDBSC") if x < 0.45 else pick(self.arrays) if x < 0.52 else early(self.values)

    def proto(self):
        if toss() > 0.22:
            return early(self.protos)
        params = tuple(self.value_type() for _ in range(pick([0, 0, 0, 1, 1, 1, 1, 1, 1, 2, 2, 2, 2, 3, 3, 4, 5, 7])))
        proto = ("V" if toss() < 0.4 else self.value_type(), params)
        self.protos.append(proto)
        return proto

    def add_method(self, id, call):
        """Whether the method is a new one, and there is room for it."""
        if id in self.known or len(self.known) >= METHODS:
            return False
        self.known[id] = method = Method(id, call)
        owner, name, _ = id
        if name == "<init>":
            self.constructors.setdefault(owner, method)
        elif name != "<clinit>":
            self.methods.append(method)
        return True

    def outside_methods(self):
        for owner in [OBJECT, THROWABLE, *self.thrown[1:], *self.outside[OUTSIDE // 4:]]:
            self.add_method((owner, "<init>", ("V", ())), "direct")
        while len(self.known) < OUTSIDE_METHODS:
            owner = early(self.outside)
            call = "interface" if owner in self.outside_interfaces else pick(["virtual"] * 3 + ["static"])
            self.add_method((owner, early(self.calls), self.proto()), call)
        # these are for the receiver alone
        for id in (ON_RECEIVE, GET_SERVICE, MAKE_LOCK, ACQUIRE, RELEASE):
            self.known[id] = Method(id, "virtual")

    def receiver_class(self):
        row = Class(RECEIVER, PUBLIC, PARENT, (), "R.java")
        row.statics.append((LOCK_FIELD, STATIC))
        return row

    def add_class(self, name, classes_left):
        """A class whose parents stand before it, with its share of the members that are left."""
        is_interface = toss() < 0.08
        flags = pick([0, PUBLIC, PUBLIC, PUBLIC | FINAL, PUBLIC | ABSTRACT])
        if is_interface:
            flags = PUBLIC | INTERFACE | ABSTRACT
        base = None if is_interface or toss() < 0.6 else pick(self.classes[-400:])
        if base and base.flags & (INTERFACE | FINAL):
            base = None
        parent = OBJECT if is_interface else base.name if base else pick(self.parents)
        above = self.interfaces[-60:] + self.outside_interfaces
        interfaces = {pick(above) for _ in range(pick([0, 0, 0, 1, 1, 2, 3]))}
        source = name[1:-1].split("/")[-1].split("$")[0] + ".java"
        row = Class(name, flags, parent, sorted(interfaces), source)
        if is_interface:
            self.interfaces.append(name)
        self.add_fields(row, self.share(FIELDS - len(self.fields), classes_left))
        self.add_methods(row, base, self.share(METHODS - len(self.known), classes_left))
        self.classes.append(row)

    def share(self, left, owners):
        """How many of so many one of the owners gets; the last gets the rest."""
        if owners == 1 or left == 0:
            return left
        return min(left, int(rng.expovariate(owners / left)))

    def add_fields(self, row, count):
        names = set()
        for _ in range(count):
            name = fresh(names, lambda: early(self.members) + pick(["", "", f"{below(100)}"]))
            field = (row.name, name, self.value_type())
            self.fields.append(field)
            if row.flags & INTERFACE:
                row.statics.append((field, PUBLIC | STATIC | FINAL))
            elif toss() < 0.3:
                row.statics.append((field, pick([PUBLIC, PRIVATE, 0]) | STATIC | pick([0, FINAL])))
            else:
                row.instances.append((field, pick([PUBLIC, PRIVATE, PROTECTED, 0]) | pick([0, 0, FINAL])))

    def add_methods(self, row, base, count):
        """Methods as (method, flags, code): what gets code has True there until it is made."""
        if row.flags & INTERFACE:
            for _ in range(count):
                self.put(row.virtuals, row, early(self.calls), self.proto(), PUBLIC | ABSTRACT, "interface")
            return
        params = early(self.protos)[1] if toss() < 0.6 else ()
        self.put(row.directs, row, "<init>", ("V", params), PUBLIC | CONSTRUCTOR, "direct")
        if toss() < 0.12:
            self.put(row.directs, row, "<clinit>", ("V", ()), STATIC | CONSTRUCTOR, "static")
        inherited = [method for method, _, _ in base.virtuals] if base else []
        for _ in range(count - 1):
            rows, flags, call = self.kind_of_method(row)
            name, proto = early(self.calls), self.proto()
            if rows is row.virtuals and inherited and toss() < 0.3:
                _, name, proto = pick(inherited)
            self.put(rows, row, name, proto, flags, call)

    def kind_of_method(self, row):
        """The list of the class that a method goes to, its flags, and how it is called."""
        x = toss()
        if x < 0.22:
            return row.directs, pick([PUBLIC, PRIVATE, SYNTHETIC]) | STATIC, "static"
        if x < 0.34:
            return row.directs, PRIVATE, "direct"
        if x < 0.345:
            return row.virtuals, PUBLIC | NATIVE, "virtual"
        if x < 0.38 and row.flags & ABSTRACT:
            return row.virtuals, PUBLIC | ABSTRACT, "virtual"
        return row.virtuals, pick([PUBLIC, PUBLIC, PROTECTED, PUBLIC | FINAL]), "virtual"

    def put(self, rows, row, name, proto, flags, call):
        id = (row.name, name, proto)
        if self.add_method(id, call):
            rows.append((id, flags, not flags & (ABSTRACT | NATIVE)))

    def ids_of_all(self):
        fields, protos = [LOCK_FIELD, *self.fields], {proto for _, _, proto in self.known}
        types = {THROWABLE, POWER, *self.thrown, *self.arrays}
        types |= {name for row in self.classes for name in (row.name, row.parent)}
        types |= {name for row in self.classes for name in row.interfaces}
        types |= {name for owner, _, kind in fields for name in (owner, kind)} | {owner for owner, _, _ in self.known}
        types |= {name for proto in protos for name in (proto[0], *proto[1])}
        self.table = Ids(self.literals + [row.source for row in self.classes], types, protos, fields, self.known)


def receiver_code(ids):
    """Makes the lock, stores it, acquires and releases it."""
    units = [*const_string(0, ids.text["power"]), 0x206E, ids.method[GET_SERVICE], 0x0004, 0x000C]
    units += [0x001F, ids.type[POWER], 0x1112, *const_string(2, ids.text["t"])]
    units += [0x306E, ids.method[MAKE_LOCK], 0x0210, 0x000C, 0x0069, ids.field[LOCK_FIELD]]
    for call in (ACQUIRE, RELEASE):
        units += [0x0062, ids.field[LOCK_FIELD], 0x106E, ids.method[call], 0]
    return Code(6, 3, 3, units + [0x000E])


def add_bodies(app):
    """Gives each method its code, with a share of the units that are left."""
    app.instance_fields = [field for row in app.classes for field, _ in row.instances]
    app.static_fields = [field for row in app.classes for field, _ in row.statics if field != LOCK_FIELD]
    abstract = {row.name for row in app.classes if row.flags & ABSTRACT}
    app.created = [name for name, method in app.constructors.items() if name not in abstract and method.words <= 5]
    app.cast_types = [row.name for row in app.classes] + app.arrays
    receiver, *others = app.classes
    receiver.virtuals.append((ON_RECEIVE, PUBLIC, receiver_code(app.table)))
    left = UNITS - len(receiver.virtuals[0][2].units)
    to_make = sum(with_code for row in others for _, _, with_code in row.methods())
    for row in others:
        for rows in (row.directs, row.virtuals):
            for i, (id, flags, with_code) in enumerate(rows):
                code = None
                if with_code:
                    code = make_code(app, row, app.known[id], left / to_make, left - 8 * to_make)
                    left, to_make = left - len(code.units), to_make - 1
                rows[i] = (id, flags, code)


def make_code(app, row, method, mean, most):
    """Of about the mean size, or next to nothing where it gets too long."""
    code = make_body(app, row, method, mean)
    return code if len(code.units) <= most else Body(app, method, 2).fill(0, False)


def make_body(app, row, method, mean):
    size = min(8_000, int(rng.lognormvariate(0, 1.2) * mean * 0.4))
    body = Body(app, method, 2 + below(12) if toss() < 0.97 else 20 + below(60))
    if method.id[1] == "<init>" and row.parent in app.constructors:
        body.invoke(body.units, app.constructors[row.parent], "direct", below(body.low))
    return body.fill(size, toss() < 0.2)


def grow(fillers, texts, others):
    """Lengthens the texts that may grow until the file has its size, within some bytes."""
    may_grow = set(fillers)
    room = SIZE - others - sum(len(string_data(text)) for text in texts)
    assert room >= 0, f"{-room} bytes too many"
    places = [i for i, text in enumerate(texts) if text in may_grow]
    while room >= 8:
        share = max(1, room // len(places))
        for i in places:
            # the length in front may take one byte more
            more = min(share, room - 4)
            if more <= 0:
                break
            before = len(string_data(texts[i]))
            texts[i] += (" " + " ".join(pick(WORDS) for _ in range(more // 4 + 1)))[:more]
            room -= len(string_data(texts[i])) - before


def main():
    app = Application()
    add_bodies(app)
    data = lay_out(app.table, app.classes, lambda texts, others: grow(app.fillers, texts, others))
    with open(sys.argv[1], "wb") as file:
        file.write(data)


if __name__ == "__main__":
    main()
