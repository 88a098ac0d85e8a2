"""Makes up an application in scope that is as large and as tangled as a real one: fourteen instructions a method, branches,
loops, switches, handlers, calls through superclasses and interfaces, components of each kind, and seven wake locks.

Components and the helpers of locks are written as text; all other code is left to chance (`dex_bodies.py`). Packages call
their own methods, those of later packages and outside ones. No name and no call breaks a rule of scope: locks stay in the
helpers, and what no callback reaches does not bear a callback's name. The same bytes each time.
"""
import types

from assemble import code_of, parse, refs
from dex_bodies import Body
from dex_writer import Class, Ids, lay_out
from draw import below, early, pick, rng, toss

# callbacks call methods of the first so many packages
PACKAGES, CALLED = 60, 50
CLASS_METHODS = 8.4
MEAN_UNITS = 12
PUBLIC, PRIVATE, STATIC, CONSTRUCTOR, INTERFACE, ABSTRACT = 1, 2, 8, 0x10000, 0x200, 0x400
OBJECT, TEXT, THROWABLE = "Ljava/lang/Object;", "Ljava/lang/String;", "Ljava/lang/Throwable;"
COMMON = [("toString", (TEXT, ())), ("hashCode", ("I", ())), ("equals", ("Z", (OBJECT,)))]
OUTSIDE = 300

CREATE, CONTEXT = "onCreate (Landroid/os/Bundle;)V", "Landroid/content/Context;"
COMPONENTS = {
    "activity": ("Landroid/app/Activity;", [CREATE, "onStart ()V", "onResume ()V", "onPause ()V", "onStop ()V",
                                            "onRestart ()V", "onDestroy ()V"]),
    "service": ("Landroid/app/Service;", ["onCreate ()V", "onStartCommand (Landroid/content/Intent;II)I",
                                          "onBind (Landroid/content/Intent;)Landroid/os/IBinder;", "onDestroy ()V"]),
    "receiver": ("Landroid/content/BroadcastReceiver;", ["onReceive (Landroid/content/Context;Landroid/content/Intent;)V"]),
    "runnable": (OBJECT, ["run ()V"]),
}
COUNTS = {"activity": 12, "service": 6, "receiver": 5, "runnable": 4}
# the locks: that of the helpers' class, one of an instance field in each of so many components of a kind
OWNERS = [("activity", 0), ("activity", 1), ("service", 0), ("receiver", 0)]
STATIC_LOCKS = 3


class Method:
    """A method as calls and bodies see it."""

    def __init__(self, id, call):
        self.id, self.call = id, call
        self.result, self.params = id[2]
        self.has_receiver = call != "static"
        self.words = sum(2 if name in "JD" else 1 for name in self.params) + self.has_receiver


# ---- the part that is written as text
def if_there(field, get, call):
    """Calls a method of the lock that a field holds, if it holds one."""
    return f"{get} {field}\nif-eqz v0 end\n{call}end:\nreturn-void\n"


ACQUIRE, RELEASE = "invoke-virtual v0 WL->acquire()V\n", "invoke-virtual v0 WL->release()V\n"
IF_HELD = "invoke-virtual v0 WL->isHeld()Z\nmove-result v1\nif-eqz v1 end\n"


def helpers():
    """A class with static locks, each with a method that makes, one that acquires and one that releases."""
    text = "class Lapp/Locks; Ljava/lang/Object;\n" + "".join(f"field w{k} WL static\n" for k in range(STATIC_LOCKS))
    for k in range(STATIC_LOCKS):
        field = f"Lapp/Locks;->w{k}:WL"
        mode = f"const/4 v1 0\nsget-object v0 {field}\ninvoke-virtual v0,v1 WL->setReferenceCounted(Z)V\n" if k == 1 else ""
        text += f"method make{k} ({CONTEXT})V 4 static\nsget-object v0 {field}\nif-nez v0 end\nmake v3 {field}\n{mode}"
        text += "end:\nreturn-void\n"
        text += f"method take{k} ()V 1 static\n" + if_there(field, "sget-object v0", ACQUIRE)
        text += f"method free{k} ()V 2 static\n" + if_there(field, "sget-object v0", IF_HELD + RELEASE)
    outside = f"Landroid/ext/Outside;->context(){CONTEXT}"
    return text + f"method context (){CONTEXT} 1 static\ninvoke-static {outside}\nmove-result-object v0\nreturn-object v0\n"


def own_lock(name):
    """The instance lock of a component with its methods."""
    field = f"{name}->own:WL"
    return (f"method makeOwn ({CONTEXT})V 5 private\nmake v4 {field} v3\nreturn-void\n"
            + "method takeOwn ()V 2 private\n" + if_there(field, "iget-object v0,v1", ACQUIRE)
            + "method freeOwn ()V 2 private\n" + if_there(field, "iget-object v0,v1", RELEASE))


def calls_of_locks(name, callback, lock, owns):
    """What a callback does to locks before and after its work; v1 is `this`, v0 a context."""
    context = f"invoke-static Lapp/Locks;->context(){CONTEXT}\nmove-result-object v0\n"
    before, after = "", ""
    if callback in ("onCreate", "onReceive", "run"):
        before += context + f"invoke-static v0 Lapp/Locks;->make{lock}({CONTEXT})V\n"
    if callback in ("onResume", "onStartCommand", "onReceive"):
        before += f"invoke-static Lapp/Locks;->take{lock}()V\n"
    if callback in ("onPause", "onDestroy", "onReceive", "run"):
        after += f"invoke-static Lapp/Locks;->free{lock}()V\n"
    if owns and callback in ("onCreate", "onReceive"):
        before += context + f"invoke-direct v1,v0 {name}->makeOwn({CONTEXT})V\n"
    if owns and callback in ("onResume", "onStartCommand", "onReceive"):
        before += f"invoke-direct v1 {name}->takeOwn()V\n"
    if owns and callback in ("onPause", "onDestroy", "onReceive"):
        after += f"invoke-direct v1 {name}->freeOwn()V\n"
    return before, after


def component(kind, number, work):
    """A component's class; `work` gives the next method without arguments that a callback calls."""
    parent, callbacks = COMPONENTS[kind]
    name, owns = f"Lapp/{kind.capitalize()}{number};", (kind, number) in OWNERS
    text = f"class {name} {parent}\n" + ("field own WL\n" if owns else "")
    for callback in callbacks:
        before, after = calls_of_locks(name, callback.split()[0], number % STATIC_LOCKS, owns)
        ins = 1 + len(callback.split("(")[1].split(")")[0].replace("II", "L;L;").split(";")[:-1])
        own = "".join(f"invoke-static {work()}\n" for _ in range(12))
        back = {"V": "return-void", "I": "return v0", ";": "return-object v0"}[callback[-1]]
        text += (f"method {callback} {2 + ins}\nmove-object v1 v2\n{before}from:\n{own}to:\n{after}const/4 v0 0\n{back}\n"
                 f"caught:\nmove-exception v0\n{after}throw v0\ncatch from to all caught\n")
    return name, text + (own_lock(name) if owns else "")


def components(work):
    """Their classes as text, and their list."""
    text = helpers()
    rows = ""
    for kind, count in COUNTS.items():
        for number in range(count):
            name, own = component(kind, number, work)
            text += own
            rows += f'[[component]]\nkind = "{kind}"\nclass = "{name}"\n'
    return text, rows


# ---- the part that is left to chance
class Application:
    """Names, classes and members; bodies come later, since instructions name numbers of sorted rows."""

    def __init__(self, count):
        self.arrays = ["[I", "[B", "[J", f"[{TEXT}", f"[{OBJECT}"]
        self.outside = [f"Landroid/ext/K{n};" for n in range(OUTSIDE)]
        self.thrown = [THROWABLE] + [f"Ljava/ext/E{n};" for n in range(20)]
        self.literals = [f"text {n}" for n in range(4_000)]
        self.fields, self.constructors, self.methods = [], {}, []
        self.outside_methods()
        self.packages = [self.package(k, round(count / PACKAGES / CLASS_METHODS)) for k in range(PACKAGES)]

    def outside_methods(self):
        for owner in [OBJECT, *self.thrown, *self.outside]:
            self.constructors[owner] = Method((owner, "<init>", ("V", ())), "direct")
        self.common = [Method((OBJECT, name, proto), "virtual") for name, proto in COMMON]
        calls = ["virtual"] * 3 + ["static"]
        self.methods = [Method((pick(self.outside), f"m{n}", self.proto()), pick(calls)) for n in range(2_500)]

    def value_type(self):
        x = toss()
        return pick("IIIIZZJD") if x < 0.5 else pick(self.arrays) if x < 0.55 else pick([OBJECT, TEXT, early(self.outside)])

    def proto(self):
        params = tuple(self.value_type() for _ in range(pick([0, 0, 0, 1, 1, 1, 2, 2, 3])))
        return "V" if toss() < 0.4 else self.value_type(), params

    def package(self, number, count):
        """Classes of which some are below others or below interfaces; and the methods that they have."""
        made = types.SimpleNamespace(classes=[], methods=[], work=[])
        for n in range(count):
            self.add_class(made, f"Lapp/p{number}/C{n};", toss() < 0.08)
        return made

    def add_class(self, package, name, is_interface):
        above = [row for row in package.classes if row.flags & INTERFACE]
        bases = [row for row in package.classes if not row.flags & INTERFACE]
        base = None if is_interface or not bases or toss() < 0.65 else pick(bases)
        interfaces = sorted({pick(above).name for _ in range(pick([0, 1, 1, 2]))}) if above and not is_interface else []
        parent = OBJECT if is_interface else base.name if base else pick([OBJECT] * 300 + self.outside)
        row = Class(name, PUBLIC | (INTERFACE | ABSTRACT if is_interface else 0), parent, interfaces, "x")
        count = int(rng.expovariate(1 / 5.6))
        if is_interface:
            self.put(package, row, [(f"i{n}", self.proto()) for n in range(2 + count // 3)], "interface")
        else:
            self.add_members(package, row, base, [other for other in above if other.name in interfaces], count)
        package.classes.append(row)

    def add_members(self, package, row, base, above, count):
        for n in range(pick([0, 1, 2, 3, 5])):
            field, is_static = (row.name, f"f{n}", self.value_type()), toss() < 0.25
            self.fields.append((field, is_static))
            (row.statics if is_static else row.instances).append((field, PUBLIC | STATIC * is_static))
        init = (row.name, "<init>", ("V", ()))
        self.constructors[row.name] = Method(init, "direct")
        row.directs.append((init, PUBLIC | CONSTRUCTOR, True))
        inherited = [(name, proto) for other in [base, *above] if other for (_, name, proto), _, _ in other.virtuals]
        kept = [own for own in inherited if toss() < 0.6] + [own for own in COMMON if toss() < 0.02]
        fresh = [(f"{pick(['get', 'set', 'load', 'show'])}{n}", self.proto()) for n in range(count)]
        statics = int(count * 0.3)
        self.put(package, row, fresh[:statics], "static")
        others = [own for own in kept + fresh[statics:] if own not in fresh[:statics]]
        self.put(package, row, list(dict.fromkeys(others)), "virtual")

    def put(self, package, row, names, call):
        flags = {"static": PUBLIC | STATIC, "virtual": PUBLIC, "interface": PUBLIC | ABSTRACT}[call]
        for name, proto in names:
            id = (row.name, name, proto)
            (row.directs if call == "static" else row.virtuals).append((id, flags, call != "interface"))
            package.methods.append(Method(id, call))

    def add_work(self, number):
        """A method of a package that callbacks call."""
        package = self.packages[number]
        row = next(row for row in package.classes if not row.flags & INTERFACE)
        id = (row.name, f"work{len(package.work)}", ("V", ()))
        row.directs.append((id, PUBLIC | STATIC, True))
        package.work.append(Method(id, "static"))
        return f"{row.name}->{id[1]}()V"

    def finish(self, text_rows):
        """The tables of all names, of these rows too."""
        texts, kinds, protos, fields, methods = refs(text_rows)
        own = [method for package in self.packages for method in package.methods + package.work]
        ids = {method.id for method in [*self.constructors.values(), *self.methods, *self.common, *own]} | methods
        fields |= {field for field, _ in self.fields}
        rows = [row for package in self.packages for row in package.classes]
        protos = {proto for _, _, proto in ids}
        kinds |= {name for row in rows for name in (row.name, row.parent, *row.interfaces)} | {*self.arrays, *self.thrown}
        kinds |= {owner for owner, _, _ in ids | fields} | {kind for _, _, kind in fields}
        kinds |= {name for result, params in protos for name in (result, *params)}
        self.table = Ids(texts | set(self.literals), kinds, protos, fields, ids)

    def seen_from(self, number):
        """The application as bodies of a package see it."""
        package = self.packages[number]
        later = [method for other in self.packages[number + 1:] for method in other.methods]
        view = types.SimpleNamespace(table=self.table, constructors=self.constructors, thrown=self.thrown,
                                     arrays=self.arrays, literals=self.literals)
        # half of the calls prefer those in front
        view.methods = package.methods * 3 + self.methods + self.common * 20 + later
        view.instance_fields = [field for field, is_static in self.fields if not is_static]
        view.static_fields = [field for field, is_static in self.fields if is_static]
        view.objects = [field for field in view.static_fields if field[2][0] in "L["]
        view.created = [row.name for row in package.classes if not row.flags & INTERFACE] + self.outside[:40]
        view.cast_types = view.created + self.arrays
        return view


def add_bodies(app):
    for number, package in enumerate(app.packages):
        view = app.seen_from(number)
        for row in package.classes:
            for rows in (row.directs, row.virtuals):
                rows[:] = [(id, flags, body(view, row, id, flags) if with_code else None) for id, flags, with_code in rows]


def body(view, row, id, flags):
    own = Method(id, "static" if flags & STATIC else "virtual")
    made = Body(view, own, 1 + below(5))
    # what is null at the start throws at the first use, and nothing behind it would be reached
    for register in range(made.registers - made.ins):
        made.units += [register << 8 | 0x62, view.table.field[pick(view.objects)]]
    if id[1] == "<init>":
        made.invoke(made.units, view.constructors[row.parent], "direct", below(made.low))
    return made.fill(min(8_000, int(rng.lognormvariate(0, 1.2) * MEAN_UNITS)), toss() < 0.2)


def real_app(count):
    """The bytes of the file, and its list."""
    app = Application(count)
    text, listed = components(lambda: app.add_work(below(CALLED)))
    rows = parse(text)
    app.finish(rows)
    add_bodies(app)
    for row, own in rows:
        for method in own:
            direct = method.flags & 10
            (row.directs if direct else row.virtuals).append((method.name, 1 | method.flags, code_of(method, app.table)))
    classes = [row for package in app.packages for row in package.classes] + [row for row, _ in rows]
    return lay_out(app.table, classes, lambda texts, others: None), listed
