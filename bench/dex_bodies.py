"""Makes up the code of methods: calls, fields, numbers, texts, branches, loops, switches, tries with their handlers.

Registers are in range, calls name as many as their arguments take, branches lead to instructions, and nothing falls off
the end. What values are in the registers is left to chance.
"""
from draw import below, early, pick, rng, toss
from dex_writer import Code


def table(weights):
    """The names, each as often as its weight."""
    return [name for name, weight in weights.items() for _ in range(weight)]


CALLS = {"virtual": 0x6E, "super": 0x6F, "direct": 0x70, "static": 0x71, "interface": 0x72}
RANGE = 6
FIELD_KINDS = {"J": 1, "D": 1, "L": 2, "[": 2, "Z": 3, "B": 4, "C": 5, "S": 6}
RETURNS = {"J": 0x10, "D": 0x10, "L": 0x11, "[": 0x11}
STEPS = table({"call": 33, "get": 21, "put": 9, "static": 4, "number": 12, "text": 4, "new": 4, "move": 8, "sum": 7,
               "cast": 2, "array": 3})
SUMS = [0x90, 0x91, 0x92, 0x93, 0x95, 0x96, 0x98, 0xA6, 0xA7, 0xA8]
WIDE_SUMS = [0x9B, 0x9C, 0x9D, 0xA0, 0xAB, 0xAD]
SHORTENED = [0xB0, 0xB1, 0xB2, 0xB5, 0xC6]
BYTE_SUMS = [0xD8, 0xD9, 0xDA, 0xDD, 0xDE, 0xE0, 0xE1]


class Body:
    """The units of one method. Blocks can be moved: branches are relative and stay within their block."""

    def __init__(self, app, method, locals_):
        self.app, self.method = app, method
        self.ins, self.outs = method.words, 0
        self.registers = max(4, self.ins + locals_)
        self.low = min(16, self.registers)
        self.units, self.tries, self.lists, self.payloads, self.pending = [], [], [], [], []

    # registers: of four bits, of eight, and the first one of a pair
    def r4(self):
        return int(toss() * self.low)

    def r4_pair(self):
        return int(toss() * (self.low - 1))

    def r8(self):
        return int(toss() * self.registers)

    def r8_pair(self):
        return int(toss() * (self.registers - 1))

    # instructions
    def invoke(self, out, method, call, receiver=None):
        """A call and its result, if some is taken; registers are named where the arguments are few."""
        count, opcode = method.words, CALLS[call]
        number = self.app.table.method[method.id]
        if count > self.registers:
            return
        self.outs = max(self.outs, count)
        if count <= 5:
            named = [] if not method.has_receiver else [self.r4() if receiver is None else receiver]
            for name in method.params:
                first = self.r4_pair() if name in "JD" else self.r4()
                named += [first, first + 1] if name in "JD" else [first]
            a, b, c, d, e = named + [0] * (5 - count)
            out += [count << 12 | e << 8 | opcode, number, a | b << 4 | c << 8 | d << 12]
        else:
            out += [count << 8 | opcode + RANGE, number, below(self.registers - count + 1)]
        if method.result != "V" and toss() < 0.75:
            out.append(self.result_to(method.result))

    def result_to(self, name):
        if name in "JD":
            return self.r8_pair() << 8 | 0x0B
        return self.r8() << 8 | (0x0C if name[0] in "L[" else 0x0A)

    def call(self, out):
        method = pick(self.app.methods) if toss() < 0.5 else early(self.app.methods)
        call = "super" if method.call == "virtual" and toss() < 0.03 else method.call
        self.invoke(out, method, call)

    def field(self, out, opcode):
        field = pick(self.app.instance_fields)
        register = self.r4_pair() if field[2] in "JD" else self.r4()
        kind = FIELD_KINDS.get(field[2][0], 0)
        out += [self.r4() << 12 | register << 8 | opcode + kind, self.app.table.field[field]]

    def get(self, out):
        self.field(out, 0x52)

    def put(self, out):
        self.field(out, 0x59)

    def static(self, out):
        field = pick(self.app.static_fields)
        register = self.r8_pair() if field[2] in "JD" else self.r8()
        kind = FIELD_KINDS.get(field[2][0], 0)
        out += [register << 8 | pick([0x60, 0x60, 0x67]) + kind, self.app.table.field[field]]

    def number(self, out):
        x = toss()
        if x < 0.65:
            out.append(below(16) << 12 | self.r4() << 8 | 0x12)
        elif x < 0.82:
            out += [self.r8() << 8 | 0x13, below(0x10000)]
        elif x < 0.88:
            out += [self.r8() << 8 | 0x15, below(0x10000)]
        elif x < 0.92:
            out += [self.r8() << 8 | 0x14, below(0x10000), below(0x10000)]
        elif x < 0.97:
            out += [self.r8_pair() << 8 | 0x16, below(0x10000)]
        else:
            out += [self.r8_pair() << 8 | 0x18] + [below(0x10000) for _ in range(4)]

    def text(self, out):
        out += const_string(self.r8(), self.app.table.text[early(self.app.literals)])

    def new(self, out):
        name = pick(self.app.created)
        register = self.r4()
        out += [register << 8 | 0x22, self.app.table.type[name]]
        self.invoke(out, self.app.constructors[name], "direct", register)

    def move(self, out):
        x = toss()
        if x < 0.6:
            out += [self.r8() << 8 | pick([0x02, 0x08, 0x08]), self.r8()]
        elif x < 0.65:
            out += [self.r8_pair() << 8 | 0x05, self.r8_pair()]
        else:
            out.append(self.r4() << 12 | self.r4() << 8 | pick([0x01, 0x07]))

    def sum(self, out):
        x = toss()
        if x < 0.4:
            out += [self.r8() << 8 | pick(BYTE_SUMS), below(256) << 8 | self.r8()]
        elif x < 0.65:
            out += [self.r8() << 8 | pick(SUMS), self.r8() << 8 | self.r8()]
        elif x < 0.85:
            out.append(self.r4() << 12 | self.r4() << 8 | pick(SHORTENED))
        elif x < 0.92:
            out += [self.r8_pair() << 8 | pick(WIDE_SUMS), self.r8_pair() << 8 | self.r8_pair()]
        elif x < 0.96:
            out.append(self.r4() << 12 | self.r4_pair() << 8 | 0x81)
        else:
            out += [self.r8() << 8 | 0x31, self.r8_pair() << 8 | self.r8_pair()]

    def cast(self, out):
        number = self.app.table.type[pick(self.app.cast_types)]
        if toss() < 0.8:
            out += [self.r8() << 8 | 0x1F, number]
        else:
            out += [self.r4() << 12 | self.r4() << 8 | 0x20, number]

    def array(self, out):
        x = toss()
        if x < 0.3:
            out += [self.r4() << 12 | self.r4() << 8 | 0x23, self.app.table.type[pick(self.app.arrays)]]
        elif x < 0.5:
            out.append(self.r4() << 12 | self.r4() << 8 | 0x21)
        else:
            out += [self.r8() << 8 | pick([0x44, 0x46, 0x48, 0x4B, 0x4D, 0x4F]), self.r8() << 8 | self.r8()]

    def test(self, length):
        """A branch over the next `length` units."""
        if toss() < 0.7:
            return [self.r8() << 8 | 0x38 + early(range(6)), (length + 2) & 0xFFFF]
        return [self.r4() << 12 | self.r4() << 8 | 0x32 + below(6), (length + 2) & 0xFFFF]

    def leave(self, out):
        """A throw of something new, or a return."""
        if toss() < 0.4:
            name, register = pick(self.app.thrown), self.r4()
            out += [register << 8 | 0x22, self.app.table.type[name]]
            self.invoke(out, self.app.constructors[name], "direct", register)
            out.append(register << 8 | 0x27)
        else:
            out.append(self.back())

    def back(self):
        result = self.method.result
        if result == "V":
            return 0x0E
        return (self.r8_pair() if result in "JD" else self.r8()) << 8 | RETURNS.get(result[0], 0x0F)

    # blocks
    def block(self, size, depth=0):
        out = []
        while len(out) < size:
            if size - len(out) > 8 and depth < 4 and toss() < 0.28:
                self.branch(out, min(size - len(out) - 6, 4 + int(rng.expovariate(1 / 25))), depth + 1)
            else:
                getattr(self, pick(STEPS))(out)
        return out

    def branch(self, out, size, depth):
        x = toss()
        inner = self.block(size, depth)
        if x < 0.5:
            out += self.test(len(inner)) + inner
        elif x < 0.7:
            self.leave(inner)
            out += self.test(len(inner)) + inner
        elif x < 0.85:
            other = self.block(size // 2 + 1, depth)
            inner += goto(len(other), True)
            out += self.test(len(inner)) + inner + other
        else:
            jump = goto(-len(inner) - 2, False)
            out += self.test(len(inner) + len(jump)) + inner + jump

    def switch(self, size):
        """At the outermost level, since its payload needs an even place. No case leads into the next one."""
        cases, length = [], 0
        for _ in range(2 + below(8)):
            cases.insert(0, self.block(size // 6 + 1, 3) + (goto(length, True) if cases else []))
            length += len(cases[0])
        at = len(self.units)
        self.units += [self.r8() << 8, 0, 0, *goto(length, True)]
        starts = []
        for case in cases:
            starts.append(len(self.units) - at)
            self.units += case
        self.payloads.append((at, starts if toss() < 0.7 else None, starts))

    def array_data(self):
        self.array(self.units)
        self.payloads.append((len(self.units), None, None))
        self.units += [self.r8() << 8 | 0x26, 0, 0]

    def attempt(self, size):
        """A try at the outermost level; its handlers come behind the code."""
        first = len(self.units)
        self.units += self.block(size, 1)
        self.tries.append((first, len(self.units) - first, len(self.pending)))
        self.pending.append(len(self.units))

    def handlers(self):
        for end in self.pending:
            typed = []
            for name in dict.fromkeys(pick(self.app.thrown[1:]) for _ in range(pick([0, 1, 1, 1, 2, 3]))):
                typed.append((name, self.handler(end)))
            catch_all = self.handler(end) if not typed or toss() < 0.25 else None
            self.lists.append((typed, catch_all))

    def handler(self, end):
        at = len(self.units)
        self.units.append(self.r8() << 8 | 0x0D)
        self.units += self.block(2 + below(12), 2)
        if toss() < 0.4:
            self.leave(self.units)
        else:
            self.units += goto(end - len(self.units), False)
        return at

    def tables(self):
        """The payloads, each at an even place, and the offsets to them."""
        for at, packed, starts in self.payloads:
            if len(self.units) % 2:
                self.units.append(0)
            offset = len(self.units) - at
            self.units[at + 1: at + 3] = [offset & 0xFFFF, offset >> 16]
            if packed:
                self.units[at] |= 0x2B
                self.units += [0x100, len(packed), below(100), 0]
            elif starts:
                self.units[at] |= 0x2C
                self.units += [0x200, len(starts)]
                self.units += [unit for key in sorted(rng.sample(range(60_000), len(starts))) for unit in (key, 0)]
            else:
                width, count = pick([1, 2, 4, 8]), 1 + below(40)
                self.units += [0x300, width, count, 0] + [below(0x10000) for _ in range((width * count + 1) // 2)]
                continue
            self.units += [unit for start in starts for unit in (start & 0xFFFF, start >> 16)]

    def fill(self, size, with_tries):
        while len(self.units) < size:
            x, part = toss(), min(size - len(self.units), 60)
            if part > 8 and with_tries and x < 0.15:
                self.attempt(part // 2)
            elif part > 30 and x < 0.18:
                self.switch(part)
            elif part > 30 and x < 0.19:
                self.array_data()
            else:
                self.units += self.block(part)
        self.units.append(self.back())
        self.handlers()
        self.tables()
        return Code(self.registers, self.ins, self.outs, self.units, self.tries, self.lists)


def goto(distance, forward):
    """A jump over the next units, or from here; the short form where it reaches."""
    if forward:
        return [(distance + 1) << 8 | 0x28] if distance < 120 else [0x29, distance + 2]
    return [(distance & 0xFF) << 8 | 0x28] if distance >= -128 else [0x29, distance & 0xFFFF]


def const_string(register, number):
    """The short form where it reaches."""
    if number < 0x10000:
        return [register << 8 | 0x1A, number]
    return [register << 8 | 0x1B, number & 0xFFFF, number >> 16]
