"""Random functions in the part of LLVM's text that the translator knows, each with an answer in
every bit of which all that it computed is mixed. No step has a result that IR leaves open: shifts
are masked, divisors are odd, and NaNs count as zeros.
"""

import random

INTEGERS = ["i8", "i16", "i32", "i64", "i128"]
WIDTHS = {"i1": 1, **{it: int(it[1:]) for it in INTEGERS}}
LANES = (4, 8, 16, 32, 64)
ROOM = 128
TEXT = 40
CONDITIONS = "eq ne ugt uge ult ule sgt sge slt sle".split()
VECTOR_CONDITIONS = "eq ne ugt uge ult ule slt sle sgt sge".split()
FLOAT_CONDITIONS = "oeq ogt oge olt ole one ord ueq ugt uge ult ule une uno".split()


class Writer:
    """Writes one function, step by step. Values that a branch made are forgotten behind it."""

    def __init__(self, chance, callees):
        self.chance, self.callees = chance, callees
        self.lines, self.count, self.labels, self.steps_left = [], 0, 0, chance.randrange(15, 60)
        self.values = {kind: [] for kind in (*WIDTHS, "double")}
        for lanes in LANES:
            self.values[f"<{lanes} x i8>"], self.values[f"<{lanes} x i1>"] = [], []
        self.values["i64"] += ["%a0", "%a1"]
        self.slots = [(kind, self.give("ptr", f"alloca {kind}, align 8")) for kind in INTEGERS * 2]
        self.slots.append(("double", self.give("ptr", "alloca double, align 8")))
        self.room = self.give("ptr", f"alloca [{ROOM} x i8], align 16")

    def put(self, line):
        """Writes a line."""
        self.lines.append(f"  {line}")

    def give(self, kind, text):
        """Writes an instruction, and keeps what it gives."""
        name = f"%r{self.count}"
        self.count += 1
        self.put(f"{name} = {text}")
        self.values.setdefault(kind, []).append(name)
        return name

    def some(self, kind):
        """A value of this kind, rather a late one, or a constant."""
        known = self.values[kind]
        if kind in WIDTHS and (not known or self.chance.random() < 0.2):
            return self.constant(kind)
        if kind == "double" and not known:
            return self.chance.choice(["0.000000e+00", "-1.500000e+00", "0x7FF0000000000000"])
        if not known:
            byte = self.chance.choice([0, 1, -1, -128, 127])
            return self.chance.choice(["zeroinitializer", f"splat (i8 {byte})"])
        return self.chance.choice(known[-6:] if self.chance.random() < 0.7 else known)

    def constant(self, kind):
        """A constant integer, often one at an end."""
        if kind == "i1":
            return self.chance.choice(["true", "false"])
        top = 1 << WIDTHS[kind] - 1
        at_ends = [0, 1, 2, 7, top - 1, -top, -1, -2]
        return str(self.chance.choice([*at_ends, self.chance.randrange(-top, top)]))

    def label(self):
        """A new label."""
        self.labels += 1
        return f"block.{self.labels}"

    def within(self, label, write):
        """Writes a block, after which its values are forgotten."""
        kept = {kind: list(names) for kind, names in self.values.items()}
        self.lines += ["", f"{label}:"]
        write()
        self.values = kept

    # ---- the steps

    def write_steps(self, depth, most):
        """Writes some steps."""
        for _ in range(most):
            if self.steps_left <= 0:
                return
            self.steps_left -= 1
            kinds = [self.integers, self.integers, self.compare, self.convert, self.memory]
            kinds += [self.memory, self.vectors, self.vectors, self.lanes, self.floats, self.bits]
            kinds += [self.calls, self.copies]
            if depth:
                kinds += [self.branch, self.loop, self.switch]
            step = self.chance.choice(kinds)
            step(depth) if step in (self.branch, self.loop, self.switch) else step()

    def integers(self):
        """An operation on integers or truths."""
        kind = self.chance.choice(INTEGERS)
        opcode = self.chance.choice(
            "add sub mul and or xor udiv urem sdiv srem shl lshr ashr select truth".split()
        )
        left, right = self.some(kind), self.some(kind)
        if opcode == "truth":
            word = self.chance.choice(["and", "or", "xor"])
            self.give("i1", f"{word} i1 {self.some('i1')}, {self.some('i1')}")
        elif opcode == "select":
            self.give(kind, f"select i1 {self.some('i1')}, {kind} {left}, {kind} {right}")
        else:
            if opcode in ("udiv", "urem", "sdiv", "srem"):
                right = self.give(kind, f"or {kind} {right}, 1")
            if opcode in ("sdiv", "srem"):
                left = self.give(kind, f"lshr {kind} {left}, 1")
                if self.chance.random() < 0.5:
                    left = self.give(kind, f"sub {kind} 0, {left}")
            if opcode in ("shl", "lshr", "ashr"):
                right = self.give(kind, f"and {kind} {right}, {WIDTHS[kind] - 1}")
            self.give(kind, f"{opcode} {kind} {left}, {right}")

    def compare(self):
        """A comparison of integers."""
        kind = self.chance.choice(INTEGERS)
        word = self.chance.choice(CONDITIONS)
        self.give("i1", f"icmp {word} {kind} {self.some(kind)}, {self.some(kind)}")

    def convert(self):
        """A wider or narrower integer."""
        old, new = self.chance.choice(list(WIDTHS)), self.chance.choice(list(WIDTHS))
        if WIDTHS[old] < WIDTHS[new]:
            word = self.chance.choice(["zext", "sext"])
            self.give(new, f"{word} {old} {self.some(old)} to {new}")
        elif WIDTHS[old] > WIDTHS[new]:
            self.give(new, f"trunc {old} {self.some(old)} to {new}")

    def place(self, size):
        """An address in the room, at a constant or at one that is computed."""
        if self.chance.random() < 0.5:
            at = str(self.chance.randrange(ROOM - size + 1))
        else:
            at = self.give("i64", f"and i64 {self.some('i64')}, {63 if size <= 64 else 0}")
        return self.give("ptr", f"getelementptr i8, ptr {self.room}, i64 {at}")

    def memory(self):
        """A read or a write, of a slot or at any place of the room."""
        kind, slot = self.chance.choice(self.slots)
        if self.chance.random() < 0.5:
            if self.chance.random() < 0.5:
                self.put(f"store {kind} {self.some(kind)}, ptr {slot}, align 8")
            else:
                self.give(kind, f"load {kind}, ptr {slot}, align 8")
            return
        kind = self.chance.choice(INTEGERS)
        place = self.place(16)
        if self.chance.random() < 0.5:
            self.put(f"store {kind} {self.some(kind)}, ptr {place}, align 1")
        else:
            self.give(kind, f"load {kind}, ptr {place}, align 1")

    def copies(self):
        """Many bytes that are filled or moved, or some of the text."""
        length = self.give("i64", f"and i64 {self.some('i64')}, 63")
        here = self.place(64)
        what = self.chance.randrange(3)
        if what == 0:
            words = f"ptr {here}, i8 {self.some('i8')}, i64 {length}, i1 false"
            self.put(f"call void @llvm.memset.p0.i64({words})")
        elif what == 1:
            there = self.place(64)
            words = f"ptr {here}, ptr {there}, i64 {length}, i1 false"
            self.put(f"call void @llvm.memmove.p0.p0.i64({words})")
        else:
            at = self.give("i64", f"and i64 {self.some('i64')}, 31")
            there = self.give("ptr", f"getelementptr i8, ptr @static.0, i64 {at}")
            self.give("i64", f"load i64, ptr {there}, align 1")

    def vectors(self):
        """A step with vectors."""
        lanes = self.chance.choice(LANES)
        kind, truths = f"<{lanes} x i8>", f"<{lanes} x i1>"
        what = self.chance.randrange(7)
        if what == 0:
            place = self.place(64)
            self.give(kind, f"load {kind}, ptr {place}, align 1")
        elif what == 1:
            place = self.place(64)
            self.put(f"store {kind} {self.some(kind)}, ptr {place}, align 1")
        elif what == 2:
            opcode = self.chance.choice("add sub and or xor".split())
            self.give(kind, f"{opcode} {kind} {self.some(kind)}, {self.some(kind)}")
        elif what in (3, 4) or not self.values[truths]:
            word = self.chance.choice(VECTOR_CONDITIONS)
            self.give(truths, f"icmp {word} {kind} {self.some(kind)}, {self.some(kind)}")
        elif what == 5:
            self.with_truths(lanes, kind, truths)
        else:
            yes, no = self.some(kind), self.some(kind)
            self.give(
                kind, f"select {truths} {self.some(truths)}, {kind} {yes}, {kind} {no}"
            )

    def with_truths(self, lanes, kind, truths):
        """A step with vectors of truths."""
        what = self.chance.randrange(3)
        if what == 0:
            self.give(kind, f"sext {truths} {self.some(truths)} to {kind}")
        elif what == 1:
            opcode = self.chance.choice("and or xor".split())
            self.give(truths, f"{opcode} {truths} {self.some(truths)}, {self.some(truths)}")
        elif lanes == 16:
            self.give("i16", f"bitcast {truths} {self.some(truths)} to i16")

    def lanes(self):
        """A lane, or a shuffle."""
        lanes, more = self.chance.choice(LANES), self.chance.choice(LANES)
        kind = f"<{lanes} x i8>"
        if self.chance.random() < 0.5:
            at = self.chance.randrange(lanes)
            vector, lane = self.some(kind), self.some("i8")
            self.give(kind, f"insertelement {kind} {vector}, i8 {lane}, i32 {at}")
            return
        places = ", ".join(f"i32 {self.chance.randrange(2 * lanes)}" for _ in range(more))
        mask = self.chance.choice(["zeroinitializer", f"<{places}>"])
        left, right = self.some(kind), self.some(kind)
        self.give(
            f"<{more} x i8>",
            f"shufflevector {kind} {left}, {kind} {right}, <{more} x i32> {mask}",
        )

    def floats(self):
        """A step with floats."""
        what = self.chance.randrange(6)
        left, right = self.some("double"), self.some("double")
        if what == 0:
            self.give("double", f"uitofp i64 {self.some('i64')} to double")
        elif what == 1:
            self.give("double", f"bitcast i64 {self.some('i64')} to double")
        elif what == 2:
            self.give("double", f"fneg double {left}")
        elif what == 3:
            word = self.chance.choice(FLOAT_CONDITIONS)
            self.give("i1", f"fcmp {word} double {left}, {right}")
        elif what == 4:
            self.give("double", f"call double @llvm.arithmetic.fence.f64(double {left})")
        else:
            opcode = self.chance.choice("fadd fsub fmul fdiv".split())
            self.give("double", f"{opcode} double {left}, {right}")

    def bits(self):
        """A count of bits."""
        kind = self.chance.choice(INTEGERS[:4])
        name = self.chance.choice(["ctlz", "cttz", "ctpop"])
        more = "" if name == "ctpop" else ", i1 false"
        self.give(kind, f"call {kind} @llvm.{name}.{kind}({kind} {self.some(kind)}{more})")

    def calls(self):
        """A call."""
        if not self.callees or self.chance.random() < 0.5:
            words = f"i1 {self.some('i1')}, i64 {self.some('i64')}"
            whole = self.give("{ i8, i64 }", f"call {{ i8, i64 }} @pair({words})")
            index, kind = self.chance.choice([(0, "i8"), (1, "i64")])
            self.give(kind, f"extractvalue {{ i8, i64 }} {whole}, {index}")
            return
        callee = self.chance.choice(self.callees)
        self.give("i64", f"call i64 @{callee}(i64 {self.some('i64')}, i64 {self.some('i64')})")

    # ---- where it goes on

    def branch(self, depth):
        """Two blocks, of which one is run."""
        yes, no, after = self.label(), self.label(), self.label()
        self.put(f"br i1 {self.some('i1')}, label %{yes}, label %{no}")
        for label in (yes, no):
            self.within(label, lambda: self.arm(depth, after))
        self.lines += ["", f"{after}:"]

    def arm(self, depth, after):
        """The steps of a block, which then goes on."""
        self.write_steps(depth - 1, self.chance.randrange(1, 6))
        self.put(f"br label %{after}")

    def switch(self, depth):
        """Three blocks, of which one is run."""
        kind = self.chance.choice(INTEGERS[:4])
        labels = [self.label() for _ in range(3)]
        after = self.label()
        cases = {int(self.constant(kind)) for _ in range(4)}
        value = self.some(kind)
        self.put(f"switch {kind} {value}, label %{labels[0]} [")
        for case in sorted(cases):
            self.put(f"  {kind} {case}, label %{self.chance.choice(labels)}")
        self.put("]")
        for label in labels:
            self.within(label, lambda: self.arm(depth, after))
        self.lines += ["", f"{after}:"]

    def loop(self, depth):
        """A block that is run some times, and how many are left is in a slot."""
        head, body, after = self.label(), self.label(), self.label()
        kind, counter = self.chance.choice(self.slots[:4])
        self.slots.remove((kind, counter))
        self.put(f"store {kind} {self.chance.randrange(1, 6)}, ptr {counter}, align 8")
        self.put(f"br label %{head}")

        def write_head():
            left = self.give(kind, f"load {kind}, ptr {counter}, align 8")
            is_more = self.give("i1", f"icmp ne {kind} {left}, 0")
            fewer = self.give(kind, f"sub {kind} {left}, 1")
            self.put(f"store {kind} {fewer}, ptr {counter}, align 8")
            self.put(f"br i1 {is_more}, label %{body}, label %{after}")

        self.within(head, write_head)
        self.within(body, lambda: self.arm(depth, head))
        self.lines += ["", f"{after}:"]
        self.slots.append((kind, counter))

    # ---- the beginning and the end

    def begin(self):
        """Gives all room a content."""
        byte = self.chance.randrange(-128, 128)
        self.put(
            f"call void @llvm.memset.p0.i64(ptr {self.room}, i8 {byte}, i64 {ROOM}, i1 false)"
        )
        for kind, slot in self.slots:
            self.put(f"store {kind} {self.some(kind)}, ptr {slot}, align 8")

    def mixed(self, so_far, value):
        """A number in which another one is mixed."""
        product = self.give("i64", f"mul i64 {so_far}, 6364136223846793005")
        turned = self.give("i64", f"xor i64 {product}, {value}")
        return self.give("i64", f"add i64 {turned}, 1442695040888963407")

    def end(self):
        """Mixes all values and all room into the answer."""
        known = {kind: list(names) for kind, names in self.values.items()}
        answer = "%a0"
        for kind, names in known.items():
            for name in names if kind in WIDTHS or kind[0] == "<" or kind == "double" else []:
                for number in self.as_numbers(kind, name):
                    answer = self.mixed(answer, number)
        for place in range(0, ROOM, 8):
            here = self.give("ptr", f"getelementptr i8, ptr {self.room}, i64 {place}")
            answer = self.mixed(answer, self.give("i64", f"load i64, ptr {here}, align 1"))
        self.put(f"ret i64 {answer}")

    def as_numbers(self, kind, name):
        """A value as numbers of 64 bits."""
        if kind == "i64":
            return [name]
        if kind == "i128":
            high = self.give("i128", f"lshr i128 {name}, 64")
            return [self.give("i64", f"trunc i128 {it} to i64") for it in (name, high)]
        if kind in WIDTHS:
            return [self.give("i64", f"zext {kind} {name} to i64")]
        if kind == "double":
            return [self.float_as_number(name)]
        if kind.endswith("i1>"):
            bytes_kind = kind.replace("i1", "i8")
            name, kind = self.give(bytes_kind, f"sext {kind} {name} to {bytes_kind}"), bytes_kind
        here = self.give("ptr", f"getelementptr i8, ptr {self.room}, i64 8")
        self.put(f"store {kind} {name}, ptr {here}, align 1")
        return [self.give("i64", f"load i64, ptr {here}, align 1")]

    def float_as_number(self, name):
        """The bits of a float, and 0 for each NaN: which one an operation gives is left open."""
        here = self.give("ptr", f"getelementptr i8, ptr {self.room}, i64 3")
        self.put(f"store double {name}, ptr {here}, align 1")
        bits = self.give("i64", f"load i64, ptr {here}, align 1")
        is_number = self.give("i1", f"fcmp ord double {name}, {name}")
        return self.give("i64", f"select i1 {is_number}, i64 {bits}, i64 0")


def functions(seed, count):
    """So many random functions. Each may call those before it."""
    chance = random.Random(seed)
    made = []
    for number in range(count):
        writer = Writer(chance, [f"f{k}" for k in range(max(number - 2, 0), number)])
        writer.begin()
        writer.write_steps(3, 1000)
        writer.end()
        made.append("\n".join(writer.lines))
    return made


def text(seed):
    """Constant bytes that the functions read."""
    chance = random.Random(seed)
    letters = "".join(f"\\{chance.randrange(256):02X}" for _ in range(TEXT))
    return f'@static.0 = private unnamed_addr constant [{TEXT} x i8] c"{letters}", align 1\n'
