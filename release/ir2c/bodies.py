"""Bodies: what a function does, as C text.

Each instruction becomes a statement, in the order of the module. Two things are done beside that,
since they make the C text half as long and let every compiler see through it:

- A number or address that reads no memory, and is used once and in its own block, is written
  where it is used. It is the same there, since what it is made of doesn't change once it is made.
- Room on the stack for one number or address that is only read and written whole is a C variable.

A block stands where it stands in the module, under its label, and a jump is a goto. What is never
reached is left out.
"""

import re

import statements
from expressions import EXPRESSIONS, constant
from instructions import Alloca, Call, Load, Store, read_instruction
from kinds import is_scalar, size
from operands import Integer, Local, locals_of
from words import Stop, Words, at

LOCAL = re.compile(r"[ar]\d+\Z")
GOTO = re.compile(r"goto (L\d+);")
# How long a text may get that is put into another one.
LONGEST = 160


class Step:
    """An instruction of the function, with its line and the name of what it gives."""

    __slots__ = ("line", "name", "it")

    def __init__(self, line):
        self.line = line
        self.name, self.it = read_instruction(Words(line.text))


class Body:
    """One function on its way to C."""

    def __init__(self, function, naming, functions):
        self.function, self.naming, self.functions = function, naming, functions
        self.kinds, self.uses, self.texts = {}, {}, {}
        self.declared, self.out = {}, []
        self.blocks = self.read_blocks()
        self.labels = {label: f"L{k}" for k, label in enumerate(self.blocks)}
        self.first, self.block = next(iter(self.blocks)), None
        self.find_kinds()
        self.variables = self.find_variables()
        self.cleared = self.find_cleared()

    # ---- before: what there is, and where it is used

    def read_blocks(self):
        """The blocks that are reached, by their labels, in the order of the module."""
        blocks = {}
        for block in self.function.blocks:
            if block.label in blocks or not block.lines:
                raise Stop(f"{self.function.name}: {block.label} stands twice, or has no line")
            blocks[block.label] = steps = []
            for line in block.lines:
                with at(line):
                    steps.append(Step(line))
            for step in steps:
                if statements.ends(step.it) != (step is steps[-1]):
                    raise Stop(f"line {step.line.number}: the end of a block is elsewhere")
        reached, left = set(), [self.function.blocks[0].label]
        while left:
            label = left.pop()
            if label not in blocks:
                raise Stop(f"{self.function.name}: a jump to {label}, which it lacks")
            if label not in reached:
                reached.add(label)
                left += statements.targets(blocks[label][-1].it)
        return {label: steps for label, steps in blocks.items() if label in reached}

    def steps(self):
        """Every instruction with its block."""
        return [(label, step) for label, steps in self.blocks.items() for step in steps]

    def find_kinds(self):
        """Finds the kind of each local, and in which blocks it is used, each time that it is."""
        named = [(local.name, kind) for kind, local in self.function.parameters]
        named += [(step.name, step.it.kind) for _, step in self.steps() if step.name is not None]
        for name, kind in named:
            if not LOCAL.match(name) or name in self.kinds:
                raise Stop(f"{self.function.name}: a local {name}, or a second one")
            self.kinds[name] = kind
        for label, step in self.steps():
            with at(step.line):
                self.naming.kind(step.it.kind)
            for name in locals_of(step.it):
                self.uses.setdefault(name, []).append(label)

    def find_variables(self):
        """The rooms that are C variables, with the kind that they hold."""
        held = {
            step.name: step.it.held
            for _, step in self.steps()
            if isinstance(step.it, Alloca) and is_scalar(step.it.held)
        }
        for _, step in self.steps():
            it, others = step.it, locals_of(step.it)
            if isinstance(it, (Load, Store)) and isinstance(it.place, Local):
                kind = it.kind if isinstance(it, Load) else it.value.kind
                if held.get(it.place.name) == kind:
                    others.remove(it.place.name)
            for name in others:
                held.pop(name, None)
        return held

    def find_cleared(self):
        """The rooms that the first block fills before all else; others are cleared in C."""
        seen, cleared = set(), set()
        for step in self.blocks[self.first]:
            it = step.it
            if isinstance(it, Call) and it.callee == "llvm.memset.p0.i64":
                place, count = it.arguments[0].operand, it.arguments[2].operand
                if isinstance(place, Local) and place.name not in seen:
                    room = self.rooms().get(place.name)
                    if room is not None and count == Integer(room):
                        cleared.add(place.name)
            seen.update(locals_of(it))
        return cleared

    def rooms(self):
        """How many bytes each room of the first block has."""
        return {
            step.name: size(step.it.held)
            for step in self.blocks[self.first]
            if isinstance(step.it, Alloca)
        }

    # ---- the C text, one instruction after another

    def texts_of_blocks(self):
        """The statements of the whole function, with the labels that are jumped to."""
        labels = list(self.blocks)
        found = []
        for label, after in zip(labels, labels[1:] + [None]):
            self.block, self.after, self.out = label, after, []
            for step in self.blocks[label]:
                with at(step.line):
                    self.translate(step)
            if self.texts:
                raise Stop(f"{self.function.name}: {label} ends before {list(self.texts)} is used")
            found.append((self.labels[label], self.out))
        jumps = set(GOTO.findall("\n".join(line for _, lines in found for line in lines)))
        return [
            text
            for label, lines in found
            for text in ([f"{label}:;"] if label in jumps else []) + [f"\t{it}" for it in lines]
        ]

    def translate(self, step):
        """Puts one instruction."""
        expression = EXPRESSIONS.get(type(step.it))
        if expression:
            self.name(step.name, step.it.kind, expression(step.it, self.value, self.naming))
        else:
            statements.STATEMENTS[type(step.it)](self, step.name, step.it)

    def value(self, kind, operand):
        """The C text of an operand of this kind."""
        if not isinstance(operand, Local):
            return constant(self.naming, kind, operand)
        if self.kinds.get(operand.name) != kind:
            raise Stop(f"%{operand.name} as {kind}")
        return self.texts.pop(operand.name, operand.name)

    def name(self, name, kind, text):
        """Gives a name to what reads no memory: it is put off if it is used once, and soon."""
        uses = self.uses.get(name, [])
        if uses == [self.block] and is_scalar(kind) and len(text) <= LONGEST:
            self.texts[name] = text
        elif uses:
            self.give(name, kind, text)

    def read(self, name, kind, text):
        """Gives a name to what memory or a variable has now."""
        if name in self.uses:
            self.give(name, kind, text)

    def give(self, name, kind, text):
        """Puts a statement that gives a local its value, or only does what it does."""
        if not self.uses.get(name):
            self.put(f"{text};")
        else:
            self.declare(self.naming.kind(kind), name)
            self.put(f"{name} = {text};")

    def put(self, text):
        """Puts a statement."""
        self.out.append(text)

    def declare(self, kind, name):
        """Declares a C variable."""
        self.declared.setdefault(kind, []).append(name)

    def jump(self, label):
        """The C text of a jump."""
        return f"goto {self.labels[label]};"

    def declarations(self):
        """The C variables, some in a line."""
        for kind, names in self.declared.items():
            for k in range(0, len(names), 12):
                yield f"\t{kind} {', '.join(names[k : k + 12])};"
