"""The program: the whole C file, part by part."""

import os
from typing import NamedTuple

from bodies import Body
from calls import is_of_llvm, c_name
from instructions import Call, Return, read_instruction
from kinds import I32, I64
from naming import Naming
from operands import Integer, Local, Typed
from words import Stop, Words, at

HEAD = os.path.join(os.path.dirname(os.path.abspath(__file__)), "head.c")
# What `main` calls beside the program. runtime.c has that in a `main` of its own.
AT_START = "__sysv_signal"
IGNORE_SIGPIPE = Call(I64, AT_START, [Typed(I32, Integer(13)), Typed(I64, Integer(1))])
# The letters that a C text has as they are.
PLAIN = set(range(32, 127)) - set(b'"\\?')


class Done(NamedTuple):
    """A function in C: its comment, its head and its lines."""

    comment: str
    head: str
    lines: list


class Program:
    """A module on its way to C."""

    def __init__(self, module):
        self.naming = Naming(module)
        self.module = module
        self.start = self.find_start()
        self.done = [
            self.translate(it)
            for it in module.functions.values()
            if it.blocks is not None and it.name != "main"
        ]

    def text(self):
        """The C file."""
        with open(HEAD, encoding="ascii") as it:
            yield it.read()
        yield from self.vectors()
        yield from self.naming.struct_texts()
        yield from self.declarations()
        for it in self.module.texts.values():
            yield data(self.naming.texts[it.name], it)
        for it in self.done:
            yield f"\n/* {it.comment} */\n{it.head}\n{{"
            yield from it.lines
            yield "}"
        yield f"\nu32 rattle_main(void)\n{{\n\treturn {self.naming.functions[self.start]}();\n}}"

    def vectors(self):
        """The vectors that the program has."""
        for count in sorted(self.naming.lanes):
            yield f"VECTOR({count})"
            if count == 16:
                yield "BITS_OF_16"

    def declarations(self):
        """What is declared before all functions: those of `runtime.c`, and the program's own."""
        for it in self.module.functions.values():
            if it.blocks is None and not is_of_llvm(it.name) and it.name != AT_START:
                yield f"{self.head(it, c_name(it, self.naming))};"
        yield "u32 rattle_main(void);"
        for it in self.done:
            yield f"{it.head};"

    def find_start(self):
        """The function that `main` calls, once it has a signal ignored. It does nothing else."""
        main = self.module.functions.get("main")
        if main is None or main.blocks is None or len(main.blocks) != 1:
            raise Stop("the module has no main of one block")
        steps = []
        for line in main.blocks[0].lines:
            with at(line):
                steps.append(read_instruction(Words(line.text)))
        with at(main.line):
            if len(steps) != 3 or steps[0][1] != IGNORE_SIGPIPE:
                raise Stop("main does something else than to ignore SIGPIPE and to begin")
            name, start = steps[1]
            if not isinstance(start, Call) or (start.kind, start.arguments) != (I32, []):
                raise Stop("main begins with something else than a call that answers a status")
            if steps[2][1] != Return(steps[2][1].kind, Typed(I32, Local(name))):
                raise Stop("main answers something else than what the program does")
            if start.callee not in self.naming.functions:
                raise Stop("main begins with a function that the module lacks")
        return start.callee

    def translate(self, function):
        """One function."""
        with at(function.line):
            if not function.is_internal:
                raise Stop("a function that other files may call")
            head = self.head(function, self.naming.functions[function.name])
        body = Body(function, self.naming, self.module.functions)
        lines = body.texts_of_blocks()
        comment = function.name.replace("*/", "* /").replace("/*", "/ *")
        return Done(comment, head, [*body.declarations(), *lines])

    def head(self, function, name):
        """The C text of a function's head."""
        kinds = [
            self.naming.kind(kind) + (f" {local.name}" if local else "")
            for kind, local in function.parameters
        ]
        words = ", ".join(kinds + ["..."] * function.is_variadic) or "void"
        said = "" if function.blocks is None else "static " + "".join(wishes(function.attributes))
        return f"{said}{self.naming.kind(function.result)} {name}({words})"


def wishes(attributes):
    """What C is told of a function beside what it does."""
    words = dict(noinline="NOINLINE ", alwaysinline="INLINE ", inlinehint="inline ", cold="COLD ")
    return [text for name, text in words.items() if name in attributes]


def data(name, text):
    """The C text of constant bytes, which may hold addresses of themselves."""
    if len(text.parts) == 1 and isinstance(text.parts[0], bytes):
        length = len(text.parts[0]) or 1
        return f"static const {aligned(text)}u8 {name}[{length}] = {letters(text.parts[0])};"
    fields, values, at = [], [], 0
    for k, part in enumerate(text.parts):
        if isinstance(part, bytes):
            fields.append(f"u8 f{k}[{len(part)}];")
            values.append(letters(part))
            at += len(part)
            continue
        if at % 8:
            raise Stop(f"{text.name}: an address at a place that is not aligned")
        fields.append(f"P f{k};")
        values.append(f"(P)&{name} + {part}")
        at += 8
    table = f"static const struct {{ {' '.join(fields)} }} {aligned(text)}{name}"
    held = f"HOLDS({name}_in_memory, sizeof({name}) == {at});"
    return f"{table} = {{ {', '.join(values)} }};\n{held}"


def aligned(text):
    """What C is told of where a text stands."""
    return f"ALIGNED({text.align}) " if text.align > 1 else ""


def letters(data):
    """The C text of bytes. A code has three digits, so it takes in none after it."""
    return '"' + "".join(chr(it) if it in PLAIN else f"\\{it:03o}" for it in data) + '"'
