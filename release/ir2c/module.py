"""The module: its functions, its data and what is said of them, read from LLVM's text line by
line.
"""

import re
from typing import NamedTuple

from kinds import DATA_LAYOUT, I8, POINTER, Array, read_kind
from operands import Local, read_said
from words import Line, Stop, Words, at

LABEL = re.compile(r"([-\w.]+):(\s*;.*)?\Z")
BYTE = re.compile(r"\\([0-9A-F]{2})|\\(\\)|([^\\])", re.DOTALL)
# What a set of attributes may say. These four the C text says too; the others are promises or
# wishes, and hold as well of a program that doesn't know of them.
TO_C = ("alwaysinline", "cold", "inlinehint", "noinline")
PROMISES = {
    "nobuiltin",
    "nocallback",
    "nocreateundeforpoison",
    "nofree",
    "noreturn",
    "nosync",
    "nounwind",
    "speculatable",
    "willreturn",
}
MEMORY = re.compile(r"memory\((none|(argmem|inaccessiblemem): (read|write|readwrite))\)")
WISHES = re.compile(r'"(probe-stack|stack-probe-size|target-cpu)"="[-\w]*"')


class Block(NamedTuple):
    """Instructions that follow one another: their lines, under a label."""

    label: str
    lines: list


class Function(NamedTuple):
    """A function, with blocks where it is defined, and without where it is only declared."""

    name: str
    line: Line
    result: object
    parameters: list
    is_variadic: bool
    is_internal: bool
    attributes: frozenset
    blocks: list


class Text(NamedTuple):
    """Constant bytes, and between them addresses of its own bytes, each as its place."""

    name: str
    parts: list
    align: int


class Module(NamedTuple):
    """A whole program: functions and texts by their names, in the order of the module."""

    functions: dict
    texts: dict


class Reader:
    """Reads a module's lines, each by the words that it begins with."""

    def __init__(self, text):
        self.lines = [Line(number, it) for number, it in enumerate(text.split("\n"), 1)]
        self.at = 0
        self.functions, self.texts, self.attributes = {}, {}, {}
        self.has_layout = False

    def read(self):
        """Reads it all. What attributes say stands at the module's end, and is joined then."""
        while self.at < len(self.lines):
            line = self.next()
            if line.text and line.text[0] != ";":
                with at(line):
                    self.read_item(line)
        if not self.has_layout:
            raise Stop("the module says nothing of how memory is laid out")
        return Module({name: self.joined(it) for name, it in self.functions.items()}, self.texts)

    def next(self):
        """Takes the next line."""
        if self.at == len(self.lines):
            raise Stop("the module ends within a function")
        self.at += 1
        return self.lines[self.at - 1]

    def read_item(self, line):
        """Reads a line at the left edge, and what belongs to it."""
        if line.text[0] == "@":
            self.put(self.texts, read_text(Words(line.text)))
        elif line.text.startswith(("define ", "declare ")):
            self.put(self.functions, self.read_function(line))
        elif line.text.startswith("attributes "):
            self.read_attributes(line.text)
        elif line.text.startswith("target datalayout = "):
            self.has_layout = line.text == f'target datalayout = "{DATA_LAYOUT}"'
            if not self.has_layout:
                raise Stop("memory is laid out otherwise than on x86-64")
        elif not line.text.startswith(("source_filename = ", "target triple = ", "!")):
            raise Stop("a line of the module that is not known")

    def put(self, among, it):
        """Keeps a function or text by its name."""
        if it.name in self.functions or it.name in self.texts:
            raise Stop(f"a second {it.name}")
        among[it.name] = it

    def joined(self, function):
        """The function with what its set of attributes says."""
        with at(function.line):
            said = set()
            for name in function.attributes:
                if name not in self.attributes:
                    raise Stop(f"attributes {name}, which the module lacks")
                said |= self.attributes[name]
        return function._replace(attributes=frozenset(said))

    def read_attributes(self, text):
        """Reads a set of attributes, and keeps those that the C text says."""
        found = re.fullmatch(r"attributes (#\d+) = \{ (.*) \}", text)
        if not found:
            raise Stop("attributes of another form")
        words = MEMORY.sub("", WISHES.sub("", found[2])).split()
        for word in words:
            if word not in TO_C and word not in PROMISES:
                raise Stop(f"an attribute {word}")
        self.attributes[found[1]] = {it for it in words if it in TO_C}

    def read_function(self, line):
        """Reads a function's head, and its blocks if it is defined."""
        words = Words(line.text)
        is_defined = words.next() == "define"
        is_internal = words.eat("internal")
        read_said(words)
        result = read_kind(words)
        name = words.name("@")
        words.want("(")
        parameters = words.listed(")", lambda: read_parameter(words, is_defined))
        is_variadic = None in parameters
        if is_variadic and (is_defined or parameters.index(None) != len(parameters) - 1):
            raise Stop("a variadic function")
        sets = [words.next()] if words.peek()[:1] == "#" else []
        blocks = None
        if is_defined:
            words.want("{")
            blocks = self.read_blocks()
        words.end()
        parameters = [it for it in parameters if it]
        return Function(name, line, result, parameters, is_variadic, is_internal, sets, blocks)

    def read_blocks(self):
        """Reads the blocks of a function, up to the brace that closes it."""
        blocks = []
        line = self.next()
        while line.text != "}":
            label = LABEL.match(line.text)
            if label:
                blocks.append(Block(label[1], []))
            elif line.text and not blocks:
                raise Stop("an instruction before the first label")
            elif line.text:
                blocks[-1].lines.append(self.whole(line))
            line = self.next()
        return blocks

    def whole(self, line):
        """A line with those that belong to it: a switch ends with a bracket in another line."""
        text = line.text
        if text[:2] != "  ":
            raise Stop(f"line {line.number} is neither a label nor an instruction")
        if text.startswith("  switch "):
            while not text.endswith("]"):
                text += self.next().text
        return Line(line.number, text)


def read_parameter(words, is_named):
    """Takes a parameter: its kind and its name. Three dots are None."""
    if words.eat("..."):
        return None
    kind = read_kind(words)
    read_said(words)
    return kind, Local(words.name("%")) if is_named else None


def read_text(words):
    """Takes constant bytes: @NAME = private .. constant KIND DATA, align N"""
    name = words.name("@")
    words.want("=", "private")
    words.eat("unnamed_addr")
    words.want("constant")
    if words.eat("<"):
        words.want("{")
        kinds = words.listed("}", lambda: read_kind(words))
        words.want(">", "<", "{")
        parts = words.listed("}", lambda: read_part(words, name))
        words.want(">")
    else:
        kinds = [read_kind(words)]
        parts = [read_data(words, kinds[0])]
    if [kind for kind, _ in parts] != kinds:
        raise Stop("data of other kinds than is said")
    words.want(",", "align")
    align = words.integer()
    words.end()
    return Text(name, [part for _, part in parts], align)


def read_part(words, name):
    """Takes a part of a text, with its kind: bytes, or the address of a byte of the text."""
    kind = read_kind(words)
    if kind != POINTER:
        return read_data(words, kind)
    words.want("getelementptr", "(", "i8", ",", "ptr")
    if words.name("@") != name:
        raise Stop("an address in another text")
    words.want(",", "i64")
    place = words.integer()
    words.want(")")
    return kind, place


def read_data(words, kind):
    """Takes bytes of this kind, and answers both."""
    if not isinstance(kind, Array) or kind.of != I8:
        raise Stop("data that is no text")
    data = bytes(kind.count)
    if not words.eat("zeroinitializer"):
        data = read_bytes(words.next())
    if len(data) != kind.count:
        raise Stop("a text with another number of bytes")
    return kind, data


def read_bytes(word):
    """The bytes that LLVM writes as c"..": plain, a backslash twice, others by two digits."""
    if word[:2] != 'c"' or word[-1] != '"':
        raise Stop("data that is no text")
    text = word[2:-1]
    if BYTE.sub("", text) or not text.isascii():
        raise Stop("a text with a byte that is not known")
    found = BYTE.findall(text)
    return bytes(int(code, 16) if code else ord(slash or plain) for code, slash, plain in found)
