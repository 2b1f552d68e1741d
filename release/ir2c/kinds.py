"""Kinds: the types of LLVM's text, and where their parts lie in memory.

Memory is laid out as on x86-64, which the module's head has to say (`DATA_LAYOUT`): low byte
first, pointers of 64 bits, and each scalar at a multiple of its size. C compilers lay out structs
alike on every machine that the C file is for, and the C file holds them to it.
"""

from dataclasses import dataclass

from words import Stop

DATA_LAYOUT = "e-m:e-p270:32:32-p271:32:32-p272:64:64-i64:64-i128:128-f80:128-n8:16:32:64-S128"


@dataclass(frozen=True)
class Int:
    """An integer of so many bits. It has no sign: instructions have."""

    width: int


@dataclass(frozen=True)
class Pointer:
    """An address."""


@dataclass(frozen=True)
class Double:
    """A float of 64 bits."""


@dataclass(frozen=True)
class Void:
    """What a function answers that answers nothing."""


@dataclass(frozen=True)
class Struct:
    """Fields, one after another, each where it is aligned."""

    fields: tuple


@dataclass(frozen=True)
class Array:
    """So many of one kind, in memory alone."""

    count: int
    of: object


@dataclass(frozen=True)
class Vector:
    """So many lanes of one kind."""

    count: int
    of: object


I1, I8, I16, I32, I64, I128 = (Int(width) for width in (1, 8, 16, 32, 64, 128))
POINTER, DOUBLE, VOID = Pointer(), Double(), Void()
SCALARS = {
    "i1": I1,
    "i8": I8,
    "i16": I16,
    "i32": I32,
    "i64": I64,
    "i128": I128,
    "ptr": POINTER,
    "double": DOUBLE,
}


def read_kind(words):
    """Takes a type."""
    word = words.next()
    if word in SCALARS:
        return SCALARS[word]
    if word == "void":
        return VOID
    if word == "{":
        return Struct(tuple(words.listed("}", lambda: read_kind(words))))
    if word == "[":
        return Array(*read_counted(words, "]"))
    if word == "<" and words.peek() != "{":
        return Vector(*read_counted(words, ">"))
    raise Stop(f"a type that begins with {word!r}")


def read_counted(words, end):
    """Takes a count, an x and a type, up to the end word."""
    count = words.integer()
    words.want("x")
    of = read_kind(words)
    words.want(end)
    return count, of


def is_scalar(kind):
    """Whether the kind is a number or an address."""
    return isinstance(kind, (Int, Pointer, Double))


def is_bits(kind):
    """Whether the kind is a vector of truths, as comparisons give them. Memory has none."""
    return isinstance(kind, Vector) and kind.of == I1


def size(kind):
    """How many bytes the kind takes in memory, one after another."""
    if isinstance(kind, Int):
        return max(kind.width // 8, 1)
    if isinstance(kind, (Pointer, Double)):
        return 8
    if isinstance(kind, (Array, Vector)) and not is_bits(kind):
        return kind.count * size(kind.of)
    if isinstance(kind, Struct):
        return places(kind)[-1]
    raise Stop(f"the size of {kind}")


def alignment(kind):
    """Of how many bytes the kind's place is a multiple."""
    if isinstance(kind, Array):
        return alignment(kind.of)
    if isinstance(kind, Struct):
        return max([alignment(it) for it in kind.fields], default=1)
    return size(kind)


def places(struct):
    """Where each field begins, and at last how long the struct is."""
    found, at = [], 0
    for field in struct.fields:
        at = rounded(at, alignment(field))
        found.append(at)
        at += size(field)
    return [*found, rounded(at, alignment(struct))]


def rounded(number, step):
    """The next multiple of the step."""
    return (number + step - 1) // step * step
