"""Operands: what instructions are given, a value of the function, an address or a constant."""

import re
import struct
from typing import NamedTuple

from kinds import DOUBLE, I1, I8, POINTER, Int, Pointer, Vector, is_bits, read_kind
from words import INTEGER, Stop

DECIMAL = re.compile(r"-?\d+\.\d+(e[-+]\d+)?\Z")
HEXADECIMAL = re.compile(r"0x[0-9A-F]{16}\Z")
# What may be said of a value that is passed or answered, and changes nothing in C.
SAID = ("noundef", "zeroext", "immarg", "readonly", "writeonly", "captures")


class Local(NamedTuple):
    """A value of the function: a parameter, or what an instruction gave."""

    name: str


class Symbol(NamedTuple):
    """The address of a global."""

    name: str


class Integer(NamedTuple):
    """A constant integer, from 0 on: its bits."""

    bits: int


class Real(NamedTuple):
    """A constant float: its bits."""

    bits: int


class Null(NamedTuple):
    """The address 0."""


class Splat(NamedTuple):
    """A vector with the same constant in each lane."""

    bits: int


class Typed(NamedTuple):
    """An operand with its kind."""

    kind: object
    operand: object


def read_typed(words):
    """Takes a type and an operand of it."""
    kind = read_kind(words)
    read_said(words)
    return Typed(kind, read_operand(words, kind))


def read_said(words):
    """Takes what is said of a value, and changes nothing."""
    for word in words.eat_any(SAID):
        if word == "captures":
            words.want("(", "none", ")")


def read_operand(words, kind):
    """Takes an operand of this kind."""
    word = words.peek()
    if word[:1] == "%":
        return Local(words.name("%"))
    if isinstance(kind, Int):
        return read_integer(words, kind)
    if kind == DOUBLE:
        return Real(read_real(words.next()))
    if isinstance(kind, Pointer):
        return Symbol(words.name("@")) if word[:1] == "@" else read_null(words)
    if isinstance(kind, Vector) and not is_bits(kind):
        return read_splat(words, kind)
    raise Stop(f"an operand {word!r}")


def read_null(words):
    """Takes the address 0."""
    words.want("null")
    return Null()


def read_integer(words, kind):
    """Takes a constant integer. LLVM writes it with a sign, and a truth as a word."""
    word = words.next()
    if kind == I1:
        if word not in ("true", "false"):
            raise Stop(f"a truth {word!r}")
        return Integer(int(word == "true"))
    if not INTEGER.match(word):
        raise Stop(f"an integer {word!r}")
    number = int(word)
    if not -(1 << kind.width - 1) <= number < 1 << kind.width:
        raise Stop(f"{number} is no integer of {kind.width} bits")
    return Integer(number % (1 << kind.width))


def read_real(word):
    """The bits of a constant float. LLVM writes one that has no short decimal as its bits."""
    if HEXADECIMAL.match(word):
        return int(word, 16)
    if DECIMAL.match(word):
        return struct.unpack("<Q", struct.pack("<d", float(word)))[0]
    raise Stop(f"a float {word!r}")


def read_splat(words, kind):
    """Takes a constant vector, of zeros or of one byte in each lane."""
    if words.eat("zeroinitializer"):
        return Splat(0)
    words.want("splat", "(")
    lane = read_typed(words)
    words.want(")")
    if lane.kind != kind.of or lane.kind != I8 or not isinstance(lane.operand, Integer):
        raise Stop("a vector whose lanes are no constant bytes")
    return Splat(lane.operand.bits)


def locals_of(part):
    """The locals in an instruction or a part of it, each as often as it stands there."""
    if isinstance(part, Local):
        return [part.name]
    if isinstance(part, (tuple, list)):
        return [name for it in part for name in locals_of(it)]
    return []


def read_pointer(words):
    """Takes `ptr` and an address."""
    typed = read_typed(words)
    if typed.kind != POINTER:
        raise Stop("an address was expected")
    return typed.operand
