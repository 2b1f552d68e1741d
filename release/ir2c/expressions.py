"""Expressions: instructions that read no memory and change nothing, as C text.

Integers are unsigned in C, of the same width; so nothing overflows, and what is signed in an
instruction is cast for it. C computes with what is narrower than `int` as an `int`, so such
results are cast back. Each text here is a name, a call or stands in brackets, and can be put into
another one as it is.
"""

from instructions import (
    Binary,
    Comparison,
    Conversion,
    Element,
    Extraction,
    Negation,
    Selection,
)
from kinds import (
    DOUBLE,
    I1,
    I8,
    I16,
    I64,
    POINTER,
    Int,
    Pointer,
    Vector,
    is_bits,
    is_scalar,
)
from naming import WIDTHS, signed
from operands import Integer, Null, Real, Splat, Symbol
from words import Stop

PLAIN = dict(add="+", sub="-", mul="*", udiv="/", urem="%")
PLAIN.update({"and": "&", "or": "|", "xor": "^"})
SIGNED = dict(sdiv="/", srem="%")
SHIFTS = dict(shl="<<", lshr=">>", ashr=">>")
FLOATS = dict(fadd="+", fsub="-", fmul="*", fdiv="/")
VECTORS = ("add", "sub", "and", "or", "xor")
ORDERS = dict(gt=">", ge=">=", lt="<", le="<=")
# Of each condition whether it is of numbers with a sign (s) or without one (u), and the word in C.
CONDITIONS = {
    "eq": ("", "=="),
    "ne": ("", "!="),
    **{sign + name: (sign, word) for sign in "us" for name, word in ORDERS.items()},
}
# Of floats o: and neither is NaN; u: or one is.
FLOAT_CONDITIONS = dict(
    oeq="{0} == {1}",
    ogt="{0} > {1}",
    oge="{0} >= {1}",
    olt="{0} < {1}",
    ole="{0} <= {1}",
    one="{0} < {1} || {0} > {1}",
    ord="{0} == {0} && {1} == {1}",
    ueq="!({0} < {1} || {0} > {1})",
    ugt="!({0} <= {1})",
    uge="!({0} < {1})",
    ult="!({0} >= {1})",
    ule="!({0} > {1})",
    une="{0} != {1}",
    uno="{0} != {0} || {1} != {1}",
)


def constant(naming, kind, operand):
    """The C text of a constant of this kind."""
    if isinstance(operand, Integer):
        return integer(kind.width, operand.bits)
    if isinstance(operand, Real):
        return f"f64_of({operand.bits:#x}ull)"
    if isinstance(operand, Null):
        return "((P)0)"
    if isinstance(operand, Splat):
        return f"splat_{naming.kind(kind)}({operand.bits})"
    if isinstance(operand, Symbol) and operand.name in naming.texts:
        return f"((P)&{naming.texts[operand.name]})"
    raise Stop(f"an operand {operand}")


def integer(width, bits):
    """The C text of an integer."""
    if width == 128:
        return f"((u128){bits >> 64:#x}ull << 64 | {bits % (1 << 64):#x}ull)"
    return f"{bits}{'ull' if width == 64 else 'u' if width == 32 else ''}"


def element(it, value, naming):
    """An address so many bytes on, or back. IR's indices have signs."""
    base = value(POINTER, it.base)
    if isinstance(it.bytes, Integer):
        bits = it.bytes.bits
        return f"({base} + {bits})" if bits < 1 << 63 else f"({base} - {(1 << 64) - bits})"
    return f"({base} + (s64){value(I64, it.bytes)})"


def binary(it, value, naming):
    """An operation on two integers, floats or vectors."""
    left = value(it.kind, it.left)
    if it.opcode in SHIFTS:
        return shifted(it, left, value, naming)
    right = value(it.kind, it.right)
    kind = naming.kind(it.kind)
    if it.kind == DOUBLE:
        return f"({left} {FLOATS[it.opcode]} {right})"
    if isinstance(it.kind, Vector):
        return combined(it, f"({left} {PLAIN.get(it.opcode)} {right})")
    if it.kind == I1 and it.opcode not in ("and", "or", "xor"):
        raise Stop(f"{it.opcode} of truths")
    if it.opcode in SIGNED:
        sign = signed(it.kind)
        return f"(({kind})(({sign}){left} {SIGNED[it.opcode]} ({sign}){right}))"
    if it.kind.width < 32:
        return f"(({kind})((u32){left} {PLAIN[it.opcode]} (u32){right}))"
    return f"({left} {PLAIN[it.opcode]} {right})"


def combined(it, text):
    """An operation on vectors, lane by lane: C has it on whole vectors."""
    if it.opcode not in VECTORS or is_bits(it.kind) and it.opcode in ("add", "sub"):
        raise Stop(f"{it.opcode} of {it.kind}")
    return text


def shifted(it, left, value, naming):
    """A shift. By more bits than there are it gives no value in IR, and some value here."""
    kind = naming.kind(it.kind)
    if it.kind == I1 or isinstance(it.kind, Vector):
        raise Stop(f"{it.opcode} of {it.kind}")
    most = it.kind.width - 1
    if isinstance(it.right, Integer):
        count = str(it.right.bits & most)
    else:
        count = f"(u32)({value(it.kind, it.right)} & {most})"
    if it.opcode == "ashr":
        return f"(({kind})(({signed(it.kind)}){left} >> {count}))"
    wide = "u32" if it.kind.width < 32 else kind
    return f"(({kind})(({wide}){left} {SHIFTS[it.opcode]} {count}))"


def negation(it, value, naming):
    """The float of the other sign."""
    return f"(-{value(DOUBLE, it.operand)})"


def comparison(it, value, naming):
    """A comparison of integers, of addresses, of floats or, lane by lane, of vectors."""
    left, right = value(it.of, it.left), value(it.of, it.right)
    if it.opcode == "fcmp":
        if it.of != DOUBLE or it.condition not in FLOAT_CONDITIONS:
            raise Stop(f"fcmp {it.condition} of {it.of}")
        return f"({FLOAT_CONDITIONS[it.condition].format(left, right)})"
    if it.opcode != "icmp" or it.condition not in CONDITIONS:
        raise Stop(f"{it.opcode} {it.condition}")
    sign, word = CONDITIONS[it.condition]
    if isinstance(it.of, Vector):
        return compared(it, left, right, naming)
    if sign == "s":
        left, right = (f"({signed(it.of)}){operand}" for operand in (left, right))
    if sign == "u" and it.of == POINTER:
        left, right = (f"(uintptr_t){operand}" for operand in (left, right))
    if not isinstance(it.of, (Int, Pointer)):
        raise Stop(f"icmp of {it.of}")
    return f"({left} {word} {right})"


def compared(it, left, right, naming):
    """A comparison of vectors of bytes. A lane is all ones where it holds, and zeros where not."""
    sign, word = CONDITIONS[it.condition]
    if it.of.of != I8:
        raise Stop(f"icmp of {it.of}")
    if sign == "s":
        left, right = (f"(W{it.of.count}){operand}" for operand in (left, right))
    return f"(({naming.kind(it.kind)})({left} {word} {right}))"


def conversion(it, value, naming):
    """A value as another kind."""
    text = value(*it.value)
    step = it.opcode, it.value.kind, it.kind
    if step in STEPS:
        return STEPS[step].format(text)
    old, new = it.value.kind, it.kind
    if isinstance(old, Vector) and step == ("sext", Vector(old.count, I1), Vector(old.count, I8)):
        return text
    if not isinstance(old, Int) or not isinstance(new, Int):
        raise Stop(f"{it.opcode} of {old} to {new}")
    kind = naming.kind(new)
    if it.opcode == "zext" and old.width < new.width:
        return f"(({kind}){text})"
    if it.opcode == "sext" and old.width < new.width:
        return f"(({kind})({signed(new)})({signed(old)}){text})"
    if it.opcode == "trunc" and old.width > new.width:
        return f"((b1)({text} & 1))" if new == I1 else f"(({kind}){text})"
    raise Stop(f"{it.opcode} of {old} to {new}")


STEPS = {
    ("ptrtoaddr", POINTER, I64): "((u64)(uintptr_t){})",
    ("uitofp", I64, DOUBLE): "((double){})",
    ("bitcast", I64, DOUBLE): "f64_of({})",
    ("bitcast", Vector(16, I1), I16): "bits_V16({})",
    **{("sext", I1, Int(width)): f"((u{width})(0 - (u{width}){{}}))" for width in WIDTHS},
}


def selection(it, value, naming):
    """One of two operands, or of vectors lane by lane."""
    condition = value(*it.condition)
    yes, no = value(it.kind, it.yes), value(it.kind, it.no)
    if it.condition.kind == I1 and is_scalar(it.kind):
        return f"({condition} ? {yes} : {no})"
    if isinstance(it.kind, Vector) and it.kind.of == I8:
        if it.condition.kind == Vector(it.kind.count, I1):
            return f"choose_{naming.kind(it.kind)}({condition}, {yes}, {no})"
    raise Stop(f"select of {it.kind} by {it.condition.kind}")


def extraction(it, value, naming):
    """A field of a struct."""
    return f"({value(*it.whole)}.f{it.index})"


EXPRESSIONS = {
    Binary: binary,
    Comparison: comparison,
    Conversion: conversion,
    Element: element,
    Extraction: extraction,
    Negation: negation,
    Selection: selection,
}
