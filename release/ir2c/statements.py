"""Statements: instructions that read or write memory, call a function, or go on elsewhere, as C
text.

Memory is read and written by `memcpy`, at any place; so nothing rests on C's rules of alignment
and of what may share memory.
"""

from calls import call, is_of_llvm, llvm_call
from instructions import (
    Alloca,
    Branch,
    Call,
    Jump,
    LaneWrite,
    Load,
    Return,
    Shuffle,
    Store,
    Switch,
    Unreachable,
)
from kinds import I1, I8, POINTER, VOID, is_bits, is_scalar, size
from operands import Local, Splat
from words import Stop


def targets(it):
    """Where a block goes on that ends with this instruction."""
    if isinstance(it, Jump):
        return [it.target]
    if isinstance(it, Branch):
        return [it.yes, it.no]
    if isinstance(it, Switch):
        return [it.other, *[target for _, target in it.cases]]
    return []


def ends(it):
    """Whether the instruction ends a block."""
    return isinstance(it, (Jump, Branch, Switch, Return, Unreachable))


def alloca(body, name, it):
    """Room on the stack. It is cleared if the function doesn't fill it: no byte has no value."""
    if body.block != body.first:
        raise Stop("room on the stack that is not made at the function's beginning")
    if name in body.variables:
        body.declare(body.naming.kind(it.held), f"{name} = 0")
    elif name in body.uses:
        room = f"{name}[{size(it.held) or 1}]"
        content = "" if name in body.cleared else " = {0}"
        body.declare(f"ALIGNED({it.align}) u8", room + content)


def load(body, name, it):
    """A value of memory."""
    if isinstance(it.place, Local) and it.place.name in body.variables:
        body.read(name, it.kind, it.place.name)
        return
    place = body.value(POINTER, it.place)
    if is_bits(it.kind):
        raise Stop("a load of truths")
    if it.kind == I1:
        body.read(name, it.kind, f"ld_u8({place}) & 1")
    elif is_scalar(it.kind):
        body.read(name, it.kind, f"ld_{body.naming.kind(it.kind)}({place})")
    elif name in body.uses:
        body.declare(body.naming.kind(it.kind), name)
        body.put(f"memcpy(&{name}, {place}, {size(it.kind)});")


def store(body, name, it):
    """A value goes to memory."""
    kind, operand = it.value
    text = body.value(kind, operand)
    if isinstance(it.place, Local) and it.place.name in body.variables:
        body.put(f"{it.place.name} = {text};")
        return
    place = body.value(POINTER, it.place)
    if is_bits(kind):
        raise Stop("a store of truths")
    if is_scalar(kind):
        body.put(f"st_{'u8' if kind == I1 else body.naming.kind(kind)}({place}, {text});")
    elif isinstance(operand, Local):
        body.put(f"memcpy({place}, &{text}, {size(kind)});")
    else:
        body.put(f"{{ {body.naming.kind(kind)} t = {text}; memcpy({place}, &t, sizeof t); }}")


def lane_write(body, name, it):
    """A vector with another byte in one lane."""
    text, lane = body.value(it.kind, it.vector), body.value(I8, it.lane)
    if name in body.uses:
        body.give(name, it.kind, text)
        body.put(f"{name}[{it.index}] = {lane};")


def shuffle(body, name, it):
    """A vector of lanes of two others."""
    count = it.of.count
    whole = [body.value(it.of, it.left), body.value(it.of, it.right)]
    operands = it.left, it.right

    def lane(place):
        which, index = divmod(place, count)
        operand = operands[which]
        return str(operand.bits) if isinstance(operand, Splat) else f"{whole[which]}[{index}]"

    if name in body.uses:
        lanes = ", ".join(lane(place) for place in it.places)
        body.give(name, it.kind, f"({body.naming.kind(it.kind)}){{{lanes}}}")


def called(body, name, it):
    """A call."""
    if is_of_llvm(it.callee):
        text = llvm_call(it, body.value)
    else:
        text = call(it, body.value, body.naming, body.functions)
    if it.kind == VOID and name is not None:
        raise Stop("a name for what no function answers")
    if text:
        body.give(name, it.kind, text)


def jump(body, name, it):
    """On with a block. With the next one C goes on anyway."""
    if it.target != body.after:
        body.put(body.jump(it.target))


def branch(body, name, it):
    """On with one of two blocks."""
    condition = body.value(I1, it.condition)
    if it.yes == body.after:
        body.put(f"if (!{condition}) {body.jump(it.no)}")
        return
    body.put(f"if ({condition}) {body.jump(it.yes)}")
    if it.no != body.after:
        body.put(body.jump(it.no))


def switch(body, name, it):
    """On with the block of a case."""
    body.put(f"switch ({body.value(*it.value)}) {{")
    for case, target in it.cases:
        body.put(f"case {body.value(*case)}: {body.jump(target)}")
    body.put(f"default: {body.jump(it.other)}")
    body.put("}")


def returned(body, name, it):
    """Back to the caller."""
    kind = VOID if it.value is None else it.value.kind
    if kind != body.function.result:
        raise Stop("an answer of another kind than the function's")
    body.put("return;" if it.value is None else f"return {body.value(*it.value)};")


def unreachable(body, name, it):
    """What is never reached."""
    body.put("UNREACHABLE;")


STATEMENTS = {
    Alloca: alloca,
    Branch: branch,
    Call: called,
    Jump: jump,
    LaneWrite: lane_write,
    Load: load,
    Return: returned,
    Shuffle: shuffle,
    Store: store,
    Switch: switch,
    Unreachable: unreachable,
}
