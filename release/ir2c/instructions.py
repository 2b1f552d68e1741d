"""Instructions: what the lines of a function say, each read into a value of a class of its own.

`READERS` has the opcodes that are known. Words such as `nuw`, `exact` or `inbounds` say when a
result would be no value at all (poison). The C text gives some value there, which is one of those
that it may be; so they are taken and forgotten.
"""

from typing import NamedTuple

from kinds import (
    DOUBLE,
    I1,
    I8,
    I32,
    I64,
    POINTER,
    VOID,
    Int,
    Struct,
    Vector,
    read_kind,
)
from operands import Typed, read_operand, read_pointer, read_said, read_typed
from words import Stop

# What a line may say at its end, about the value that it gives: hints, which may be dropped.
HINTS = ("!noundef", "!range")


class Alloca(NamedTuple):
    """Room on the stack for one value of `held`. It gives its address, a multiple of `align`."""

    kind: object
    held: object
    align: int


class Load(NamedTuple):
    """The value at an address."""

    kind: object
    place: object


class Store(NamedTuple):
    """A value goes to an address."""

    kind: object
    value: Typed
    place: object


class Element(NamedTuple):
    """An address so many bytes from another one."""

    kind: object
    base: object
    bytes: object


class Binary(NamedTuple):
    """An operation on two operands of one kind, by its opcode."""

    kind: object
    opcode: str
    left: object
    right: object


class Negation(NamedTuple):
    """The float of the other sign."""

    kind: object
    operand: object


class Comparison(NamedTuple):
    """Whether two operands of the kind `of` are so to one another as the condition says."""

    kind: object
    opcode: str
    condition: str
    of: object
    left: object
    right: object


class Conversion(NamedTuple):
    """A value as another kind, by the opcode."""

    kind: object
    opcode: str
    value: Typed


class Selection(NamedTuple):
    """One of two operands, or of vectors lane by lane."""

    kind: object
    condition: Typed
    yes: object
    no: object


class Extraction(NamedTuple):
    """A field of a struct."""

    kind: object
    whole: Typed
    index: int


class LaneWrite(NamedTuple):
    """A vector with another byte in one lane."""

    kind: object
    vector: object
    lane: object
    index: int


class Shuffle(NamedTuple):
    """A vector of lanes of two others, by their places in the two as one."""

    kind: object
    of: object
    left: object
    right: object
    places: tuple


class Call(NamedTuple):
    """A call of a function by its name."""

    kind: object
    callee: str
    arguments: list


class Jump(NamedTuple):
    """On with a block."""

    kind: object
    target: str


class Branch(NamedTuple):
    """On with one of two blocks."""

    kind: object
    condition: object
    yes: str
    no: str


class Switch(NamedTuple):
    """On with the block of the case that the value is, or with another one."""

    kind: object
    value: Typed
    other: str
    cases: list


class Return(NamedTuple):
    """Back to the caller, with a value if there is one."""

    kind: object
    value: object


class Unreachable(NamedTuple):
    """What is never reached."""

    kind: object


def read_alloca(words):
    """alloca KIND, align N"""
    held = read_kind(words)
    words.want(",", "align")
    return Alloca(POINTER, held, words.integer())


def read_load(words):
    """load KIND, ptr PLACE, align N"""
    kind = read_kind(words)
    words.want(",")
    place = read_pointer(words)
    read_align(words)
    return Load(kind, place)


def read_store(words):
    """store KIND VALUE, ptr PLACE, align N"""
    value = read_typed(words)
    words.want(",")
    place = read_pointer(words)
    read_align(words)
    return Store(VOID, value, place)


def read_align(words):
    """Takes `, align N`, which the C text needs no help by: it reads and writes at any place."""
    words.want(",", "align")
    words.integer()


def read_element(words):
    """getelementptr i8, ptr BASE, i64 BYTES"""
    words.eat_any(("inbounds", "nuw", "nusw"))
    words.want("i8", ",")
    base = read_pointer(words)
    words.want(",")
    count = read_typed(words)
    if count.kind != I64:
        raise Stop("a number of bytes that has not 64 bits")
    return Element(POINTER, base, count.operand)


def read_binary(words, opcode):
    """OPCODE KIND LEFT, RIGHT"""
    words.eat_any(("nuw", "nsw", "exact", "disjoint"))
    kind = read_kind(words)
    if opcode[0] == "f" and kind != DOUBLE:
        raise Stop(f"{opcode} of {kind}")
    if opcode[0] != "f" and not isinstance(kind, (Int, Vector)):
        raise Stop(f"{opcode} of {kind}")
    return Binary(kind, opcode, *read_pair(words, kind))


def read_pair(words, kind):
    """Takes two operands of a kind."""
    left = read_operand(words, kind)
    words.want(",")
    return left, read_operand(words, kind)


def read_negation(words):
    """fneg double OPERAND"""
    words.want("double")
    return Negation(DOUBLE, read_operand(words, DOUBLE))


def read_comparison(words, opcode):
    """OPCODE CONDITION KIND LEFT, RIGHT"""
    words.eat("samesign")
    condition = words.next()
    of = read_kind(words)
    kind = Vector(of.count, I1) if isinstance(of, Vector) else I1
    return Comparison(kind, opcode, condition, of, *read_pair(words, of))


def read_conversion(words, opcode):
    """OPCODE KIND VALUE to KIND"""
    words.eat_any(("nuw", "nsw", "nneg"))
    value = read_typed(words)
    words.want("to")
    return Conversion(read_kind(words), opcode, value)


def read_selection(words):
    """select KIND CONDITION, KIND YES, KIND NO"""
    condition = read_typed(words)
    words.want(",")
    yes = read_typed(words)
    words.want(",")
    no = read_typed(words)
    if yes.kind != no.kind:
        raise Stop("a choice between two kinds")
    return Selection(yes.kind, condition, yes.operand, no.operand)


def read_extraction(words):
    """extractvalue KIND WHOLE, INDEX"""
    whole = read_typed(words)
    words.want(",")
    index = words.integer()
    if not isinstance(whole.kind, Struct) or not 0 <= index < len(whole.kind.fields):
        raise Stop("a field of no struct")
    return Extraction(whole.kind.fields[index], whole, index)


def read_lane_write(words):
    """insertelement KIND VECTOR, i8 LANE, i32 INDEX"""
    vector = read_typed(words)
    words.want(",")
    lane = read_typed(words)
    words.want(",", "i32")
    index = words.integer()
    if not isinstance(vector.kind, Vector) or lane.kind != I8 or vector.kind.of != I8:
        raise Stop("a lane that is no byte")
    if not 0 <= index < vector.kind.count:
        raise Stop("a lane that the vector lacks")
    return LaneWrite(vector.kind, vector.operand, lane.operand, index)


def read_shuffle(words):
    """shufflevector KIND LEFT, KIND RIGHT, <N x i32> PLACES"""
    left = read_typed(words)
    words.want(",")
    right = read_typed(words)
    words.want(",")
    mask = read_kind(words)
    if left.kind != right.kind or not isinstance(left.kind, Vector) or left.kind.of != I8:
        raise Stop("a shuffle of other vectors than two alike of bytes")
    if not isinstance(mask, Vector) or mask.of != I32:
        raise Stop("a shuffle by no places")
    places = read_places(words, mask.count)
    if not all(0 <= it < 2 * left.kind.count for it in places):
        raise Stop("a shuffle by a place that the vectors lack")
    kind = Vector(mask.count, I8)
    return Shuffle(kind, left.kind, left.operand, right.operand, tuple(places))


def read_places(words, count):
    """Takes the places of a shuffle."""
    if words.eat("zeroinitializer"):
        return [0] * count

    def read_place():
        words.want("i32")
        return words.integer()

    words.want("<")
    places = words.listed(">", read_place)
    if len(places) != count:
        raise Stop("a shuffle with another number of places")
    return places


def read_call(words):
    """call KIND @CALLEE(KIND ARGUMENT, ..), where a variadic function's whole type is given"""
    read_said(words)
    kind = read_kind(words)
    if words.eat("("):
        words.listed(")", lambda: words.eat("...") or read_kind(words))
    callee = words.name("@")
    words.want("(")
    arguments = words.listed(")", lambda: read_typed(words))
    if words.peek()[:1] == "#":
        raise Stop("a call with attributes of its own")
    return Call(kind, callee, arguments)


def read_branch(words):
    """br label %TARGET, or br i1 CONDITION, label %YES, label %NO"""
    if words.eat("label"):
        return Jump(VOID, words.name("%"))
    words.want("i1")
    condition = read_operand(words, I1)
    words.want(",", "label")
    yes = words.name("%")
    words.want(",", "label")
    return Branch(VOID, condition, yes, words.name("%"))


def read_switch(words):
    """switch KIND VALUE, label %OTHER [ KIND CASE, label %TARGET .. ]"""
    value = read_typed(words)
    if not isinstance(value.kind, Int) or not 8 <= value.kind.width <= 64:
        raise Stop("a switch by what is no C integer")
    words.want(",", "label")
    other = words.name("%")
    words.want("[")
    cases = []
    while not words.eat("]"):
        case = read_typed(words)
        words.want(",", "label")
        cases.append((case, words.name("%")))
        if case.kind != value.kind or case.operand in [it.operand for it, _ in cases[:-1]]:
            raise Stop("a case of another kind, or one that stands twice")
    return Switch(VOID, value, other, cases)


def read_return(words):
    """ret void, or ret KIND VALUE"""
    return Return(VOID, None if words.eat("void") else read_typed(words))


READERS = {
    "alloca": read_alloca,
    "load": read_load,
    "store": read_store,
    "getelementptr": read_element,
    "fneg": read_negation,
    "select": read_selection,
    "extractvalue": read_extraction,
    "insertelement": read_lane_write,
    "shufflevector": read_shuffle,
    "call": read_call,
    "br": read_branch,
    "switch": read_switch,
    "ret": read_return,
    "unreachable": lambda words: Unreachable(VOID),
}
READERS_BY_OPCODE = {
    **dict.fromkeys("add sub mul udiv urem sdiv srem".split(), read_binary),
    **dict.fromkeys("and or xor shl lshr ashr fadd fsub fmul fdiv".split(), read_binary),
    **dict.fromkeys("icmp fcmp".split(), read_comparison),
    **dict.fromkeys("zext sext trunc ptrtoaddr uitofp bitcast".split(), read_conversion),
}


def read_instruction(words):
    """Takes a whole line: the name of what it gives, or None, and the instruction."""
    name = None
    if words.peek()[:1] == "%":
        name = words.name("%")
        words.want("=")
    opcode = words.next()
    if opcode in READERS:
        found = READERS[opcode](words)
    elif opcode in READERS_BY_OPCODE:
        found = READERS_BY_OPCODE[opcode](words, opcode)
    else:
        raise Stop(f"an instruction {opcode!r}")
    read_hints(words)
    words.end()
    if (found.kind == VOID) != (name is None) and not isinstance(found, Call):
        raise Stop("a value without a name, or a name without a value")
    return name, found


def read_hints(words):
    """Takes the hints at the end of a line."""
    while words.eat(","):
        if not words.eat_any(HINTS) or words.next()[:1] != "!":
            raise Stop("a hint that is not known")
