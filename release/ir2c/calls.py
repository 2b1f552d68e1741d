"""Calls: of the module's functions, of those of `runtime.c`, and of those that are part of LLVM's
text.

What is called has to have the kinds that it is called with: C would turn one number into another
without a word.
"""

from kinds import DOUBLE, I8, I16, I32, I64, POINTER, VOID, Int, Struct
from operands import Integer
from words import Stop

TRIED = Struct((I64, I64))
# What runtime.c has: the kind that is answered, and those of the parameters.
RUNTIME = {
    "close": (I32, [I32]),
    "open": (I32, [POINTER, I32, ...]),
    "rattle_alloc": (TRIED, [I64, I64]),
    "rattle_arg": (I64, [I64, POINTER, I64]),
    "rattle_dealloc": (VOID, [POINTER]),
    "rattle_env": (I64, [POINTER, POINTER, I64]),
    "rattle_env_at": (I64, [I64, POINTER, I64]),
    "rattle_errno": (I32, []),
    "rattle_realloc": (TRIED, [POINTER, I64, I64, I64]),
    "rattle_set_errno": (VOID, [I32]),
    "read": (I64, [I32, POINTER, I64]),
    "write": (I64, [I32, POINTER, I64]),
}
COUNTS = {"llvm.ctlz": "zeros_above", "llvm.cttz": "zeros_below", "llvm.ctpop": "ones"}
FENCE = "llvm.arithmetic.fence.f64"
# What writes many bytes: its name in C, and the kinds of the place, of what goes there, and of how
# many they are.
COPIES = {
    "llvm.memset.p0.i64": ("memset", [POINTER, I8, I64]),
    "llvm.memmove.p0.p0.i64": ("memmove", [POINTER, POINTER, I64]),
}


def is_of_llvm(name):
    """Whether the function is part of LLVM's text."""
    return name.startswith("llvm.")


def call(it, value, naming, functions):
    """The C text of a call of a function that is not part of LLVM's text."""
    function = functions.get(it.callee)
    if function is None:
        raise Stop(f"a call of {it.callee}, which the module lacks")
    kinds = [kind for kind, _ in function.parameters]
    given = [argument.kind for argument in it.arguments]
    if function.result != it.kind or given[: len(kinds)] != kinds:
        raise Stop(f"a call of {it.callee} with other kinds")
    if len(given) != len(kinds) and not (function.is_variadic and given[len(kinds) :] == [I32]):
        raise Stop(f"a call of {it.callee} with other arguments")
    texts = ", ".join(value(*argument) for argument in it.arguments)
    return f"{c_name(function, naming)}({texts})"


def c_name(function, naming):
    """The C name of a function, which is in runtime.c if the module only declares it."""
    if function.blocks is not None:
        return naming.functions[function.name]
    kinds = [kind for kind, _ in function.parameters] + [...] * function.is_variadic
    if RUNTIME.get(function.name) != (function.result, kinds):
        raise Stop(f"{function.name} with such kinds, which runtime.c lacks")
    return f"sys_{function.name}"


def llvm_call(it, value):
    """The C text of a call of a function that is part of LLVM's text."""
    kinds = [argument.kind for argument in it.arguments]
    if it.callee == "llvm.trap" and not kinds:
        return "TRAP"
    if it.callee == FENCE and kinds == [DOUBLE]:
        return value(*it.arguments[0])
    if it.callee in COPIES:
        return copy(it, kinds, value)
    name, _, width = it.callee.rpartition(".i")
    if name in COUNTS and it.kind in (I8, I16, I32, I64) and it.kind == Int(int(width)):
        # (of some it is also said that 0 gives no value: here it gives the width then)
        if kinds[0] == it.kind and len(kinds) <= 2:
            return f"{COUNTS[name]}_u{width}({value(*it.arguments[0])})"
    raise Stop(f"a call of {it.callee}")


def copy(it, kinds, value):
    """The C text of a write of many bytes, or none where there is none to be written."""
    name, wanted = COPIES[it.callee]
    is_volatile = it.arguments[-1].operand
    if kinds[:-1] != wanted or is_volatile != Integer(0):
        raise Stop(f"a call of {it.callee}")
    place, what, count = it.arguments[:-1]
    if count.operand == Integer(0):
        return ""
    return f"{name}({value(*place)}, {value(*what)}, {value(*count)})"
