"""Tries each instruction by rows of `by_hand.txt`, which were worked by hand: the kit's clang,
and each compiler here.

It also holds the table to have every instruction that the translator knows.
"""

import re
import sys
import tempfile

import common
from calls import COPIES, COUNTS, FENCE
from expressions import CONDITIONS, FLOAT_CONDITIONS
from instructions import READERS, READERS_BY_OPCODE

NUMBER = "(-?[0-9]+|0x[0-9a-f]+)"
ROW = re.compile(f"{NUMBER} {NUMBER} = (?:{NUMBER}|trap)\\Z")
DATA = '@static.0 = private unnamed_addr constant [9 x i8] c"\\22\\\\??\\FF1\\00\\012", align 1\n'
DATA += """@static.1 = private constant <{ [8 x i8], ptr, [8 x i8] }> <{ \
[8 x i8] zeroinitializer, ptr getelementptr (i8, ptr @static.1, i64 19), \
[8 x i8] c"abcdefgh" }>, align 8
"""
HELPERS = """
define internal { i8, i64 } @pair(i1 noundef zeroext %a0, i64 noundef %a1) #0 {
start:
  %r0 = alloca [16 x i8], align 8
  %r1 = zext i1 %a0 to i8
  store i8 %r1, ptr %r0, align 8
  %r2 = getelementptr i8, ptr %r0, i64 8
  store i64 %a1, ptr %r2, align 8
  %r3 = load { i8, i64 }, ptr %r0, align 8
  ret { i8, i64 } %r3
}

define internal void @put(ptr noundef %a0, i64 noundef %a1) {
start:
  store i64 %a1, ptr %a0, align 1
  ret void
}

attributes #0 = { noinline nounwind "target-cpu"="x86-64" }
"""


def read(file):
    """The cases of a table: the name, the lines of the function, and the rows."""
    cases = []
    with open(file, encoding="ascii") as it:
        for line in it.read().split("\n"):
            row = ROW.match(line)
            if line.startswith("# "):
                cases.append((line[2:], [], []))
            elif row:
                cases[-1][2].append((bits(row[1]), bits(row[2]), bits(row[3]) if row[3] else None))
            else:
                cases[-1][1].append(line)
    return [it for it in cases if it[2]]


def module_of(cases):
    """The module of all functions of a table."""
    return common.module(["\n".join(lines) for _, lines, _ in cases], DATA + HELPERS)


def bits(word):
    """A number as its 64 bits."""
    return int(word, 0) % 2**64


def hold_complete(cases):
    """Holds the table to have all that is known."""
    text = "\n".join(line for _, lines, _ in cases for line in lines)
    opcodes = {*READERS, *READERS_BY_OPCODE} - {"ret", "unreachable"}
    known = [f" {it} " for it in sorted(opcodes)]
    known += [f"icmp {it} " for it in CONDITIONS] + [f"fcmp {it} " for it in FLOAT_CONDITIONS]
    known += [f"@{it}.i{width}(" for it in COUNTS for width in (8, 16, 32, 64)]
    known += [f"@{it}(" for it in (*COPIES, FENCE, "llvm.trap")] + ["unreachable", "ret "]
    known += [f"<8 x i8> {it}" for it in ("zeroinitializer", "splat")]
    # (of these widths some are left out, since C has one text for each count, and a macro for all)
    spared = {"@llvm.ctlz.i32(", "@llvm.cttz.i16(", "@llvm.ctpop.i16("}
    missing = [it for it in known if it not in text and it not in spared]
    if missing:
        sys.exit(f"by_hand.txt has no {', '.join(missing)}")


def main():
    """Tries all rows in each way."""
    cases = read(f"{common.HERE}/by_hand.txt")
    hold_complete(cases)
    text = module_of(cases)
    wrong = rows = 0
    with tempfile.TemporaryDirectory() as room:
        for way in [None, *common.ways()]:
            program = common.by_way(room, text, len(cases), way)
            for number, (case, _, given) in enumerate(cases):
                found = common.answers(program, [(number, a, b) for a, b, _ in given])
                wanted = ["trap" if it is None else str(it) for _, _, it in given]
                rows += len(given)
                if found != wanted:
                    wrong += 1
                    print(f"{way or 'kit'}: {case}: {found}, and not {wanted}")
    print(f"by hand: {len(cases)} functions, {rows} answers, {wrong} wrong")
    return wrong != 0


if __name__ == "__main__":
    sys.exit(main())
