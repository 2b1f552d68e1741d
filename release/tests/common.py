"""What the tests of the translator share: modules around functions, the translator, and
compilers.

A function of a test is `i64 f(i64 %a0, i64 %a1)`, as the lines between its braces. The kit's
clang compiles the module itself, and whichever of gcc and clang are on the path compile what the
translator makes of it.
"""

import os
import shutil
import subprocess
import sys

HERE = os.path.dirname(os.path.abspath(__file__))
TRANSLATOR = os.path.join(os.path.dirname(HERE), "ir2c")
sys.path.insert(0, TRANSLATOR)

from kinds import DATA_LAYOUT  # noqa: E402 (the translator's own folder is on the path now)

# What pua.c is compiled by, in the release's Makefile too.
FLAGS = "-fno-strict-overflow -fno-strict-aliasing -fno-delete-null-pointer-checks"
FLAGS = [*FLAGS.split(), "-ffp-contract=off", "-w", "-Wno-psabi"]
# A program that takes longer than this goes round in a loop.
SECONDS = 120
SANITIZED = ["-fsanitize=undefined", "-fno-sanitize-recover=undefined"]
START = """
define internal i32 @"test::main+start"() {
start:
  ret i32 0
}
"""
MAIN = """
declare i64 @__sysv_signal(i32, i64)

define i32 @main() {
start:
  %r0 = call i64 @__sysv_signal(i32 13, i64 1)
  %r1 = call i32 @"test::main+start"()
  ret i32 %r1
}
"""
DECLARED = """
declare void @llvm.memset.p0.i64(ptr writeonly captures(none), i8, i64, i1 immarg)
declare void @llvm.memmove.p0.p0.i64(ptr writeonly captures(none), ptr readonly, i64, i1 immarg)
declare double @llvm.arithmetic.fence.f64(double)
declare void @llvm.trap()

!0 = !{}
!1 = !{i8 0, i8 2}
"""
for bits in (8, 16, 32, 64):
    for name in ("ctlz", "cttz"):
        DECLARED += f"declare i{bits} @llvm.{name}.i{bits}(i{bits}, i1 immarg)\n"
    DECLARED += f"declare i{bits} @llvm.ctpop.i{bits}(i{bits})\n"
DRIVER = """
#include <stdio.h>
#include <stdlib.h>
typedef unsigned long long number;
int main(int count, char **words)
{
	number a, b;
	char *end;
	int f;
	while (scanf("%d %llu %llu", &f, &a, &b) == 3)
		switch (f) {
CASES
		}
	return 0;
}
"""


def module(functions, data=""):
    """The text of a module that has these functions, and more at its head."""
    texts = [f'target datalayout = "{DATA_LAYOUT}"\n\n{data}']
    for number, lines in enumerate(functions):
        head = f"define internal i64 @f{number}(i64 noundef %a0, i64 noundef %a1) {{\nstart:\n"
        texts.append(head + lines.rstrip("\n") + "\n}\n")
    return "\n".join(texts) + START + MAIN + DECLARED


def translate(room, text):
    """Translates a module: the C text and what was said."""
    file = os.path.join(room, "module.ll")
    with open(file, "w", encoding="ascii") as it:
        it.write(text)
    ran = subprocess.run([sys.executable, TRANSLATOR, file], stdout=-1, stderr=-1, text=True)
    return ran.stdout, ran.stderr


def kit_clang():
    """The kit's clang, which writes and reads the modules."""
    rt = shutil.which("rt")
    if rt is None:
        sys.exit("the kit's `rt` is not on the path")
    kit = os.path.dirname(os.path.dirname(os.path.realpath(rt)))
    return os.path.join(kit, "toolchain", "bin", "clang")


def run(*words):
    """Runs a command that has to succeed."""
    ran = subprocess.run(words, stdout=-1, stderr=-1, text=True)
    if ran.returncode:
        sys.exit(f"{' '.join(words)}\n{ran.stdout[-2000:]}{ran.stderr[-4000:]}")
    return ran.stdout


def ways():
    """The compilers that are here, each with its flags."""
    found = []
    if shutil.which("gcc"):
        found += [["gcc", "-O0"], ["gcc", "-O2"], ["gcc", "-O1", *SANITIZED]]
    if shutil.which("clang"):
        found += [["clang", "-O2"], ["clang", "-O1", "-DPLAIN_BITS"]]
    if not found:
        sys.exit("neither gcc nor clang is on the path")
    return found


def driver(count, form):
    """C that reads lines, the number of a function and its arguments, and writes its answers."""
    cases = [
        f'\t\tcase {k}: printf("%llu\\n", (number){form.format(k)}(a, b)); fflush(stdout); break;'
        for k in range(count)
    ]
    return DRIVER.replace("CASES", "\n".join(cases))


def by_ir(room, text, count):
    """The program that the kit's clang makes of the module."""
    text = text.replace("define internal", "define").replace("@main()", "@main_of_module()")
    paths = [os.path.join(room, name) for name in ("ir.ll", "ir.o", "ir.c", "by_ir")]
    with open(paths[0], "w", encoding="ascii") as it:
        it.write(text)
    target = ["--target=x86_64-unknown-linux-gnu", "-w"]
    run(kit_clang(), *target, "-O1", "-x", "ir", paths[0], "-c", "-o", paths[1])
    with open(paths[2], "w", encoding="ascii") as it:
        declared = [f"unsigned long f{k}(unsigned long, unsigned long);" for k in range(count)]
        it.write("\n".join(declared) + "\nvoid __sysv_signal(void) {}\n" + driver(count, "f{}"))
    run(ways()[0][0], "-w", paths[2], paths[1], "-o", paths[3])
    return paths[3]


def by_c(room, text, count, way):
    """The program that a compiler makes of the translator's C."""
    made, said = translate(room, text)
    if said:
        sys.exit(said)
    file, program = os.path.join(room, "c.c"), os.path.join(room, "by_c")
    with open(file, "w", encoding="ascii") as it:
        it.write(made + driver(count, "f_f{}"))
    run(*way, *FLAGS, file, "-o", program)
    return program


def by_way(room, text, count, way):
    """The program by one of `ways`, or by the kit's clang."""
    return by_ir(room, text, count) if way is None else by_c(room, text, count, way)


def answers(program, rows):
    """What the program gives for each row: a function's number and its two arguments."""
    text = "".join(f"{f} {a} {b}\n" for f, a, b in rows)
    how = dict(input=text, stdout=-1, stderr=-1, text=True, timeout=SECONDS)
    try:
        ran = subprocess.run([program], **how)
    except subprocess.TimeoutExpired:
        return ["no end"]
    found = ran.stdout.split()
    if ran.returncode and not ran.stderr:
        found.append("trap")
    return found + ran.stderr.split("\n")[:3] * bool(ran.stderr)
