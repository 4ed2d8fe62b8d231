#!/usr/bin/env python3
"""Measures a built program on class files that it makes, with `java -Xint` beside it where that is there.

    bench/run.py [--steps N] [--repeat N] [--only WORD] [--no-java] [PROGRAM]

PROGRAM is by default crates/mote_main/out/mote_main. Each number is the least user and system time of the
repeats; program and Java machine take turns. A row whose status is not the one that is wanted says so.
"""

import argparse
import os
import random
import shutil
import subprocess
import sys
import tempfile
from dataclasses import dataclass, field

import class_maker as make

HERE = os.path.dirname(os.path.abspath(__file__))
TOP = os.path.dirname(HERE)
CONSOLE = "mote/Console"
TICKS = str(2**63)


@dataclass
class Case:
    """One row of the table: a class, how it is run, and how much it does."""

    name: str
    amount: int
    unit: str
    classes: list
    for_java: bytes = None
    uses_console: bool = False
    words: tuple = ("go", "--ticks", TICKS)
    input_bytes: bytes = b""
    wanted: tuple = (0,)
    files: list = field(default_factory=list)


# ---- loops


def loop(body, iterations):
    """Counts local 0 from 0 up to a number, and does the body each time."""
    head = ["iconst_0", "istore_0", "iconst_0", "istore_1", "top:"]
    tail = [("iinc", 0, 1), "iload_0", ("ldc", iterations), ("if_icmpge", "end")]
    return head + body + tail + [("goto_w", "top"), "end:", "return"]


def loop_case(name, body, steps_each, steps):
    iterations = max(1, int(steps / (steps_each + 5)))
    lines = loop(body, iterations)
    return Case(
        name,
        int(iterations * (steps_each + 5)),
        "step",
        [make.program("Bench", lines)],
        make.program("Bench", lines, for_java=True),
    )


def arithmetic(steps):
    body = ["iload_1", "iload_0", "iadd", "istore_1", "iload_1", "iconst_3", "imul", "istore_1"]
    body += ["iload_1", ("bipush", 5), "iushr", "iload_0", "ixor", "istore_1"]
    return loop_case("arithmetic", body, 14, steps)


def branches(steps):
    body = ["iload_0", "iconst_1", "iand", ("ifeq", "even"), ("iinc", 1, 1), ("goto", "next")]
    body += ["even:", ("iinc", 1, -1), "next:"]
    body += ["iload_0", "iconst_4", "iand", ("ifne", "set"), ("iinc", 1, 2), "set:"]
    # One time in two a goto more, and one time in two an iinc more.
    return loop_case("branches", body, 5 + 0.5 + 4 + 0.5, steps)


def table_switch(steps):
    rows = ["row%d" % k for k in range(8)]
    body = ["iload_0", ("bipush", 7), "iand", ("tableswitch", 0, rows, "next")]
    for row in rows:
        body += [row + ":", ("iinc", 1, 1), ("goto", "next")]
    return loop_case("tableswitch, 8 rows", body + ["next:"], 6, steps)


def lookup_switch(steps, count, bits):
    """Rows of keys far apart, found one after the other."""
    rows = [(key << 8, "row%d" % (key % 4)) for key in range(count)]
    mask = (1 << bits) - 1
    body = ["iload_0", ("ldc", mask), "iand", ("bipush", 8), "ishl"]
    body.append(("lookupswitch", rows, "next"))
    for row in range(4):
        body += ["row%d:" % row, ("iinc", 1, 1), ("goto", "next")]
    name = "lookupswitch, %s rows" % format(count, ",")
    return loop_case(name, body + ["next:"], 8, steps)


# ---- calls and statics


def set_case(name, amount, unit, lines, others, fields=()):
    return Case(
        name,
        amount,
        unit,
        [make.program("Bench", lines, others=others, fields=fields)],
        make.program("Bench", lines, for_java=True, others=others, fields=fields),
    )


def calls(steps):
    """Each turn calls a method that adds one to its argument: four steps of it beside eight of the loop."""
    count = max(1, int(steps / 12))
    body = ["iload_1", ("invokestatic", "Bench", "next", "(I)I"), "istore_1"]
    following = [("next", "(I)I", ["iload_0", "iconst_1", "iadd", "ireturn"])]
    return set_case("calls in a loop", count * 12, "step", loop(body, count), following)


def small_calls(steps):
    """The same over shorts, which are cut and extended."""
    count = max(1, int(steps / 12))
    body = ["iload_1", ("invokestatic", "Bench", "next", "(S)S"), "istore_1"]
    following = [("next", "(S)S", ["iload_0", "iconst_1", "iadd", "ireturn"])]
    return set_case("calls over shorts in a loop", count * 12, "step", loop(body, count), following)


def recursion(depth):
    """The numbers of Fibonacci by two calls each: about ten steps a call."""
    others = [("fib", "(I)I", [
        "iload_0", "iconst_2", ("if_icmpge", "more"), "iload_0", "ireturn", "more:",
        "iload_0", "iconst_1", "isub", ("invokestatic", "Bench", "fib", "(I)I"),
        "iload_0", "iconst_2", "isub", ("invokestatic", "Bench", "fib", "(I)I"), "iadd", "ireturn",
    ])]
    before, now = 1, 1
    for _ in range(depth - 1):
        before, now = now, before + now + 1
    lines = [("bipush", depth), ("invokestatic", "Bench", "fib", "(I)I"), "istore_0", "return"]
    return set_case("recursion", now, "call", lines, others)


def statics(steps):
    count = max(1, int(steps / 9))
    body = [("getstatic", "Bench", "sum", "I"), "iload_0", "iadd", ("putstatic", "Bench", "sum", "I")]
    return set_case("a static in a loop", count * 9, "step", loop(body, count), [], [("sum", "I")])


# ---- the console


def echo(count):
    lines = ["iconst_0", "istore_0", "top:", ("invokestatic", CONSOLE, "read", "()I"), "istore_0"]
    lines += ["iload_0", ("iflt", "end"), "iload_0", ("invokestatic", CONSOLE, "write", "(I)V")]
    lines += [("goto", "top"), "end:", "return"]
    return Case(
        "console, bytes in and out",
        count,
        "byte",
        [make.program("Bench", lines)],
        make.program("Bench", lines, for_java=True),
        uses_console=True,
        input_bytes=random.Random(1).randbytes(count),
    )


def numbers(count):
    body = ["iload_0", ("invokestatic", CONSOLE, "print", "(I)V")]
    lines = loop(body, count)
    return Case(
        "console, numbers out",
        count,
        "number",
        [make.program("Bench", lines)],
        make.program("Bench", lines, for_java=True),
        uses_console=True,
    )


# ---- infusing


def sized_class(name, size, with_main=True):
    """A class of so many bytes: much code, many texts, and an attribute for what is left."""
    pool = make.Pool()
    methods = []
    if with_main:
        body = ["iload_1", "iload_0", "iadd", "istore_1"] * (min(size // 4, 32000) // 4)
        head = ["iconst_0", "istore_0", "iconst_0", "istore_1"]
        code = make.assemble(pool, head + body + ["return"])
        methods.append(make.method(pool, "main", "()V", make.code_attribute(pool, code, 2, 2)))
    texts = random.Random(size)
    for _ in range(min(60000, size // 40)):
        pool.utf8("%012x" % texts.getrandbits(48))
    rest = size - len(make.class_bytes(pool, name, methods, attributes=[("Rest", b"")]))
    return make.class_bytes(pool, name, methods, attributes=[("Rest", b"\0" * max(0, rest))])


def infusing(size):
    most = 1 << 20
    count = max(1, size // most)
    classes = [sized_class("Bench", min(size, most))]
    classes += [sized_class("Bench%d" % k, most, with_main=False) for k in range(1, count)]
    name = "infusing, %d class%s" % (count, "" if count == 1 else "es")
    return Case(name, size, "byte", classes, words=("infuse", "out.infusion"))


def calling_class(name, size):
    """A class of about so many bytes: static methods that each call others of the class."""
    pool = make.Pool()
    count = max(1, size // 85)
    methods = []
    for k in range(count):
        called = ["m%d" % ((k * 31 + other * 7) % count) for other in range(12)]
        code = make.assemble(pool, [("invokestatic", name, to, "()V") for to in called] + ["return"])
        methods.append(make.method(pool, "m%d" % k, "()V", make.code_attribute(pool, code, 0, 0)))
    code = make.code_attribute(pool, make.assemble(pool, ["return"]), 0, 0)
    methods.append(make.method(pool, "main", "()V", code))
    return make.class_bytes(pool, name, methods)


def calling(size):
    count = max(1, size // (1 << 20))
    classes = [calling_class("Calls%d" % k, 1000000) for k in range(count)]
    amount = sum(len(content) for content in classes)
    return Case("resolving calls, %d classes" % count, amount, "byte", classes, wanted=(0, 3))


# ---- many classes


def chain(count):
    """Classes that each stand below the one before."""
    classes = []
    for k in range(count):
        pool = make.Pool()
        code = make.code_attribute(pool, b"\xb1", 0, 0)
        methods = [make.method(pool, "main", "()V", code)]
        above = "C%d" % (k - 1) if k else "java/lang/Object"
        classes.append(make.class_bytes(pool, "C%d" % k, methods, above=above))
    return Case("a chain of %d classes" % count, count, "class", classes, wanted=(0, 3))


def diamonds(levels):
    """Two interfaces a level that each extend both of the level below, and a method that none has."""
    classes = []
    for level in range(levels):
        below = ["L%d_%d" % (level - 1, side) for side in range(2)] if level else []
        for side in range(2):
            classes.append(
                make.class_bytes(
                    make.Pool(), "L%d_%d" % (level, side), [], interfaces=below,
                    flags=make.PUBLIC_INTERFACE,
                )
            )
    pool = make.Pool()
    code = make.assemble(pool, [("invokestatic", "Top", "missing", "()V"), "return"])
    methods = [make.method(pool, "main", "()V", make.code_attribute(pool, code, 0, 0))]
    beside = ["L%d_%d" % (levels - 1, side) for side in range(2)]
    classes.append(make.class_bytes(pool, "Top", methods, interfaces=beside))
    return Case("diamonds, %d levels" % levels, len(classes), "class", classes, wanted=(3,))


# ---- classes made to be slow


def many_rows():
    pool = make.Pool()
    code = b"\0" * 65534 + b"\xb1"
    rows = [(0, 65535, k, 0) for k in range(65535)]
    attribute = make.code_attribute(pool, code, 1, 0, rows)
    methods = [make.method(pool, "main", "()V", attribute)]
    classes = [make.class_bytes(pool, "Bench", methods)]
    return Case("65,535 rows over 65,535 instructions", 65535, "row", classes, wanted=(0, 3))


def many_texts():
    pool = make.Pool()
    for k in range(65000):
        pool.utf8("text%05d" % k)
    classes = [make.program("Bench", ["return"], pool=pool)]
    return Case("a pool of 65,000 texts", 65000, "text", classes)


def many_fields():
    pool = make.Pool()
    names = [pool.utf8("field%d" % k) for k in range(256)]
    kinds = [pool.utf8("[" * k + "I") for k in range(256)]
    fields = []
    for name in names:
        for kind in kinds:
            fields.append(make.struct.pack(">HHHH", 0x0008, name, kind, 0))
    code = make.code_attribute(pool, b"\xb1", 0, 0)
    methods = [make.method(pool, "main", "()V", code)]
    classes = [make.class_bytes(pool, "Bench", methods, fields[:65535])]
    return Case("65,535 fields", 65535, "field", classes, wanted=(0, 3))


# ---- types


def typed(name, amount, unit, code, max_stack, max_locals, rows=()):
    """A class of this main, which is verified and need not run."""
    pool = make.Pool()
    attribute = make.code_attribute(pool, code, max_stack, max_locals, rows)
    methods = [make.method(pool, "main", "()V", attribute)]
    classes = [make.class_bytes(pool, "Bench", methods)]
    return Case(name, amount, unit, classes, wanted=(0, 3))


def types_of_nops():
    return typed("types of 65,534 nops", 65534, "insn", b"\x00" * 65534 + b"\xb1", 0, 0)


def types_of_pushes():
    return typed("types of 32,764 pushes", 32764, "insn", b"\x03" * 32764 + b"\xb1", 32764, 0)


def types_of_stores():
    stores = b"".join(b"\x03\xc4\x36" + make.struct.pack(">H", 5 * k) for k in range(13106))
    return typed("types of 65,535 locals, 13,106 stores", 13106, "store", stores + b"\xb1", 1, 65535)


def types_of_merges():
    return typed("types of 10,000 merges", 10000, "merge", b"\x03\x99\x00\x05\x03\x3b" * 10000 + b"\xb1", 1, 1)


def types_of_handlers():
    """Every row covers every instruction, and half of the instructions are handlers."""
    half = 32767
    rows = [(0, 65535, half + k % (half + 1), 0) for k in range(65535)]
    code = b"\x00" * (half - 1) + b"\xb1" + b"\x00" * half + b"\xbf"
    return typed("types of 65,535 rows", 65535, "row", code, 1, 0, rows)


def all_cases(steps):
    yield arithmetic(steps)
    yield branches(steps)
    yield table_switch(steps)
    yield lookup_switch(steps, 8, 3)
    yield lookup_switch(steps / 100, 7000, 13)
    yield calls(steps)
    yield small_calls(steps)
    yield recursion(30)
    yield statics(steps)
    yield echo(int(steps / 100))
    yield numbers(int(steps / 100))
    for megabytes in (1, 2, 4, 8, 16):
        yield infusing(megabytes << 20)
    for megabytes in (2, 4, 8, 16):
        yield calling(megabytes << 20)
    yield chain(256)
    yield chain(512)
    yield chain(513)
    yield diamonds(60)
    yield many_rows()
    yield many_texts()
    yield many_fields()
    yield types_of_nops()
    yield types_of_pushes()
    yield types_of_stores()
    yield types_of_merges()
    yield types_of_handlers()


# ---- measuring


@dataclass
class Run:
    seconds: float
    status: int
    noted: str


def timed(words, folder, input_bytes):
    """Runs a command, and answers its own time, which other processes hardly change."""
    with open(os.path.join(folder, "input"), "wb") as given:
        given.write(input_bytes)
    with open(os.path.join(folder, "input"), "rb") as given, tempfile.TemporaryFile() as noted:
        process = subprocess.Popen(
            words, cwd=folder, stdin=given, stdout=subprocess.DEVNULL, stderr=noted
        )
        _, status, usage = os.wait4(process.pid, 0)
        process.returncode = os.waitstatus_to_exitcode(status)
        noted.seek(0)
        last = noted.read().decode(errors="replace").strip().split("\n")[-1]
    seconds = usage.ru_utime + usage.ru_stime
    return Run(seconds, process.returncode, last)


def java_folder(folder):
    """Compiles the stub of mote.Console, and answers whether that could be done."""
    source = os.path.join(TOP, "examples", "mote", "Console.java")
    if shutil.which("javac") is None:
        return False
    command = ["javac", "-d", os.path.join(folder, "stub"), source]
    return subprocess.run(command, stderr=subprocess.DEVNULL, check=False).returncode == 0


def measure(case, program, folder, repeat, has_java, has_stub):
    names = []
    for k, content in enumerate(case.classes):
        names.append("Bench%d.class" % k)
        with open(os.path.join(folder, names[-1]), "wb") as file:
            file.write(content)
    java = None
    if has_java and case.for_java and (has_stub or not case.uses_console):
        java = ["java", "-Xint", "-cp", os.pathsep.join(["java", "stub"]), "Bench"]
        with open(os.path.join(folder, "java", "Bench.class"), "wb") as file:
            file.write(case.for_java)
    ours, theirs = [], []
    for _ in range(repeat):
        ours.append(timed([program, *case.words, *names], folder, case.input_bytes))
        if ours[-1].status not in case.wanted:
            break
        if java:
            theirs.append(timed(java, folder, case.input_bytes))
    return min(ours, key=lambda run: run.seconds), min(
        theirs, key=lambda run: run.seconds, default=None
    )


def row(case, ours, theirs):
    if ours.status not in case.wanted:
        return [case.name, shown(case.amount), "status %d: %s" % (ours.status, ours.noted)]
    cells = [case.name, shown(case.amount), "%.3f s" % ours.seconds]
    cells.append("%.1f ns a %s" % (ours.seconds / case.amount * 1e9, case.unit))
    if theirs and theirs.status == 0:
        cells += ["%.3f s" % theirs.seconds, "%.2f" % (ours.seconds / theirs.seconds)]
    elif theirs:
        cells += ["status %d" % theirs.status, ""]
    return cells


def shown(number):
    return format(number, ",")


def print_row(cells):
    widths = [38, 13, 10, 22, 11, 6]
    padded = [cell.ljust(width) for cell, width in zip(cells, widths)]
    print("  ".join(padded).rstrip(), flush=True)


def main():
    parser = argparse.ArgumentParser(description=__doc__.split("\n")[0])
    built = os.path.join(TOP, "crates", "mote_main", "out", "mote_main")
    parser.add_argument("program", nargs="?", default=built)
    parser.add_argument("--steps", type=float, default=1e8, help="of a loop; by default 10^8")
    parser.add_argument("--repeat", type=int, default=3, help="by default 3")
    parser.add_argument("--only", default="", help="the rows whose name has this word")
    parser.add_argument("--no-java", action="store_true", help="without a Java machine")
    words = parser.parse_args()
    program = os.path.abspath(words.program)
    if not os.access(program, os.X_OK):
        sys.exit("bench: %s is no program: ./mote builds it" % program)
    has_java = not words.no_java and shutil.which("java") is not None
    print_row(["what", "how much", "program", "each", "java -Xint", "ratio"])
    with tempfile.TemporaryDirectory(prefix="mote-bench-") as folder:
        os.mkdir(os.path.join(folder, "java"))
        has_stub = has_java and java_folder(folder)
        for case in all_cases(words.steps):
            if words.only in case.name:
                ours, theirs = measure(
                    case, program, folder, words.repeat, has_java, has_stub
                )
                print_row(row(case, ours, theirs))


if __name__ == "__main__":
    main()
