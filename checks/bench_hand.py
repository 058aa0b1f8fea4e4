"""Compiled controllers next to ones written by hand, for `bench --hand`: flash, memory, cycles, and cells of an FPGA.

The sources are three of checks/corpus/tune: a washing machine, a receiver of a serial line, and a lift. checks/corpus/by_hand has each
of them as a state machine in C, with the calls of embedded C, and in Verilog, with a reset. First all of them must show the lines of
`cec run` over drawn events.
"""
import pathlib
import random
import re
import shutil
import statistics
import subprocess
import sys
import tempfile

from bench_flash import AVR, CORTEX, cycles_of_instruction, main_of_events, simulated_cycles
from bench_tools import OPTIMIZER, TOP, shown, table
from tool_checks import ports_of

sys.path.insert(0, str(TOP / "tools" / "parts"))
from relations import forbidden_pairs

NAMES = ["washing", "uart_receiver", "lift"]
# A way through a reaction has thousands of instructions.
sys.setrecursionlimit(200_000)
SOURCES = TOP / "checks/corpus/tune"
BY_HAND = TOP / "checks/corpus/by_hand"
RISC_V = ["riscv64-unknown-elf-gcc", "-march=rv32imac", "-mabi=ilp32", "-ffreestanding", "-std=c99", "-Os"]
# Signals that come more or less often than the others, so that long phases are gone through.
CHANCES = {"CLOSED": 0.995, "STOP": 0.01, "SEC": 0.8, "TICK16": 0.8, "LINE": 0.5, "BLOCKED": 0.1}
CHANCES |= {"C_%d" % k: 0.1 for k in range(4)}
MACHINES = [("AVR", AVR), ("M0", CORTEX), ("RV32", RISC_V)]
INSTANTS = 3000
UNIT = """\
#include "{name}.h"
void start({name}_t *self);
bool run({name}_t *self, const {name}_inputs_t *in, {name}_outputs_t *out);
void start({name}_t *self) {{ {name}_reset(self); }}
bool run({name}_t *self, const {name}_inputs_t *in, {name}_outputs_t *out) {{ return {name}_react(self, in, out); }}
"""


def told(words, folder=None, **more):
    """What a tool writes; it must succeed."""
    return subprocess.run([str(word) for word in words], cwd=folder, capture_output=True, text=True, check=True, **more).stdout


def drawn_events(name, inputs, seed):
    """Events that meet the relations of a source, and None for a reset now and then."""
    pairs = forbidden_pairs((SOURCES / (name + ".strl")).read_text(), None)
    rng, items = random.Random(seed), []
    while len(items) < INSTANTS:
        event = {it for it in inputs if rng.random() < CHANCES.get(it, 0.3)}
        if not any(left in event and (right in event) == (value == "1") for left, right, value in pairs):
            items.append(None if rng.random() < 0.002 else event)
    return items


def lines_of_c(folder, inputs, outputs, items):
    """The lines that the component of unit.h shows over items."""
    lines = ["#include <stdio.h>", '#include "unit.h"', "static int some;"]
    lines += ['static void show(bool present, const char *name) { if (present) { printf("%s ", name); some = 1; } }', "int main(void) {"]
    lines += ["unit_t self; unit_inputs_t in; unit_outputs_t out; bool paused; int c; unit_reset(&self);"]
    lines += ["while ((c = getchar()) != EOF) { if (c == 'r') { unit_reset(&self); continue; } some = 0;"]
    lines += ["in.%s = getchar() == '1';" % it for it in inputs] + ["paused = unit_react(&self, &in, &out);"]
    lines += ['show(out.%s, "%s");' % (it, it) for it in outputs]
    lines += ['printf("%s| %s\\n", some ? "" : "- ", paused ? "paused" : "ended"); }', "return 0; }", ""]
    (folder / "main.c").write_text("\n".join(lines))
    told(["gcc", "-std=c99", "-O1", "main.c", "-o", "main"], folder)
    given = "".join("r" if it is None else "e" + "".join("01"[name in it] for name in inputs) for it in items)
    return told(["./main"], folder, input=given)


def lines_of_verilog(folder, file, module, inputs, outputs, items):
    """The lines that a module with the synchronous reset `reset` shows over items."""
    lines = ["module bench;", "reg clk = 0;", "reg reset = 1;"] + ["reg %s = 0;" % it for it in inputs] + ["wire %s;" % it for it in outputs]
    ports = ", ".join(".%s(%s)" % (it, it) for it in ["clk", "reset", *inputs, *outputs])
    lines += ["%s tested(%s);" % (module, ports), "initial begin", "#1 clk = 1; #1 clk = 0; reset = 0;"]
    for item in items:
        if item is None:
            lines += ["reset = 1; #1 clk = 1; #1 clk = 0; reset = 0;"]
        else:
            lines += ["%s = %d;" % (it, it in item) for it in inputs]
            lines += ['#1 $display("%s", %s);' % ("%b" * len(outputs), ", ".join(outputs)), "clk = 1; #1 clk = 0;"]
    (folder / "bench.v").write_text("\n".join(lines + ["$finish;", "end", "endmodule", ""]))
    told(["iverilog", "-g2001", "-o", "bench.vvp", "bench.v", file], folder)
    rows = re.findall(r"^[01xz]+$", told(["vvp", "-n", "bench.vvp"], folder), re.MULTILINE)
    return "".join(" ".join([it for it, bit in zip(outputs, row) if bit == "1"] or ["-"]) + " | paused\n" for row in rows)


def disassembled(folder, compiler, start):
    """The functions of the unit on a machine, each with its instructions: place, name and operands."""
    # Tables of jumps are left out, since their targets are not in the instructions.
    words = [*compiler, "-fno-jump-tables", "-nostdlib", "-nostartfiles", "-Wl,-e," + start, "-I.", "unit.c", "-o", "unit.elf"]
    told(words, folder)
    text = told([compiler[0].replace("gcc", "objdump"), "-d", "--no-show-raw-insn", "unit.elf"], folder)
    functions = {}
    for name, body in re.findall(r"^\w+ <([\w.]+)>:\n(.*?)(?:\n\n|\Z)", text, re.DOTALL | re.MULTILINE):
        functions[name] = [(int(at, 16), it, rest.strip()) for at, it, rest in re.findall(r"^ *(\w+):\t([a-z0-9.]+)\t?(.*)$", body, re.MULTILINE)]
    return functions


def cost(machine, name, operands):
    """The cycles of an instruction on a Cortex-M0; on RISC-V each counts as one."""
    if machine == "M0" and name not in ("bl", "blx"):
        return cycles_of_instruction(name, operands) or 1
    return 4 if machine == "M0" else 1


class Loop(Exception):
    """A way that comes back to an instruction."""


def longest(functions, machine, start):
    """The cycles of the longest way through a function and those that it calls; None where a way comes back to itself."""
    most, open_ones = {}, set()

    def ways(function, at):
        rows = functions[function]
        name, operands = rows[at][1:]
        jump = re.search(r"(\w+) <([\w.]+)(\+0x\w+)?>", operands)
        ends = name in ("ret", "bx", "mret") or (name == "pop" and "pc" in operands) or (name in ("jr", "c.jr") and operands == "ra")
        call = jump and jump.group(2) != function and (name in ("bl", "jal", "call", "j", "b", "b.n", "tail"))
        taken = cost(machine, name, operands) + (through(jump.group(2), 0) if call else 0)
        after = []
        if jump and not call and name not in ("bl", "jal"):
            after += [next(k for k, it in enumerate(rows) if it[0] == int(jump.group(1), 16))]
        leaves = ends or (name in ("j", "b", "b.n", "tail") and jump)
        if not leaves and at + 1 < len(rows):
            after.append(at + 1)
        return taken, after

    def through(function, at):
        key = (function, at)
        if key in open_ones:
            raise Loop
        if key not in most:
            open_ones.add(key)
            taken, after = ways(function, at)
            most[key] = taken + max((through(function, it) for it in after), default=0)
            open_ones.remove(key)
        return most[key]

    try:
        return through(start, 0)
    except (Loop, KeyError, StopIteration):
        return None


def state_bytes(folder, compiler):
    """The bytes of memory of an instance."""
    (folder / "state.c").write_text('#include "unit.h"\nunit_t one;\n')
    told([*compiler, "-fno-common", "-c", "state.c", "-o", "state.o"], folder)
    return int(told([compiler[0].replace("gcc", "size"), "state.o"], folder).splitlines()[1].split()[2])


def measures(folder, inputs, machine, compiler):
    """Bytes of flash and of memory, and the most cycles of a reaction, of unit.h; None where a tool is missing."""
    if not shutil.which(compiler[0]):
        return [None] * 3
    (folder / "unit.c").write_text(UNIT.format(name="unit"))
    told([*compiler, "-c", "unit.c", "-o", "unit.o"], folder)
    text, data = told([compiler[0].replace("gcc", "size"), "unit.o"], folder).splitlines()[1].split()[:2]
    if machine == "AVR":
        head = ['#include "unit.h"', "static unit_t self; static unit_inputs_t in; static unit_outputs_t out;"]
        head += ["void start(unit_t *self); bool run(unit_t *self, const unit_inputs_t *in, unit_outputs_t *out);"]
        main = main_of_events(["in.%s = " % it for it in inputs], head, "run(&self, &in, &out)")
        main = main.replace("unsigned long draw", "start(&self); unsigned long draw")
        taken = simulated_cycles(folder, folder / "unit.c", main)
    else:
        taken = longest(disassembled(folder, compiler, "run"), machine, "run")
    return [int(text) + int(data), state_bytes(folder, compiler), taken]


def measures_of_text(folder, text, inputs, machine, compiler):
    """The same of the text of `cec c`, whose states are variables of the file."""
    if not shutil.which(compiler[0]):
        return [None] * 3
    (folder / "unit.c").write_text(text)
    told([*compiler, "-c", "unit.c", "-o", "unit.o"], folder)
    code, data, zeros = map(int, told([compiler[0].replace("gcc", "size"), "unit.o"], folder).splitlines()[1].split()[:3])
    if machine == "AVR":
        head = ["int react(void);"] + ["extern int I_%s;" % it for it in inputs]
        taken = simulated_cycles(folder, folder / "unit.c", main_of_events(["I_%s = " % it for it in inputs], head, "react()"))
    else:
        taken = longest(disassembled(folder, compiler, "react"), machine, "react")
    return [code + data, data + zeros, taken]


def cells(folder, file, module, flow):
    """The LUTs and the flip-flops that yosys needs for a module."""
    if not shutil.which("yosys"):
        return [None] * 2
    script = "read_verilog %s; synth_%s -top %s; tee -q -o cells.json stat -json" % (file, flow, module)
    told(["yosys", "-q", "-p", script], folder)
    text = (folder / "cells.json").read_text()
    counts = {name: int(count) for name, count in re.findall(r'"(\w+)": +(\d+)', text[text.index('"design"'):])}
    luts = sum(count for name, count in counts.items() if name in ("SB_LUT4", "LUT4"))
    return [luts, sum(count for name, count in counts.items() if name.startswith(("SB_DFF", "TRELLIS_FF")))]


def forms_in_c(name):
    """The forms of a controller in C, each as the text of unit.h."""
    hand = (BY_HAND / (name + ".h")).read_text()
    source = SOURCES / (name + ".strl")
    yield "embedded", told([OPTIMIZER, "c", "--embed", "unit", "--source", source])
    yield "packed", told([OPTIMIZER, "c", "--embed", "unit", "--packed", "--source", source])
    yield "by hand", re.sub(r"\b%s_(t|inputs_t|outputs_t|reset|react)\b" % name, r"unit_\1", hand)


def forms_in_verilog(program, name):
    """The forms of a controller in Verilog, each with its module and its text."""
    source = SOURCES / (name + ".strl")
    yield "cec verilog", None, told([program, "verilog", source])
    yield "cec-opt verilog", None, told([OPTIMIZER, "verilog", "--source", source])
    yield "with a reset", "unit", told([OPTIMIZER, "verilog", "--reset", "reset", "--module", "unit", "--source", source])
    yield "by hand", name, (BY_HAND / (name + ".v")).read_text()


def c_rows(program, folder, name):
    """The rows of a controller in C: a form, with flash, memory and cycles on three machines."""
    source = SOURCES / (name + ".strl")
    _, inputs, outputs = ports_of(told([program, "blif", source]))
    outputs = [it.removesuffix(".out") for it in outputs[:-1]]
    items = drawn_events(name, inputs, name)
    (folder / "own.trace").write_text("".join("!reset;\n" if it is None else " ".join(sorted(it)) + ";\n" for it in items))
    due = told([program, "run", "--via", "blif", source, folder / "own.trace"])
    plain = told([program, "c", source])
    yield "cec c", [it for machine, compiler in MACHINES for it in measures_of_text(folder, plain, inputs, machine, compiler)]
    for form, text in forms_in_c(name):
        (folder / "unit.h").write_text(text)
        if lines_of_c(folder, inputs, outputs, items) != due:
            sys.exit("bench: %s, %s, has other lines" % (name, form))
        yield form, [it for machine, compiler in MACHINES for it in measures(folder, inputs, machine, compiler)]


def verilog_rows(program, folder, name):
    """The rows of a controller in Verilog: a form, with LUTs and flip-flops on two FPGAs."""
    source = SOURCES / (name + ".strl")
    _, inputs, outputs = ports_of(told([program, "blif", source]))
    outputs = [it.removesuffix(".out") for it in outputs[:-1]]
    items = drawn_events(name, inputs, name)
    (folder / "own.trace").write_text("".join("!reset;\n" if it is None else " ".join(sorted(it)) + ";\n" for it in items))
    due = told([program, "run", "--via", "blif", source, folder / "own.trace"])
    for form, module, text in forms_in_verilog(program, name):
        (folder / "unit.v").write_text(text)
        if module and shutil.which("iverilog") and lines_of_verilog(folder, "unit.v", module, inputs, outputs, items) != due:
            sys.exit("bench: %s, %s, has other lines" % (name, form))
        module = module or re.search(r"^module (\w+)", text, re.MULTILINE).group(1)
        yield form, [it for flow in ("ice40", "ecp5") for it in cells(folder, "unit.v", module, flow)]


def ratios(rows, column):
    """For each form the median over the controllers of its figure divided by that of the form by hand."""
    hand = {name: row[column] for name, form, row in rows if form == "by hand"}
    for form in dict.fromkeys(form for _, form, _ in rows):
        found = [row[column] / hand[name] for name, other, row in rows if other == form and row[column] is not None and hand[name]]
        yield form, statistics.median(found) if found else None


def hand_tables(program):
    """Prints the two tables, and the medians of flash and of LUTs over those of the controllers by hand."""
    with tempfile.TemporaryDirectory() as made:
        folder = pathlib.Path(made)
        in_c = [(name, form, row) for name in NAMES for form, row in c_rows(program, folder, name)]
        in_verilog = [(name, form, row) for name in NAMES for form, row in verilog_rows(program, folder, name)]
    heads = ["controller", "form"] + [machine + ": " + it for machine in ("AVR", "M0", "RV32") for it in ("flash", "memory", "cycles")]
    table(heads, [[name, form] + [shown(it, "%d") for it in row] for name, form, row in in_c])
    heads = ["controller", "form"] + [device + ": " + it for device in ("iCE40", "ECP5") for it in ("LUTs", "flip-flops")]
    table(heads, [[name, form] + [shown(it, "%d") for it in row] for name, form, row in in_verilog])
    print("Medians of what the forms take over the controllers by hand:\n")
    rows = [[form] + [shown(it, "%.2f") for it in cells_of] for form, *cells_of in medians(in_c, (0, 3, 6))]
    table(["form", "flash on the AVR", "on the M0", "on RV32"], rows)
    rows = [[form] + [shown(it, "%.2f") for it in cells_of] for form, *cells_of in medians(in_verilog, (0, 2))]
    table(["form", "LUTs of the iCE40", "of the ECP5"], rows)


def medians(rows, columns):
    """A row for each form, of its medians in some columns."""
    by_column = [dict(ratios(rows, it)) for it in columns]
    for form in by_column[0]:
        yield [form, *(it[form] for it in by_column)]
