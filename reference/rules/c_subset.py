"""Texts of the C subset: their grammar, the rules on names, their machine, and the text of a netlist.

Stands for `Tokens`, `Grammar`, `Names`, `Machine` and `Written` (crates/csub_text/specs/).
"""

from __future__ import annotations

from typing import Sequence, Any, Callable, TYPE_CHECKING

import re

from rules.expressions import NotWritten, Parser, cut, gate_label, names_in, net_number, op_of, value_of
from rules.netlist import Net, gate_text, letter_names
from rules.text_faults import TEXT_LIMIT, TextFault

if TYPE_CHECKING:
    from rules.kernel import Tree


C_TOKEN = re.compile(rb"[A-Za-z_][A-Za-z0-9_]*|[(){};=01|&!]")


C_WORDS = {b"int", b"static", b"return", b"void", b"react"}


class CProgram:
    def __init__(self) -> None:
        self.states: list[Any] = []  # (name, init)
        self.globals: list[Any] = []
        self.locals: list[Any] = []
        self.body: list[Any] = []  # ('assign', name, expr) or ('if', name, assigns, assigns, has_else)
        self.answer: Any = None

    def inputs(self) -> list[bytes]:
        return [n for n in self.globals if n.startswith(b"I_")]

    def outputs(self) -> list[bytes]:
        return [n for n in self.globals if n.startswith(b"O_")]


def is_global(name: bytes) -> bool:
    return name.startswith(b"I_") or name.startswith(b"O_")


def parse_c(text: bytes, guarded: bool) -> CProgram:
    words = C_WORDS | {b"if", b"else"} if guarded else C_WORDS
    p = Parser(cut(text, C_TOKEN, words, True), "!")
    prog = CProgram()
    while p.kind() == "static":
        p.take_all("static", "int")
        if p.kind() == "name" and is_global(p.tokens[p.at][1]):
            p.fault()
        name = p.take("name")
        p.take("=")
        if p.kind() not in ("0", "1"):
            p.fault()
        init = p.bit()[1]
        p.take(";")
        prog.states.append((name, init))
    p.take("int")
    while p.kind() != "react":
        if p.kind() != "name" or not is_global(p.tokens[p.at][1]) or len(p.tokens[p.at][1]) < 3:
            p.fault()
        prog.globals.append(p.take("name"))
        p.take(";")
        p.take("int")
    p.take_all("react", "(", "void", ")", "{")
    while p.kind() == "int":
        p.take("int")
        if p.kind() == "name" and is_global(p.tokens[p.at][1]):
            p.fault()
        prog.locals.append(p.take("name"))
        p.take(";")

    def assigns() -> list[Any]:
        result = []
        while p.kind() == "name":
            name = p.take("name")
            p.take("=")
            result.append(("assign", name, p.expr()))
            p.take(";")
        return result

    while True:
        prog.body.extend(assigns())
        if not guarded or p.kind() != "if":
            break
        p.take_all("if", "(")
        name = p.take("name")
        p.take_all(")", "{")
        first = assigns()
        p.take("}")
        second = []
        has_else = p.kind() == "else"
        if has_else:
            p.take_all("else", "{")
            second = assigns()
            p.take("}")
        prog.body.append(("if", name, first, second, has_else))
    p.take("return")
    prog.answer = p.expr()
    p.take_all(";", "}", "end")
    return prog


def check_twice(prog: CProgram) -> set[bytes]:
    seen = set()
    for name in [n for n, _ in prog.states] + prog.globals + prog.locals:
        if name in seen:
            raise TextFault("Twice", name)
        seen.add(name)
    return seen


def read_c(text: bytes) -> CProgram:
    if len(text) > TEXT_LIMIT:
        raise TextFault("TooLong")
    prog = parse_c(text, False)
    declared = check_twice(prog)
    for _, name, expr in prog.body:
        if name not in declared or name.startswith(b"I_"):
            raise TextFault("Undeclared", name)
        for used in names_in(expr):
            if used not in declared:
                raise TextFault("Undeclared", used)
    for used in names_in(prog.answer):
        if used not in declared:
            raise TextFault("Undeclared", used)
    unset = set(prog.locals)
    for _, name, expr in prog.body:
        for used in names_in(expr):
            if used in unset:
                raise TextFault("Unset", used)
        unset.discard(name)
    for used in names_in(prog.answer):
        if used in unset:
            raise TextFault("Unset", used)
    return prog


class CRunner:
    """The machine of a program, with blocks or without. `count` is the number of assignments of the last call."""

    def __init__(self, prog: CProgram) -> None:
        self.prog = prog
        self.inputs = prog.inputs()
        self.out_vars = prog.outputs()
        self.in_names = [n[2:] for n in self.inputs]
        self.out_names = [n[2:] for n in self.out_vars]
        self.total = 0
        self.reset()

    def reset(self) -> None:
        self.values = {name: init for name, init in self.prog.states}
        for name in self.out_vars:
            self.values[name] = False
        self.count = 0
        self.word: Any = None

    def react(self, inputs: Sequence[bool]) -> bool:
        values = self.values
        for name, bit in zip(self.inputs, inputs):
            values[name] = bool(bit)
        count = 0
        for item in self.prog.body:
            if item[0] == "assign":
                values[item[1]] = value_of(item[2], values)
                count += 1
            else:
                for _, name, expr in item[2] if values[item[1]] else item[3]:
                    values[name] = value_of(expr, values)
                    count += 1
        self.word = value_of(self.prog.answer, values)
        self.count = count
        self.total += count
        return self.word

    @property
    def outputs(self) -> list[bool]:
        return [self.values[n] for n in self.out_vars]

    def value(self, name: bytes) -> bool:
        return self.values[name]


def c_lines(net: Net, gate_lines: Callable[..., Any]) -> bytes:
    """The C text round given lines for the gates."""
    names = letter_names(net, b"", lambda j, name: b"i%d" % j)
    first = net.first_gate()
    lines = [b"static int s%d = %d;" % (j, init) for j, (init, _) in enumerate(net.latches)]
    lines += [b"int I_" + n + b";" for n in net.inputs]
    lines += [b"int O_" + n + b";" for n, _ in net.outputs]
    lines.append(b"int react(void) {")
    lines += [b"int " + n + b";" for n in names[: len(net.inputs)]]
    lines += [b"int " + n + b";" for n in names[first:]]
    lines += [b"int t%d;" % j for j in range(len(net.latches))]
    lines.append(b"int r;")
    lines += [b"i%d = I_%s;" % (j, n) for j, n in enumerate(net.inputs)]
    lines += gate_lines(names)
    lines += [b"t%d = %s;" % (j, names[source]) for j, (_, source) in enumerate(net.latches)]
    lines += [b"O_%s = %s;" % (n, names[source]) for n, source in net.outputs]
    lines.append(b"r = %s;" % names[net.paused])
    lines += [b"s%d = t%d;" % (j, j) for j in range(len(net.latches))]
    lines += [b"return r;", b"}"]
    return b"".join(line + b"\n" for line in lines)


def gate_line(net: Net, names: list[bytes], k: int) -> bytes:
    op = net.gates[k][0]
    return b"%s = %s;" % (names[net.first_gate() + k], gate_text(op, names, b"!", b"0", b"1"))


def write_c(net: Net) -> bytes:
    return c_lines(net, lambda names: [gate_line(net, names, k) for k in range(len(net.gates))])


def net_of_c(prog: CProgram, name: bytes = b"M") -> Net:
    """The net of a written C text, guarded or not.  The lines of else halves are passed over."""
    ins, lats = prog.inputs(), prog.states
    table = {b"i%d" % j: j for j in range(len(ins))}
    table.update({b"s%d" % j: len(ins) + j for j in range(len(lats))})
    flat = []
    for item in prog.body:
        if item[0] == "assign":
            flat.append(item)
        else:
            flat += item[2]
    outs = prog.outputs()
    tail = 2 * len(lats) + len(outs) + 1
    count = len(flat) - len(ins) - tail
    if count < 0:
        raise NotWritten("too few assignments")
    gates = []
    for k in range(count):
        _, to, expr = flat[len(ins) + k]
        op = op_of(expr, table)
        wire = gate_label(to, b"", k)
        table[to] = len(ins) + len(lats) + k
        gates.append((op, wire))

    def copy_of(item: Tree) -> int:
        if item[2][0] != "name":
            raise NotWritten("no net on the right of %r" % item[1])
        return net_number(table, item[2][1])

    at = len(ins) + count
    nexts = [copy_of(item) for item in flat[at : at + len(lats)]]
    sources = [copy_of(item) for item in flat[at + len(lats) : at + len(lats) + len(outs)]]
    paused = copy_of(flat[at + len(lats) + len(outs)])
    return Net(
        name,
        [n[2:] for n in ins],
        list(zip([n[2:] for n in outs], sources)),
        paused,
        [(init, source) for (_, init), source in zip(lats, nexts)],
        gates,
    )
