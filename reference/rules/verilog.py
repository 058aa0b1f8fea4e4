"""Structural Verilog: its grammar, the rules on names, the meaning of a module, and the text of a netlist.

Stands for `Tokens`, `Grammar`, `Names`, `Texts`, `Machine` and `Written` (crates/vlog_text/specs/), after IEEE 1364.
"""

from __future__ import annotations

from typing import Sequence, Any, Optional

import re

from rules.expressions import NotWritten, Parser, cut, gate_label, names_in, net_number, op_of, value_of
from rules.netlist import Net, gate_text, letter_names
from rules.text_faults import TEXT_LIMIT, TextFault, find_cycle


V_TOKEN = re.compile(rb"[A-Za-z_][A-Za-z0-9_]*|1'b[01]|<=|[(),;=@|&~]")


V_WORDS = {
    b"module",
    b"input",
    b"output",
    b"wire",
    b"reg",
    b"initial",
    b"assign",
    b"always",
    b"posedge",
    b"begin",
    b"end",
    b"endmodule",
}


class VerilogModule:
    def __init__(self) -> None:
        self.name = b""
        self.ports: list[Any] = []
        self.decls: list[Any] = []  # (kind, name)
        self.inits: list[Any] = []  # (name, bit)
        self.assigns: list[Any] = []  # (name, expr)
        self.clock = b""  # the name after posedge
        self.nexts: list[Any] = []  # (name, name)

    def of_kind(self, kind: str) -> list[bytes]:
        return [n for k, n in self.decls if k == kind]


def parse_verilog(text: bytes) -> VerilogModule:
    p = Parser(cut_verilog(text), "~")
    m = VerilogModule()
    p.take("module")
    m.name = p.take("name")
    p.take("(")
    m.ports.append(p.take("name"))
    while p.kind() == ",":
        p.take(",")
        m.ports.append(p.take("name"))
    p.take_all(")", ";")
    while p.kind() in ("input", "output", "wire", "reg"):
        kind = p.kind()
        p.at += 1
        m.decls.append((kind, p.take("name")))
        p.take(";")
    while p.kind() == "initial":
        p.at += 1
        name = p.take("name")
        p.take("=")
        m.inits.append((name, p.bit()[1]))
        p.take(";")
    while p.kind() == "assign":
        p.at += 1
        name = p.take("name")
        p.take("=")
        m.assigns.append((name, p.expr()))
        p.take(";")
    p.take_all("always", "@", "(", "posedge")
    m.clock = p.take("name")
    p.take_all(")", "begin")
    while p.kind() == "name":
        name = p.take("name")
        p.take("<=")
        m.nexts.append((name, p.take("name")))
        p.take(";")
    p.take_all("end", "endmodule", "end_mark")
    return m


def cut_verilog(text: bytes) -> list[Any]:
    """As cut, but the end of the text is 'end_mark', since `end` is a word of the subset."""
    tokens = cut(text, V_TOKEN, V_WORDS, False)
    if tokens and tokens[-1][0] == "end" and tokens[-1][1] == b"":
        tokens[-1] = ("end_mark", b"", tokens[-1][2])
    return tokens


def read_verilog(text: bytes) -> VerilogModule:
    if len(text) > TEXT_LIMIT:
        raise TextFault("TooLong")
    m = parse_verilog(text)
    kind_of = {}
    for kind, name in m.decls:
        if name in kind_of:
            raise TextFault("Twice", name)
        kind_of[name] = kind
    inputs = m.of_kind("input")
    outputs = m.of_kind("output")
    expected = inputs + outputs
    for j, port in enumerate(m.ports):
        if j >= len(expected) or port != expected[j]:
            raise TextFault("Port", port)
    ported = set(m.ports)
    for kind, name in m.decls:
        if kind in ("input", "output") and name not in ported:
            raise TextFault("Port", name)
    clock = inputs[0] if inputs else None

    def allowed(kind: Any, name: bytes) -> bool:
        if name == clock or kind in ("wire", "reg"):
            return True
        if kind == "input":
            return name.startswith(b"i_") and len(name) > 2
        return name.startswith(b"o_") and len(name) > 2 or name == outputs[-1] and name == b"paused"

    for kind, name in m.decls:
        if not allowed(kind, name):
            raise TextFault("Port", name)
    if m.clock != clock:
        raise TextFault("Port", m.clock)

    def used(name: bytes) -> None:
        if name not in kind_of or name == clock:
            raise TextFault("Undeclared", name)

    for name, _ in m.inits:
        if kind_of.get(name) != "reg":
            raise TextFault("Undeclared", name)
    for name, expr in m.assigns:
        if name not in kind_of:
            raise TextFault("Undeclared", name)
        for part in names_in(expr):
            used(part)
    for name, source in m.nexts:
        if kind_of.get(name) != "reg":
            raise TextFault("Undeclared", name)
        used(source)

    inited = set()
    for name, _ in m.inits:
        if name in inited:
            raise TextFault("TwoDrivers", name)
        inited.add(name)
    assigned = set()
    for name, _ in m.assigns:
        if name in assigned or kind_of[name] in ("input", "reg"):
            raise TextFault("TwoDrivers", name)
        assigned.add(name)
    for name, _ in m.nexts:
        if name in assigned:
            raise TextFault("TwoDrivers", name)
        assigned.add(name)
    for kind, name in m.decls:
        if kind != "input" and name not in assigned or kind == "reg" and name not in inited:
            raise TextFault("NoDriver", name)
    return m


def verilog_uses(m: VerilogModule) -> dict[bytes, list[bytes]]:
    return {name: list(names_in(expr)) for name, expr in m.assigns}


class VerilogRunner:
    def __init__(self, m: VerilogModule) -> None:
        order, cycle = find_cycle(verilog_uses(m))
        if cycle is not None:
            raise TextFault("Loop", cycle)
        self.module = m
        value = dict(m.assigns)
        self.steps = [(name, value[name]) for name in order]
        self.init = dict(m.inits)
        self.inputs = m.of_kind("input")[1:]
        self.all_out = m.of_kind("output")
        self.has_word = bool(self.all_out) and self.all_out[-1] == b"paused"
        self.in_names = [n[2:] for n in self.inputs]
        self.out_names = [n[2:] for n in (self.all_out[:-1] if self.has_word else self.all_out)]
        self.values: dict[Any, Any] = {}
        self.reset()

    def reset(self) -> None:
        self.state = dict(self.init)
        self.all_outputs = [False] * len(self.all_out)

    def react(self, inputs: Sequence[bool]) -> None:
        values = self.values
        values.update(self.state)
        for name, bit in zip(self.inputs, inputs):
            values[name] = bool(bit)
        for name, expr in self.steps:
            values[name] = value_of(expr, values)
        self.state = {name: values[source] for name, source in self.module.nexts}
        self.all_outputs = [values[n] for n in self.all_out]

    @property
    def outputs(self) -> list[bool]:
        return self.all_outputs[:-1] if self.has_word else self.all_outputs

    @property
    def word(self) -> Optional[bool]:
        return self.all_outputs[-1] if self.has_word else None

    def value(self, name: bytes) -> bool:
        return self.values[name]


def write_verilog(net: Net) -> bytes:
    names = letter_names(net, b"", lambda j, name: b"i_" + name)
    first = net.first_gate()
    ins = [b"i_" + n for n in net.inputs]
    outs = [b"o_" + n for n, _ in net.outputs]
    lines = [b"module m_%s(%s);" % (net.name, b", ".join([b"clk"] + ins + outs + [b"paused"]))]
    lines += [b"input %s;" % n for n in [b"clk"] + ins]
    lines += [b"output %s;" % n for n in outs + [b"paused"]]
    lines += [b"reg s%d;" % j for j in range(len(net.latches))]
    lines += [b"wire %s;" % n for n in names[first:]]
    lines += [b"initial s%d = 1'b%d;" % (j, init) for j, (init, _) in enumerate(net.latches)]
    lines += [
        b"assign %s = %s;" % (names[first + k], gate_text(op, names, b"~", b"1'b0", b"1'b1"))
        for k, (op, _) in enumerate(net.gates)
    ]
    lines += [b"assign o_%s = %s;" % (n, names[source]) for n, source in net.outputs]
    lines.append(b"assign paused = %s;" % names[net.paused])
    lines.append(b"always @(posedge clk) begin")
    lines += [b"s%d <= %s;" % (j, names[source]) for j, (_, source) in enumerate(net.latches)]
    lines += [b"end", b"endmodule"]
    return b"".join(line + b"\n" for line in lines)


def net_of_verilog(m: VerilogModule) -> Net:
    ins = m.of_kind("input")[1:]
    outs = m.of_kind("output")
    regs = m.of_kind("reg")
    if not outs or outs[-1] != b"paused":
        raise NotWritten("the last output is not paused")
    table = {n: j for j, n in enumerate(ins)}
    table.update({b"s%d" % j: len(ins) + j for j in range(len(regs))})
    count = len(m.assigns) - len(outs)
    if count < 0 or not m.name.startswith(b"m_"):
        raise NotWritten("too few assigns, or a name without m_")
    gates = []
    for k in range(count):
        to, expr = m.assigns[k]
        op = op_of(expr, table)
        wire = gate_label(to, b"", k)
        table[to] = len(ins) + len(regs) + k
        gates.append((op, wire))
    sources = [net_number(table, e[1]) if e[0] == "name" else -1 for _, e in m.assigns[count:]]
    init = dict(m.inits)
    return Net(
        m.name[2:],
        [n[2:] for n in ins],
        list(zip([n[2:] for n in outs[:-1]], sources)),
        sources[-1],
        [(init[r], net_number(table, dict(m.nexts)[r])) for r in regs],
        gates,
    )
