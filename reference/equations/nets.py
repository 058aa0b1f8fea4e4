"""Worked equations on netlists: their runs (net_ir), and their texts in BLIF, in the C subset and in Verilog.

A block has a netlist in lines: `inputs`, `outputs` (`NAME=NET`), `paused`, `latches` (`INIT<NET`) and `gates` (an
operator and its nets, then `@WIRE` where it carries one), and `items`, in which `!` resets and `.` begins an
instant with its bits.
"""

from __future__ import annotations

from typing import Any, Optional

from equations.antt import apply, bits, codes, definition, equation, listed
from equations.sheets import Block, Sheet
from rules.blif import write_blif
from rules.netlist import Net, run_net

Gate = tuple[tuple[Any, ...], Optional[int]]


def words_of(block: Block, key: str) -> list[str]:
    value = block.one(key) if block.has(key) else ""
    return value.split(" ") if value else []


def gate_of(text: str) -> Gate:
    words = text.split(" ")
    wire = int(words.pop()[1:]) if words[-1].startswith("@") else None
    if words[0] == "const":
        return (("const", words[1] == "1"), wire)
    return ((words[0],) + tuple(int(word) for word in words[1:]), wire)


def net_of(block: Block) -> Net:
    outputs = []
    for word in words_of(block, "outputs"):
        name, _, net = word.partition("=")
        outputs.append((name.encode(), int(net)))
    latches = []
    for word in words_of(block, "latches"):
        init, _, net = word.partition("<")
        latches.append((init == "1", int(net)))
    gates = [gate_of(text) for text in block.one("gates").split(", ")] if block.has("gates") else []
    inputs = [word.encode() for word in words_of(block, "inputs")]
    return Net(block.one("net").encode(), inputs, outputs, int(block.one("paused")), latches, gates)


def operator(op: tuple[Any, ...]) -> str:
    if op[0] == "const":
        return "const %s" % ("true" if op[1] else "false")
    return " ".join([{"copy": "copy", "not": "not_", "and": "and_", "or": "or_"}[op[0]]] + [str(n) for n in op[1:]])


def gate(one: Gate) -> str:
    op, wire = one
    return apply("gate", operator(op)) if wire is None else apply("carries %d" % wire, operator(op))


def shown(net: Net) -> str:
    outputs = ["out (%s) %d" % (codes(name), n) for name, n in net.outputs]
    latches = ["latch %s %d" % ("true" if init else "false", n) for init, n in net.latches]
    parts = [codes(net.name), listed(codes(name) for name in net.inputs), listed(outputs), str(net.paused)]
    return apply("net", *parts, listed(latches), listed(gate(g) for g in net.gates))


def items_of(text: str) -> list[Any]:
    return ["reset" if word == "!" else [char == "1" for char in word[1:]] for word in text.split(" ")]


def answers(net: Net, text: str) -> str:
    return codes(" ".join("%s/%d" % (bits(outputs), paused) for outputs, paused in run_net(net, items_of(text))))


def definition_of(block: Block) -> str:
    return definition(block.one("name"), "Netlist", shown(net_of(block)))


def run_equation(block: Block, function: str, unfolding: str = "") -> str:
    name = block.one("name")
    items = codes(block.one("items"))
    return equation(
        name + "_run", "%s %s (%s)" % (function, name, items), answers(net_of(block), block.one("items")), unfolding
    )


def run_block(block: Block) -> list[str]:
    return [definition_of(block), run_equation(block, "runs")]


def blif_block(block: Block) -> list[str]:
    name = block.one("name")
    return [
        definition_of(block),
        equation(name + "_text", "written " + name, codes(write_blif(net_of(block))), "digits"),
    ]


def file_text(crate: str, name: str) -> str:
    sheet = Sheet(crate, name)
    show = run_block if crate == "net_ir" else blif_block
    return sheet.head + "\n".join(text for block in sheet.blocks for text in show(block))
