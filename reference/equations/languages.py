"""Worked equations of the crates csub_text and vlog_text: tokens, faults of names, runs and modules, and texts of nets.

A block has a `text` of which the tokens are asked, or a `program` whose names are checked, or a netlist (see nets.py).
"""

from __future__ import annotations

from typing import Any, Callable, Optional

from equations.antt import apply, bits, codes, comment, definition, equation, inner, listed, wrapped
from equations.nets import answers, definition_of, items_of, net_of
from equations.sheets import Block, Sheet, unescaped
from rules.c_subset import C_TOKEN, C_WORDS, CProgram, CRunner, parse_c, read_c, write_c
from rules.expressions import cut
from rules.guarded_c import GuardedRunner, read_guarded
from rules.text_faults import TextFault
from rules.verilog import V_TOKEN, V_WORDS, VerilogModule, VerilogRunner, parse_verilog, read_verilog, write_verilog

C_KINDS = {
    "static": "Static",
    "int": "Int",
    "return": "Return",
    "void": "Void",
    "react": "React",
    "(": "LeftParenthesis",
    ")": "RightParenthesis",
    "{": "LeftBrace",
    "}": "RightBrace",
    ";": "Semicolon",
    "=": "Equals",
    "0": "Zero",
    "1": "One",
    "|": "Bar",
    "&": "Ampersand",
    "!": "Bang",
}
V_KINDS = {
    "module": "ModuleWord",
    "initial": "InitialWord",
    "assign": "AssignWord",
    "always": "AlwaysWord",
    "posedge": "PosedgeWord",
    "begin": "BeginWord",
    "end": "EndWord",
    "endmodule": "EndmoduleWord",
    "input": "Declares Input",
    "output": "Declares Output",
    "wire": "Declares Wire",
    "reg": "Declares Reg",
    "(": "LeftParenthesis",
    ")": "RightParenthesis",
    ",": "Comma",
    ";": "Semicolon",
    "=": "Equals",
    "@": "At",
    "|": "Bar",
    "&": "Ampersand",
    "~": "Tilde",
    "<=": "Becomes",
    "1'b0": "Zero",
    "1'b1": "One",
}


def tokens(text: bytes, verilog: bool) -> str:
    """The tokens of a text, up to the first byte that begins none."""
    pattern, words, kinds = (V_TOKEN, V_WORDS, V_KINDS) if verilog else (C_TOKEN, C_WORDS, C_KINDS)
    out = []
    for kind, word, place in cut(text, pattern, words, not verilog):
        if kind == "name":
            out.append("named (%s) %d" % (codes(word), place))
        elif kind == "bad":
            out.append("tok Bad %d" % place)
        elif not (kind == "end" and word == b""):
            out.append("tok %s %d" % (inner(kinds[kind]), place))
    return listed(out)


def expression(e: tuple[Any, ...]) -> str:
    if e[0] == "name":
        return "name (%s)" % codes(e[1])
    if e[0] == "const":
        return "Const true" if e[1] else "Const false"
    if e[0] == "not":
        return apply("Not", expression(e[1]))
    return apply({"and": "And", "or": "Or"}[e[0]], apply("exprs", listed(expression(part) for part in e[1])))


def words(names: list[bytes]) -> str:
    return codes(b" ".join(names))


def bit(value: bool) -> str:
    return "true" if value else "false"


def assigns(body: Any) -> str:
    return listed(apply("assign", codes(target), expression(e)) for target, e in body)


def c_program(program: CProgram) -> str:
    states = listed("state (%s) %s" % (codes(name), bit(init)) for name, init in program.states)
    body = assigns([(item[1], item[2]) for item in program.body])
    parts = [states, words(program.globals), words(program.locals), body, expression(program.answer)]
    return apply("program", *parts)


def source(m: VerilogModule) -> str:
    declarations = listed("decl %s (%s)" % (kind.capitalize(), codes(name)) for kind, name in m.decls)
    initials = listed("initial_of (%s) %s" % (codes(name), bit(value)) for name, value in m.inits)
    nexts = listed("next (%s) (%s)" % (codes(name), codes(other)) for name, other in m.nexts)
    return apply(
        "source", codes(m.name), words(m.ports), declarations, initials, assigns(m.assigns), codes(m.clock), nexts
    )


def design(m: VerilogModule) -> str:
    init, nexts = dict(m.inits), dict(m.nexts)
    registers = ["register (%s) %s (%s)" % (codes(r), bit(init[r]), codes(nexts[r])) for r in m.of_kind("reg")]
    kinds = [words(m.of_kind(kind)) for kind in ("input", "output")]
    return apply("made_of", codes(m.name), *kinds, listed(registers), words(m.of_kind("wire")), assigns(m.assigns))


def fault_of(read: Callable[[bytes], Any], text: bytes) -> Optional[TextFault]:
    try:
        read(text)
    except TextFault as fault:
        return fault
    return None


def fault_equation(name: str, fault: Optional[TextFault]) -> str:
    right = "None" if fault is None else apply("Some", apply(fault.kind, codes(fault.data)))
    return equation(name + "_fault", "name_fault " + name, right)


def c_answers(program: CProgram, items: str) -> str:
    runner = CRunner(program)
    out = []
    for item in items_of(items):
        if item == "reset":
            runner.reset()
        else:
            word = runner.react(item)
            out.append("%s/%d" % (bits(runner.outputs), bool(word)))
    return codes(" ".join(out))


def c_block(block: Block) -> list[str]:
    name = block.one("name")
    if block.has("text"):
        text = unescaped(block.one("text"))
        return [equation(name, "tokens " + inner(codes(text)), tokens(text, False))]
    if block.has("net"):
        out = [
            definition_of(block),
            equation(name + "_text", "written " + name, codes(write_c(net_of(block))), "digits"),
        ]
        if block.has("items"):
            items = block.one("items")
            left = "runs (net_program %s) (%s)" % (name, codes(items))
            out.append(equation(name + "_run", left, answers(net_of(block), items), "digits"))
        return out
    text = block.one("program").encode()
    program = parse_c(text, False)
    head = "\n".join(comment(block.one("program")) + [definition(name, "Program", c_program(program))])
    out = [head, fault_equation(name, fault_of(read_c, text))]
    if block.has("items"):
        items = block.one("items")
        out.append(equation(name + "_run", "runs %s (%s)" % (name, codes(items)), c_answers(program, items)))
    return out


def true_names(m: VerilogModule, items: str) -> str:
    """The names that are true in each instant."""
    runner = VerilogRunner(m)
    out = []
    for item in items_of(items):
        if item == "reset":
            runner.reset()
        else:
            runner.react(item)
            names = [name for kind, name in m.decls if name != m.clock and runner.value(name)]
            out.append(words(names))
    return listed(out)


def verilog_block(block: Block) -> list[str]:
    name = block.one("name")
    if block.has("text"):
        text = unescaped(block.one("text"))
        return [equation(name, "tokens " + inner(codes(text)), tokens(text, True))]
    if block.has("net"):
        text = write_verilog(net_of(block))
        return [
            definition_of(block),
            equation(name + "_text", "written " + name, codes(text), "digits"),
            equation(name + "_names", "name_fault (net_source %s)" % name, "None", "digits"),
            equation(name + "_source", "net_source " + name, source(read_verilog(text)), "digits"),
        ]
    text = block.one("program").encode()
    m = parse_verilog(text)
    head = "\n".join(comment(block.one("program")) + [definition(name, "Source Expr", source(m))])
    fault = fault_of(read_verilog, text)
    out = [head, fault_equation(name, fault)]
    if fault is None:
        out.append(equation(name + "_module", "module_said " + name, design(m)))
    if block.has("items"):
        items = block.one("items")
        runs = "runs (%s) (%s) (%s)" % (design(m), codes(items), true_names(m, items))
        out.append("%s\n%s_run = assumption\n" % (wrapped("%s_run : %s" % (name, runs)), name))
    return out


def guarded_program(program: CProgram) -> str:
    states = listed("state (%s) %s" % (codes(name), bit(init)) for name, init in program.states)
    pieces = []
    for item in program.body:
        if item[0] == "assign":
            pieces.append(apply("One", apply("assign", codes(item[1]), expression(item[2]))))
        else:
            halves = [assigns([(part[1], part[2]) for part in half]) for half in item[2:4]]
            pieces.append(apply("If", codes(item[1]), *halves))
    parts = [states, words(program.globals), words(program.locals), listed(pieces), expression(program.answer)]
    return apply("program", *parts)


def guarded_answers(program: CProgram, items: str) -> str:
    """What each call shows, and how many assignments it runs."""
    runner = GuardedRunner(program)
    out = []
    for item in items_of(items):
        if item == "reset":
            runner.reset()
        else:
            word = runner.react(item)
            out.append("call (%s) %d" % (codes("%s/%d" % (bits(runner.outputs), bool(word))), runner.count))
    return listed(out)


def guarded_block(block: Block) -> list[str]:
    name, text = block.one("name"), block.one("program").encode()
    program = parse_c(text, True)
    head = "\n".join(comment(block.one("program")) + [definition(name, "Program", guarded_program(program))])
    out = [head, fault_equation(name, fault_of(read_guarded, text))]
    if block.has("items"):
        items = block.one("items")
        out.append(equation(name + "_calls", "called %s (%s)" % (name, codes(items)), guarded_answers(program, items)))
    return out


BLOCKS: dict[str, Callable[[Block], list[str]]] = {
    "csub_guard": guarded_block,
    "csub_text": c_block,
    "vlog_text": verilog_block,
}


def file_text(crate: str, name: str) -> str:
    sheet = Sheet(crate, name)
    return sheet.head + "\n".join(text for block in sheet.blocks for text in BLOCKS[crate](block))
