"""Worked equations of the crates est_names and est_expand: the first fault of the names of a program, and its flat
form.

A block has a source, and the name of the main module where that is not the first.
"""

from __future__ import annotations

from equations.antt import apply, codes, comment, equation, inner, listed
from equations.sheets import Block, Sheet
from equations.trees import at, flat, program
from rules.expansion import Flat, expand
from rules.kernel import Tree
from rules.lexer import lex
from rules.names import check_modules
from rules.parser import parse
from rules.refusals import Refusal


def parsed(block: Block) -> list[Tree]:
    return parse(lex(block.one("source").encode()))


def comments(block: Block) -> str:
    return "\n".join(block.comments + comment("    " + block.one("source"))) + "\n"


def names_fault(block: Block) -> str:
    """The first fault, as an option."""
    main = block.one("main").encode() if block.has("main") else None
    try:
        check_modules(parsed(block), main)
    except Refusal as refusal:
        fault = refusal.fault if refusal.fault == "NoMain" else apply(refusal.fault, at(refusal.data))
        return apply("Some", fault)
    return "None"


def names_block(block: Block) -> str:
    main = apply("Some", codes(block.one("main"))) if block.has("main") else "None"
    left = "first (name_faults %s (%s))" % (inner(main), program(parsed(block)))
    return comments(block) + equation(block.one("name"), left, names_fault(block))


def flat_program(whole: Flat) -> str:
    relations = []
    for r in whole.relations:
        if r[0] == "Implies":
            relations.append("r.Implies %d %d" % (r[1], r[2]))
        else:
            relations.append(apply("r.Excludes", listed(str(n) for n in r[1])))
    signals = listed(codes(name) for name in whole.signals)
    sizes = "%d %d %d" % (whole.inputs, whole.both, whole.outputs)
    body = flat("f.").stmt(whole.body)
    return "made %s (%s) %s %s %s" % (inner(codes(whole.name)), signals, sizes, inner(listed(relations)), inner(body))


def expansion(block: Block) -> str:
    modules = parsed(block)
    main = int(block.one("place")) if block.has("place") else 0
    table = check_modules(modules, modules[main][1][0].encode())
    try:
        return apply("Ok", flat_program(expand(modules, table)))
    except Refusal as refusal:
        fault, data = refusal.fault, refusal.data
        if fault == "Unbound":
            return apply("Err", apply(fault, at(data[0]), codes(data[1])))
        if fault == "Recursive":
            return apply("Err", apply(fault, at(data[0]), listed(codes(name) for name in data[1])))
        return apply("Err", apply(fault, at(data)))


def expansion_block(block: Block) -> str:
    place = block.one("place") if block.has("place") else "0"
    left = "flattened_at %s (%s)" % (place, program(parsed(block)))
    return comments(block) + equation(block.one("name"), left, expansion(block), "flattening")


def file_text(crate: str, name: str) -> str:
    sheet = Sheet(crate, name)
    show = names_block if crate == "est_names" else expansion_block
    return sheet.head + "\n".join(show(block) for block in sheet.blocks)
