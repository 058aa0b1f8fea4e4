"""Worked equations of the crate est_dismantle: the kernel terms of flat statements, new signals and bad counts.

A block of `Equations` has a flat tree, a block of `FormEquations` the body of a source of which the flat tree is made.
"""

from __future__ import annotations

from typing import Any

from equations.antt import apply, comment, definition, equation, listed, read_term
from equations.sheets import Block, Sheet
from equations.trees import at, flat, flat_stmt, kernel
from rules.dismantling import KernelProgram, bad_counts, dismantle
from rules.expansion import Flat, expand
from rules.kernel import Tree
from rules.lexer import lex
from rules.names import check_modules
from rules.parser import parse


def kernel_program(body: Tree, signals: int) -> KernelProgram:
    return dismantle(Flat("", ["s%d" % n for n in range(signals)], 0, 0, signals, [], body))


def flat_of_body(text: str) -> Any:
    """The flat form of a body below `input A, B; output O, P;`."""
    program = parse(lex(b"module M: input A, B; output O, P; " + text.encode() + b" end module"))
    return expand(program, check_modules(program))


def block_text(block: Block) -> list[str]:
    name = block.one("name")
    comments = list(block.comments)
    if block.has("body"):
        whole = flat_of_body(block.one("body"))
        comments += comment(block.one("body"))
        body, signals = whole.body, len(whole.signals)
    else:
        body, signals = (
            flat_stmt(read_term(block.one("flat"))),
            int(block.one("signals")) if block.has("signals") else 0,
        )
    out = ["\n".join(comments + [definition(name, "Stmt", flat("").stmt(body))])]
    asked = block.one("ask")
    counts = listed(at(span) for span in bad_counts(body))
    if asked == "expansion":
        made = kernel_program(body, signals)
        left = "expansion %d %s" % (signals, name)
        right = apply("expands %d" % (len(made.signals) - signals), counts, kernel(made.body))
        out.append(equation(name + "_expansion", left, right))
    elif asked == "kernel":
        left = "kernel [] %d %s" % (signals, name)
        out.append(equation(name + "_kernel", left, kernel(kernel_program(body, signals).body)))
    elif asked == "counts":
        out.append(equation(name + "_counts", "bad_in " + name, counts))
    else:
        assert asked == "first count", asked
        first = listed(at(span) for span in bad_counts(body)[:1])
        out.append(equation(name + "_count", "first (bad_in %s)" % name, first))
    return out


def file_text(name: str) -> str:
    sheet = Sheet("est_dismantle", name)
    return sheet.head + "\n".join(text for block in sheet.blocks for text in block_text(block))
