"""Worked equations of the crate blif_text: the circuits of texts, or their first faults, and runs of circuits.

A block has a text, with escapes, and `items`: `!` resets, and `.` begins an instant with a bit for each input.
"""

from __future__ import annotations

from typing import Optional

from equations.antt import apply, codes, definition, equation, inner, listed, wrapped
from equations.sheets import Block, Sheet, unescaped
from rules.blif import Blif, NetRunner, read_blif
from rules.text_faults import TextFault


def words(names: list[bytes]) -> str:
    return codes(b" ".join(names))


def circuit(blif: Blif) -> str:
    latches = [apply("latch", codes(f), codes(t), "true" if init else "false") for f, t, init in blif.latches]
    tables = []
    for inputs, output, rows in blif.tables:
        tables.append(apply("table", words(inputs + [output]), listed(codes(row) for row in rows)))
    parts = [codes(blif.name), words(blif.inputs), words(blif.outputs), listed(latches), listed(tables)]
    return apply("circuit", *parts)


def reading(text: bytes) -> tuple[str, Optional[Blif]]:
    """The answer as antt text, and the circuit where there is one."""
    try:
        blif = read_blif(text)
    except TextFault as fault:
        data = str(fault.data) if fault.kind == "Line" else codes(fault.data)
        return apply("Err", apply(fault.kind, data)), None
    return apply("Ok", circuit(blif)), blif


def true_names(blif: Blif, items: str) -> list[list[bytes]]:
    """The names that are true in each instant."""
    runner = NetRunner(blif)
    out = []
    for item in items.split(" "):
        if item == "!":
            runner.reset()
        else:
            runner.react([char == "1" for char in item[1:]])
            out.append([name for name in runner.place if runner.value(name)])
    return out


def block_text(block: Block) -> list[str]:
    name, text = block.one("name"), unescaped(block.one("text"))
    answer, blif = reading(text)
    left = "reading " + inner(codes(text))
    if blif is None:
        return [equation(name, left, answer)]
    made = name + "_circuit"
    out = [definition(made, "Circuit", circuit(blif)), equation(name, left, "Ok " + made)]
    if block.has("items"):
        items = block.one("items")
        names = listed(words(true) for true in true_names(blif, items))
        out.append(
            "%s\n%s_runs = assumption\n"
            % (wrapped("%s_runs : runs %s (%s) (%s)" % (name, made, codes(items), names)), name)
        )
    return out


def file_text(name: str) -> str:
    sheet = Sheet("blif_text", name)
    return sheet.head + "\n".join(text for block in sheet.blocks for text in block_text(block))
