"""The texts of all languages by name: which machine runs one, and which relation a loop of it is in."""

from __future__ import annotations

from typing import Union

from rules.blif import NetRunner, read_blif
from rules.c_subset import CRunner, read_c
from rules.guarded_c import GuardedRunner, read_guarded
from rules.verilog import VerilogRunner, read_verilog, verilog_uses

TextMachine = Union[NetRunner, CRunner, GuardedRunner, VerilogRunner]


def open_text(via: str, text: bytes) -> TextMachine:
    """Reads a text and makes its machine; raises TextFault."""
    if via == "blif":
        return NetRunner(read_blif(text))
    if via == "c":
        return CRunner(read_c(text))
    if via == "guard":
        return GuardedRunner(read_guarded(text))
    if via == "verilog":
        return VerilogRunner(read_verilog(text))
    raise ValueError(via)


def uses_of_text(via: str, text: bytes) -> dict[bytes, list[bytes]]:
    """Which names the definition of each name reads; the names of a Loop fault are a cycle of this relation."""
    if via == "blif":
        return read_blif(text).uses()
    return verilog_uses(read_verilog(text))
