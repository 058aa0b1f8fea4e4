"""The front: from the bytes of a source to its kernel program, or to the first refusal.

Stands for `Sources` and `Refusals` (crates/est_front/specs/).
"""

from __future__ import annotations

from typing import Optional, TYPE_CHECKING

from rules.dismantling import dismantle
from rules.expansion import expand
from rules.lexer import lex
from rules.limits import MAX_SOURCE
from rules.names import check_modules
from rules.parser import parse
from rules.refusals import limit

if TYPE_CHECKING:
    from rules.dismantling import KernelProgram
    from rules.expansion import Flat


def flat_program(text: bytes, main: Optional[bytes] = None) -> Flat:
    """The flat program of a source; raises Refusal."""
    if len(text) > MAX_SOURCE:
        raise limit("Source")
    program = parse(lex(text))
    table = check_modules(program, main)
    return expand(program, table)


def front(text: bytes, main: Optional[bytes] = None) -> KernelProgram:
    """The kernel program of a source; raises Refusal."""
    return dismantle(flat_program(text, main))
